"""Policy files by name: the paper's edge cases and accepted files of every shape. In the texts spaces stand for tabs."""

files = {}


def add(name, *parts):
    assert name not in files, name
    data = b"".join(part if isinstance(part, bytes) else part.replace(" ", "\t").encode("latin-1") for part in parts)
    files[name] = data
    return data


def attribute(name, values, letter="A"):
    return " ".join([letter, name, *values]) + "\n"


def sets(name, values):
    """An attribute of which a request holds a set of values."""
    return attribute(name, values, "M")


LETTERS = "abcdefghijklmnop"
LONG = "policy-name-of-16"[:16]  # 16 bytes, the longest name
AB = "A x a b\n"
TWO = "A x a b\nA y c d\n"
CUBE = attribute("x", LETTERS) + attribute("y", LETTERS) + attribute("z", LETTERS)
TOP = "P 0 top first-applicable *\n"
TOP2 = "P 0 top first-applicable * *\n"
SET = "S 0 top first-applicable *\n"


def chain(sets):
    return "".join(f"S {depth} s{depth} first-applicable *\n" for depth in range(sets))


# The worked example and the cases on each side of an edge.

add("worked-example", "A role tech guest\nA act jog teach\nP 0 cell first-applicable * *\nR 1 r1 permit tech *\n"
    "R 1 r2 deny guest teach\nR 1 r3 deny * teach\nR 1 r4 permit tech jog\n")
add("edge-space-16-16-16", CUBE, "P 0 top deny-overrides * * *\nR 1 r1 permit a,c * p\nR 1 r2 deny * b,d a,p\n")
add("edge-space-fourth-attribute", CUBE, "A w a b\nP 0 top deny-overrides * * * *\n")
add("edge-depth-7", AB, chain(6), "P 6 p first-applicable *\nR 7 r1 permit a\nR 7 r2 deny *\n")
add("edge-depth-8", AB, chain(7), "P 7 p first-applicable *\nR 8 r1 permit a\n")
add("edge-depth-07", AB, chain(6), "P 6 p first-applicable *\nR 07 r1 permit a\n")
BOTH = ("S {0} both only-one-applicable *\nP {1} empty deny-overrides a\nP {1} full first-applicable *\n"
        "R {2} r permit *\n")
add("edge-only-one-first-empty", AB, BOTH.format(0, 1, 2))
add("edge-deny-overrides-indeterminate", AB, "S 0 top deny-overrides *\n", BOTH.format(1, 2, 3))
add("edge-permit-overrides-indeterminate-deny", AB, "S 0 top permit-overrides *\n", BOTH.format(1, 2, 3),
    "P 1 other first-applicable *\nR 2 no deny *\n")
add("edge-first-applicable-indeterminate-permit", AB, "S 0 top first-applicable *\n", BOTH.format(1, 2, 3),
    "P 1 other first-applicable *\nR 2 yes permit *\n")
add("edge-two-equal-permit-rules", AB, TOP, "R 1 r1 permit a\nR 1 r2 permit a\n")
add("edge-only-fourth-struck", "A x a b c\n", TOP, "R 1 r1 permit a\nR 1 r2 deny a,b\nR 1 r3 permit a,c\n"
    "R 1 r4 deny b\n")
add("edge-policy-without-rules", AB, TOP)
add("edge-empty-file")
add("edge-full-value-list", "A x a b c\nP 0 top first-applicable *\nR 1 r permit a,b,c\n")
add("edge-value-list-short-of-one", "A x a b c\nP 0 top first-applicable *\nR 1 r permit a,b\n")

# Accepted files, by shape.

add("accepted-one-attribute-one-value", "A x a\nP 0 top first-applicable *\nR 1 r permit *\n")
add("accepted-two-attributes", TWO, "P 0 top permit-overrides * *\nR 1 r1 deny a *\nR 1 r2 permit * d\n"
    "R 1 r3 deny * d\n")
add("accepted-three-attributes", "A x a b c\nA y d\nA z e f\nS 0 top deny-overrides * * *\n"
    "P 1 p first-applicable a,c * *\n"
    "R 2 r1 permit * * e\nP 1 q permit-overrides * * f\nR 2 r2 deny b,c * *\nR 2 r3 permit a * f\n")
add("accepted-four-attributes", *(attribute(name, "ab") for name in "wxyz"),
    "P 0 top first-applicable * * * *\nR 1 r1 deny a * * b\nR 1 r2 permit * a b *\n")
add("accepted-five-attributes", *(attribute(name, "ab"[: 1 + number % 2]) for number, name in enumerate("vwxyz")),
    "P 0 top first-applicable * * * * *\nR 1 r1 deny * a * b *\nR 1 r2 permit * * * a *\n")
add("accepted-six-attributes", *(attribute(name, "abcd") for name in "uvwxyz"),
    "P 0 top deny-overrides * * * * * *\nR 1 r1 permit a,d * * b * *\nR 1 r2 deny * * a,b,c * d *\n")
add("accepted-space-4095", *(attribute(name, LETTERS[:count]) for name, count in zip("wxyz", (13, 9, 7, 5))),
    "P 0 top first-applicable * * * *\nR 1 r permit m i * a\n")
add("accepted-space-4096-then-one-value", CUBE, *(attribute(name, "a") for name in "uvw"),
    "P 0 top first-applicable * * * * * *\nR 1 r permit a p b,c * * *\n")
add("accepted-16-values", attribute("x", LETTERS), TOP,
    *(f"R 1 r{number} {'deny' if number % 3 else 'permit'} {letter}\n" for number, letter in enumerate(LETTERS)))
add("accepted-names-of-16-bytes", f"A {LONG} value-of-16-byte a\nP 0 {LONG} first-applicable *\n"
    "R 1 rule-of-16-bytes permit value-of-16-byte\n")
add("accepted-names-with-hyphens-and-digits", "A 0 0- a--b 7\nP 0 1 first-applicable *\nR 1 2- permit 0-,7\n"
    "R 1 x--y deny a--b,7\n")
add("accepted-names-shared-across-pools", "A x x y\nA y x y\nS 0 x first-applicable * *\nP 1 y deny-overrides x *\n"
    "R 2 a permit * y\n")
add("accepted-attribute-with-capital", "A Role a b\n", TOP)
add("accepted-capitals", "A Role Tech guest\nA ACT Jog teach\nP 0 Cell first-applicable * *\nR 1 R1 permit Tech *\n"
    "R 1 r-Z deny guest teach\nR 1 r3 deny * teach\nR 1 R4 permit Tech Jog\n")
add("accepted-capitals-first-and-last", "A aZ Az-aZ zA 0Z\nA Z z A\nP 0 Z first-applicable * *\n"
    "R 1 A permit Az-aZ,0Z z\nR 1 Zz deny zA *\nR 1 aAa deny 0Z A\n")
add("accepted-capitals-across-pools", "A x X y\nA Y x Y\nS 0 X first-applicable * *\nP 1 y deny-overrides X *\n"
    "R 2 A permit * Y\n")
add("accepted-capitals-as-letters-and-words", "A A S P R\nS 0 A deny-overrides *\nP 1 S first-applicable S,P\n"
    "R 2 P permit S\nR 2 R deny *\nP 1 Permit permit-overrides R\nR 2 DENY permit *\nR 2 First-Applicable deny R\n")
# No two of these are equal: they differ at one end, and not in letter case alone.
add("accepted-capitals-apart-at-one-end", f"A {LONG} a\nA {LONG[:15]}J a\n"
    f"A Q{LONG[1:]} VALUE-OF-16-BYTE VALUE-OF-16-BYTf\nP 0 {LONG} first-applicable * * *\n"
    f"R 1 {LONG[:15]}J permit * * VALUE-OF-16-BYTE\nR 1 Q{LONG[1:]} deny * * VALUE-OF-16-BYTf\n")
add("accepted-64-elements", TWO, TOP2,
    *(f"R 1 r{number} {'deny' if number % 2 else 'permit'} {'ab'[number // 2 % 2]} {'cd'[number // 4 % 2]}\n"
      for number in range(63)))
add("accepted-depth-up-and-down", AB, chain(5), "P 5 p first-applicable *\nR 6 r1 permit a\nS 1 t1 deny-overrides *\n"
    "S 2 t2 deny-overrides b\nP 2 q first-applicable *\nR 3 r2 deny b\nP 1 o first-applicable *\nR 2 r3 permit *\n")
add("accepted-empty-sets-and-policies", TWO, "S 0 top first-applicable * *\nS 1 s1 deny-overrides * *\n"
    "P 1 p1 permit-overrides a *\nS 1 s2 only-one-applicable * c\nP 2 p2 first-applicable b *\n")
add("accepted-root-target-fails", TWO, "P 0 top first-applicable b *\nR 1 r1 permit * c\nR 1 r2 deny a *\n")
add("only-one-overlapping-children", "A x a b c d\nS 0 top only-one-applicable *\nP 1 p first-applicable a,b\n"
    "R 2 r1 permit *\nP 1 q first-applicable b,c\nR 2 r2 deny *\n")
add("only-one-match-not-applicable", AB, "S 0 top only-one-applicable *\nP 1 p first-applicable a\n"
    "P 1 q deny-overrides b\n"
    "R 2 r deny a\n")
add("only-one-three-sets", "A x a b c d\nS 0 top only-one-applicable *\nS 1 s only-one-applicable a,b\n"
    "P 2 p first-applicable a\nR 3 r1 permit *\nP 2 q first-applicable *\nR 3 r2 deny b\nS 1 t permit-overrides c\n"
    "P 2 o first-applicable *\nR 3 r3 permit c,d\nP 1 n deny-overrides b,d\nR 2 r4 deny d\n")
add("segment-of-requests-far-apart", "A x a b a1 b1\nA y c d\n", TOP2, "R 1 r1 permit a,a1 *\nR 1 r2 deny b,b1 d\n")
add("nested-sets-four-algorithms", "A x a b c\nA y d e\nS 0 top deny-overrides * *\nS 1 s1 permit-overrides * *\n"
    "S 2 s2 first-applicable a,b *\nS 3 s3 only-one-applicable * *\nP 4 p1 first-applicable a *\nR 5 r1 permit * *\n"
    "P 4 p2 deny-overrides a,b d\nR 5 r2 deny a *\nR 5 r3 permit * *\nP 3 p3 permit-overrides * e\nR 4 r4 deny * *\n"
    "R 4 r5 permit b *\nP 2 p4 first-applicable * *\nR 3 r6 deny c d\nP 1 p5 first-applicable c *\nR 2 r7 permit * *\n")
for word in ("deny-overrides", "permit-overrides", "first-applicable", "only-one-applicable"):
    # All children decisions against one another, in both orders where order could count.
    add(f"set-{word}", attribute("x", "abcdefghi"), f"S 0 top {word} *\nP 1 p first-applicable a,b,c,d,h\n"
        "R 2 p1 permit a,b,h\nR 2 p2 deny c\nS 1 both only-one-applicable a,d,e,f,g\nP 2 e1 first-applicable *\n"
        "P 2 e2 first-applicable a,d,e,g\n"
        "P 1 q first-applicable b,c,e,f,i\nR 2 q1 deny b,e,i\nR 2 q2 permit c,f\nP 1 o first-applicable g,h\n"
        "R 2 o1 permit g\nR 2 o2 deny h\n")
for word in ("deny-overrides", "permit-overrides", "first-applicable"):
    add(f"policy-{word}", "A x a b c d\nA y e f\n", f"P 0 top {word} a,b,c *\nR 1 r1 permit a *\nR 1 r2 deny a,b e\n"
        "R 1 r3 permit b,c *\nR 1 r4 deny * f\nR 1 r5 deny d *\n")
add("conflict-between-sets", TWO, "S 0 top deny-overrides * *\nS 1 s first-applicable a *\nP 2 p first-applicable * *\n"
    "R 3 r1 permit * *\nS 1 t first-applicable * d\nP 2 q first-applicable * *\nR 3 r2 deny * *\n")
add("conflict-between-policies", TWO, "S 0 top permit-overrides * *\nP 1 p first-applicable * d\nR 2 r1 deny * *\n"
    "P 1 q first-applicable b *\nR 2 r2 permit * *\nP 1 o first-applicable * c\nR 2 r3 permit * *\n")
add("conflict-between-rules", TWO, "P 0 top deny-overrides * *\nR 1 r1 permit * d\nR 1 r2 deny b *\nR 1 r3 permit b c\n"
    "R 1 r4 deny * d\n")
add("conflict-under-only-one", TWO, "S 0 top only-one-applicable * *\nP 1 p first-applicable * *\nR 2 r1 permit b *\n"
    "P 1 q first-applicable * *\nR 2 r2 deny * d\n")
add("conflict-in-set-never-asked", AB, "S 0 top first-applicable *\nP 1 first first-applicable *\nR 2 r0 permit *\n"
    "P 1 later first-applicable *\nR 2 r1 permit *\nR 2 r2 deny *\n")
add("conflict-not-where-parent-fails", TWO, "S 0 top first-applicable * *\nP 1 p first-applicable a *\n"
    "R 2 r1 permit b *\n"
    "R 2 r2 deny b *\nR 2 r3 permit a c\nR 2 r4 deny a d\n")
add("conflict-not-where-grandparent-fails", TWO, "S 0 top first-applicable * *\nS 1 s first-applicable a *\n"
    "P 2 p first-applicable * *\nR 3 r1 permit b *\nR 3 r2 deny b *\n")
add("conflict-lowest-behind-failing-parent", TWO, "S 0 top first-applicable b *\nP 1 p deny-overrides * d\n"
    "R 2 r1 permit * *\nR 2 r2 deny * *\n")
# Two words of 64 requests: the lowest request of a conflict is the last of the first word, the last of all, the first of
# the second word; the pairs are opposed on higher requests too, but for the last of all.
WORDS = attribute("x", "ab") + attribute("y", LETTERS) + attribute("z", "abcd")
add("conflict-lowest-ends-a-word", WORDS, "P 0 top deny-overrides * * *\nR 1 r63 permit * p d\nR 1 no deny * * *\n"
    "R 1 no-b deny b * *\nR 1 r64 permit b * *\n")
# 64 words: the first, the last and one between of the last word.
add("conflict-lowest-in-last-word", CUBE, "P 0 top deny-overrides * * *\nR 1 from-4032 permit p m,n,o,p *\n"
    "R 1 no deny * * *\nR 1 r4095 deny p p p\nR 1 r4049 deny p n,o b,d\n")
# 65 requests: the second word has one.
add("conflict-lowest-in-word-of-one", attribute("x", "abcde") + attribute("y", LETTERS[:13]),
    "P 0 top deny-overrides * *\nR 1 e permit e *\nR 1 r64 deny * m\nR 1 r63 deny * l,m\n")
# Opposed from request 11 on; where the parent's own target matches, from 75 on; where it applies, from 111 on.
add("conflict-lowest-opposed-before-parent", WORDS, "S 0 top first-applicable * l,m,n,o,p *\nP 1 p deny-overrides b * *\n"
    "R 2 r1 permit * * d\nR 2 r2 deny * c,l,p *\n")
add("conflict-lowest-of-sets-opposed-before-parent", WORDS, "S 0 top deny-overrides * * *\nS 1 s deny-overrides b * d\n"
    "S 2 yes first-applicable * * *\nP 3 p first-applicable * c,l *\nR 4 r1 permit * * *\n"
    "P 2 no permit-overrides * * *\nR 3 r2 deny * * *\nR 3 r3 permit a a,b *\n")
add("conflict-not-with-indeterminate", AB, "S 0 top first-applicable *\n", BOTH.format(1, 2, 3),
    "P 1 yes first-applicable a\nR 2 r1 permit *\nP 1 no first-applicable b\nR 2 r2 deny *\n")
add("conflict-order-of-pairs", AB, "S 0 top deny-overrides *\nP 1 p deny-overrides *\nR 2 r1 permit *\nR 2 r2 deny a\n"
    "R 2 r3 permit b\nP 1 q permit-overrides *\nR 2 r4 deny *\nR 2 r5 permit a\nP 1 o first-applicable *\n"
    "R 2 r6 deny b\nR 2 r7 permit *\n")
add("trim-strikes-all-rules", AB, "S 0 top first-applicable a\nP 1 p deny-overrides b\nR 2 r1 permit *\n"
    "R 2 r2 deny b\n")
# Rule b holds against rule a, but with a struck, d alone does: only a search from the last line again strikes b, not d.
add("trim-search-starts-again", AB, "S 0 top permit-overrides *\nP 1 p first-applicable *\nR 2 d deny a\n"
    "P 1 q deny-overrides *\nR 2 a permit a\nR 2 b deny a\n")
add("trim-across-policies", "A x a b c\nS 0 top permit-overrides *\nP 1 p first-applicable a,b\nR 2 r1 permit *\n"
    "P 1 q deny-overrides *\nR 2 r2 permit b\nR 2 r3 deny c\nP 1 o first-applicable *\nR 2 r4 deny a,b\n"
    "R 2 r5 permit c\n")

# Attributes of which a request holds a set of values: n values have 2^n - 1 sets, the first value's number 0 alone.

add("accepted-set-of-1-value", "M x a\n", TOP, "R 1 r permit *\n")
add("accepted-set-of-2-values", "M x a b\n", TOP, "R 1 r1 permit a\nR 1 r2 deny b\n")
add("accepted-set-of-12-values", sets("x", LETTERS[:12]), TOP, "R 1 r1 permit l\nR 1 r2 deny a,b,c,d,e,f,g,h,i,j,k\n")
add("accepted-set-of-12-values-7-rules", sets("x", LETTERS[:12]), TOP,
    *(f"R 1 r-{letter} {'deny' if number % 3 else 'permit'} {letter}\n" for number, letter in enumerate(LETTERS[:6])),
    "R 1 rest permit g,h,i,j,k,l\n")
add("accepted-set-of-12-values-then-one-value", sets("x", LETTERS[:12]), "A y c\n", TOP2, "R 1 r1 permit b,l *\n")
add("accepted-one-value-then-set-of-12-values", "A y c\nM z d\n", sets("x", LETTERS[:12]),
    "P 0 top deny-overrides * * *\nR 1 r1 permit * * b,l\nR 1 r2 deny * * k\n")
add("accepted-set-of-11-values-times-2", sets("x", LETTERS[:11]), "A y c d\n", TOP2, "R 1 r1 permit a,k d\n")
add("accepted-sets-63-times-63", sets("x", "abcdef"), sets("y", "abcdef"), TOP2,
    "R 1 r1 permit f f\nR 1 r2 deny a,b *\n")
add("accepted-space-4095-with-set", attribute("x", LETTERS[:13]), sets("y", "abcdef"), attribute("z", LETTERS[:5]),
    "P 0 top first-applicable * * *\nR 1 r permit m f a\n")
add("accepted-space-4096-then-set-of-1-value", CUBE, "M w a\n",
    "P 0 top first-applicable * * * *\nR 1 r permit a p b,c *\n")
add("accepted-set-first", "M x a b\nA y c d\nA z e f\n", "P 0 top first-applicable * * *\nR 1 r1 permit b c *\n"
    "R 1 r2 deny a * f\n")
add("accepted-set-middle", "A y c d\nM x a b\nA z e f\n", "P 0 top first-applicable * * *\nR 1 r1 permit c b *\n"
    "R 1 r2 deny * a f\n")
add("accepted-set-last", "A y c d\nA z e f\nM x a b\n", "P 0 top first-applicable * * *\nR 1 r1 permit c * b\n"
    "R 1 r2 deny * f a\n")
add("accepted-sets-only", "M x a b\nM y c\nM z d e f\n", "S 0 top deny-overrides * * *\nP 1 p first-applicable a * *\n"
    "R 2 r1 permit * * d,e\nP 1 q permit-overrides b * e,f\nR 2 r2 deny a * f\nR 2 r3 permit * * d\n")
add("accepted-sets-of-six-attributes", *(sets(name, "ab") for name in "uvwxyz"),
    "P 0 top deny-overrides * * * * * *\nR 1 r1 permit a * * b * *\nR 1 r2 deny * * a * b b\n")
add("accepted-sets-of-1-value-six-attributes",
    *(attribute(name, "a", letter) for name, letter in zip("uvwxyz", "AMAMAM")),
    "P 0 top deny-overrides * * * * * *\nR 1 r permit * * * * * *\n")
add("accepted-sets-among-values", "A u a b\nM v c d\nM w e f g\nA x h\nM y i\nA z j k\n",
    "S 0 top permit-overrides * * * * * *\nP 1 p first-applicable * c * * * *\nR 2 r1 permit b * f,g * * *\n"
    "R 2 r2 deny * d * * * k\nP 1 q deny-overrides * * e,g * * *\nR 2 r3 deny a * * * * j\nR 2 r4 permit * d f * * *\n")
add("accepted-sets-with-capitals", "M Role Tech guest M\nA M A m\nP 0 M first-applicable * *\nR 1 R1 permit Tech,M A\n"
    "R 1 m-2 deny guest m\nR 1 A deny M *\n")
# Four algorithms where two roles match two rules or policies.
for word in ("deny-overrides", "permit-overrides", "first-applicable"):
    add(f"two-roles-{word}", "M role a b c\n", f"P 0 top {word} *\nR 1 r1 permit a\nR 1 r2 deny b\n")
add("two-roles-only-one-applicable", "M role a b c\n", "S 0 top only-one-applicable *\nP 1 p first-applicable a\n"
    "R 2 r1 permit *\nP 1 q first-applicable b\nR 2 r2 deny *\nP 1 o first-applicable c\n")
add("two-roles-policy-by-one-rule-by-the-other", "M role a b c\n", "S 0 top first-applicable a,b\n"
    "P 1 p deny-overrides b,c\nR 2 r1 permit c\nR 2 r2 deny a\n")
# Each value has a rule, so that no two sets are alike; the report is too long, and each request is stepped to.
add("report-of-4095-sets", sets("x", LETTERS[:12]), TOP.replace("first-applicable", "deny-overrides"),
    *(f"R 1 r{letter} {'deny' if letter in 'fl' else 'permit'} {letter}\n" for letter in LETTERS[:12]))
add("conflict-shown-by-set-alone", "M role tech guest\nA act jog teach\n", "P 0 cell first-applicable * *\n"
    "R 1 r1 permit tech *\nR 1 r2 deny guest teach\n")
add("conflict-shown-by-sets-of-two-attributes", "M x a b\nM y c d\n", "S 0 top deny-overrides * *\n"
    "P 1 p first-applicable a c\nR 2 r1 permit * *\nP 1 q first-applicable b d\nR 2 r2 deny * *\n")
# The set of g alone is request 63, that of a and g 64.
add("conflict-lowest-set-ends-a-word", sets("x", LETTERS[:7]), "P 0 top deny-overrides *\nR 1 r63 permit g\n"
    "R 1 no deny *\nR 1 r64 deny a\n")
# The policy applies to sets that hold all of g to l, from request 4,031 on; with a it is 4,032, the last word's first.
add("conflict-lowest-set-in-last-word", sets("x", LETTERS[:12]), *(f"S {depth} s{depth} deny-overrides {letter}\n"
    for depth, letter in enumerate("ghijk")), "P 5 p deny-overrides l\nR 6 all permit *\nR 6 r4032 deny a\n"
    "R 6 r4033 deny b\nR 6 r4063 deny f\n")
add("trim-rule-needed-for-set-alone", "M x a b c\n", TOP, "R 1 r1 permit a\nR 1 r2 deny b\nR 1 r3 permit a,c\n")
add("trim-same-rules-without-sets", "A x a b c\n", TOP, "R 1 r1 permit a\nR 1 r2 deny b\nR 1 r3 permit a,c\n")
add("trim-strikes-all-rules-with-sets", "M x a b\n", "S 0 top only-one-applicable *\nP 1 p deny-overrides *\n"
    "R 2 r1 permit a\nP 1 q deny-overrides *\nR 2 r2 deny a\nR 2 r3 permit b\n")


def all_but_one(prefix, at, attributes, values=LETTERS):
    """Empty policies, each with all values but one of the attribute at this place: they tell every value apart."""
    for number in range(len(values)):
        target = ["*"] * attributes
        target[at] = ",".join(values[:number] + values[number + 1:])
        yield prefix, number, target


# Files on both sides of 16,384 bytes: long rules that have one target, so that the report is short, then short rules
# whose names' lengths find the size.

def file_of(size):
    values = [[f"value-{letter}-of-{name}".ljust(16, "0") for letter in LETTERS] for name in "xyz"]
    text = "".join(attribute(name, some) for name, some in zip("xyz", values)) + "P 0 top first-applicable * * *\n"
    target = " ".join(",".join(some[1:]) for some in values)
    rules = 0
    while size - len(text) > len(target) + 100:
        text += f"R 1 long-{rules} deny {target}\n"
        rules += 1
    count = -(-(size - len(text)) // 32)
    for number in range(count):
        length = (size - len(text)) // (count - number)
        text += f"R 1 {f's{number}'.ljust(length - 16, '-')} deny * * *\n"
    assert len(text) == size
    return text


add("accepted-16384-bytes", file_of(16384))
add("refused-1-16385-bytes", file_of(16385))
add("refused-1-20000-newlines", b"\n" * 20000)
add("refused-2-16384-newlines", b"\n" * 16384)
