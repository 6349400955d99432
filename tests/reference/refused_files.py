"""Policy files that are refused: each refusal, each of its reasons. In the texts spaces stand for tabs."""
from accepted_files import AB, LETTERS, LONG, SET, TOP, TOP2, TWO, add, attribute, sets

# Refusal 2, each reason.

add("refused-2-empty-line-middle", AB, "\n", TOP)
add("refused-2-empty-line-last", AB, TOP, "\n")
add("refused-2-lone-newline", "\n")
add("refused-2-leading-tab", AB, " P 0 top first-applicable *\n")
add("refused-2-trailing-tab", AB, "P 0 top first-applicable * \n")
add("refused-2-two-tabs", "A x  a b\n", TOP)
add("refused-2-space", AB, TOP, b"R\t1\tr\tpermit\ta b\n")
add("refused-2-carriage-return", AB, b"P\t0\ttop\tfirst-applicable\t*\r\n")
add("refused-2-byte-127", b"A\tx\ta\x7f\tb\n", TOP)
add("refused-2-byte-195", "A x a b\n", b"A\ty\t\xc3\xa9\n", TOP2)
add("refused-2-no-last-newline", AB, TOP, "R 1 r permit a")
add("refused-2-first-field-two-letters", AB, TOP, "RR 1 r permit a\n")
add("refused-2-first-field-other", AB, TOP, "R 1 r permit a\n", "# a comment *\n")
add("refused-2-attribute-one-field", "A\n", TOP)
add("refused-2-attribute-no-value", AB, "A y\n", TOP2)
add("refused-2-target-missing", TWO, TOP2, "R 1 r permit a\n")
add("refused-2-target-too-many", AB, TOP, "R 1 r permit a b\n")
add("refused-2-tree-line-first-with-target", TOP, AB)
add("refused-2-letter-small-a", "a x a b\n", TOP)
add("refused-2-letter-small-p", AB, TOP.lower())

# Refusal 3 to 9, each reason.

add("refused-3-attribute-17-bytes", f"A {LONG}x a b\n", TOP)
add("refused-3-value-17-bytes", f"A x a {LONG}x\n", TOP)
add("refused-3-value-tilde", "A x a b~\n", TOP)
add("refused-3-value-hyphen-first", "A x a -b\n", TOP)
add("refused-3-value-17-is-bad", attribute("x", [*LETTERS, "Q_"]), TOP)
add("refused-3-element-17-bytes", AB, f"P 0 {LONG}x first-applicable *\n")
add("refused-3-element-hyphen-first", AB, TOP, "R 1 -r permit a\n")
add("refused-3-element-underscore", AB, TOP, "R 1 r permit a\nR 1 r_2 deny a\n")
add("refused-3-attribute-byte-64-first", "A @x a b\n", TOP)
add("refused-3-value-byte-91-middle", "A x a b[c\n", TOP)
add("refused-3-element-byte-96-last", AB, TOP, "R 1 r` permit a\n")
add("refused-3-element-byte-123-alone", AB, "P 0 { first-applicable *\n")
# They differ in the bit that tells A from a, but are no letters: 3, not 4.
add("refused-3-values-of-bytes-64-and-96", "A x @x `x\n", TOP)

add("refused-4-attribute-twice", AB, "A y c\nA x d e\n", "P 0 top first-applicable * * *\n")
add("refused-4-value-twice", "A x a b a\n", TOP)
add("refused-4-value-17-is-double", attribute("x", [*LETTERS, "c"]), TOP)
add("refused-4-rule-twice", AB, "S 0 top first-applicable *\nP 1 p first-applicable *\nR 2 r permit a\n"
    "P 1 q first-applicable *\nR 2 r permit b\n")
add("refused-4-rule-named-as-set", AB, "S 0 top first-applicable *\nP 1 p first-applicable *\nR 2 top permit a\n")
add("refused-4-attribute-7-is-double", *(attribute(name, "a") for name in "uvwxyzu"),
    "P 0 top first-applicable" + " *" * 7 + "\n")

# Equal but for letter case.
MANY = [f"value-{number:02}-of-long" for number in range(40)]  # 680 bytes with their tabs
add("refused-4-attribute-but-for-case", "A Role a\nA y c\nA rOLE d e\n", "P 0 top first-applicable * * *\n")
add("refused-4-value-but-for-case", AB, "A y Tech guest tecH\n", TOP2)
add("refused-4-element-but-for-case", AB, SET, "P 1 p first-applicable *\nR 2 TOP permit a\n")
add("refused-4-letters-a-and-z-but-for-case", AB, "P 0 aZ first-applicable *\nR 1 az permit a\n")
add("refused-4-attribute-of-16-bytes-first-but-for-case", f"A {LONG} a\nA P{LONG[1:]} b\n", TOP2)
add("refused-4-value-of-16-bytes-last-but-for-case", "A x value-of-16-byte a value-of-16-bytE\n", TOP)
add("refused-4-element-of-16-bytes-last-but-for-case", AB, "P 0 rule-of-16-bytes first-applicable *\n"
    "R 1 rule-of-16-byteS permit a\n")
add("refused-4-value-17-but-for-case", attribute("x", [*LETTERS, "C"]), TOP)
add("refused-4-value-40-of-40-but-for-case", attribute("x", [*MANY[:39], MANY[0].upper()]), TOP)
add("refused-4-values-39-and-40-but-for-case", attribute("x", [*MANY[:39], MANY[38].capitalize()]), TOP)

SIX = "".join(attribute(name, "a") for name in "uvwxyz")
SIXTYFOUR = AB + TOP + "".join(f"R 1 r{number} permit a\n" for number in range(63))
add("refused-5-attribute-7", SIX, "A t a\n", "P 0 top first-applicable" + " *" * 7 + "\n")
add("refused-5-value-17", attribute("x", [*LETTERS, "q"]), TOP)
add("refused-5-40-values-with-capitals", attribute("x", [value.capitalize() for value in MANY]), TOP)
# No space lies nearer over 4,096: 4,097 to 4,115 all have a prime factor over 16.
add("refused-5-space-4116", *(attribute(name, LETTERS[:count]) for name, count in zip("wxyz", (14, 14, 7, 3))),
    "P 0 top first-applicable * * * *\n")
add("refused-5-element-65", SIXTYFOUR, "R 1 one-too-many deny b\n")
add("refused-5-element-65-bad-place", SIXTYFOUR, "S 0 one-too-many permit a,b\n")
add("refused-5-17-values-behind-tree", AB, TOP, attribute("y", [*LETTERS, "q"]))

add("refused-6-attribute-behind-tree", AB, TOP, "A y c\n")
add("refused-6-tree-line-first", "P 0 top first-applicable\n", AB, TOP)
add("refused-6-depth-minus-1", AB, TOP, "R -1 r permit a\n")
add("refused-6-depth-11", AB, TOP, "R 11 r permit a\n")
add("refused-6-first-element-at-depth-1", AB, "P 1 top first-applicable *\n")
add("refused-6-first-element-a-rule", AB, "R 0 top permit *\n")
add("refused-6-second-at-depth-0", AB, TOP, "P 0 second first-applicable *\n")
add("refused-6-step-of-two", AB, SET, "P 1 p first-applicable *\nS 1 s first-applicable *\nP 3 q first-applicable *\n")
add("refused-6-rule-under-set", AB, SET, "R 1 r permit a\n")
add("refused-6-rule-under-rule", AB, TOP, "R 1 r1 permit a\nR 2 r2 permit a\n")
add("refused-6-set-under-policy", AB, TOP, "S 1 s first-applicable *\n")
add("refused-6-policy-under-policy", AB, SET, "P 1 p first-applicable *\nR 2 r permit a\nP 2 q first-applicable *\n")
add("refused-6-policy-under-rule", AB, TOP, "R 1 r permit a\nP 2 q first-applicable *\n")

add("refused-7-only-one-on-policy", AB, "P 0 top only-one-applicable *\n")
add("refused-7-permit-on-set", AB, "S 0 top permit *\n")
add("refused-7-deny-on-set", AB, SET, "S 1 s deny *\n")
add("refused-7-permit-on-policy", AB, "P 0 top permit *\n")
add("refused-7-deny-on-policy", AB, SET, "P 1 p deny *\n")
add("refused-7-algorithm-on-rule", AB, TOP, "R 1 r first-applicable a\n")
add("refused-7-unknown-word", AB, TOP, "R 1 r1 permit a\nR 1 r2 allow b\n")
add("refused-7-word-a-letter-short", AB, "S 0 top deny-override *\n")
add("refused-7-word-capital", AB, TOP, "R 1 r Permit a\n")
add("refused-7-word-in-capitals", AB, "P 0 top DENY-OVERRIDES *\n")

add("refused-8-wrong-order", "A x a b c\n", TOP, "R 1 r permit b,a\n")
add("refused-8-value-twice", "A x a b c\n", TOP, "R 1 r permit a,a\n")
add("refused-8-unknown-value", AB, TOP, "R 1 r permit c\n")
add("refused-8-value-of-other-attribute", TWO, TOP2, "R 1 r permit a c\nR 1 s permit c *\n")
add("refused-8-star-among-values", "A x a b c\n", TOP, "R 1 r permit a,*\n")
add("refused-8-leading-comma", "A x a b c\n", TOP, "R 1 r permit ,b\n")
add("refused-8-trailing-comma", "A x a b c\n", TOP, "R 1 r permit a,\n")
add("refused-8-double-comma", "A x a b c\n", TOP, "R 1 r permit a,,b\n")
add("refused-8-one-value-listed", "A x a\n", TOP, "R 1 r permit a\n")
add("refused-8-no-possible-name", AB, TOP, "R 1 r permit A~\n")
add("refused-8-last-target", TWO, TOP2, "R 1 r permit a d,c\n")
add("refused-8-target-in-other-case", "A x Tech guest\n", TOP, "R 1 r permit Tech\nR 1 s deny tech\n")
add("refused-8-later-value-in-other-case", "A x a b c\n", TOP, "R 1 r permit a,B\n")
add("refused-8-16-bytes-last-in-other-case", "A x value-of-16-byte a\n", TOP, "R 1 r permit value-of-16-bytE\n")

add("refused-9-attributes-only", TWO)

# The lowest number on the first bad line.

add("lowest-2-over-all", AB, TOP, "A -X b b c")
add("lowest-3-over-4-to-8", AB, TOP, "S 9 Top_ permit a,b\n")
add("lowest-4-over-6-7-8", AB, TOP, "S 0 top permit a,b\n")
add("lowest-4-but-for-case-over-6-7-8", AB, TOP, "S 9 Top permit a,b\n")
add("lowest-4-behind-tree", AB, TOP, "A x c\n")
add("lowest-6-over-7-and-8", AB, TOP, "R 0 r first-applicable a,b\n")
add("lowest-7-over-8", AB, TOP, "R 1 r first-applicable a,b\n")
add("first-bad-line-8-before-2", AB, TOP, "R 1 r permit a,b\n", "\n")

# Attributes of which a request holds a set of values: `M` stands where `A` may, with 12 values at most.

add("refused-2-set-one-field", "M\n", TOP)
add("refused-2-set-no-value", AB, "M y\n", TOP2)
add("refused-2-letter-small-m", "m x a b\n", TOP)
add("refused-2-set-two-letters", "MM x a b\n", TOP)
add("refused-2-target-of-set-missing", AB, "M y c d\n", TOP2, "R 1 r permit a\n")
add("refused-2-tree-line-first-with-target-of-set", TOP, "M x a b\n")
add("refused-2-set-no-value-behind-tree", AB, TOP, "M y\n")

add("refused-3-set-value-hyphen-first", "M x a -b\n", TOP)
add("refused-3-set-value-with-comma", "M x a b,c\n", TOP)
add("refused-3-set-value-13-is-bad", sets("x", [*LETTERS[:12], "m_"]), TOP)
add("refused-3-set-value-13-is-bad-and-another-double", sets("x", ["a", *LETTERS[:11], "m_"]), TOP)

add("refused-4-set-value-twice", "M x a b a\n", TOP)
add("refused-4-set-value-but-for-case", "M x Tech guest tecH\n", TOP)
add("refused-4-set-value-13-is-double", sets("x", [*LETTERS[:12], "l"]), TOP)
add("refused-4-set-value-13-but-for-case", sets("x", [*LETTERS[:12], "A"]), TOP)
add("refused-4-set-values-13-and-14-but-for-case", sets("x", [*LETTERS[:13], "M"]), TOP)
add("refused-4-set-named-as-attribute", "A role a\nM Role b\n", TOP2)
add("refused-4-attribute-named-as-set", "M role a\nA role b\n", TOP2)
add("refused-4-set-twice-behind-tree", AB, TOP, "M X c\n")

add("refused-5-set-value-13", sets("x", LETTERS[:13]), TOP)
add("refused-5-set-of-16-values", sets("x", LETTERS), TOP)
add("refused-5-set-value-17", sets("x", [*LETTERS, "q"]), TOP)
add("refused-5-set-of-40-values", sets("x", MANY), TOP)
add("refused-5-sets-63-times-127", sets("x", "abcdef"), sets("y", "abcdefg"), TOP2)
add("refused-5-set-of-12-values-times-2", sets("x", LETTERS[:12]), "A y c d\n", TOP2)
add("refused-5-2-times-set-of-12-values", "A y c d\n", sets("x", LETTERS[:12]), TOP2)
add("refused-5-space-4096-then-set-of-2-values", *(attribute(name, LETTERS) for name in "xyz"), "M w a b\n",
    "P 0 top first-applicable * * * *\n")
# No space lies nearer over 4,096 with sets either.
add("refused-5-space-4116-with-set", attribute("w", LETTERS[:14]), sets("x", "abc"), attribute("y", LETTERS[:14]),
    attribute("z", "abc"), "P 0 top first-applicable * * * *\n")
add("refused-5-attribute-7-is-set", SIX, "M t a\n", "P 0 top first-applicable" + " *" * 7 + "\n")
add("refused-5-attribute-7-behind-sets", *(sets(name, "a") for name in "uvwxyz"), "A t a\n",
    "P 0 top first-applicable" + " *" * 7 + "\n")
add("refused-5-set-of-13-values-behind-tree", AB, TOP, sets("y", LETTERS[:13]))

add("refused-6-set-behind-tree", AB, TOP, "M y c\n")
add("refused-6-set-behind-tree-of-sets", "M x a b\n", TOP, "R 1 r permit a\n", "M y c d\n")
add("refused-6-tree-line-before-set", "P 0 top first-applicable\n", "M x a b\n", TOP)

add("refused-8-full-list-of-set", "M x a b c\n", TOP, "R 1 r permit a,b,c\n")
add("refused-8-full-list-of-set-of-12-values", sets("x", LETTERS[:12]), TOP, f"R 1 r permit {','.join(LETTERS[:12])}\n")
add("refused-8-one-value-of-set-listed", "M x a\n", TOP, "R 1 r permit a\n")
add("refused-8-set-wrong-order", "M x a b c\n", TOP, "R 1 r permit b,a\n")
add("refused-8-set-value-twice", "M x a b c\n", TOP, "R 1 r permit b,b\n")
add("refused-8-set-double-comma", "M x a b c\n", TOP, "R 1 r permit a,,b\n")
add("refused-8-set-in-other-case", "M x Tech guest\n", TOP, "R 1 r permit Tech\nR 1 s deny tech\n")

add("refused-9-sets-only", "M x a b\nM y c\n")
