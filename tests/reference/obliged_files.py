"""Policy files with obligations, accepted and refused. In the texts spaces stand for tabs."""
from accepted_files import AB, BOTH, LETTERS, LONG, SET, TOP, TWO, add, attribute, chain

MAY = "R 1 may permit *\n"
LOG = "O log permit\n"
SLOW = "O slow permit\n"

# Lines of obligations.

add("obliged-one", AB, TOP, LOG, MAY)
add("obliged-two", AB, TOP, LOG, "O slow deny\n", MAY, "R 1 no deny a\n")
add("obliged-names-of-16-bytes", AB, TOP, f"O {LONG} permit\nO {LONG[:15]}J deny\n", MAY)
add("obliged-names-of-other-things", AB, "P 0 x first-applicable *\nO x permit\nO a deny\nR 1 a permit b\n")
add("obliged-names-of-letters-and-words", AB, TOP, "O O permit\nO permit permit\n", MAY)
add("obliged-same-names-on-elements", AB, SET, LOG, "P 1 p first-applicable *\nO LOG permit\nR 2 r permit a\n"
    "P 1 q first-applicable *\nO log permit\nR 2 s permit *\n")
add("obliged-policy-without-rules", AB, TOP, LOG, "O slow deny\n")
add("obliged-sets-without-children", AB, SET, LOG, "S 1 s deny-overrides *\nO slow deny\nS 1 t first-applicable b\n"
    "O a permit\nO b permit\n")
add("obliged-depth-7", AB, *(f"S {depth} s{depth} first-applicable *\nO log-{depth} permit\nO slow-{depth} deny\n"
                             for depth in range(6)), "P 6 p first-applicable *\nO log permit\nR 7 r1 permit a\n"
    "R 7 r2 deny *\n")
add("obliged-63-elements", AB, "S 0 top deny-overrides *\n" + LOG + "O slow deny\n",
    *(f"P 1 p{number} first-applicable *\nO log-{number} permit\nO slow deny\n" for number in range(1, 64)))
# The most that come with one decision: 110 names of 16 bytes.
TWO_LONG = f"O {LONG} permit\nO {LONG[:15]}J permit\n"
add("obliged-most-names", AB, "S 0 top deny-overrides *\n", TWO_LONG, *(
    "".join(f"S {depth} s{number}-{depth} deny-overrides *\n{TWO_LONG}" for depth in range(1, 6))
    + f"P 6 p{number} first-applicable *\n{TWO_LONG}R 7 r{number} permit *\n" for number in range(9)))


def obliged_file_of(size):
    """64 elements with 126 obligations and long targets; names' lengths find the size."""
    values = [f"value-{letter}".ljust(13, "-") for letter in LETTERS]
    target = ",".join(values[1:])
    text = attribute("x", values) + "S 0 top deny-overrides *\nO log permit\nO slow deny\n"
    for number in range(1, 63):
        text += f"P 1 p{number} first-applicable {target}\nO log permit\nO {f's{number}'} deny\n"
    text += "R 2 r permit *\n"
    lines = text.split("\n")
    missing = size - len(text)
    for at, line in enumerate(lines):
        if line.startswith("P"):
            fields = line.split(" ")
            more = min(missing, 16 - len(fields[2]))
            fields[2] = fields[2].ljust(len(fields[2]) + more, "-")
            missing -= more
            lines[at] = " ".join(fields)
    assert missing == 0, missing
    return "\n".join(lines)


add("obliged-16384-bytes", obliged_file_of(16384))
add("refused-1-obliged-16385-bytes", obliged_file_of(16385))

# Rules that are needed for obligations alone, and rules that are not.

P = "P 1 p first-applicable *\n"
Q = "P 1 q first-applicable *\n"
for word in ("deny-overrides", "permit-overrides", "first-applicable", "only-one-applicable"):
    # What each of two policies gives, in both orders, with an obligation for each effect.
    add(f"obliged-{word}", attribute("x", "abcdefghi"), f"S 0 top {word} *\nO top-p permit\nO top-d deny\n"
        "P 1 p first-applicable a,b,c,d,h\nO p-p permit\nO p-d deny\nR 2 p1 permit a,b,h\nR 2 p2 deny c\n"
        "S 1 both only-one-applicable a,d,e,f,g\nO both-p permit\nO both-d deny\nP 2 e1 first-applicable *\n"
    "O e1-d deny\n"
        "R 3 e3 deny *\nP 2 e2 first-applicable a,d,e,g\nO e2-p permit\n"
        "P 1 q first-applicable b,c,e,f,i\nO q-p permit\nO q-d deny\nR 2 q1 deny b,e,i\nR 2 q2 permit c,f\n"
        "P 1 o first-applicable b,g,h\nO o-p permit\nO o-d deny\nR 2 o1 permit b,g\nR 2 o2 deny h\n")
add("obliged-rule-needed-for-name", AB, "S 0 top deny-overrides *\n", P, LOG, "R 2 r permit *\n", Q, SLOW,
    "R 2 s permit a\n")
add("obliged-same-rules-without-names", AB, "S 0 top deny-overrides *\n", P, "R 2 r permit *\n", Q, "R 2 s permit a\n")
add("obliged-same-rules-other-words", AB, "S 0 top deny-overrides *\n", P, "O log deny\nR 2 r permit *\n", Q,
    "O slow deny\n"
    "R 2 s permit a\n")
add("obliged-name-from-other-element", AB, SET, P, LOG, "R 2 r permit a\n", Q, LOG, "R 2 s permit *\n")
add("obliged-name-but-for-case", AB, SET, P, "O Log permit\nR 2 r permit a\n", Q, LOG, "R 2 s permit *\n")
add("obliged-name-of-same-length", AB, SET, P, "O lag permit\nR 2 r permit a\n", Q, LOG, "R 2 s permit *\n")
add("obliged-names-in-other-order", AB, SET, P, LOG, SLOW, "R 2 r permit a\n", Q, SLOW, LOG, "R 2 s permit *\n")
add("obliged-names-cut-otherwise", AB, SET, P, "O ab permit\nO c permit\nR 2 r permit a\n", Q, "O a permit\n"
    "O bc permit\n"
    "R 2 s permit *\n")
add("obliged-name-once-and-twice", AB, "S 0 top deny-overrides *\n", P, LOG, "R 2 r permit *\n", Q, LOG,
    "R 2 s permit a\n")
add("obliged-kept-by-name-first", "A x a b c\n", "S 0 top deny-overrides *\n", P, LOG, "R 2 r permit *\n", Q, SLOW,
    "R 2 s permit a,b\n")
add("obliged-child-not-asked", AB, "S 0 top permit-overrides *\n", P, LOG, "R 2 r permit *\n", Q, SLOW,
    "R 2 s permit *\n")
add("obliged-child-not-asked-behind-indeterminate", AB, "S 0 top deny-overrides *\nO top-d deny\n",
    BOTH.format(1, 2, 3), Q,
    "O q-d deny\nR 2 s deny *\n")
add("obliged-child-asked-before-indeterminate", AB, "S 0 top deny-overrides *\nO top-d deny\n", Q, "O q-d deny\n"
    "R 2 s deny *\n",
    BOTH.format(1, 2, 3))
add("obliged-below-another-decision", AB, "S 0 top permit-overrides *\nS 1 s deny-overrides *\nO s-p permit\n"
    "P 2 p first-applicable *\n"
    "O log permit\nR 3 r permit *\nP 2 q first-applicable *\nR 3 no deny *\nP 1 o first-applicable *\nO slow permit\n"
    "R 2 yes permit *\n")
add("obliged-in-set-of-values", "M x a b c\n", "S 0 top deny-overrides *\nP 1 p first-applicable a\nO log permit\n"
    "R 2 r permit *\n"
    "P 1 q first-applicable b\nO slow permit\nR 2 s permit *\nP 1 o first-applicable *\nR 2 t permit *\n")
# Needed by the last request of a word of 64 alone, by the first of the next, and by the last of all.
WORDS = attribute("x", "ab") + attribute("y", LETTERS) + attribute("z", "abcd")
add("obliged-needed-at-ends-of-words", WORDS, "S 0 top deny-overrides * * *\nP 1 p first-applicable * * *\n"
    "R 2 all permit * * *\n"
    "P 1 p63 first-applicable a * *\nO log-63 permit\nR 2 r63 permit * p d\nP 1 p64 first-applicable b * *\n"
    "O log-64 permit\n"
    "R 2 r64 permit * a a\nP 1 p127 first-applicable b * *\nO log-127 permit\nR 2 r127 permit * p d\n")
# Struck one after the other: each gives the name of the next.
add("obliged-struck-in-turn", attribute("x", LETTERS), "S 0 top first-applicable *\n", *(
    f"P 1 p{number} first-applicable *\nO log permit\nR 2 r{number} permit {','.join(LETTERS[:number + 1])}\n"
    for number in range(15)), "P 1 last first-applicable *\nO log permit\nR 2 rest permit *\n")

# Refused: each reason, and the lowest number on the line.

THREE = LOG + "O slow deny\n"
add("refused-2-obligation-one-field", AB, TOP, "O\n", MAY)
add("refused-2-obligation-two-fields", AB, TOP, "O log\n", MAY)
add("refused-2-obligation-four-fields", AB, TOP, "O log permit *\n", MAY)
add("refused-2-obligation-empty-name", AB, TOP, "O  permit\n", MAY)
add("refused-2-obligation-small-letter", AB, TOP, "o log permit\n", MAY)
add("refused-2-obligation-two-letters", AB, TOP, "OO log permit\n", MAY)
add("refused-2-obligation-no-last-newline", AB, TOP, LOG[:-1])
add("refused-2-obligation-behind-rule-four-fields", AB, TOP, MAY, "O log permit *\n")
add("refused-2-obligation-third-two-fields", AB, TOP, THREE, "O third\n", MAY)
add("refused-3-obligation-underscore", AB, TOP, "O lo_g permit\n", MAY)
add("refused-3-obligation-17-bytes", AB, TOP, f"O {LONG}- permit\n", MAY)
add("refused-3-obligation-hyphen-first", AB, TOP, LOG, "O -slow permit\n", MAY)
add("refused-3-obligation-third-with-bad-name", AB, TOP, THREE, "O th_rd no\n", MAY)
add("refused-3-obligation-first-line-with-bad-name", "O l_g no\n", AB, TOP)
add("refused-3-obligation-on-rule-with-bad-name", AB, TOP, MAY, "O l_g no\n")
add("refused-4-obligation-twice", AB, TOP, LOG, LOG, MAY)
add("refused-4-obligation-twice-other-word", AB, TOP, LOG, "O log deny\n", MAY)
add("refused-4-obligation-but-for-case", AB, TOP, LOG, "O LOG no\n", MAY)
add("refused-4-obligation-of-16-bytes-last-but-for-case", AB, TOP, f"O {LONG[:15]}j deny\nO {LONG[:15]}J deny\n", MAY)
add("refused-4-obligation-third-is-double", AB, TOP, THREE, "O log permit\n", MAY)
add("refused-4-obligation-third-is-second-but-for-case", AB, TOP, THREE, "O Slow no\n", MAY)
add("refused-4-rule-behind-obligations", AB, TOP, THREE, MAY, "R 1 MAY deny a\n")
add("refused-5-element-65-behind-obligations", AB, "S 0 top deny-overrides *\n" + THREE,
    *(f"P 1 p{number} first-applicable *\n{THREE}" for number in range(1, 65)))
add("refused-6-attribute-behind-obligation", AB, TOP, LOG, "A y c\n")
add("refused-6-set-attribute-behind-obligation", AB, TOP, LOG, "M y c d\n")
add("refused-7-obligation-word-capital", AB, TOP, "O log Permit\n", MAY)
add("refused-7-obligation-word-longer", AB, TOP, "O log permits\n", MAY)
add("refused-7-obligation-algorithm", AB, TOP, LOG, "O slow deny-overrides\n", MAY)
add("refused-7-obligation-star", AB, TOP, "O log *\n", MAY)
add("refused-14-third", AB, TOP, THREE, "O third permit\n", MAY)
add("refused-14-third-with-bad-word", AB, TOP, THREE, "O third no\n", MAY)
add("refused-14-third-on-set-at-depth-6", AB, chain(6), THREE, "O third deny\n")
add("refused-14-first-line", LOG, AB, TOP)
add("refused-14-behind-attribute", AB, LOG, TOP)
add("refused-14-behind-attribute-with-bad-word", AB, "O log no\n", TOP)
add("refused-14-behind-set-attribute", "M x a b\n", "O log deny\n", TOP)
add("refused-14-behind-attributes-alone", TWO, LOG)
add("refused-14-behind-rule", AB, TOP, MAY, LOG)
add("refused-14-behind-rule-with-bad-word", AB, TOP, MAY, "O log no\n")
add("refused-14-behind-rule-with-name-of-policy", AB, TOP, LOG, MAY, LOG)
