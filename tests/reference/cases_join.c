/* C-20, worked out by hand: joined texts, what they decide, 19, 7, and what reading the joined text refuses;
 * cases_join_large.c has files of many elements and bytes. */
#include "cases_join.h"

#define ROLE "A role tech guest\n"
#define ACT "A act jog teach\n"
#define MAKER ROLE ACT "P 0 maker " FA " * *\nO log permit\nR 1 m1 deny guest teach\n"
#define LAB "A ACT jog teach\nM nest rack reader\nS 0 lab " PO " * rack\nP 1 p " DO " teach *\nO slow deny\n" \
    "O Log permit\nR 2 q permit * reader\n"

static void texts(void)
{
    joins("A x a\nP 0 p " FA " *\n", "A x a\nP 0 q " DO " *\n", DO,
          "A x a\nS 0 joined " DO " *\nP 1 p " FA " *\nP 1 q " DO " *\n");
    joins(MAKER, LAB, OO,
          ROLE ACT "M nest rack reader\nS 0 joined " OO " * * *\nP 1 maker " FA " * * *\nO log permit\n"
          "R 2 m1 deny guest teach *\nS 1 lab " PO " * * rack\nP 2 p " DO " * teach *\nO slow deny\nO Log permit\n"
          "R 3 q permit * * reader\n");
    /* each in the other's place: the other's spelling, the other's order */
    joins(LAB, MAKER, FA,
          "A ACT jog teach\nM nest rack reader\n" ROLE "S 0 joined " FA " * * *\nS 1 lab " PO " * rack *\n"
          "P 2 p " DO " teach * *\nO slow deny\nO Log permit\nR 3 q permit * reader *\nP 1 maker " FA " * * *\n"
          "O log permit\nR 2 m1 deny teach * guest\n");
    /* all attributes shared, in another order; three in a round */
    joins("A x a b\nA y c d\nA z e f\nP 0 p " PO " a c e\n", "A z e f\nA X a b\nA y c d\nP 0 q " PO " f b d\n", PO,
          "A x a b\nA y c d\nA z e f\nS 0 joined " PO " * * *\nP 1 p " PO " a c e\nP 1 q " PO " b d f\n");
    /* none shared, also where the values are */
    joins("A x a b\nP 0 p " PO " b\n", "A y a b\nP 0 q " PO " a\n", PO,
          "A x a b\nA y a b\nS 0 joined " PO " * *\nP 1 p " PO " b *\nP 1 q " PO " * a\n");
    /* the second's own attributes in its order, before and behind a shared one */
    joins("M x a\nP 0 p " PO " *\n", "A w c d\nM x a\nA v e f g\nP 0 q " PO " d * e,g\n", PO,
          "M x a\nA w c d\nA v e f g\nS 0 joined " PO " * * *\nP 1 p " PO " * * *\nP 1 q " PO " * d e,g\n");
    /* depth 6 becomes 7; names of attributes, values and obligations may be those of elements, and may be `joined` */
    joins("A joined joined\nP 0 x " PO " *\nO joined deny\n", "A x x\nS 0 s0 " DO " *\nS 1 s1 " DO " *\nS 2 s2 " DO " *\n"
          "S 3 s3 " DO " *\nS 4 s4 " DO " *\nS 5 s5 " DO " *\nS 6 joine " DO " *\n", DO,
          "A joined joined\nA x x\nS 0 joined " DO " * *\nP 1 x " PO " * *\nO joined deny\nS 1 s0 " DO " * *\n"
          "S 2 s1 " DO " * *\nS 3 s2 " DO " * *\nS 4 s3 " DO " * *\nS 5 s4 " DO " * *\nS 6 s5 " DO " * *\nS 7 joine " DO
          " * *\n");
}

#define XY "A x a b\nA y c d\nP 0 p " FA " * *\n"

static void other_attributes(void)
{
    static const char *const same = "A y c d\nA x a b\nP 0 q " FA " * *\n";

    joins(XY, same, FA, "A x a b\nA y c d\nS 0 joined " FA " * *\nP 1 p " FA " * *\nP 1 q " FA " * *\n");
    refuses_join(XY, "M x a b\nP 0 q " FA " *\n", FA, 19, 1);
    refuses_join("M x a b\nP 0 p " FA " *\n", "A x a b\nP 0 q " FA " *\n", FA, 19, 1);
    refuses_join("M x a\nP 0 p " FA " *\n", "A x a\nP 0 q " FA " *\n", FA, 19, 1);
    refuses_join(XY, "A x b a\nP 0 q " FA " *\n", FA, 19, 1);
    refuses_join(XY, "A x a\nP 0 q " FA " *\n", FA, 19, 1);
    refuses_join(XY, "A x a b c\nP 0 q " FA " *\n", FA, 19, 1);
    refuses_join(XY, "A x a c\nP 0 q " FA " *\n", FA, 19, 1);
    refuses_join(XY, "A x a B\nP 0 q " FA " *\n", FA, 19, 1);
    refuses_join(XY, "A X A b\nP 0 q " FA " *\n", FA, 19, 1);
    refuses_join(XY, "A X ab b\nP 0 q " FA " *\n", FA, 19, 1);
    refuses_join("A x a bc\nP 0 p " FA " *\n", "A x ab c\nP 0 q " FA " *\n", FA, 19, 1);
    /* the second file's first such line, wherever the attribute stands in the first */
    refuses_join(XY, "A z a\nA y d c\nA x b a\nP 0 q " FA " * * *\n", FA, 19, 2);
    refuses_join(XY, "A y c d\nA z e\nA X a b c\nP 0 q " FA " * * *\n", FA, 19, 3);
    /* another name is another attribute, also a longer one */
    joins("A x a\nP 0 p " FA " *\n", "A xx a b\nP 0 q " FA " *\n", FA,
          "A x a\nA xx a b\nS 0 joined " FA " * *\nP 1 p " FA " * *\nP 1 q " FA " * *\n");
}

/* 7 has the line of `joined`. */
static void words_given(void)
{
    static const char *const bad[] = {
        "", "Deny-overrides", "deny-overrideS", "deny-override", "deny-overridess", "deny", "permit", "joined", "*", "-",
        " deny-overrides", "deny-overrides ", "deny-overrides\n", "deny overrides", "first-applicable *", "first-applicable,",
        "only-one-Applicable", "ONLY-ONE-APPLICABLE", "only-one-applicabl", "permit-overrides deny-overrides",
        "ordered-deny-overrides", "first-applicablf", "aeny-overrides",
    };

    for (size_t i = 0; i < sizeof bad / sizeof *bad; i++) {
        refuses_join("A x a\nP 0 p " FA " *\n", "A x a\nP 0 q " DO " *\n", bad[i], 7, 2);
        refuses_join(MAKER, LAB, bad[i], 7, 4);
        refuses_join(LAB, MAKER, bad[i], 7, 4);
        refuses_join(XY, "A y d c\nP 0 q " FA " *\n", bad[i], 19, 1); /* 19 comes first */
    }
}

#define SIX(n) "A a" n " v\nA b" n " v\nA c" n " v\nA d" n " v\nA e" n " v\nA f" n " v\n"
#define CHAIN(n) "S 0 a" n " " FA " *\nS 1 b" n " " FA " *\nS 2 c" n " " FA " *\nS 3 d" n " " FA " *\nS 4 e" n " " FA " *\n" \
    "S 5 f" n " " FA " *\n"

/* What reading the joined text refuses. */
static void refused_texts(void)
{
    refuses_join(SIX("1") "P 0 p " FA " * * * * * *\n", "A g v\nP 0 q " FA " *\n", DO, 5, 7);
    refuses_join("A g v\nP 0 q " FA " *\n", SIX("1") "P 0 p " FA " * * * * * *\n", DO, 5, 7);
    refuses_join(SIX("1") "P 0 p " FA " * * * * * *\n", SIX("2") "P 0 q " FA " * * * * * *\n", DO, 5, 7);
    refuses_join(SIX("1") "P 0 p " FA " * * * * * *\n", SIX("2") "P 0 q " FA " * * * * * *\n", "deny", 7, 13);
    refuses_join(SIX("1") "P 0 p " FA " * * * * * *\n", "A g v\nA C1 v\nP 0 q " FA " * *\n", "deny", 7, 8);
    /* the space: 4,096 times 1 and times 2, then with a set of 2 */
    refuses_join("A x" SIXTEEN "A y" SIXTEEN "P 0 p " FA " * *\n", "A z" SIXTEEN "A w a b\nP 0 q " FA " * *\n", DO, 5, 4);
    refuses_join("A x" SIXTEEN "A y" SIXTEEN "P 0 p " FA " * *\n", "A v a b\nM w a b\nA z" SIXTEEN "P 0 q " FA " * * *\n", DO,
                 5, 5);
    joins("A x" SIXTEEN "A y" SIXTEEN "P 0 p " FA " * *\n", "A z" SIXTEEN "M Y2 a\nP 0 q " FA " p *\n", DO,
          "A x" SIXTEEN "A y" SIXTEEN "A z" SIXTEEN "M Y2 a\nS 0 joined " DO " * * * *\nP 1 p " FA " * * * *\n"
          "P 1 q " FA " * * p *\n");
    /* names: in both, in other case, `joined` in either; the line is the joined text's */
    refuses_join("A x a\nP 0 p " FA " *\nR 1 r deny *\n", "A x a\nP 0 q " DO " *\nR 1 r deny *\n", DO, 4, 6);
    refuses_join("A x a\nP 0 p " FA " *\nR 1 r deny *\n", "A x a\nP 0 R " DO " *\n", DO, 4, 5);
    refuses_join("A x a\nP 0 p " FA " *\nO o deny\nR 1 r deny *\n", "A y a\nP 0 q " DO " *\nO o deny\nR 1 P deny *\n", DO,
                 4, 9);
    refuses_join("A x a\nP 0 joined " FA " *\n", "A x a\nP 0 q " DO " *\n", DO, 4, 3);
    refuses_join("A x a\nP 0 p " FA " *\n", "A x a\nP 0 q " DO " *\nR 1 JoineD deny *\n", DO, 4, 5);
    refuses_join("A x a\nP 0 p " FA " *\n", "A x a\nP 0 p " FA " *\n", DO, 4, 4);
    /* depth 7 */
    joins("A x a\n" CHAIN("1") "P 6 g1 " FA " *\n", "A x a\nP 0 q " DO " *\n", DO,
          "A x a\nS 0 joined " DO " *\nS 1 a1 " FA " *\nS 2 b1 " FA " *\nS 3 c1 " FA " *\nS 4 d1 " FA " *\nS 5 e1 " FA " *\n"
          "S 6 f1 " FA " *\nP 7 g1 " FA " *\nP 1 q " DO " *\n");
    refuses_join("A x a\n" CHAIN("1") "P 6 g1 " FA " *\nR 7 h1 deny *\n", "A x a\nP 0 q " DO " *\n", DO, 6, 10);
    refuses_join("A x a\nP 0 q " DO " *\n", "A x a\n" CHAIN("1") "P 6 g1 " FA " *\nR 7 h1 deny *\n", DO, 6, 11);
    refuses_join("A x a\n" CHAIN("1") "P 6 g1 " FA " *\nR 7 h1 deny *\n", "A x a\n" CHAIN("1") "S 6 g1 " FA " *\n", DO,
                 6, 10);
    refuses_join("A x a\n" CHAIN("1") "S 6 joined " FA " *\nP 7 h1 " FA " *\n", "A x a\nP 0 q " DO " *\n", DO, 4, 9);
    refuses_join("A x a\nP 0 h1 " DO " *\n", "A x a\n" CHAIN("1") "P 6 g1 " FA " *\nR 7 H1 deny *\n", DO, 4, 11); /* not 6 */
    refuses_join("A x a\n" CHAIN("1") "S 6 g1 " FA " *\nP 7 h1 " FA " *\n", "A x a\nP 0 q " DO " *\n", "", 7, 2);
}

/* What the joined file decides, of files whose decisions are written out: m on a, b, c; l on a, b, c. */
#define TREE_M "A x a b c\nP 0 m " FA " *\nO m-p permit\nO m-d deny\nR 1 m1 permit a\nR 1 m2 deny b\n"
#define TREE_L "A y d e f\nP 0 l " FA " *\nO l-p permit\nO l-d deny\nR 1 l1 permit d\nR 1 l2 deny e\n"
#define TOP(word) "A x a b c\nA y d e f\nS 0 joined " word " * *\nP 1 m " FA " * *\nO m-p permit\nO m-d deny\n" \
    "R 2 m1 permit a *\nR 2 m2 deny b *\nP 1 l " FA " * *\nO l-p permit\nO l-d deny\nR 2 l1 permit * d\nR 2 l2 deny * e\n"

static void decisions(void)
{
    static const struct { const char *word, *text; struct { enum decision decision; const char *text; } of[9]; } all[] = {
        {DO, TOP(DO), {{PERMIT, "m-p\nl-p\n"}, {DENY, "l-d\n"}, {PERMIT, "m-p\n"}, {DENY, "m-d\n"}, {DENY, "m-d\n"},
                       {DENY, "m-d\n"}, {PERMIT, "l-p\n"}, {DENY, "l-d\n"}, {NOT_APPLICABLE, ""}}},
        {PO, TOP(PO), {{PERMIT, "m-p\n"}, {PERMIT, "m-p\n"}, {PERMIT, "m-p\n"}, {PERMIT, "l-p\n"}, {DENY, "m-d\nl-d\n"},
                       {DENY, "m-d\n"}, {PERMIT, "l-p\n"}, {DENY, "l-d\n"}, {NOT_APPLICABLE, ""}}},
        {FA, TOP(FA), {{PERMIT, "m-p\n"}, {PERMIT, "m-p\n"}, {PERMIT, "m-p\n"}, {DENY, "m-d\n"}, {DENY, "m-d\n"},
                       {DENY, "m-d\n"}, {PERMIT, "l-p\n"}, {DENY, "l-d\n"}, {NOT_APPLICABLE, ""}}},
        {OO, TOP(OO), {{INDETERMINATE, ""}, {INDETERMINATE, ""}, {INDETERMINATE, ""}, {INDETERMINATE, ""},
                       {INDETERMINATE, ""}, {INDETERMINATE, ""}, {INDETERMINATE, ""}, {INDETERMINATE, ""},
                       {INDETERMINATE, ""}}},
    };

    for (size_t i = 0; i < sizeof all / sizeof *all; i++) {
        joins(TREE_M, TREE_L, all[i].word, all[i].text);
        for (int request = 0; request < 9; request++) {
            char line[] = {(char)('a' + request / 3), ' ', (char)('d' + request % 3), 0};
            if (all[i].of[request].text[0] == 0)
                decides(all[i].word, all[i].text, line, 0, all[i].of[request].decision);
            else
                obliges(all[i].word, all[i].text, line, all[i].of[request].decision, all[i].of[request].text);
        }
    }
}

/* The first file's refusal, then the second's, then 19, 7 and the joined text's. */
static void refusals(void)
{
    static const char *const good = "A x a b\nP 0 p " FA " *\n", *const other = "A x b a\nP 0 p " FA " *\n";

    refuses_join("", "", "", 9, 0);
    refuses_join("", good, DO, 9, 0);
    refuses_join(good, "", DO, 9, 0);
    refuses_join("A x a a\n", "A x a\n", DO, 4, 1);
    refuses_join("A x a\n", "A x a a\n", DO, 9, 0);
    refuses_join(good, "A x b a\nP 0 p " OO " *\n", "", 7, 2);
    refuses_join("A x a b\nP 0 p " FA " a,b\n", other, "", 8, 2);
    refuses_join(good, "A x b a\nP 0 p " FA " *\nR 1 r permit *\nO o deny\n", "", 14, 4);
    refuses_join(good, other, "", 19, 1);
    refuses_join(good, good, "", 7, 2);
    refuses_join(good, good, DO, 4, 4);
}

void cases_of_joining(void)
{
    texts();
    other_attributes();
    words_given();
    refused_texts();
    decisions();
    refusals();
    cases_of_large_joining();
}
