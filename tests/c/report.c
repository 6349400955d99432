/* jogimaduve_report: the report, the bytes behind it, short buffers, refusals. */
#include "text.h"

#define REPORTS(file, text) gives(jogimaduve_report, TEXT(file), TEXT(text), #file, __LINE__)

/* 4,096 requests, a segment each: the report has more bytes than the buffer. */
static void longest(void) {
    static char file[16384];
    size_t size = 0;
    for (char name = 'x'; name <= 'z'; name++) {
        size += (size_t)sprintf(file + size, "A\t%c", name);
        for (char value = 'a'; value <= 'p'; value++) size += (size_t)sprintf(file + size, "\t%c", value);
        size += (size_t)sprintf(file + size, "\n");
    }
    size += (size_t)sprintf(file + size, "P\t0\tp\tdeny-overrides\t*\t*\t*\n");
    /* a bit of each attribute's value has a rule, so that no two requests are alike */
    const char *halves[] = {"a,c,e,g,i,k,m,o", "a,b,e,f,i,j,m,n", "a,b,c,d,i,j,k,l", "a,b,c,d,e,f,g,h"};
    for (int rule = 0; rule < 12; rule++) {
        const char *half = halves[rule % 4];
        size += (size_t)sprintf(file + size, "R\t1\tr%d\tpermit\t%s\t%s\t%s\n", rule, rule / 4 == 0 ? half : "*",
                                rule / 4 == 1 ? half : "*", rule / 4 == 2 ? half : "*");
    }
    /* each of the twelve rules applies to half of the requests */
    size_t length = 4096 * strlen("G\t\t1\t\tp\n");
    for (int request = 0; request < 4096; request++) {
        length += (size_t)snprintf(NULL, 0, "%d", request) + strlen(request == 4095 ? "not-applicable" : "permit");
    }
    length += 4096 / 2 * (10 * strlen(",r0") + 2 * strlen(",r10"));
    /* each rule is needed by the one request that no other permits */
    for (int rule = 0; rule < 12; rule++) {
        int bit = 1 << (rule % 4), value = 15 - bit;
        int request = rule / 4 == 0 ? value * 256 + 255 : rule / 4 == 1 ? 15 * 256 + value * 16 + 15 : 15 * 256 + 240 + value;
        length += (size_t)snprintf(NULL, 0, "K\tr%d\t%d\n", rule, request);
    }
    refuses(jogimaduve_report, (const uint8_t *)file, size, 11, (uint32_t)length, "4,096 segments", __LINE__);
}

#define SIXTEEN "a\tb\tc\td\te\tf\tg\th\ti\tj\tk\tl\tm\tn\to\tp\n"

/* A conflict is shown with the lowest request to which the parent applies and on which the children are opposed. */
static void lowest_requests(void) {
    /* opposed on 1 and 3 */
    REPORTS("A\tx\ta\tb\tc\td\nP\t0\ttop\tfirst-applicable\t*\nR\t1\tr1\tpermit\tb,c,d\nR\t1\tr2\tdeny\tb,d\n",
            "G\t0\t1\tnot-applicable\ttop\nG\t1\t2\tpermit\ttop,r1,r2\nG\t2\t1\tpermit\ttop,r1\nC\ttop\tr1\tr2\t1\nX\tr2\nK\tr1\t1\n");
    /* opposed on all; the parent's target matches 1, 2, 4 and 5, and it applies to 4 and 5 */
    REPORTS("A\tx\ta\tb\nA\ty\tc\td\te\nS\t0\ttop\tfirst-applicable\tb\t*\nP\t1\tp\tdeny-overrides\t*\td,e\n"
            "R\t2\tr1\tpermit\t*\t*\nR\t2\tr2\tdeny\t*\t*\n",
            "G\t0\t3\tnot-applicable\t-\nG\t3\t1\tnot-applicable\ttop\nG\t4\t2\tdeny\ttop,p,r1,r2\nC\tp\tr1\tr2\t4\nX\tr1\nK\tr2\t4\n");
    /* the last request of a word of 64 and the first of the next; the first and the last of the last word */
    REPORTS("A\tx\ta\tb\nA\ty\t" SIXTEEN "A\tz\ta\tb\tc\td\nP\t0\ttop\tdeny-overrides\t*\t*\t*\nR\t1\tr63\tpermit\t*\tp\td\n"
            "R\t1\tno\tdeny\t*\t*\t*\nR\t1\tr64\tpermit\tb\t*\t*\n",
            "G\t0\t63\tdeny\ttop,no\nG\t63\t1\tdeny\ttop,r63,no\nG\t64\t63\tdeny\ttop,no,r64\nG\t127\t1\tdeny\ttop,r63,no,r64\n"
            "C\ttop\tr63\tno\t63\nC\ttop\tno\tr64\t64\nX\tr64\nX\tr63\nK\tno\t0\n");
    REPORTS("A\tx\t" SIXTEEN "A\ty\t" SIXTEEN "A\tz\t" SIXTEEN "P\t0\ttop\tdeny-overrides\t*\t*\t*\nR\t1\tr4032\tpermit\tp\tm,n,o,p\t*\n"
            "R\t1\tno\tdeny\t*\t*\t*\nR\t1\tr4095\tdeny\tp\tp\tp\n",
            "G\t0\t4032\tdeny\ttop,no\nG\t4032\t63\tdeny\ttop,r4032,no\nG\t4095\t1\tdeny\ttop,r4032,no,r4095\n"
            "C\ttop\tr4032\tno\t4032\nC\ttop\tr4032\tr4095\t4095\nX\tr4095\nX\tr4032\nK\tno\t0\n");
}

int main(void) {
    REPORTS("A\trole\ttech\tguest\nA\tact\tjog\tteach\nP\t0\tcell\tfirst-applicable\t*\t*\nR\t1\tr1\tpermit\ttech\t*\n"
            "R\t1\tr2\tdeny\tguest\tteach\nR\t1\tr3\tdeny\t*\tteach\nR\t1\tr4\tpermit\ttech\tjog\n",
            "G\t0\t1\tpermit\tcell,r1,r4\nG\t1\t1\tpermit\tcell,r1,r3\nG\t2\t1\tnot-applicable\tcell\nG\t3\t1\tdeny\tcell,r2,r3\n"
            "C\tcell\tr1\tr3\t1\nX\tr4\nX\tr3\nK\tr1\t0\nK\tr2\t3\n");
    /* each name as the file spells it */
    REPORTS("A\tRole\tTech\tguest\nA\tACT\tJog\tteach\nP\t0\tCell\tfirst-applicable\t*\t*\nR\t1\tR1\tpermit\tTech\t*\n"
            "R\t1\trZ\tdeny\tguest\tteach\nR\t1\tr3-A\tdeny\t*\tteach\nR\t1\tR4\tpermit\tTech\tJog\n",
            "G\t0\t1\tpermit\tCell,R1,R4\nG\t1\t1\tpermit\tCell,R1,r3-A\nG\t2\t1\tnot-applicable\tCell\nG\t3\t1\tdeny\tCell,rZ,r3-A\n"
            "C\tCell\tR1\tr3-A\t1\nX\tR4\nX\tr3-A\nK\tR1\t0\nK\trZ\t3\n");
    REPORTS("A\tx\ta\tb\nP\t0\ttop\tdeny-overrides\ta\n", "G\t0\t1\tnot-applicable\ttop\nG\t1\t1\tnot-applicable\t-\n");
    REPORTS("A\tx\ta\nS\t0\ttop\tonly-one-applicable\t*\nP\t1\tp1\tdeny-overrides\t*\nP\t1\tp2\tdeny-overrides\t*\nR\t2\tr\tpermit\t*\n",
            "G\t0\t1\tindeterminate\ttop,p1,p2,r\nX\tr\n");
    lowest_requests();
    longest();
    refuses_bad_files(jogimaduve_report);
    return checks_done();
}
