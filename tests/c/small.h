/* Small policies line by line, of which originals and proposals are put together. */
#ifndef SMALL_H
#define SMALL_H

#define AB "A\tx\ta\tb\n"
#define TOP AB "P\t0\ttop\tfirst-applicable\t*\n"
#define ONE "R\t1\tOne\tpermit\ta\n"
#define TWIN "R\t1\ttwin\tpermit\ta\n"

#define ABC "A\tx\ta\tb\tc\nP\t0\ttop\tfirst-applicable\t*\n"
#define N1 "R\t1\tr1\tpermit\ta\n"
#define N2 "R\t1\tr2\tdeny\ta,b\n"
#define N3 "R\t1\tr3\tpermit\ta,c\n"
#define N4 "R\t1\tr4\tdeny\tb\n"

/* the first two rules do all the work; so do the first and the third */
#define HEAD "A\trole\ttech\tguest\nA\tact\tjog\tteach\nP\t0\tcell\tfirst-applicable\t*\t*\n"
#define H1 "R\t1\tr1\tpermit\ttech\t*\n"
#define H2 "R\t1\tr2\tdeny\tguest\tteach\n"
#define H3 "R\t1\tr3\tdeny\t*\tteach\n"
#define H4 "R\t1\tr4\tpermit\ttech\tjog\n"

#endif
