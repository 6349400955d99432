/* Files on both sides of 16,384 bytes. */
#include "generate.h"

#include <stdio.h>

/* Long rules, then short ones whose names' lengths find the size. */
void make_edge_file(struct bytes *file)
{
    static const int counts[][3] = {{8, 8, 8}, {8, 16, 1}};
    int sets = one_in(2); /* the first attribute is an M; there is room for 255 sets times 16 values */
    const int *values = counts[sets];
    const char *value_name = one_in(2) ? "value-of-16-byt" : "Value-Of-16-byT";
    size_t size = 16382 + below(5);
    char line[80];
    int rules = 0;

    file->length = 0;
    for (int i = 0; i < 3; i++) {
        sprintf(line, "%c\tx%d", sets && i == 0 ? 'M' : 'A', i);
        put(file, line);
        for (int value = 0; value < values[i]; value++) {
            sprintf(line, "\t%s%c", value_name, 'a' + value);
            put(file, line);
        }
        put(file, "\n");
    }
    put(file, "P\t0\ttop\tdeny-overrides\t*\t*\t*\n");
    put(file, one_in(2) ? "O\tlog\tpermit\n" : "");
    while (size - file->length > 500) {
        sprintf(line, "R\t1\t%s%d", one_in(2) ? "long" : "LonG", rules++);
        put(file, line);
        put(file, one_in(2) ? "\tdeny" : "\tpermit");
        for (int i = 0; i < 3; i++) {
            put(file, values[i] == 1 ? "\t*" : "");
            for (int value = 0; value < values[i] - 1; value++) {
                sprintf(line, "%c%s%c", value == 0 ? '\t' : ',', value_name, 'a' + value);
                put(file, line);
            }
        }
        put(file, "\n");
    }
    for (size_t lines = (size - file->length + 31) / 32; lines > 0; lines--) {
        int width = (int)((size - file->length) / lines) - 16;
        sprintf(line, "R\t1\t%0*d\tdeny\t*\t*\t*\n", width, (int)lines);
        put(file, line);
    }
}
