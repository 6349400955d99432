/* The paper's program: a policy file from standard input, its report or the line E to standard output. */
#include "reference.h"

#include <stdio.h>

int main(void)
{
    static uint8_t file[FILE_BYTES + 1], report[65536];

    /* One byte over the limit is enough to know that the file exceeds it. */
    size_t length = fread(file, 1, sizeof file, stdin);
    struct answer answer = ref_report(file, length, report, sizeof report);
    if (answer.number == 0)
        fwrite(report, 1, answer.second, stdout);
    else
        printf("E\t%lu\t%lu\n", (unsigned long)answer.number, (unsigned long)answer.second);
    return 0;
}
