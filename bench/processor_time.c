#define _POSIX_C_SOURCE 200809L
#include "processor_time.h"

#include <time.h>

double processor_seconds(void)
{
    struct timespec now;

    clock_gettime(CLOCK_THREAD_CPUTIME_ID, &now);
    return (double)now.tv_sec + 1e-9 * (double)now.tv_nsec;
}
