/* The step to the next request, timed by itself. */
#ifndef STEPS_H
#define STEPS_H

void bench_steps(void);

#endif
