/* Trimming by steps, to the end. */
#ifndef TRIMMING_STEPS_H
#define TRIMMING_STEPS_H

void bench_trimming_steps(void);

#endif
