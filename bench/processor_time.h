/* The processor time that this thread has taken. */
#ifndef PROCESSOR_TIME_H
#define PROCESSOR_TIME_H

double processor_seconds(void);

#endif
