/* How long a piece of work takes. */
#ifndef CLOCK_H
#define CLOCK_H

/* Runs a piece of work so many times, and gives the seconds that count: a job may stop the clock for what does not. */
typedef double (*job)(unsigned times);

/* Seconds since some moment. */
double now(void);

/*
 * Seconds that one run takes: the least of several batches, each long enough to be measured and a multiple of `least` runs. The least is what
 * the machine needs when nothing else disturbs it.
 */
double seconds(job work, unsigned least);

#endif
