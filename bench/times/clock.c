/* How long a piece of work takes. */
#include "clock.h"
#include "system.h"

static const double BATCH = 0.0005;  /* a batch takes at least this long */
static const double SPEND = 0.05;    /* and batches are run for this long */
enum { LEAST_BATCHES = 2 };

double now(void)
{
    struct timespec t;

    clock_gettime(CLOCK_MONOTONIC, &t);
    return (double)t.tv_sec + (double)t.tv_nsec * 1e-9;
}

double seconds(job work, unsigned least_runs)
{
    unsigned times = least_runs, batches;
    double spent = work(times), least;

    while (spent < BATCH) {
        times *= 2;
        spent = work(times);
    }
    least = spent;
    for (batches = 1; batches < LEAST_BATCHES || spent < SPEND; batches++) {
        double took = work(times);

        spent += took;
        if (took < least)
            least = took;
    }
    return least / times;
}
