/* CPU time. */
#include "bench.h"

#include <math.h>
#include <stdio.h>
#include <time.h>

static double cpu_seconds(void)
{
    struct timespec t;
    clock_gettime(CLOCK_PROCESS_CPUTIME_ID, &t);
    return (double)t.tv_sec + 1e-9 * (double)t.tv_nsec;
}

double time_of(int (*call)(void))
{
    double begin = cpu_seconds(), best = HUGE_VAL;
    unsigned long calls = 1;
    do {
        double start = cpu_seconds();
        for (unsigned long i = 0; i < calls; i++)
            call();
        double spent = cpu_seconds() - start;
        best = fmin(best, spent / (double)calls);
        if (spent < 0.005)
            calls *= 2;
    } while (cpu_seconds() - begin < 0.5);
    return best;
}

const char *time_text(double seconds)
{
    static char text[32];
    static const char *const units[] = {"s", "ms", "µs", "ns"};
    int unit = 0;
    for (; seconds < 1 && unit < 3; unit++)
        seconds *= 1000;
    snprintf(text, sizeof text, "%.*f %s", seconds < 9.995 ? 2 : seconds < 99.95 ? 1 : 0, seconds, units[unit]);
    return text;
}
