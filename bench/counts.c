/* Counts at every precision: wimpleclay_counts beside wimpleclay_solve, at precision n alone and at each up to n. */
#include "bench.h"

#include <fcntl.h>
#include <inttypes.h>
#include <math.h>
#include <stdio.h>
#include <stdlib.h>
#include <sys/resource.h>
#include <sys/wait.h>
#include <unistd.h>

enum { PROBLEMS = 1000, ROUNDS = 3 };

static problem given;
static uint64_t row[WIMPLECLAY_MAX_COUNTS];

static wimpleclay_solve_answer solve(uint32_t n)
{
    static int32_t residues[WIMPLECLAY_MAX_CLASSES];
    static uint8_t levels[WIMPLECLAY_MAX_CLASSES], marks[WIMPLECLAY_MAX_CLASSES];
    return wimpleclay_solve(given.f, given.count, given.p, n, residues, WIMPLECLAY_MAX_CLASSES, levels,
                            WIMPLECLAY_MAX_CLASSES, marks, WIMPLECLAY_MAX_CLASSES);
}

static int run_counts(void)
{
    int all = 1;
    for (int i = 0; i < PROBLEMS; i++)
        all = wimpleclay_counts(given.f, given.count, given.p, given.n, row, WIMPLECLAY_MAX_COUNTS).number == 0 && all;
    return all;
}

static int run_solve(void)
{
    int all = 1;
    for (int i = 0; i < PROBLEMS; i++)
        all = solve(given.n).number == 0 && all;
    return all;
}

static int run_solve_at_each(void)
{
    int all = 1;
    for (int i = 0; i < PROBLEMS; i++)
        for (uint32_t j = 1; j <= given.n; j++)
            all = solve(j).number == 0 && all;
    return all;
}

static int (*const runs[])(void) = {run_counts, run_solve, run_solve_at_each};

enum { RUNS = sizeof runs / sizeof *runs };

/* The report program's CPU time for the same problems as one text; it is not a number where there is no program. */
static double time_of_report(void)
{
#ifdef REPORT
    FILE *text = tmpfile();
    if (!text)
        return NAN;
    for (int i = 0; i < PROBLEMS; i++) {
        fprintf(text, "%11" PRIu32 "%11" PRIu32 "%11zu\n", given.p, given.n, given.count);
        for (size_t j = 0; j < given.count; j++)
            fprintf(text, "%20" PRId64 "\n", given.f[j]);
    }
    rewind(text);
    fflush(stdout);
    pid_t child = fork();
    if (child == 0) {
        if (dup2(fileno(text), 0) == 0 && dup2(open("/dev/null", O_WRONLY), 1) == 1)
            execl(REPORT, REPORT, (char *)NULL);
        _exit(127);
    }
    fclose(text);
    struct rusage used;
    int status;
    if (child < 0 || wait4(child, &status, 0, &used) != child || !WIFEXITED(status) || WEXITSTATUS(status) == 127)
        return NAN;
    return (double)(used.ru_utime.tv_sec + used.ru_stime.tv_sec) + 1e-6 * (double)(used.ru_utime.tv_usec + used.ru_stime.tv_usec);
#else
    return NAN;
#endif
}

/* The best of some rounds, in which the runs take turns. Returns whether the row has the solver's root counts. */
static int print_row(problem q)
{
    given = q;
    double best[RUNS] = {HUGE_VAL, HUGE_VAL, HUGE_VAL};
    int all = run_counts() && row[0] == 1;
    for (uint32_t j = 1; j <= given.n; j++)
        all = solve(j).roots == row[j] && all;
    for (int round = 0; round < ROUNDS; round++)
        for (int i = 0; i < RUNS; i++)
            best[i] = fmin(best[i], time_of(runs[i]));
    printf("| %s | %.0f | %s |", given.name, PROBLEMS / best[0], time_text(best[0]));
    for (int i = 1; i < RUNS; i++)
        printf(" %s | %.1f |", time_text(best[i]), best[i] / best[0]);
    double report = NAN;
    for (int round = 0; round < ROUNDS; round++)
        report = fmin(report, time_of_report());
    if (isnan(report))
        printf(" | |\n");
    else
        printf(" %s | %.1f |\n", time_text(report), report / best[0]);
    return all;
}

int print_counts(void)
{
    printf("\n| 1,000 problems | problems a second | `counts` | `solve` | ratio | `solve` at each precision | ratio | the program `report` | ratio |\n"
           "|---|--:|--:|--:|--:|--:|--:|--:|--:|\n");
    int all = print_row(unity("x^2 − 1 mod 2^31", 2, 31, 1, 2));
    all = print_row(simple_roots("64 simple roots mod 251^4", 251, 4)) && all;
    return print_row(drawn("random of degree 64 mod 251^4", 251, 4)) && all;
}
