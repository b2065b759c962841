/* Raising the precision of a list: wimpleclay_raise, from the solver's list at n to m, beside wimpleclay_solve at m. */
#include "bench.h"

#include <math.h>
#include <stdio.h>
#include <string.h>

enum { ROUNDS = 3, SLOTS = WIMPLECLAY_MAX_RAISED };

typedef struct {
    int32_t residues[SLOTS];
    uint8_t levels[SLOTS], marks[SLOTS];
    uint32_t number;
    size_t classes;
    uint64_t roots;
} list;

static problem given; /* at the precision m */
static uint32_t from;
static list start, raised, fresh;

static int solve(uint32_t n, list *l)
{
    wimpleclay_solve_answer a = wimpleclay_solve(given.f, given.count, given.p, n, l->residues, SLOTS, l->levels, SLOTS,
                                                 l->marks, SLOTS);
    l->number = a.number;
    l->classes = a.classes;
    l->roots = a.roots;
    return a.number == 0;
}

static int run_raise(void)
{
    wimpleclay_raise_answer a = wimpleclay_raise(given.f, given.count, given.p, from, given.n, start.residues, start.classes,
                                                 start.levels, start.classes, raised.residues, SLOTS, raised.levels, SLOTS,
                                                 raised.marks, SLOTS);
    raised.number = a.number;
    raised.classes = a.classes;
    raised.roots = a.roots;
    return a.number == 0;
}

static int run_solve(void)
{
    return solve(given.n, &fresh);
}

/* The best of some rounds, in which the two take turns. Returns whether they found the same list. */
static int print_row(problem q, uint32_t n)
{
    given = q;
    from = n;
    memset(&raised, 0, sizeof raised);
    memset(&fresh, 0, sizeof fresh);
    int all = solve(n, &start) && run_raise() && run_solve() && !memcmp(&raised, &fresh, sizeof fresh);
    double raise = HUGE_VAL, solved = HUGE_VAL;
    for (int round = 0; round < ROUNDS; round++) {
        raise = fmin(raise, time_of(run_raise));
        solved = fmin(solved, time_of(run_solve));
    }
    printf("| %s, from n = %u | %zu | %zu | %s |", q.name, (unsigned)n, start.classes, raised.classes, time_text(raise));
    printf(" %s | %.1f |\n", time_text(solved), solved / raise);
    return all;
}

int print_raised(void)
{
    printf("\n| raised | given classes | classes | `raise` | `solve` at m | ratio |\n|---|--:|--:|--:|--:|--:|\n");
    int all = print_row(unity("x^2 − 1 mod 65521^2", 65521, 2, 1, 2), 1);
    all = print_row(simple_roots("64 simple roots mod 65521^2", 65521, 2), 1) && all;
    all = print_row(simple_roots("64 simple roots mod 251^4", 251, 4), 2) && all;
    all = print_row(fermat(), 4) && all;
    all = print_row(unity("x^2 − 1 mod 2^31", 2, 31, 1, 2), 20) && all;
    all = print_row(unity("x^64 − 1 mod 2^31", 2, 31, 1, 64), 20) && all;
    return print_row(consecutive("x(x − 1)…(x − 30) mod 2^31", 2, 31, 1, 31), 20) && all;
}
