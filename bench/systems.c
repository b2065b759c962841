/* Systems: a polynomial added to fifteen others, the oldest of sixteen withdrawn, and the common list fetched, beside wimpleclay_solve for
   each of the fifteen that are left. */
#include "bench.h"

#include <math.h>
#include <stdio.h>
#include <string.h>

enum { ROUNDS = 3, HELD = WIMPLECLAY_MAX_HELD, SLOTS = WIMPLECLAY_MAX_COMMON };

static problem given[HELD];
static wimpleclay_system all, without_last, without_first, after;
static int32_t residues[SLOTS];
static uint8_t levels[SLOTS], marks[SLOTS];

/* Makes a system of the given polynomials from one index on to another, each with its index as the tag. */
static int make(wimpleclay_system *system, uint32_t from, uint32_t to)
{
    int done = wimpleclay_system_open(given[0].p, given[0].n, system).number == 0;
    for (uint32_t i = from; i < to; i++)
        done = wimpleclay_system_add(system, i, given[i].f, given[i].count).number == 0 && done;
    return done;
}

/* The calls that are timed. A call that changes a system has a copy made first, which is in its time. */

static int add(void)
{
    after = without_last;
    return wimpleclay_system_add(&after, HELD - 1, given[HELD - 1].f, given[HELD - 1].count).number == 0;
}

static int withdraw(void)
{
    after = all;
    return wimpleclay_system_withdraw(&after, 0).number == 0;
}

static int fetch(void)
{
    return wimpleclay_system_fetch(&all, residues, SLOTS, levels, SLOTS).number == 0;
}

static int solve_others(void)
{
    int done = 1;
    for (int i = 1; i < HELD; i++)
        done = wimpleclay_solve(given[i].f, given[i].count, given[i].p, given[i].n, residues, SLOTS, levels, SLOTS, marks,
                                SLOTS)
                       .number == 0 &&
               done;
    return done;
}

/* The best of some rounds, in which the calls take turns. Returns whether adding and withdrawing give the systems made without them. */
static int print_row(const char *name)
{
    static int (*const calls[])(void) = {add, withdraw, fetch, solve_others};
    double best[] = {HUGE_VAL, HUGE_VAL, HUGE_VAL, HUGE_VAL};
    int done = make(&all, 0, HELD) && make(&without_last, 0, HELD - 1) && make(&without_first, 1, HELD);
    done = add() && !memcmp(&after, &all, sizeof all) && done;
    done = withdraw() && !memcmp(&after, &without_first, sizeof all) && done;
    for (int round = 0; round < ROUNDS; round++)
        for (int i = 0; i < 4; i++)
            best[i] = fmin(best[i], time_of(calls[i]));
    size_t classes = wimpleclay_system_fetch(&all, residues, SLOTS, levels, SLOTS).classes;
    printf("| %s | %zu |", name, classes);
    for (int i = 0; i < 4; i++)
        printf(" %s |", time_text(best[i]));
    printf(" %.1f |\n", best[3] / best[1]);
    return done;
}

static int print_same(problem q)
{
    for (int i = 0; i < HELD; i++)
        given[i] = q;
    return print_row(q.name);
}

/* Multiplies by a factor x - r for each digit, r being a drawn residue above it. */
static void times_digits(problem *q, uint64_t from, uint64_t to)
{
    for (uint64_t digit = from; digit < to; digit++)
        times_factor(q, digit + q->p * draw(q->modulus / q->p));
}

/* 64 simple roots, of which 32 are those of every polynomial. */
static int print_half(void)
{
    problem common = constant("64 simple roots mod 251^4, 32 of them common", 251, 4, 1);
    times_digits(&common, 0, 32);
    for (int i = 0; i < HELD; i++) {
        given[i] = common;
        times_digits(&given[i], 32, 64);
    }
    return print_row(common.name);
}

int print_systems(void)
{
    printf("\n| 16 polynomials | common classes | `add` | `withdraw` | `fetch` | `solve` for 15 | to `withdraw` |\n");
    printf("|---|--:|--:|--:|--:|--:|--:|\n");
    int done = print_same(unity("x^2 − 1 mod 2^4", 2, 4, 1, 2));
    done = print_same(unity("x^2 − 1 mod 2^31", 2, 31, 1, 2)) && done;
    done = print_same(consecutive("x(x − 1)…(x − 30) mod 2^31", 2, 31, 1, 31)) && done;
    done = print_half() && done;
    done = print_same(simple_roots("64 simple roots mod 251^4", 251, 4)) && done;
    return print_same(simple_roots("64 simple roots mod 65521", 65521, 1)) && done;
}
