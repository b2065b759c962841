/* bench.h: what the driver, the problems and the solvers that it times share. */
#ifndef BENCH_H
#define BENCH_H

#include <stdint.h>
#include <wimpleclay.h>

typedef struct {
    const char *name;
    uint32_t p, n;
    uint64_t modulus; /* p^n */
    size_t count;     /* of coefficients */
    int64_t f[WIMPLECLAY_MAX_COEFFICIENTS];
} problem;

/* A solver, used in a process of its own: prepared once, outside the time, and then run any number of times. */
typedef struct {
    const char *name, *version;
    int (*prepare)(const problem *); /* 0 if the solver is not made for the problem */
    int (*run)(void);                /* 0 if the solver declines */
    uint64_t (*root_count)(void);    /* how many roots the last run found */
    uint64_t (*root)(uint64_t i);    /* root i of these, or null where they are not listed one by one */
} solver;

extern const solver flint, pari;

/* A test of many points: prepared, where that is not null, outside the time, and then run any number of times. */
typedef struct {
    const char *name;
    void (*prepare)(const problem *, const wimpleclay_query *queries, size_t length);
    int (*run)(void);         /* 0 if the call is refused */
    int (*is_root)(size_t i); /* whether the last run found that point i is a root */
} tester;

extern const tester flint_points, flint_horner;

/* Prints the table of tests of many points. Returns whether all testers agree. */
int print_points(void);

/* Prints the table of counts at every precision. Returns whether they are the solver's. */
int print_counts(void);

/* Prints the table of lists raised to a higher precision. Returns whether they are the solver's there. */
int print_raised(void);

/* Prints the table of systems. Returns whether adding and withdrawing a polynomial leave the right ones. */
int print_systems(void);

/* The least time of one call, over batches of calls that fill half a second. */
double time_of(int (*call)(void));

/* A time with its unit, until the next call. */
const char *time_text(double seconds);

/* The next drawn number, below the limit. */
uint64_t draw(uint64_t limit);

/* The constant c. */
problem constant(const char *name, uint32_t p, uint32_t n, int64_t c);

/* Multiplies by x - r. */
void times_factor(problem *q, uint64_t r);

/* c·x·(x - 1)···(x - count + 1) */
problem consecutive(const char *name, uint32_t p, uint32_t n, int64_t c, uint64_t count);

/* 64 factors x - r, no two of the drawn r congruent modulo p. */
problem simple_roots(const char *name, uint32_t p, uint32_t n);

/* 65 drawn coefficients. */
problem drawn(const char *name, uint32_t p, uint32_t n);

/* c·(x^d - 1) */
problem unity(const char *name, uint32_t p, uint32_t n, int64_t c, size_t d);

/* (x - r)^times */
problem repeated(const char *name, uint32_t p, uint32_t n, uint64_t r, int times);

/* (x^13 - x)^4 modulo 13^8 */
problem fermat(void);

#endif
