/* Many points: one call of wimpleclay_test_points beside a call of wimpleclay_is_root for each point, and FLINT. */
#include "bench.h"

#include <math.h>
#include <stdio.h>

enum { POINTS = 100000, ROOTS = 32, ROUNDS = 3 };

static problem given;
static wimpleclay_query row[POINTS];
static uint8_t singly[POINTS];

/* A polynomial of degree 64, the product of a drawn one and of x - r for 32 drawn r, and drawn points, one in a hundred
   of them such an r. */
static void draw_points(const char *name, uint32_t p, uint32_t n)
{
    uint64_t roots[ROOTS];
    given = constant(name, p, n, 0);
    for (given.count = 0; given.count < WIMPLECLAY_MAX_COEFFICIENTS - ROOTS; given.count++)
        given.f[given.count] = (int64_t)draw(given.modulus);
    for (size_t i = 0; i < ROOTS; i++)
        times_factor(&given, roots[i] = draw(given.modulus));
    for (size_t i = 0; i < POINTS; i++)
        row[i].point = (uint32_t)(draw(100) ? draw(given.modulus) : roots[draw(ROOTS)]);
}

static int run_row(void)
{
    return wimpleclay_test_points(given.f, given.count, given.p, given.n, row, POINTS).number == 0;
}

static int is_root_in_row(size_t i)
{
    return row[i].answer == 1;
}

static int run_singly(void)
{
    int all = 1;
    for (size_t i = 0; i < POINTS; i++) {
        wimpleclay_test_answer a = wimpleclay_is_root(given.f, given.count, given.p, given.n, row[i].point);
        all = all && a.number == 0;
        singly[i] = (uint8_t)a.root;
    }
    return all;
}

static int is_root_singly(size_t i)
{
    return singly[i];
}

static const tester by_row = {"`test_points`", NULL, run_row, is_root_in_row};
static const tester by_call = {"`is_root` for each", NULL, run_singly, is_root_singly};

static const tester *const testers[] = {
    &by_row,
    &by_call,
#ifdef WITH_FLINT
    &flint_points,
    &flint_horner,
#endif
};

enum { TESTERS = sizeof testers / sizeof *testers };

/* Whether the tester, made ready here, finds the same roots as the row has once it is answered. */
static int agrees(const tester *t)
{
    if (t->prepare)
        t->prepare(&given, row, POINTS);
    int all = t->run();
    for (size_t i = 0; i < POINTS; i++)
        all = all && t->is_root(i) == is_root_in_row(i);
    return all;
}

/* The best of some rounds, in which the testers take turns. Returns whether all agree. */
static int print_row(void)
{
    double best[TESTERS];
    int all = 1, roots = 0;
    for (int i = 0; i < TESTERS; i++) {
        best[i] = HUGE_VAL;
        all = agrees(testers[i]) && all;
    }
    for (size_t i = 0; i < POINTS; i++)
        roots += is_root_in_row(i);
    for (int round = 0; round < ROUNDS; round++)
        for (int i = 0; i < TESTERS; i++)
            best[i] = fmin(best[i], time_of(testers[i]->run));
    printf("| %s | %d | %s |", given.name, roots, time_text(best[0]));
    for (int i = 1; i < TESTERS; i++)
        printf(" %s | %.1f |", time_text(best[i]), best[i] / best[0]);
    printf("\n");
    return all;
}

int print_points(void)
{
    printf("\n| 100,000 points at degree 64 | roots | %s |", testers[0]->name);
    for (int i = 1; i < TESTERS; i++)
        printf(" %s | ratio |", testers[i]->name);
    printf("\n|---|--:|--:|");
    for (int i = 1; i < TESTERS; i++)
        printf("--:|--:|");
    printf("\n");
    draw_points("mod 65521^2", 65521, 2);
    int all = print_row();
    draw_points("mod 2^31", 2, 31);
    return print_row() && all;
}
