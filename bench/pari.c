/* PARI: FpX_roots gives the roots modulo p and ZpX_liftroots lifts them, which takes simple roots. */
#include "bench.h"

#include <pari/pari.h>

static GEN f, p, found;
static long n;
static uint64_t modulus;
static pari_sp top;

/* Whether f is not 0 modulo p, and its derivative is 0 at none of its roots. */
static int all_simple(void)
{
    if (!signe(FpX_red(f, p)))
        return 0;
    GEN zeros = FpX_roots(f, p), slope = FpX_deriv(f, p);
    for (long i = 1; i < lg(zeros); i++)
        if (!signe(FpX_eval(slope, gel(zeros, i), p)))
            return 0;
    return 1;
}

static int prepare(const problem *q)
{
    pari_init(1 << 26, 1 << 16);
    f = cgetg((long)q->count + 2, t_POL);
    f[1] = evalsigne(1) | evalvarn(0);
    for (size_t i = 0; i < q->count; i++)
        gel(f, i + 2) = stoi(q->f[i]);
    f = normalizepol(f);
    p = utoi(q->p);
    n = q->n;
    modulus = q->modulus;
    top = avma;
    return n == 1 || all_simple();
}

static int run(void)
{
    set_avma(top);
    found = FpX_roots(f, p);
    if (n > 1)
        found = ZpX_liftroots(f, found, p, n);
    return 1;
}

static uint64_t root_count(void)
{
    return (uint64_t)lg(found) - 1;
}

static uint64_t root(uint64_t i)
{
    return umodiu(gel(found, i + 1), modulus);
}

const solver pari = {"PARI", PARIVERSION + sizeof "GP/PARI CALCULATOR Version", prepare, run, root_count, root};
