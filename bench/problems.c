/* The problems. */
#include "bench.h"

#include <string.h>

uint64_t draw(uint64_t limit)
{
    static uint64_t state = 20011;
    uint64_t x = state += 0x9e3779b97f4a7c15u;
    x = (x ^ (x >> 30)) * 0xbf58476d1ce4e5b9u;
    x = (x ^ (x >> 27)) * 0x94d049bb133111ebu;
    return (x ^ (x >> 31)) % limit;
}

problem constant(const char *name, uint32_t p, uint32_t n, int64_t c)
{
    problem q = {name, p, n, 1, 1, {c}};
    for (uint32_t i = 0; i < n; i++)
        q.modulus *= p;
    return q;
}

void times_factor(problem *q, uint64_t r)
{
    uint64_t m = q->modulus;
    for (size_t i = q->count++; i > 0; i--)
        q->f[i] = (int64_t)(((uint64_t)q->f[i - 1] + (m - r) * (uint64_t)q->f[i]) % m);
    q->f[0] = (int64_t)((m - r) * (uint64_t)q->f[0] % m);
}

problem consecutive(const char *name, uint32_t p, uint32_t n, int64_t c, uint64_t count)
{
    problem q = constant(name, p, n, c);
    for (uint64_t r = 0; r < count; r++)
        times_factor(&q, r);
    return q;
}

problem simple_roots(const char *name, uint32_t p, uint32_t n)
{
    problem q = constant(name, p, n, 1);
    static uint8_t taken[65536];
    memset(taken, 0, sizeof taken);
    while (q.count < WIMPLECLAY_MAX_COEFFICIENTS) {
        uint64_t r = draw(q.modulus);
        if (!taken[r % p]++)
            times_factor(&q, r);
    }
    return q;
}

problem drawn(const char *name, uint32_t p, uint32_t n)
{
    problem q = constant(name, p, n, 0);
    for (q.count = 0; q.count < WIMPLECLAY_MAX_COEFFICIENTS; q.count++)
        q.f[q.count] = (int64_t)draw(q.modulus);
    return q;
}

problem unity(const char *name, uint32_t p, uint32_t n, int64_t c, size_t d)
{
    problem q = constant(name, p, n, -c);
    q.f[d] = c;
    q.count = d + 1;
    return q;
}

problem repeated(const char *name, uint32_t p, uint32_t n, uint64_t r, int times)
{
    problem q = constant(name, p, n, 1);
    while (times-- > 0)
        times_factor(&q, r);
    return q;
}

problem fermat(void)
{
    problem q = constant("(x^13 − x)^4 mod 13^8", 13, 8, 0);
    static const int64_t binomial[] = {1, -4, 6, -4, 1};
    for (size_t i = 0; i <= 4; i++)
        q.f[4 + 12 * i] = binomial[i];
    q.count = 53;
    return q;
}
