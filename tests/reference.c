/* Plain trial. */
#include "reference.h"

#include <string.h>

uint64_t power(uint32_t p, uint32_t n)
{
    uint64_t m = 1;
    for (uint32_t i = 0; i < n; i++) {
        m *= p;
        if (m > UINT32_MAX)
            return 0;
    }
    return m;
}

refusal refused_modulus(uint32_t p, uint32_t n)
{
    if (p < 2 || p > 65535)
        return (refusal){4, 0};
    for (uint32_t d = 2; d < p; d++)
        if (p % d == 0)
            return (refusal){14, d};
    return (refusal){n == 0 || power(p, n) == 0 ? 5 : 0, 0};
}

/* x modulo m, from 0 to m - 1 */
static uint64_t residue_of(int64_t x, uint64_t m)
{
    int64_t r = x % (int64_t)m;
    return (uint64_t)(r < 0 ? r + (int64_t)m : r);
}

uint64_t value(const int64_t *f, size_t count, uint64_t x, uint64_t m)
{
    uint64_t v = 0;
    for (size_t i = count; i-- > 0;)
        v = (v * x + residue_of(f[i], m)) % m;
    return v;
}

uint64_t count_by_trial(const int64_t *f, size_t count, uint64_t m)
{
    uint64_t zeros = 0;
    for (uint64_t r = 0; r < m; r++)
        zeros += value(f, count, r, m) == 0;
    return zeros;
}

/* p^s: the largest power of p below m that divides every coefficient, and m where all reduce to zero. */
static uint64_t common_power(const int64_t *f, size_t count, uint32_t p, uint64_t m)
{
    uint64_t q = m;
    for (size_t i = 0; i < count; i++)
        while (residue_of(f[i], m) % q != 0)
            q /= p;
    return q;
}

/* 1 if p divides the derivative of f / p^s at no member of the class, 0 if at all, 2 if at some; 0 if all coefficients reduce to zero. */
static uint8_t mark(const int64_t *f, size_t count, int64_t z, uint64_t step, uint32_t p, uint64_t m)
{
    uint64_t q = common_power(f, count, p, m), members = 0, zeros = 0;
    if (q == m)
        return 0;
    for (uint64_t r = residue_of(z, step); r < m; r += step) {
        uint64_t v = 0;
        for (size_t i = count; i-- > 1;)
            v = (v * (r % p) + i * (residue_of(f[i], m) / q % p)) % p;
        zeros += v == 0;
        members++;
    }
    return zeros == 0 ? 1 : zeros == members ? 0 : 2;
}

/* Whether all residues congruent to z modulo the step are in the set. */
static int whole(const uint8_t *set, int64_t z, uint64_t step, uint64_t m)
{
    for (uint64_t r = residue_of(z, step); r < m; r += step)
        if (!set[r])
            return 0;
    return 1;
}

static int below_range(int64_t z, uint64_t q)
{
    return 2 * z <= -(int64_t)q;
}

static int above_range(int64_t z, uint64_t q)
{
    return 2 * z > (int64_t)q;
}

int in_list(uint32_t p, const list *l, int64_t x)
{
    for (size_t i = 0; i < l->k; i++)
        if ((x - l->residues[i]) % (int64_t)power(p, l->levels[i]) == 0)
            return 1;
    return 0;
}

void shortest_by_trial(uint32_t p, uint32_t n, list *s)
{
    uint64_t m = power(p, n);
    s->k = 0;
    s->members = 0;
    for (uint64_t r = 0; r < m; r++)
        s->members += s->member[r];
    for (int64_t z = -(int64_t)m; z <= (int64_t)m; z++)
        for (uint32_t t = 0; t <= n; t++) {
            uint64_t step = power(p, t);
            if (below_range(z, step) || above_range(z, step) || !whole(s->member, z, step, m) ||
                (t > 0 && whole(s->member, z, step / p, m)))
                continue;
            s->residues[s->k] = (int32_t)z;
            s->levels[s->k++] = (uint8_t)t;
        }
}

void raise_by_trial(const int64_t *f, size_t count, uint32_t p, uint32_t n, const list *given, list *s)
{
    uint64_t m = power(p, n);
    memset(s, 0, sizeof *s);
    for (uint64_t r = 0; r < m; r++)
        s->member[r] = value(f, count, r, m) == 0 && in_list(p, given, (int64_t)r);
    shortest_by_trial(p, n, s);
    for (size_t i = 0; i < s->k; i++)
        s->marks[i] = mark(f, count, s->residues[i], power(p, s->levels[i]), p, m);
}

void solve_by_trial(const int64_t *f, size_t count, uint32_t p, uint32_t n, list *s)
{
    static const list everything = {.k = 1};
    raise_by_trial(f, count, p, n, &everything, s);
}

/* Adds to g the coefficients modulo m of f(a + q y) in y, those of f[i] (a + q y)^i for each i. */
static void add_substituted(const int64_t *f, size_t count, uint64_t a, uint64_t q, uint64_t m, int64_t *g)
{
    uint64_t factor[COEFFICIENTS + 1] = {1};
    for (size_t i = 0; i < count; i++) {
        for (size_t j = 0; j <= i; j++)
            g[j] = (int64_t)(((uint64_t)g[j] + residue_of(f[i], m) * factor[j]) % m);
        for (size_t j = i + 1; j > 0; j--)
            factor[j] = (factor[j] * a % m + factor[j - 1] * q) % m;
        factor[0] = factor[0] * a % m;
    }
}

/* The live class a/t and those inside it. */
static uint64_t live_inside(const int64_t *f, size_t count, uint32_t p, uint32_t n, uint64_t a, uint32_t t)
{
    uint64_t m = power(p, n), q = power(p, t), live = 1;
    int64_t g[COEFFICIENTS] = {0};
    add_substituted(f, count, a, q, m, g);
    uint64_t common = common_power(g, count, p, m);
    if (common == m)
        return live;
    for (size_t j = 0; j < count; j++)
        g[j] /= (int64_t)common;
    for (uint64_t c = 0; c < p; c++)
        if (value(g, count, c, p) == 0)
            live += live_inside(f, count, p, n, a + q * c, t + 1);
    return live;
}

uint64_t live_by_trial(const int64_t *f, size_t count, uint32_t p, uint32_t n)
{
    return live_inside(f, count, p, n, 0, 0);
}

size_t degree_bound(const int64_t *f, size_t count, uint32_t p, uint32_t n)
{
    uint64_t m = power(p, n), q = common_power(f, count, p, m);
    size_t degree = 0;
    for (size_t i = 0; i < count; i++)
        if (residue_of(f[i], m) / q % p != 0)
            degree = i;
    return degree;
}

/* Whether entries i and j of the list have a common member. */
static int share(uint32_t p, uint32_t n, const list *l, size_t i, size_t j)
{
    uint64_t m = power(p, n), step = power(p, l->levels[i]), other = power(p, l->levels[j]);
    uint64_t rest = residue_of(l->residues[j], other);
    for (uint64_t r = residue_of(l->residues[i], step); r < m; r += step)
        if (r % other == rest)
            return 1;
    return 0;
}

fault fault_at(uint32_t p, uint32_t n, const list *l, size_t i, int marked)
{
    int64_t z = l->residues[i];
    if (l->levels[i] > n)
        return HIGH_LEVEL;
    if (below_range(z, power(p, l->levels[i])))
        return LOW_RESIDUE;
    if (above_range(z, power(p, l->levels[i])))
        return HIGH_RESIDUE;
    if (i > 0 && z <= l->residues[i - 1])
        return z == l->residues[i - 1] ? EQUAL_RESIDUE : FALLING_RESIDUE;
    for (size_t j = 0; j < i; j++)
        if (share(p, n, l, i, j))
            return l->levels[i] > l->levels[j] ? INSIDE : AROUND;
    return marked && l->marks[i] > 2 ? HIGH_MARK : SOUND;
}

refusal refused_list(uint32_t p, uint32_t n, const list *l, size_t residues, size_t levels, const size_t *marks)
{
    refusal none = {0, 0}, modulus = refused_modulus(p, n);
    size_t third = marks ? *marks : residues;
    if (modulus.number)
        return modulus;
    if (residues != levels || residues != third) {
        size_t least = residues < levels ? residues : levels;
        return (refusal){6, third < least ? third : least};
    }
    for (size_t i = 0; i < residues; i++)
        if (fault_at(p, n, l, i, marks != NULL) != SOUND)
            return (refusal){7, i};
    return none;
}

void fill_members(uint32_t p, uint32_t n, list *l)
{
    uint64_t m = power(p, n);
    memset(l->member, 0, sizeof l->member);
    l->members = 0;
    for (size_t i = 0; i < l->k; i++) {
        uint64_t step = power(p, l->levels[i]);
        for (uint64_t r = residue_of(l->residues[i], step); r < m; r += step) {
            l->member[r] = 1;
            l->members++;
        }
    }
}

uint64_t next_by_trial(uint32_t p, uint32_t n, const list *l, uint64_t point)
{
    uint64_t m = power(p, n), next = m;
    for (size_t i = 0; i < l->k; i++) {
        uint64_t step = power(p, l->levels[i]);
        for (uint64_t r = residue_of(l->residues[i], step); r < m; r += step)
            if (r >= point && r < next)
                next = r;
    }
    return next;
}
