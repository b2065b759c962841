/* wimpleclay_solve, wimpleclay_next_root on its lists and wimpleclay_is_root, on drawn polynomials, against trial. */
#include "check.h"
#include "drawn.h"
#include "tests.h"

#include <string.h>
#include <wimpleclay.h>

/* What the solver must answer: the list, and the number of live classes. */
static list s;
static uint64_t live;

/* Calls the solver with lists of this many slots. */
static void solve_into(const loan *f, size_t count, uint32_t p, uint32_t n, size_t slots)
{
    loan residues = lend(NULL, slots * sizeof *s.residues), levels = lend(NULL, slots), marks = lend(NULL, slots);
    wimpleclay_solve_answer a =
        wimpleclay_solve(lent(f), count, p, n, lent(&residues), slots, lent(&levels), slots, lent(&marks), slots);
    size_t k = slots < s.k ? 0 : s.k;
    if (slots < s.k) {
        expect(a.number == 11 && a.place == s.k && a.classes == 0 && a.roots == 0 && a.live == 0,
               "solve: too few slots");
    } else {
        expect(a.number == 0 && a.place == 0 && a.classes == s.k && a.roots == s.members, "solve: k and root count");
        expect(a.live == live, "solve: live classes");
        expect(memcmp(lent(&residues), s.residues, k * sizeof *s.residues) == 0, "solve: residues");
        expect(memcmp(lent(&levels), s.levels, k) == 0, "solve: levels");
        expect(memcmp(lent(&marks), s.marks, k) == 0, "solve: marks");
    }
    expect(kept_from(&residues, k * sizeof *s.residues) && kept_from(&levels, k) && kept_from(&marks, k),
           "solve: other memory is kept");
    expect(kept_from(f, 0), "solve: coefficients are kept");
    end_loan(&residues);
    end_loan(&levels);
    end_loan(&marks);
}

/* Steps through the roots, from the point 0 on. */
static void step_through(uint32_t p, uint32_t n, uint32_t m)
{
    uint32_t point = 0;
    for (uint32_t r = 0; r < m; r++) {
        if (!s.member[r])
            continue;
        wimpleclay_next_answer a = wimpleclay_next_root(p, n, s.residues, s.k, s.levels, s.k, point);
        expect(a.number == 0 && a.found == 1 && a.root == r, "next_root: each root in turn");
        point = r + 1;
    }
    wimpleclay_next_answer a = wimpleclay_next_root(p, n, s.residues, s.k, s.levels, s.k, point);
    expect(a.number == (point == m ? 8 : 0) && a.found == 0 && a.root == 0, "next_root: no root after the last");
}

static void test_polynomial(const int64_t *coefficients, size_t count, uint32_t p, uint32_t n)
{
    uint32_t m = (uint32_t)power(p, n);
    loan f = lend(coefficients, count * sizeof *coefficients);
    solve_by_trial(coefficients, count, p, n, &s);
    live = live_by_trial(coefficients, count, p, n);
    expect(s.k <= WIMPLECLAY_MAX_CLASSES, "no more classes than WIMPLECLAY_MAX_CLASSES");
    expect(live >= 1 && live <= 1 + n * degree_bound(coefficients, count, p, n), "1 to 1 + n D live classes");
    solve_into(&f, count, p, n, s.k);
    solve_into(&f, count, p, n, s.k + 1 + draw(5));
    if (s.k > 0)
        solve_into(&f, count, p, n, draw(s.k));
    step_through(p, n, m);
    for (uint32_t r = 0; r < m; r += 1 + (uint32_t)draw(1 + m / 16)) {
        wimpleclay_test_answer a = wimpleclay_is_root(lent(&f), count, p, n, r);
        expect(a.number == 0 && a.place == 0 && a.root == s.member[r], "is_root: agrees with trial");
    }
    wimpleclay_test_answer past = wimpleclay_is_root(lent(&f), count, p, n, m + (uint32_t)draw(9));
    expect(past.number == 8 && past.place == 0 && past.root == 0, "is_root: point past the modulus");
    expect(kept_from(&f, 0), "is_root: coefficients are kept");
    end_loan(&f);
}

static void test_modulus(uint32_t p, uint32_t n, int polynomials)
{
    int64_t f[COEFFICIENTS];
    for (int i = 0; i < polynomials; i++)
        test_polynomial(f, draw_polynomial(p, n, i, f), p, n);
}

/* A residue of least size modulo m, often one of the outermost. */
static int64_t draw_least(uint64_t m)
{
    int64_t high = (int64_t)(m / 2), low = high - (int64_t)m + 1;
    switch (draw(3)) {
    case 0:
        return low + (int64_t)draw(4);
    case 1:
        return high - (int64_t)draw(4);
    default:
        return low + (int64_t)draw(m);
    }
}

/* (x - a)(x - b), a < b, both of least size and not congruent modulo p: the classes are a/n and b/n. Live are everything and, at every
   other level, the classes of a and b. */
static void test_two_roots(uint32_t p, uint32_t n)
{
    int64_t a = draw_least(power(p, n)), b = draw_least(power(p, n));
    if (a >= b || (b - a) % p == 0)
        return;
    s = (list){2, {(int32_t)a, (int32_t)b}, {(uint8_t)n, (uint8_t)n}, {1, 1}, {0}, 2};
    live = 1 + 2 * n;
    loan f = lend((const int64_t[]){a * b, -a - b, 1}, 3 * sizeof(int64_t));
    expect(live_by_trial(lent(&f), 3, p, n) == live && degree_bound(lent(&f), 3, p, n) == 2,
           "two roots: live classes");
    solve_into(&f, 3, p, n, 2);
    end_loan(&f);
}

/* x (x - 1) .. (x - 63), p above 63: the classes are i/n, and no polynomial has more live classes modulo p^n. */
static void test_most_live(uint32_t p, uint32_t n)
{
    int64_t coefficients[COEFFICIENTS] = {1};
    s = (list){.members = 64};
    for (size_t count = 1; count < COEFFICIENTS; s.k++) {
        count = times_root(coefficients, count, (uint32_t)s.k, (uint32_t)power(p, n));
        s.residues[s.k] = (int32_t)s.k;
        s.levels[s.k] = (uint8_t)n;
        s.marks[s.k] = 1;
    }
    live = 1 + 64 * n;
    loan f = lend(coefficients, sizeof coefficients);
    solve_into(&f, COEFFICIENTS, p, n, WIMPLECLAY_MAX_CLASSES);
    end_loan(&f);
}

void test_solving(void)
{
    static const uint32_t primes[] = {2, 3, 5, 7, 11, 13, 47};
    for (size_t i = 0; i < sizeof primes / sizeof *primes; i++)
        for (uint32_t n = 1; power(primes[i], n) <= MOST; n++)
            test_modulus(primes[i], n, 40);
    for (size_t i = 0; i < LARGE; i++)
        for (int j = 0; j < 60; j++)
            test_two_roots(large_moduli[i][0], large_moduli[i][1]);
    test_most_live(67, 5);
    test_most_live(65521, 2);
}
