/* wimpleclay_counts: known rows, every refusal, drawn polynomials against trial and against wimpleclay_solve at every precision. */
#include "check.h"
#include "drawn.h"
#include "refused.h"
#include "tests.h"

#include <string.h>
#include <wimpleclay.h>

/* A call, and the row that it must give. */
typedef struct {
    const char *what;
    int64_t f[COEFFICIENTS];
    size_t count;
    uint32_t p, n;
    uint64_t row[WIMPLECLAY_MAX_COUNTS];
} call;

/* Calls with a row of this many slots. */
static void count_into(const call *c, size_t slots)
{
    loan f = lend(c->f, c->count * sizeof *c->f), row = lend(NULL, slots * sizeof *c->row);
    size_t needed = c->n + 1, written = slots < needed ? 0 : needed * sizeof *c->row;
    wimpleclay_counts_answer a = wimpleclay_counts(lent(&f), c->count, c->p, c->n, lent(&row), slots);
    expect(a.number == (written ? 0 : 11) && a.place == (written ? 0 : needed), c->what);
    expect(memcmp(lent(&row), c->row, written) == 0, c->what);
    expect(kept_from(&row, written) && kept_from(&f, 0), c->what);
    end_loan(&f);
    end_loan(&row);
}

/* A row of every shorter length, of n + 1 slots and of more. */
static void test_call(const call *c)
{
    for (size_t slots = 0; slots <= c->n + 1; slots++)
        count_into(c, slots);
    count_into(c, c->n + 2 + draw(40));
}

/* Known rows *********************************************************************************************************/

static const call knowns[] = {
    {"x^2 - 1 modulo 16", {-1, 0, 1}, 3, 2, 4, {1, 1, 2, 4, 4}},
    {"x^2 + 1 modulo 9", {1, 0, 1}, 3, 3, 2, {1, 0, 0}},
    {"x^2 + 1 modulo 25", {1, 0, 1}, 3, 5, 2, {1, 2, 2}},
    {"0 modulo 8", {0}, 1, 2, 3, {1, 2, 4, 8}},
    {"3x modulo 9", {0, 3}, 2, 3, 2, {1, 3, 3}},
    {"x^2 + 3 modulo 9", {3, 0, 1}, 3, 3, 2, {1, 1, 0}},
    {"x^2 + x modulo 4", {0, 1, 1}, 3, 2, 2, {1, 2, 2}},
    {"2x^2 + 2x modulo 8", {0, 2, 2}, 3, 2, 3, {1, 2, 4, 4}},
    {"x^4 modulo 32", {0, 0, 0, 0, 1}, 5, 2, 5, {1, 1, 2, 4, 8, 8}},
    {"extreme ones modulo 2", {INT64_MIN, INT64_MAX}, 2, 2, 1, {1, 1}},
    {"-2^63 modulo 2^4", {INT64_MIN}, 1, 2, 4, {1, 2, 4, 8, 16}},
    {"0 modulo 65521^2", {0}, 1, 65521, 2, {1, 65521, UINT64_C(4293001441)}},
};

/* x^2 - 1 modulo 2^31: one root modulo 2, two modulo 4, and four from there on. */
static void test_square_minus_one(void)
{
    call c = {"x^2 - 1 modulo 2^31", {-1, 0, 1}, 3, 2, 31, {1, 1, 2}};
    for (uint32_t j = 3; j <= 31; j++)
        c.row[j] = 4;
    test_call(&c);
}

/* Rows that are known for every p and n: of x + a, of p^s x, of p^s and of x^2. */
static void test_known_everywhere(uint32_t p, uint32_t n)
{
    uint32_t s = (uint32_t)draw(n + 1);
    int64_t q = (int64_t)power(p, s);
    call linear = {"x + a", {draw_coefficient(p, n), 1}, 2, p, n, {0}};
    call factor = {"p^s x", {0, q}, 2, p, n, {0}}, constant = {"p^s", {-q}, 1, p, n, {0}};
    call square = {"x^2", {0, 0, 1}, 3, p, n, {0}};
    for (uint32_t j = 0; j <= n; j++) {
        linear.row[j] = 1;
        factor.row[j] = power(p, j < s ? j : s);
        constant.row[j] = j <= s ? power(p, j) : 0;
        square.row[j] = power(p, j / 2);
    }
    test_call(&linear);
    test_call(&factor);
    test_call(&constant);
    test_call(&square);
}

/* Refusals ***********************************************************************************************************/

/* With a row of this many slots, and with none. */
static void test_refused(const refused_call *c, size_t slots)
{
    static const int64_t f[COEFFICIENTS + 1];
    loan row = lend(NULL, slots * sizeof(uint64_t));
    const refusal *r = &c->refused;
    wimpleclay_counts_answer a = wimpleclay_counts(f, c->count, c->p, c->n, lent(&row), slots);
    expect(a.number == r->number && a.place == r->place, c->what);
    expect(kept_from(&row, 0), c->what);
    a = wimpleclay_counts(f, c->count, c->p, c->n, NULL, 0);
    expect(a.number == r->number && a.place == r->place, c->what);
    end_loan(&row);
}

/* Drawn polynomials **************************************************************************************************/

/* Sets the row to the roots that the solver counts at every precision. */
static void count_by_solver(call *c)
{
    int32_t residues[WIMPLECLAY_MAX_CLASSES];
    uint8_t levels[WIMPLECLAY_MAX_CLASSES], marks[WIMPLECLAY_MAX_CLASSES];
    c->row[0] = 1;
    for (uint32_t j = 1; j <= c->n; j++)
        c->row[j] = wimpleclay_solve(c->f, c->count, c->p, j, residues, WIMPLECLAY_MAX_CLASSES, levels,
                                     WIMPLECLAY_MAX_CLASSES, marks, WIMPLECLAY_MAX_CLASSES)
                        .roots;
}

static void test_drawn(uint32_t p, uint32_t n, int polynomials)
{
    call c = {.what = "counts: agrees with trial", .p = p, .n = n};
    for (int turn = 0; turn < polynomials; turn++) {
        c.count = draw_polynomial(p, n, turn, c.f);
        for (uint32_t j = 0; j <= n; j++)
            c.row[j] = count_by_trial(c.f, c.count, power(p, j));
        test_call(&c);
    }
}

/* A modulus that is too large for trial. */
static void test_large(uint32_t p, uint32_t n)
{
    call c = {.what = "counts: agrees with the solver", .p = p, .n = n};
    c.count = draw_large_polynomial(p, n, c.f);
    count_by_solver(&c);
    test_call(&c);
}

/* x (x - 1) .. (x - 63), p above 63: 64 roots at every precision. */
static void test_64_roots(uint32_t p, uint32_t n)
{
    call c = {"64 roots", {1}, 1, p, n, {1}};
    for (uint32_t j = 1; j <= n; j++)
        c.row[j] = 64;
    while (c.count < COEFFICIENTS)
        c.count = times_root(c.f, c.count, (uint32_t)c.count - 1, (uint32_t)power(p, n));
    test_call(&c);
    count_by_solver(&c);
    test_call(&c);
}

void test_counts(void)
{
    static const uint32_t primes[] = {2, 3, 5, 7, 11, 13, 47};
    static const uint32_t moduli[][2] = {{2, 15}, {3, 9}, {5, 6}, {251, 2}, {32749, 1}};
    for (size_t i = 0; i < sizeof knowns / sizeof *knowns; i++)
        test_call(&knowns[i]);
    test_square_minus_one();
    for (size_t i = 0; i < REFUSED; i++) {
        test_refused(&refused_calls[i], 40);
        test_refused(&refused_calls[i], 1);
    }
    for (size_t i = 0; i < sizeof primes / sizeof *primes; i++)
        for (uint32_t n = 1; power(primes[i], n) <= MOST; n++)
            test_drawn(primes[i], n, 40);
    for (size_t i = 0; i < sizeof moduli / sizeof *moduli; i++)
        test_drawn(moduli[i][0], moduli[i][1], 10);
    for (size_t i = 0; i < LARGE; i++)
        for (int j = 0; j < 100; j++) {
            test_known_everywhere(large_moduli[i][0], large_moduli[i][1]);
            test_large(large_moduli[i][0], large_moduli[i][1]);
        }
    test_64_roots(67, 5);
    test_64_roots(251, 4);
    test_64_roots(65521, 2);
}
