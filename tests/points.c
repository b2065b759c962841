/* wimpleclay_test_points: rows with known answers, every refusal, drawn rows against trial and wimpleclay_is_root. */
#include "check.h"
#include "drawn.h"
#include "refused.h"
#include "tests.h"

#include <string.h>
#include <wimpleclay.h>

/* The row to lend: every residue, and some points more. */
enum { MORE = 16 };
static wimpleclay_query row[MOST + MORE];
static size_t length;

/* Adds a record, with any answer. */
static void add(uint64_t point)
{
    row[length++] = (wimpleclay_query){(uint32_t)point, (uint32_t)draw(draw(2) ? 9 : UINT32_MAX)};
}

/* Known answers ******************************************************************************************************/

enum { RECORDS = 8 };

typedef struct {
    const char *what;
    int64_t f[3];
    size_t count;
    uint32_t p, n;
    size_t records;
    uint32_t points[RECORDS], answers[RECORDS];
} known;

static const known knowns[] = {
    {"x^2 - 1 modulo 16", {-1, 0, 1}, 3, 2, 4, 8, {0, 1, 7, 8, 15, 16, 4294967295, 9}, {0, 1, 1, 0, 1, 8, 8, 1}},
    {"x + 1 modulo 9", {1, 1}, 2, 3, 2, 8, {9, 8, 4294967295, 8, 0, 8, 7, 10}, {8, 1, 8, 1, 0, 1, 0, 8}},
    {"x modulo 5", {0, 1}, 2, 5, 1, 5, {5, 6, 25, 2147483648, 4294967295}, {8, 8, 8, 8, 8}},
    {"extreme ones modulo 2", {INT64_MIN, INT64_MAX}, 2, 2, 1, 6, {1, 0, 2, 3, 0, 1}, {0, 1, 8, 8, 1, 0}},
    {"x modulo 2^31", {0, 1}, 2, 2, 31, 5, {0, 1073741824, 2147483647, 2147483648, 4294967295}, {1, 0, 0, 8, 8}},
    {"x^2 modulo 3^20", {0, 0, 1}, 3, 3, 20, 4, {59049, 3486725352, 3486784400, 3486784401}, {1, 1, 0, 8}},
    {"x + 1 modulo 65521^2", {1, 1}, 2, 65521, 2, 3, {4293001440, 4293001441, 65520}, {1, 8, 0}},
    {"0 modulo 65521^2", {0}, 1, 65521, 2, 4, {0, 4293001440, 4293001441, 4294967295}, {1, 1, 8, 8}},
};

static void test_known(const known *c)
{
    length = 0;
    for (size_t i = 0; i < c->records; i++)
        add(c->points[i]);
    loan queries = lend(row, length * sizeof *row);
    wimpleclay_points_answer a = wimpleclay_test_points(c->f, c->count, c->p, c->n, lent(&queries), length);
    for (size_t i = 0; i < c->records; i++)
        row[i].answer = c->answers[i];
    expect(a.number == 0 && a.place == 0, c->what);
    expect(memcmp(lent(&queries), row, queries.bytes) == 0 && kept_from(&queries, queries.bytes), c->what);
    end_loan(&queries);
}

static void test_empty(void)
{
    static const int64_t f[COEFFICIENTS] = {1};
    wimpleclay_points_answer a = wimpleclay_test_points(f, 1, 2, 1, NULL, 0);
    expect(a.number == 0 && a.place == 0, "an empty row");
    a = wimpleclay_test_points(f, COEFFICIENTS, 65521, 2, NULL, 0);
    expect(a.number == 0 && a.place == 0, "an empty row, 65 coefficients");
    loan queries = lend(NULL, RECORDS * sizeof *row);
    a = wimpleclay_test_points(f, COEFFICIENTS, 2, 31, lent(&queries), 0);
    expect(a.number == 0 && a.place == 0 && kept_from(&queries, 0), "an empty row that is not null");
    end_loan(&queries);
}

/* Refusals ***********************************************************************************************************/

static void test_refused(const refused_call *c)
{
    static const int64_t f[COEFFICIENTS + 1];
    static const wimpleclay_query given[] = {{0, 3}, {1, 0}, {UINT32_MAX, 1}, {0, 8}, {7, UINT32_MAX}};
    loan queries = lend(given, sizeof given);
    const refusal *r = &c->refused;
    wimpleclay_points_answer a = wimpleclay_test_points(f, c->count, c->p, c->n, lent(&queries), 5);
    expect(a.number == r->number && a.place == r->place, c->what);
    expect(kept_from(&queries, 0), c->what);
    a = wimpleclay_test_points(f, c->count, c->p, c->n, NULL, 0);
    expect(a.number == r->number && a.place == r->place, c->what);
    end_loan(&queries);
}

/* Drawn rows *********************************************************************************************************/

/* Lends the row and gives the number of its roots. */
static uint64_t ask(const loan *f, size_t count, uint32_t p, uint32_t n)
{
    uint64_t m = power(p, n), roots = 0;
    loan queries = lend(row, length * sizeof *row);
    const wimpleclay_query *q = lent(&queries);
    wimpleclay_points_answer a = wimpleclay_test_points(lent(f), count, p, n, lent(&queries), length);
    expect(a.number == 0 && a.place == 0, "test_points: accepted");
    for (size_t i = 0; i < length; i++) {
        uint32_t point = row[i].point, answer = point >= m ? 8 : value(lent(f), count, point, m) == 0;
        expect(q[i].point == point && q[i].answer == answer, "test_points: agrees with trial");
        wimpleclay_test_answer one = wimpleclay_is_root(lent(f), count, p, n, point);
        expect(q[i].answer == (one.number ? one.number : one.root), "test_points: agrees with is_root");
        roots += q[i].answer == 1;
    }
    expect(kept_from(&queries, queries.bytes), "test_points: other memory is kept");
    expect(kept_from(f, 0), "test_points: coefficients are kept");
    end_loan(&queries);
    return roots;
}

/* A point that is not below m. */
static uint64_t draw_past(uint64_t m)
{
    return m + draw(draw(2) ? 2 : (uint64_t)UINT32_MAX + 1 - m);
}

static void shuffle(void)
{
    for (size_t i = length; i > 1; i--) {
        size_t j = draw(i);
        wimpleclay_query q = row[j];
        row[j] = row[i - 1];
        row[i - 1] = q;
    }
}

/* Every residue once, among points that are none. */
static void test_residues(const loan *f, size_t count, uint32_t p, uint32_t n)
{
    int32_t residues[WIMPLECLAY_MAX_CLASSES];
    uint8_t levels[WIMPLECLAY_MAX_CLASSES], marks[WIMPLECLAY_MAX_CLASSES];
    uint64_t m = power(p, n);
    length = 0;
    for (uint64_t r = 0; r < m; r++)
        add(r);
    for (uint64_t i = draw(MORE); i > 0; i--)
        add(draw_past(m));
    if (draw(4))
        shuffle();
    wimpleclay_solve_answer solved = wimpleclay_solve(lent(f), count, p, n, residues, WIMPLECLAY_MAX_CLASSES, levels,
                                                      WIMPLECLAY_MAX_CLASSES, marks, WIMPLECLAY_MAX_CLASSES);
    expect(ask(f, count, p, n) == solved.roots, "test_points: as many roots as the solver counts");
}

/* A short row in which points come again. */
static void test_repeated(const loan *f, size_t count, uint32_t p, uint32_t n)
{
    uint64_t m = power(p, n);
    length = 0;
    for (uint64_t i = draw(40); i > 0; i--)
        add(length > 0 && draw(3) == 0 ? row[draw(length)].point : draw(5) ? draw(m) : draw_past(m));
    ask(f, count, p, n);
}

/* Bad points in every set of the places of a short row. */
static void test_places(const loan *f, size_t count, uint32_t p, uint32_t n)
{
    uint64_t m = power(p, n);
    for (uint32_t bad = 0; bad < 32; bad++) {
        length = 0;
        for (uint32_t i = 0; i < 5; i++)
            add(bad >> i & 1 ? draw_past(m) : draw(m));
        ask(f, count, p, n);
    }
}

static void test_modulus(uint32_t p, uint32_t n)
{
    int64_t coefficients[COEFFICIENTS];
    for (int turn = 0; turn < 20; turn++) {
        size_t count = draw_polynomial(p, n, turn, coefficients);
        loan f = lend(coefficients, count * sizeof *coefficients);
        test_residues(&f, count, p, n);
        test_repeated(&f, count, p, n);
        test_places(&f, count, p, n);
        end_loan(&f);
    }
}

/* Draws coefficients, many of them extreme, and then changes the constant one so that x is a root. */
static void draw_with_root(uint32_t p, uint32_t n, uint64_t x, size_t count, int64_t *f)
{
    int64_t m = (int64_t)power(p, n);
    for (size_t i = 0; i < count; i++)
        f[i] = draw(2) ? draw_coefficient(p, n) : draw(2) ? INT64_MIN : INT64_MAX;
    if (draw(2))
        times_power(f, count, p, n);
    int64_t v = (int64_t)value(f, count, x, (uint64_t)m);
    f[0] += f[0] > 0 ? -v : v > 0 ? m - v : 0;
}

/* A row about a root, modulo a number that is too large to try every residue: points that are congruent to the root
   modulo a power of p, any points, and some that are not below p^n. */
static void test_large(uint32_t p, uint32_t n)
{
    int64_t coefficients[COEFFICIENTS];
    uint64_t m = power(p, n), x = draw(m);
    size_t count = draw(2) ? 1 + draw(5) : COEFFICIENTS - draw(3);
    draw_with_root(p, n, x, count, coefficients);
    loan f = lend(coefficients, count * sizeof *coefficients);
    length = 0;
    add(x);
    for (uint64_t i = draw(60); i > 0; i--)
        add(draw(3) ? (x + power(p, (uint32_t)draw(n + 1)) * draw(m)) % m : draw(2) ? draw(m) : draw_past(m));
    shuffle();
    expect(ask(&f, count, p, n) >= 1, "test_points: the root is found");
    end_loan(&f);
}

void test_points(void)
{
    static const uint32_t primes[] = {2, 3, 5, 7, 11, 13, 47};
    expect(sizeof(wimpleclay_query) == 8 && offsetof(wimpleclay_query, answer) == 4, "a record is two words");
    for (size_t i = 0; i < sizeof knowns / sizeof *knowns; i++)
        test_known(&knowns[i]);
    test_empty();
    for (size_t i = 0; i < REFUSED; i++)
        test_refused(&refused_calls[i]);
    for (size_t i = 0; i < sizeof primes / sizeof *primes; i++)
        for (uint32_t n = 1; power(primes[i], n) <= MOST; n++)
            test_modulus(primes[i], n);
    for (size_t i = 0; i < LARGE; i++)
        for (int j = 0; j < 200; j++)
            test_large(large_moduli[i][0], large_moduli[i][1]);
}
