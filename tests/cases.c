/* Cases with known answers: small polynomials, the limits of every argument, and each refusal with its place. */
#include "check.h"
#include "reference.h"
#include "tests.h"

#include <string.h>
#include <wimpleclay.h>

static int32_t residues[WIMPLECLAY_MAX_CLASSES];
static uint8_t levels[WIMPLECLAY_MAX_CLASSES], marks[WIMPLECLAY_MAX_CLASSES], map[65537];

/* Solving *****************************************************************************************************************************/

typedef struct {
    const char *what;
    int64_t f[5];
    size_t count;
    uint32_t p, n;
    size_t slots[3];
    wimpleclay_solve_answer answer;
    int32_t residues[3];
    uint8_t levels[3], marks[3];
} solving;

static const solving solvings[] = {
    {"x^2 - 1 modulo 16", {-1, 0, 1}, 3, 2, 4, {9, 9, 9}, {0, 0, 2, 4, 6}, {-1, 1}, {3, 3}, {0, 0}},
    {"x^2 - 1 modulo 8", {-1, 0, 1}, 3, 2, 3, {9, 9, 9}, {0, 0, 1, 4, 4}, {1}, {1}, {0}},
    {"x^3 + x^2 modulo 2", {0, 0, 1, 1}, 4, 2, 1, {1, 1, 1}, {0, 0, 1, 2, 3}, {0}, {0}, {2}},
    {"x^2 + 3x modulo 9", {0, 3, 1}, 3, 3, 2, {1, 1, 1}, {0, 0, 1, 3, 2}, {0}, {1}, {0}},
    {"x^2 + 3 modulo 9", {3, 0, 1}, 3, 3, 2, {0, 0, 0}, {0, 0, 0, 0, 2}, {0}, {0}, {0}},
    {"0 modulo 25", {0}, 1, 5, 2, {1, 1, 1}, {0, 0, 1, 25, 1}, {0}, {0}, {0}},
    {"25 modulo 25", {25}, 1, 5, 2, {1, 1, 1}, {0, 0, 1, 25, 1}, {0}, {0}, {0}},
    {"5 modulo 25", {5}, 1, 5, 2, {1, 1, 1}, {0, 0, 0, 0, 1}, {0}, {0}, {0}},
    {"1 modulo 4", {1}, 1, 2, 2, {1, 1, 1}, {0, 0, 0, 0, 1}, {0}, {0}, {0}},
    {"x^2 + 2 modulo 4", {2, 0, 1}, 3, 2, 2, {1, 1, 1}, {0, 0, 0, 0, 2}, {0}, {0}, {0}},
    {"x^2 + 1 modulo 25", {1, 0, 1}, 3, 5, 2, {2, 2, 2}, {0, 0, 2, 2, 5}, {-7, 7}, {2, 2}, {1, 1}},
    {"3x modulo 9", {0, 3}, 2, 3, 2, {1, 1, 1}, {0, 0, 1, 3, 2}, {0}, {1}, {1}},
    {"x^2 + x modulo 2", {0, 1, 1}, 3, 2, 1, {1, 1, 1}, {0, 0, 1, 2, 3}, {0}, {0}, {1}},
    {"2x^2 + 2x modulo 4", {0, 2, 2}, 3, 2, 2, {1, 1, 1}, {0, 0, 1, 4, 3}, {0}, {0}, {1}},
    {"x^4 - 16x^2 modulo 9", {0, 0, -16, 0, 1}, 5, 3, 2, {3, 3, 3}, {0, 0, 3, 5, 6}, {-4, 0, 4}, {2, 1, 2}, {1, 0, 1}},
    {"x^3 - 1 modulo 7", {-1, 0, 0, 1}, 4, 7, 1, {4, 4, 4}, {0, 0, 3, 3, 4}, {-3, 1, 2}, {1, 1, 1}, {1, 1, 1}},
    {"x^2 - 4 modulo 32", {-4, 0, 1}, 3, 2, 5, {1, 1, 1}, {0, 0, 1, 8, 5}, {2}, {2}, {0}},
    {"x + 1 modulo 2", {1, 1}, 2, 2, 1, {1, 1, 1}, {0, 0, 1, 1, 2}, {1}, {1}, {1}},
    {"x + 8 modulo 16", {8, 1}, 2, 2, 4, {1, 1, 1}, {0, 0, 1, 1, 5}, {8}, {4}, {1}},
    {"x + 1 modulo 65521^2", {1, 1}, 2, 65521, 2, {1, 1, 1}, {0, 0, 1, 1, 3}, {-1}, {2}, {1}},
    {"the largest residue", {-2146500720, 1}, 2, 65521, 2, {1, 1, 1}, {0, 0, 1, 1, 3}, {2146500720}, {2}, {1}},
    {"the least residue", {2146500720, 1}, 2, 65521, 2, {1, 1, 1}, {0, 0, 1, 1, 3}, {-2146500720}, {2}, {1}},
    {"x + 2^30 modulo 2^31", {1073741824, 1}, 2, 2, 31, {1, 1, 1}, {0, 0, 1, 1, 32}, {1073741824}, {31}, {1}},
    {"x + 2^30 - 1 modulo 2^31", {1073741823, 1}, 2, 2, 31, {1, 1, 1}, {0, 0, 1, 1, 32}, {-1073741823}, {31}, {1}},
    {"x modulo 2^31", {0, 1}, 2, 2, 31, {1, 1, 1}, {0, 0, 1, 1, 32}, {0}, {31}, {1}},
    {"x modulo 65521^2", {0, 1}, 2, 65521, 2, {1, 1, 1}, {0, 0, 1, 1, 3}, {0}, {2}, {1}},
    {"0 modulo 65521^2", {0}, 1, 65521, 2, {1, 1, 1}, {0, 0, 1, UINT64_C(4293001441), 1}, {0}, {0}, {0}},
    {"no coefficient", {0}, 0, 4, 0, {1, 2, 3}, {2, 0, 0, 0, 0}, {0}, {0}, {0}},
    {"p is 0", {1}, 1, 0, 1, {1, 1, 1}, {4, 0, 0, 0, 0}, {0}, {0}, {0}},
    {"p is 1", {1}, 1, 1, 1, {1, 1, 1}, {4, 0, 0, 0, 0}, {0}, {0}, {0}},
    {"p is 4", {1}, 1, 4, 0, {1, 2, 3}, {14, 2, 0, 0, 0}, {0}, {0}, {0}},
    {"p is 9", {1}, 1, 9, UINT32_MAX, {1, 2, 3}, {14, 3, 0, 0, 0}, {0}, {0}, {0}},
    {"p is 65535", {1}, 1, 65535, 1, {1, 1, 1}, {14, 3, 0, 0, 0}, {0}, {0}, {0}},
    {"p is 65536", {1}, 1, 65536, 1, {1, 1, 1}, {4, 0, 0, 0, 0}, {0}, {0}, {0}},
    {"p is 65537, a prime", {1}, 1, 65537, 1, {1, 1, 1}, {4, 0, 0, 0, 0}, {0}, {0}, {0}},
    {"n is 0", {1}, 1, 2, 0, {1, 2, 3}, {5, 0, 0, 0, 0}, {0}, {0}, {0}},
    {"2^32", {0, 1}, 2, 2, 32, {1, 1, 1}, {5, 0, 0, 0, 0}, {0}, {0}, {0}},
    {"65521^3", {0, 1}, 2, 65521, 3, {1, 1, 1}, {5, 0, 0, 0, 0}, {0}, {0}, {0}},
    {"n is the largest", {0, 1}, 2, 3, UINT32_MAX, {1, 1, 1}, {5, 0, 0, 0, 0}, {0}, {0}, {0}},
    {"lists of other lengths", {-1, 0, 1}, 3, 2, 4, {5, 4, 6}, {6, 4, 0, 0, 0}, {0}, {0}, {0}},
    {"fewer marks", {-1, 0, 1}, 3, 2, 4, {5, 5, 1}, {6, 1, 0, 0, 0}, {0}, {0}, {0}},
    {"one slot for two classes", {-1, 0, 1}, 3, 2, 4, {1, 1, 1}, {11, 2, 0, 0, 0}, {0}, {0}, {0}},
    {"asked for k", {-1, 0, 1}, 3, 2, 4, {0, 0, 0}, {11, 2, 0, 0, 0}, {0}, {0}, {0}},
};

static void test_solving_case(const solving *c)
{
    loan r = lend(NULL, c->slots[0] * sizeof *residues), t = lend(NULL, c->slots[1]), m = lend(NULL, c->slots[2]);
    wimpleclay_solve_answer a = wimpleclay_solve(c->f, c->count, c->p, c->n, lent(&r), c->slots[0], lent(&t),
                                                 c->slots[1], lent(&m), c->slots[2]);
    size_t k = c->answer.classes;
    expect(a.number == c->answer.number && a.place == c->answer.place, c->what);
    expect(a.classes == k && a.roots == c->answer.roots && a.live == c->answer.live, c->what);
    expect(memcmp(lent(&r), c->residues, k * sizeof *residues) == 0, c->what);
    expect(memcmp(lent(&t), c->levels, k) == 0 && memcmp(lent(&m), c->marks, k) == 0, c->what);
    expect(kept_from(&r, k * sizeof *residues) && kept_from(&t, k) && kept_from(&m, k), c->what);
    expect(c->answer.number || live_by_trial(c->f, c->count, c->p, c->n) == c->answer.live, c->what);
    end_loan(&r);
    end_loan(&t);
    end_loan(&m);
}

static void test_coefficients(void)
{
    static const int64_t f[66];
    expect(wimpleclay_solve(f, 65, 2, 1, residues, 1, levels, 1, marks, 1).number == 0, "65 coefficients");
    expect(wimpleclay_solve(f, 66, 2, 1, residues, 1, levels, 1, marks, 1).number == 3, "66 coefficients");
    expect(wimpleclay_is_root(f, 65, 2, 1, 1).root == 1, "is_root: 65 coefficients");
    expect(wimpleclay_is_root(f, 66, 4, 0, 9).number == 3, "is_root: 66 coefficients");
    expect(wimpleclay_is_root(f, 0, 4, 0, 9).number == 2, "is_root: no coefficient");
    expect(wimpleclay_is_root(f, 1, 4, 0, 9).number == 14, "is_root: p is 4");
    expect(wimpleclay_is_root(f, 1, 2, 0, 9).number == 5, "is_root: n is 0");
    expect(wimpleclay_is_root(f, 1, 2, 3, 8).number == 8, "is_root: point 8 modulo 8");
    expect(wimpleclay_is_root(f, 1, 65521, 2, UINT32_MAX).number == 8, "is_root: the largest point");
}

/* Lists *******************************************************************************************************************************/

typedef struct {
    const char *what;
    uint32_t p, n;
    size_t lengths[2];
    int32_t residues[3];
    uint8_t levels[3];
    uint32_t point;
    wimpleclay_next_answer answer;
} stepping;

static const stepping steppings[] = {
    {"-1/3, 1/3 from 2", 2, 4, {2, 2}, {-1, 1}, {3, 3}, 2, {0, 0, 1, 7}},
    {"-1/3, 1/3 from 8", 2, 4, {2, 2}, {-1, 1}, {3, 3}, 8, {0, 0, 1, 9}},
    {"-1/3, 1/3 from 15", 2, 4, {2, 2}, {-1, 1}, {3, 3}, 15, {0, 0, 1, 15}},
    {"-1/3, 1/3 from 16", 2, 4, {2, 2}, {-1, 1}, {3, 3}, 16, {8, 0, 0, 0}},
    {"-7/2, 7/2 from 8", 5, 2, {2, 2}, {-7, 7}, {2, 2}, 8, {0, 0, 1, 18}},
    {"-7/2, 7/2 from 19", 5, 2, {2, 2}, {-7, 7}, {2, 2}, 19, {0, 0, 0, 0}},
    {"-1 from 0", 65521, 2, {1, 1}, {-1}, {2}, 0, {0, 0, 1, UINT32_C(4293001440)}},
    {"the least residue from 2^31 - 1", 65521, 2, {1, 1}, {-2146500720}, {2}, INT32_MAX, {0, 0, 0, 0}},
    {"the least residue from itself", 65521, 2, {1, 1}, {-2146500720}, {2}, 2146500721, {0, 0, 1, 2146500721}},
    {"half of 2^31 from 2^30 + 1", 2, 31, {1, 1}, {1073741824}, {31}, 1073741825, {0, 0, 0, 0}},
    {"no class", 5, 2, {0, 0}, {0}, {0}, 3, {0, 0, 0, 0}},
    {"everything", 65521, 2, {1, 1}, {0}, {0}, UINT32_C(4293001440), {0, 0, 1, UINT32_C(4293001440)}},
    {"p is 9", 9, 0, {1, 2}, {5}, {9}, 99, {14, 3, 0, 0}},
    {"n is 0", 3, 0, {1, 2}, {5}, {9}, 99, {5, 0, 0, 0}},
    {"lists of other lengths", 3, 2, {3, 2}, {5, 5, 5}, {9, 9, 9}, 99, {6, 2, 0, 0}},
    {"a faulty entry and point", 3, 2, {3, 3}, {-1, 0, 2}, {1, 1, 1}, 99, {7, 2, 0, 0}},
};

static void test_stepping(const stepping *c)
{
    wimpleclay_next_answer a =
        wimpleclay_next_root(c->p, c->n, c->residues, c->lengths[0], c->levels, c->lengths[1], c->point);
    expect(a.number == c->answer.number && a.place == c->answer.place, c->what);
    expect(a.found == c->answer.found && a.root == c->answer.root, c->what);
}

static void test_maps(void)
{
    static const int32_t r[] = {-1, 1};
    static const uint8_t t[] = {3, 3};
    uint8_t small[2] = {255, 255};
    expect(wimpleclay_fill_map(2, 4, r, 2, t, 2, small, 2).number == 0 && small[0] == 130 && small[1] == 130,
           "map of -1/3, 1/3");
    expect(wimpleclay_count_map(2, 4, small, 2).ones == 4, "count of that map");
    expect(wimpleclay_fill_map(2, 4, r, 2, t, 2, map, 3).number == 10, "a map of 3 bytes for 16 residues");
    expect(wimpleclay_fill_map(2, 4, r, 1, t, 2, map, 3).number == 6, "fill_map: lists of other lengths");
    expect(wimpleclay_fill_map(2, 2, r, 2, t, 2, map, 3).number == 7, "fill_map: level above n");
    expect(wimpleclay_fill_map(2, 19, r, 0, t, 0, map, 65536).number == 0, "a map of 2^19");
    expect(wimpleclay_fill_map(2, 19, r, 0, t, 0, map, 65537).number == 10, "a map of 2^19, a byte too long");
    expect(wimpleclay_fill_map(2, 20, r, 0, t, 0, map, 0).number == 9, "a map of 2^20");
    expect(wimpleclay_fill_map(3, 12, r, 0, t, 0, map, 0).number == 9, "a map of 3^12");
    expect(wimpleclay_fill_map(4, 0, r, 1, t, 0, map, 0).number == 14, "fill_map: p is 4");
    expect(wimpleclay_fill_map(2, 0, r, 1, t, 0, map, 0).number == 5, "fill_map: n is 0");
    map[65535] = 128;
    expect(wimpleclay_count_map(2, 19, map, 65536).ones == 1, "count of a map of 2^19");
    expect(wimpleclay_count_map(2, 20, map, 0).number == 9, "count of a map of 2^20");
    expect(wimpleclay_count_map(4, 0, map, 0).number == 14 && wimpleclay_count_map(2, 32, map, 0).number == 5,
           "count_map: p and n");
    expect(wimpleclay_count_map(3, 1, (const uint8_t[]){0xf9}, 1).ones == 1, "spare bits are not counted");
}

/* Texts *******************************************************************************************************************************/

static void test_text(void)
{
    static const char problem[] =
        "          2          4          3\n                  -1\n                   0\n                   1\n";
    static const char written[] =
        "          2          4          2          4\n         -1          3          2          0\n"
        "          1          3          2          0\n";
    int64_t f[WIMPLECLAY_MAX_COEFFICIENTS];
    uint8_t text[sizeof written - 1];
    wimpleclay_read_answer a = wimpleclay_read_problem((const uint8_t *)problem, sizeof problem - 1, f, 65);
    expect(a.number == 0 && a.p == 2 && a.n == 4 && a.count == 3, "the problem x^2 - 1 modulo 16");
    expect(f[0] == -1 && f[1] == 0 && f[2] == 1 && f[3] == 0 && f[64] == 0, "its coefficients");
    wimpleclay_solve_answer s = wimpleclay_solve(f, a.count, a.p, a.n, residues, 64, levels, 64, marks, 64);
    size_t k = s.classes;
    wimpleclay_write_answer w =
        wimpleclay_write_classes(a.p, a.n, residues, k, levels, k, marks, k, text, sizeof text);
    expect(w.bytes == sizeof text && memcmp(text, written, sizeof text) == 0, "its classes as a text");
    w = wimpleclay_write_classes(a.p, a.n, residues, k, levels, k, marks, k, text, sizeof text - 1);
    expect(w.number == 12 && w.place == 135 && w.bytes == 0, "a byte too few");
}

static void test_null(void)
{
    expect(wimpleclay_solve(NULL, 0, 2, 1, NULL, 0, NULL, 0, NULL, 0).number == 2, "null coefficients");
    expect(wimpleclay_solve((const int64_t[]){1}, 1, 2, 1, NULL, 0, NULL, 0, NULL, 0).number == 0, "null lists");
    expect(wimpleclay_is_root(NULL, 0, 2, 1, 0).number == 2, "is_root: null coefficients");
    expect(wimpleclay_test_points(NULL, 0, 2, 1, NULL, 0).number == 2, "test_points: null coefficients");
    expect(wimpleclay_next_root(2, 1, NULL, 0, NULL, 0, 0).found == 0, "next_root: null lists");
    expect(wimpleclay_fill_map(2, 1, NULL, 0, NULL, 0, NULL, 0).number == 10, "null map");
    expect(wimpleclay_count_map(2, 1, NULL, 0).number == 10, "count_map: null map");
    expect(wimpleclay_read_problem(NULL, 0, NULL, 0).number == 1, "null problem text");
    expect(wimpleclay_write_classes(2, 1, NULL, 0, NULL, 0, NULL, 0, NULL, 0).place == 45, "null text");
}

void test_fixed_cases(void)
{
    for (size_t i = 0; i < sizeof solvings / sizeof *solvings; i++)
        test_solving_case(&solvings[i]);
    for (size_t i = 0; i < sizeof steppings / sizeof *steppings; i++)
        test_stepping(&steppings[i]);
    test_coefficients();
    test_maps();
    test_text();
    test_null();
}
