/* wimpleclay_raise on lists with known answers, and each refusal in its order. */
#include "check.h"
#include "raised.h"
#include "refused.h"
#include "tests.h"

#include <string.h>
#include <wimpleclay.h>

/* Known lists ********************************************************************************************************/

typedef struct {
    const char *what;
    int64_t f[4];
    size_t count;
    uint32_t p, n, m;
    size_t given;
    int32_t given_residues[3];
    uint8_t given_levels[3];
    size_t k;
    uint64_t roots;
    int32_t residues[2];
    uint8_t levels[2], marks[2];
} known;

static const known knowns[] = {
    {"x^2 - 1 from 8 to 16", {-1, 0, 1}, 3, 2, 3, 4, 1, {1}, {1}, 2, 4, {-1, 1}, {3, 3}, {0, 0}},
    {"x^2 - 1 from 16 to 64", {-1, 0, 1}, 3, 2, 4, 6, 2, {-1, 1}, {3, 3}, 2, 4, {-1, 1}, {5, 5}, {0, 0}},
    {"x^2 - 1 from 16 to 64, -1/3", {-1, 0, 1}, 3, 2, 4, 6, 1, {-1}, {3}, 1, 2, {-1}, {5}, {0}},
    {"x^2 - 1 from 4 to 16, 1/2", {-1, 0, 1}, 3, 2, 2, 4, 1, {1}, {2}, 1, 2, {1}, {3}, {0}},
    {"x^2 - 1 from 2 to 16, 0/0", {-1, 0, 1}, 3, 2, 1, 4, 1, {0}, {0}, 2, 4, {-1, 1}, {3, 3}, {0, 0}},
    {"x^2 - 1 from 16 to 16", {-1, 0, 1}, 3, 2, 4, 4, 2, {-1, 1}, {3, 3}, 2, 4, {-1, 1}, {3, 3}, {0, 0}},
    {"x^2 - 1 from 16 to 16, 1/4", {-1, 0, 1}, 3, 2, 4, 4, 1, {1}, {4}, 1, 1, {1}, {4}, {0}},
    {"x^2 + 1 from 5 to 25", {1, 0, 1}, 3, 5, 1, 2, 2, {-2, 2}, {1, 1}, 2, 2, {-7, 7}, {2, 2}, {1, 1}},
    {"x^2 + 1 from 5 to 25, 2/1", {1, 0, 1}, 3, 5, 1, 2, 1, {2}, {1}, 1, 1, {7}, {2}, {1}},
    {"x^2 + 1 from 5 to 25, no root", {1, 0, 1}, 3, 5, 1, 2, 2, {0, 1}, {1, 1}, 0, 0, {0}, {0}, {0}},
    {"x^2 + 1 from 5 to 25, one of three", {1, 0, 1}, 3, 5, 1, 2, 3, {-1, 0, 2}, {1, 1, 1}, 1, 1, {7}, {2}, {1}},
    {"x^2 + 3 from 3 to 9", {3, 0, 1}, 3, 3, 1, 2, 1, {0}, {1}, 0, 0, {0}, {0}, {0}},
    {"x^2 - 4 from 4 to 32", {-4, 0, 1}, 3, 2, 2, 5, 1, {0}, {1}, 1, 8, {2}, {2}, {0}},
    {"no class", {-1, 0, 1}, 3, 2, 3, 4, 0, {0}, {0}, 0, 0, {0}, {0}, {0}},
    {"no class of 0", {0}, 1, 2, 3, 3, 0, {0}, {0}, 0, 0, {0}, {0}, {0}},
    {"0 from 2 to 8, both halves", {0}, 1, 2, 1, 3, 2, {0, 1}, {1, 1}, 1, 8, {0}, {0}, {0}},
    {"0 from 2 to 2, both halves", {0}, 1, 2, 1, 1, 2, {0, 1}, {1, 1}, 1, 2, {0}, {0}, {0}},
    {"0 from 4 to 16, three parts", {0}, 1, 2, 2, 4, 3, {-1, 0, 1}, {2, 1, 2}, 1, 16, {0}, {0}, {0}},
    {"0 from 4 to 8, two parts", {0}, 1, 2, 2, 3, 2, {-1, 1}, {2, 2}, 1, 4, {1}, {1}, {0}},
    {"0 from 3 to 9, all thirds", {0}, 1, 3, 1, 2, 3, {-1, 0, 1}, {1, 1, 1}, 1, 9, {0}, {0}, {0}},
    {"0 from 3 to 9, two thirds", {0}, 1, 3, 1, 2, 2, {-1, 1}, {1, 1}, 2, 6, {-1, 1}, {1, 1}, {0, 0}},
    {"3x from 9 to 9, parts of 0/1", {0, 3}, 2, 3, 2, 2, 3, {-3, 0, 3}, {2, 2, 2}, 1, 3, {0}, {1}, {1}},
    {"3x from 9 to 9, more than 0/1", {0, 3}, 2, 3, 2, 2, 3, {-1, 0, 1}, {1, 1, 1}, 1, 3, {0}, {1}, {1}},
    {"x^3 + x^2 modulo 2, both halves", {0, 0, 1, 1}, 4, 2, 1, 1, 2, {0, 1}, {1, 1}, 1, 2, {0}, {0}, {2}},
    {"x^3 + x^2 modulo 2, 0/1", {0, 0, 1, 1}, 4, 2, 1, 1, 1, {0}, {1}, 1, 1, {0}, {1}, {0}},
    {"x^3 + x^2 modulo 2, 1/1", {0, 0, 1, 1}, 4, 2, 1, 1, 1, {1}, {1}, 1, 1, {1}, {1}, {1}},
    {"3x from 3 to 9, marked at 9", {0, 3}, 2, 3, 1, 2, 1, {0}, {0}, 1, 3, {0}, {1}, {1}},
    {"x + 2^30 from 2 to 2^31", {1073741824, 1}, 2, 2, 1, 31, 1, {0}, {1}, 1, 1, {1073741824}, {31}, {1}},
    {"0 modulo 2^31, both halves", {0}, 1, 2, 31, 31, 2, {0, 1}, {1, 1}, 1, UINT64_C(2147483648), {0}, {0}, {0}},
    {"x + 1 from 65521 to its square", {1, 1}, 2, 65521, 1, 2, 1, {-1}, {1}, 1, 1, {-1}, {2}, {1}},
    {"the largest residue", {-2146500720, 1}, 2, 65521, 1, 2, 1, {32760}, {1}, 1, 1, {2146500720}, {2}, {1}},
    {"the least residue", {2146500720, 1}, 2, 65521, 1, 2, 1, {-32760}, {1}, 1, 1, {-2146500720}, {2}, {1}},
    {"0 from 65521 to its square, -32760/1", {0}, 1, 65521, 1, 2, 1, {-32760}, {1}, 1, 65521, {-32760}, {1}, {0}},
};

static void test_known(const known *k)
{
    static list given, raised, by_trial;
    raising c = {.what = k->what, .count = k->count, .p = k->p, .n = k->n, .m = k->m};
    c.given = &given;
    c.raised = &raised;
    given.k = k->given;
    raised.k = k->k;
    raised.members = k->roots;
    memcpy(c.f, k->f, sizeof k->f);
    memcpy(given.residues, k->given_residues, sizeof k->given_residues);
    memcpy(given.levels, k->given_levels, sizeof k->given_levels);
    memcpy(raised.residues, k->residues, sizeof k->residues);
    memcpy(raised.levels, k->levels, sizeof k->levels);
    memcpy(raised.marks, k->marks, sizeof k->marks);
    raise_into_slots(&c);
    if (power(k->p, k->m) > MOST)
        return;
    raise_by_trial(c.f, c.count, c.p, c.m, &given, &by_trial);
    expect(by_trial.k == k->k && by_trial.members == k->roots, k->what);
    expect(memcmp(by_trial.residues, k->residues, k->k * sizeof *k->residues) == 0, k->what);
    expect(memcmp(by_trial.levels, k->levels, k->k) == 0 && memcmp(by_trial.marks, k->marks, k->k) == 0, k->what);
}

/* Refusals ***********************************************************************************************************/

/* The most entries given, and the place of the faulty one where all are sound. */
enum { GIVEN = 70, NONE = GIVEN };

/* A call with the polynomial 0 and given residues that rise from -32 on, of level 8 up to the faulty one. */
typedef struct {
    const char *what;
    size_t count;
    uint32_t p, n, m;
    size_t given[2], faulty;
    size_t slots[3];
    refusal refused;
} refused_raising;

static const refused_raising refusals[] = {
    {"no coefficient, p is 4, m is 0", 0, 4, 8, 0, {65, 3}, 0, {1, 2, 3}, {2, 0}},
    {"66 coefficients, m is 0", 66, 2, 8, 0, {65, 3}, 0, {1, 2, 3}, {3, 0}},
    {"p is 65537, m is 0", 1, 65537, 8, 0, {65, 3}, 0, {1, 2, 3}, {4, 0}},
    {"p is 9, n and m are 0", 1, 9, 0, 0, {65, 3}, 0, {1, 2, 3}, {14, 3}},
    {"n is 0", 1, 2, 0, 8, {5, 5}, 0, {5, 5, 5}, {5, 0}},
    {"n is 32, m is 8", 1, 2, 32, 8, {65, 3}, 0, {1, 2, 3}, {5, 0}},
    {"m is 0, below n", 1, 2, 8, 0, {5, 5}, NONE, {5, 5, 5}, {5, 0}},
    {"m is 0, 65 given", 1, 2, 8, 0, {65, 65}, NONE, {1, 2, 3}, {5, 0}},
    {"m is 32", 1, 2, 8, 32, {5, 5}, NONE, {5, 5, 5}, {5, 0}},
    {"m is 32, 65 given", 65, 2, 8, 32, {65, 3}, 0, {1, 2, 3}, {5, 0}},
    {"3^21", 1, 3, 8, 21, {5, 5}, NONE, {5, 5, 5}, {5, 0}},
    {"m is 4294967295", 1, 3, 8, UINT32_MAX, {5, 5}, NONE, {5, 5, 5}, {5, 0}},
    {"m below n", 1, 2, 8, 7, {5, 5}, NONE, {5, 5, 5}, {17, 0}},
    {"m is 1, below n", 1, 2, 8, 1, {0, 0}, NONE, {0, 0, 0}, {17, 0}},
    {"m below n, given lists of other lengths", 1, 2, 8, 7, {5, 4}, NONE, {5, 5, 5}, {17, 0}},
    {"m below n, lists to be filled of other lengths", 1, 2, 8, 7, {5, 5}, NONE, {5, 4, 3}, {17, 0}},
    {"m below n, a faulty entry, no slots", 1, 2, 8, 7, {5, 5}, 0, {0, 0, 0}, {17, 0}},
    {"65 given", 1, 2, 8, 8, {65, 65}, NONE, {65, 65, 65}, {17, 0}},
    {"65 given, no slots", 1, 2, 8, 9, {65, 65}, NONE, {0, 0, 0}, {17, 0}},
    {"65 residues, 64 levels", 1, 2, 8, 8, {65, 64}, NONE, {65, 65, 65}, {17, 0}},
    {"64 residues, 65 levels", 1, 2, 8, 8, {64, 65}, NONE, {65, 65, 65}, {17, 0}},
    {"no residue, 65 levels", 1, 2, 8, 8, {0, 65}, 0, {65, 65, 65}, {17, 0}},
    {"65 residues, no level", 1, 2, 8, 8, {65, 0}, 0, {1, 2, 3}, {17, 0}},
    {"70 given, a faulty entry", 1, 2, 8, 8, {70, 70}, 69, {1, 2, 3}, {17, 0}},
    {"64 residues, 3 levels", 1, 2, 8, 8, {64, 3}, NONE, {64, 64, 64}, {6, 3}},
    {"3 residues, 64 levels", 1, 2, 8, 8, {3, 64}, NONE, {64, 64, 64}, {6, 3}},
    {"no residue, 1 level", 1, 2, 8, 8, {0, 1}, NONE, {0, 0, 0}, {6, 0}},
    {"both kinds of lists of other lengths", 1, 2, 8, 8, {5, 4}, NONE, {3, 2, 1}, {6, 4}},
    {"both kinds, the given place above the slots", 1, 2, 8, 9, {6, 7}, 0, {0, 1, 2}, {6, 6}},
    {"given lists of other lengths, a faulty entry", 1, 2, 8, 8, {5, 4}, 0, {0, 0, 0}, {6, 4}},
    {"fewer levels to be filled", 1, 2, 8, 8, {3, 3}, NONE, {5, 4, 6}, {6, 4}},
    {"fewer marks", 1, 2, 8, 8, {3, 3}, NONE, {9, 9, 1}, {6, 1}},
    {"fewer residues", 1, 2, 8, 8, {3, 3}, NONE, {7, 9, 9}, {6, 7}},
    {"more levels", 1, 2, 8, 8, {3, 3}, NONE, {3, 4, 3}, {6, 3}},
    {"lists to be filled of other lengths, a faulty entry", 1, 2, 8, 8, {3, 3}, 0, {3, 3, 2}, {6, 2}},
    {"a faulty first entry", 1, 2, 8, 8, {3, 3}, 0, {3, 3, 3}, {7, 0}},
    {"a faulty entry", 1, 2, 8, 31, {5, 5}, 3, {9, 9, 9}, {7, 3}},
    {"a faulty last entry of 64", 1, 2, 8, 8, {64, 64}, 63, {64, 64, 64}, {7, 63}},
    {"a faulty entry, too few slots", 1, 2, 8, 8, {5, 5}, 4, {1, 1, 1}, {7, 4}},
    {"a faulty entry, no slots", 1, 2, 8, 9, {5, 5}, 1, {0, 0, 0}, {7, 1}},
    {"levels of m above n", 1, 2, 7, 8, {5, 5}, NONE, {5, 5, 5}, {7, 0}},
    {"one slot fewer", 1, 2, 8, 8, {5, 5}, NONE, {4, 4, 4}, {11, 5}},
    {"no slots", 65, 2, 8, 31, {5, 5}, NONE, {0, 0, 0}, {11, 5}},
    {"63 slots", 1, 2, 8, 9, {64, 64}, NONE, {63, 63, 63}, {11, 64}},
};

static void test_refused(const refused_raising *r)
{
    static list given;
    raising c = {.what = r->what, .count = r->count, .p = r->p, .n = r->n, .m = r->m};
    c.given = &given;
    c.raised = &given;
    c.refused = r->refused;
    memcpy(c.lengths, r->given, sizeof c.lengths);
    memcpy(c.slots, r->slots, sizeof c.slots);
    for (size_t i = 0; i < GIVEN; i++) {
        given.residues[i] = (int32_t)i - 32;
        given.levels[i] = (uint8_t)(i < r->faulty ? 8 : 9 + draw(247));
    }
    raise_once(&c);
}

/* Calls that are refused for their coefficients, p or n, with faults of every later kind and with none. */
static void test_refused_everywhere(const refused_call *r)
{
    test_refused(&(refused_raising){r->what, r->count, r->p, r->n, 0, {65, 3}, 0, {1, 2, 3}, r->refused});
    test_refused(&(refused_raising){r->what, r->count, r->p, r->n, 8, {5, 5}, NONE, {5, 5, 5}, r->refused});
    test_refused(&(refused_raising){r->what, r->count, r->p, r->n, r->n, {0, 0}, NONE, {0, 0, 0}, r->refused});
}

/* The same faults of p and m, where n is 1. */
static void test_refused_for_m(const refused_call *r)
{
    test_refused(&(refused_raising){r->what, r->count, r->p, 1, r->n, {65, 3}, 0, {1, 2, 3}, r->refused});
    test_refused(&(refused_raising){r->what, r->count, r->p, 1, r->n, {5, 5}, NONE, {5, 5, 5}, r->refused});
}

/* With length 0 a pointer is not used. */
static void test_null(void)
{
    static const int64_t f[] = {0, 1};
    static const int32_t residues[] = {0};
    static const uint8_t levels[] = {1};
    wimpleclay_raise_answer a = wimpleclay_raise(NULL, 0, 2, 1, 1, NULL, 0, NULL, 0, NULL, 0, NULL, 0, NULL, 0);
    expect(a.number == 2 && a.place == 0, "null coefficients");
    a = wimpleclay_raise(f, 2, 2, 1, 1, NULL, 0, NULL, 0, NULL, 0, NULL, 0, NULL, 0);
    expect(a.number == 0 && a.place == 0 && a.classes == 0 && a.roots == 0, "null lists");
    a = wimpleclay_raise(f, 2, 2, 1, 3, residues, 1, levels, 1, NULL, 0, NULL, 0, NULL, 0);
    expect(a.number == 11 && a.place == 1 && a.classes == 0 && a.roots == 0, "asked for k");
}

void test_raised_cases(void)
{
    for (size_t i = 0; i < sizeof knowns / sizeof *knowns; i++)
        test_known(&knowns[i]);
    for (size_t i = 0; i < sizeof refusals / sizeof *refusals; i++)
        test_refused(&refusals[i]);
    for (size_t i = 0; i < REFUSED; i++) {
        test_refused_everywhere(&refused_calls[i]);
        test_refused_for_m(&refused_calls[i]);
    }
    test_null();
}
