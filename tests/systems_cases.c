/* Systems of congruences: a row of calls with known lists, and each refusal in its order. */
#include "refused.h"
#include "systems.h"
#include "tests.h"

#include <string.h>

/* Known lists ********************************************************************************************************/

typedef enum { OPEN, ADD, WITHDRAW } call;

/* A call on the system that the one before left, and its common list then. */
typedef struct {
    const char *what;
    call call;
    uint32_t words[2]; /* p and n, or the tag and the number of coefficients */
    int64_t f[5];
    size_t k;
    uint64_t roots;
    int32_t residues[2];
    uint8_t levels[2];
} known;

static const known knowns[] = {
    {"2^4, none held", OPEN, {2, 4}, {0}, 1, 16, {0}, {0}},
    {"x^2 - 1", ADD, {0, 3}, {-1, 0, 1}, 2, 4, {-1, 1}, {3, 3}},
    {"x - 1", ADD, {7, 2}, {-1, 1}, 1, 1, {1}, {4}},
    {"x^2 - 1 again", ADD, {UINT32_MAX, 3}, {-1, 0, 1}, 1, 1, {1}, {4}},
    {"one x^2 - 1 withdrawn", WITHDRAW, {0}, {0}, 1, 1, {1}, {4}},
    {"x - 1 withdrawn, x^2 - 1 is still held", WITHDRAW, {7}, {0}, 2, 4, {-1, 1}, {3, 3}},
    {"0 under the tag of x - 1", ADD, {7, 1}, {0}, 2, 4, {-1, 1}, {3, 3}},
    {"16 + 32x", ADD, {0, 2}, {16, 32}, 2, 4, {-1, 1}, {3, 3}},
    {"only zeros held", WITHDRAW, {UINT32_MAX}, {0}, 1, 16, {0}, {0}},
    {"one zero held", WITHDRAW, {0}, {0}, 1, 16, {0}, {0}},
    {"none held any more", WITHDRAW, {7}, {0}, 1, 16, {0}, {0}},
    {"2x", ADD, {5, 2}, {0, 2}, 1, 2, {0}, {3}},
    {"8x, the larger class", ADD, {6, 2}, {0, 8}, 1, 2, {0}, {3}},
    {"the larger class alone", WITHDRAW, {5}, {0}, 1, 8, {0}, {1}},
    {"2x, the smaller class", ADD, {5, 2}, {0, 2}, 1, 2, {0}, {3}},
    {"x - 8", ADD, {0, 2}, {-8, 1}, 1, 1, {8}, {4}},
    {"1", ADD, {1, 1}, {1}, 0, 0, {0}, {0}},
    {"1 withdrawn", WITHDRAW, {1}, {0}, 1, 1, {8}, {4}},
    {"2^4 opened again", OPEN, {2, 4}, {0}, 1, 16, {0}, {0}},
    {"3^3 in its place", OPEN, {3, 3}, {0}, 1, 27, {0}, {0}},
    {"x^3 (x - 1)", ADD, {1, 5}, {0, 0, 0, -1, 1}, 2, 10, {0, 1}, {1, 3}},
    {"x (x - 1)^3, a class of each in one of the other", ADD, {2, 5}, {0, -1, 3, -3, 1}, 2, 2, {0, 1}, {3, 3}},
    {"x (x - 1)^3 alone", WITHDRAW, {1}, {0}, 2, 10, {0, 1}, {3, 1}},
    {"9x^2 - 9", ADD, {1, 3}, {-9, 0, 9}, 1, 9, {1}, {1}},
    {"5", OPEN, {5, 1}, {0}, 1, 5, {0}, {0}},
    {"x", ADD, {3, 2}, {0, 1}, 1, 1, {0}, {1}},
    {"no common root", ADD, {4, 2}, {-1, 1}, 0, 0, {0}, {0}},
    {"no common root of three", ADD, {5, 2}, {0, 1}, 0, 0, {0}, {0}},
    {"x withdrawn, held once more", WITHDRAW, {3}, {0}, 0, 0, {0}, {0}},
    {"x withdrawn again", WITHDRAW, {5}, {0}, 1, 1, {1}, {1}},
    {"2^31", OPEN, {2, 31}, {0}, 1, UINT64_C(2147483648), {0}, {0}},
    {"2^16 (x - 2^14)", ADD, {1, 2}, {-1073741824, 65536}, 1, 65536, {16384}, {15}},
    {"2^15 (x - 2^14)", ADD, {2, 2}, {-536870912, 32768}, 1, 32768, {16384}, {16}},
    {"x + 2^30 - 2^14", ADD, {3, 2}, {1073725440, 1}, 1, 1, {-1073725440}, {31}},
    {"2^31 opened again", OPEN, {2, 31}, {0}, 1, UINT64_C(2147483648), {0}, {0}},
    {"2x modulo 2^31", ADD, {1, 2}, {0, 2}, 1, 2, {0}, {30}},
    {"x + 2^30", ADD, {2, 2}, {1073741824, 1}, 1, 1, {1073741824}, {31}},
    {"65521^2", OPEN, {65521, 2}, {0}, 1, UINT64_C(4293001441), {0}, {0}},
    {"4x^2 - 1", ADD, {0, 3}, {-1, 0, 4}, 2, 2, {-2146500720, 2146500720}, {2, 2}},
    {"65521 (2x + 1)", ADD, {1, 2}, {65521, 131042}, 1, 1, {2146500720}, {2}},
    {"65521 (2x + 1) alone", WITHDRAW, {0}, {0}, 1, 65521, {32760}, {1}},
    {"3^20", OPEN, {3, 20}, {0}, 1, UINT64_C(3486784401), {0}, {0}},
    {"4x^2 - 1 modulo 3^20", ADD, {0, 3}, {-1, 0, 4}, 2, 2, {-1743392200, 1743392200}, {20, 20}},
    {"2x - 1", ADD, {1, 2}, {-1, 2}, 1, 1, {-1743392200}, {20}},
    {"3^10 (4x^2 - 1)", ADD, {2, 3}, {-59049, 0, 236196}, 1, 1, {-1743392200}, {20}},
    {"4x^2 - 1 withdrawn", WITHDRAW, {0}, {0}, 1, 1, {-1743392200}, {20}},
    {"3^10 (4x^2 - 1) alone", WITHDRAW, {1}, {0}, 2, 118098, {-29524, 29524}, {10, 10}},
};

/* Calls once, and gives the refusal that there must be. */
static refusal call_once(checked_system *s, const known *k)
{
    congruence c = {.tag = k->words[0], .count = k->words[1]};
    memcpy(c.f, k->f, sizeof k->f);
    switch (k->call) {
    case OPEN:
        return open_once(s, k->words[0], k->words[1]);
    case ADD:
        return add_once(s, &c);
    default:
        return withdraw_once(s, c.tag);
    }
}

static void test_knowns(void)
{
    static list common, by_trial;
    checked_system s = lend_system(NULL);
    for (const known *k = knowns; k < knowns + sizeof knowns / sizeof *knowns; k++) {
        s.what = k->what;
        expect(call_once(&s, k).number == 0, k->what);
        common.k = k->k;
        common.members = k->roots;
        memcpy(common.residues, k->residues, sizeof k->residues);
        memcpy(common.levels, k->levels, sizeof k->levels);
        fetch_into_slots(&s, &common);
        if (power(s.p, s.n) > MOST)
            continue;
        common_by_trial(&s, &by_trial);
        expect(by_trial.k == k->k && by_trial.members == k->roots, k->what);
        expect(memcmp(by_trial.residues, k->residues, k->k * sizeof *k->residues) == 0, k->what);
        expect(memcmp(by_trial.levels, k->levels, k->k) == 0, k->what);
    }
    end_loan(&s.memory);
}

/* Refusals ***********************************************************************************************************/

/* The common list of x^2 - 1 modulo 2^4, which the systems below hold under the tags 1, 2, .. */
static const list two_classes = {.k = 2, .residues = {-1, 1}, .levels = {3, 3}, .members = 4};
static const list everything = {.k = 1, .members = 16};

static checked_system hold(const char *what, uint32_t held)
{
    checked_system s = lend_system(what);
    expect(open_once(&s, 2, 4).number == 0, what);
    for (uint32_t tag = 1; tag <= held; tag++)
        expect(add_once(&s, &(congruence){.tag = tag, .count = 3, .f = {-1, 0, 1}}).number == 0, what);
    return s;
}

/* Checks that there was this refusal and the list is as before. */
static void end_refused(checked_system *s, refusal r, uint32_t number)
{
    expect(r.number == number, s->what);
    fetch_into_slots(s, s->held > 0 ? &two_classes : &everything);
    end_loan(&s->memory);
}

/* Memory of any bytes, and a system in use. */
static void test_open(const refused_call *c)
{
    checked_system any = lend_system(c->what), used = hold(c->what, 3);
    refusal r = open_once(&any, c->p, c->n);
    expect(r.number == c->refused.number && r.place == c->refused.place, c->what);
    end_refused(&used, open_once(&used, c->p, c->n), c->refused.number);
    end_loan(&any.memory);
}

/* Every p, and some n. */
static void test_moduli_of_systems(void)
{
    static const uint32_t precisions[] = {0, 1, 2, 33};
    checked_system s = lend_system("open: p and n");
    for (uint32_t p = 0; p <= 66000; p++)
        open_once(&s, p, precisions[draw(4)]);
    for (uint32_t p = 0; p < 100; p++)
        for (uint32_t n = 0; n <= 33; n++)
            open_once(&s, p, n);
    end_loan(&s.memory);
}

/* A call on a system that holds this many; where it adds, the polynomial is 1, which would leave no common root. */
typedef struct {
    const char *what;
    uint32_t held;
    uint32_t tag;
    size_t count; /* of coefficients */
    uint32_t number;
} refused_change;

static const refused_change adds[] = {
    {"no coefficient", 0, 1, 0, 2},
    {"no coefficient, a held tag", 1, 1, 0, 2},
    {"no coefficient, 16 held", 16, 17, 0, 2},
    {"no coefficient, a held tag, 16 held", 16, 16, 0, 2},
    {"66 coefficients", 0, 1, 66, 3},
    {"66 coefficients, a held tag", 2, 2, 66, 3},
    {"66 coefficients, 16 held", 16, 17, 66, 3},
    {"66 coefficients, a held tag, 16 held", 16, 1, 66, 3},
    {"a held tag", 1, 1, 1, 15},
    {"the first tag of 15", 15, 1, 65, 15},
    {"the last tag of 15", 15, 15, 1, 15},
    {"the first tag, 16 held", 16, 1, 1, 15},
    {"a tag between, 16 held", 16, 9, 65, 15},
    {"the last tag, 16 held", 16, 16, 1, 15},
    {"16 held", 16, 17, 1, 16},
    {"16 held, the tag is 0", 16, 0, 65, 16},
    {"16 held, the tag is 65537", 16, 65537, 1, 16},
    {"16 held, the tag is 4294967295", 16, UINT32_MAX, 1, 16},
};

static const refused_change withdrawals[] = {
    {"none held", 0, 1, 0, 15},
    {"none held, the tag is 0", 0, 0, 0, 15},
    {"none held, the tag is 4294967295", 0, UINT32_MAX, 0, 15},
    {"tag 2 of 1", 1, 2, 0, 15},
    {"tag 0 of 1", 1, 0, 0, 15},
    {"tag 16 of 15", 15, 16, 0, 15},
    {"tag 17 of 16", 16, 17, 0, 15},
    {"tag 0 of 16", 16, 0, 0, 15},
    {"tag 257 of 16", 16, 257, 0, 15},
    {"tag 65537 of 16", 16, 65537, 0, 15},
    {"tag 2147483649 of 16", 16, 2147483649, 0, 15},
};

static void test_refused_add(const refused_change *r)
{
    checked_system s = hold(r->what, r->held);
    end_refused(&s, add_once(&s, &(congruence){.tag = r->tag, .count = r->count, .f = {1}}), r->number);
}

static void test_refused_withdrawal(const refused_change *r)
{
    checked_system s = hold(r->what, r->held);
    end_refused(&s, withdraw_once(&s, r->tag), r->number);
}

/* Each tag of a full system withdrawn, twice, and used again. */
static void test_full(void)
{
    for (uint32_t tag = 1; tag <= WIMPLECLAY_MAX_HELD; tag++) {
        checked_system s = hold("a full system", WIMPLECLAY_MAX_HELD);
        congruence c = {.tag = tag, .count = 1};
        expect(withdraw_once(&s, tag).number == 0, s.what);
        expect(withdraw_once(&s, tag).number == 15, s.what);
        expect(add_once(&s, &c).number == 0, s.what);
        c.tag = 0;
        end_refused(&s, add_once(&s, &c), 16);
    }
}

/* The lengths of the two lists that are to be filled with two classes, and the refusal. */
static const size_t fetches[][4] = {{2, 2, 0, 0},  {3, 3, 0, 0},  {1024, 1024, 0, 0}, {2000, 2000, 0, 0},
                                    {1, 1, 11, 2}, {0, 0, 11, 2}, {5, 4, 6, 4},       {2, 1024, 6, 2},
                                    {2, 1, 6, 1},  {1, 2, 6, 1},  {3, 0, 6, 0},       {0, 1, 6, 0}};

static void test_fetches(void)
{
    checked_system s = hold("lists of some lengths", 1);
    for (size_t i = 0; i < sizeof fetches / sizeof *fetches; i++)
        fetch_once(&s, &two_classes, fetches[i], (refusal){(uint32_t)fetches[i][2], fetches[i][3]});
    end_loan(&s.memory);
}

/* With length 0 a pointer is not used. */
static void test_null(void)
{
    checked_system s = hold("null pointers", 1);
    int32_t residue;
    uint8_t level;
    expect(wimpleclay_system_add(system_of(&s), 9, NULL, 0).number == 2, "null coefficients");
    wimpleclay_fetch_answer a = wimpleclay_system_fetch(system_of(&s), NULL, 0, NULL, 0);
    expect(a.number == 11 && a.place == 2 && a.classes == 0 && a.roots == 0, "asked for k");
    a = wimpleclay_system_fetch(system_of(&s), NULL, 0, &level, 1);
    expect(a.number == 6 && a.place == 0 && a.classes == 0 && a.roots == 0, "null residues");
    a = wimpleclay_system_fetch(system_of(&s), &residue, 1, NULL, 0);
    expect(a.number == 6 && a.place == 0 && a.classes == 0 && a.roots == 0, "null levels");
    add_once(&s, &(congruence){.tag = 9, .count = 1, .f = {1}});
    a = wimpleclay_system_fetch(system_of(&s), NULL, 0, NULL, 0);
    expect(a.number == 0 && a.place == 0 && a.classes == 0 && a.roots == 0, "null lists for no class");
    end_loan(&s.memory);
}

/* x^64 - 1 modulo 7 */
static void test_65_coefficients(void)
{
    static const list classes = {.k = 2, .residues = {-1, 1}, .levels = {1, 1}, .members = 2};
    checked_system s = lend_system("65 coefficients");
    expect(open_once(&s, 7, 1).number == 0, s.what);
    expect(add_once(&s, &(congruence){.tag = 1, .count = 65, .f = {[0] = -1, [64] = 1}}).number == 0, s.what);
    fetch_into_slots(&s, &classes);
    end_loan(&s.memory);
}

void test_system_cases(void)
{
    expect(sizeof(wimpleclay_system) == 10400, "a system is 10400 bytes");
    test_knowns();
    test_65_coefficients();
    for (size_t i = 0; i < REFUSED; i++)
        if (refused_calls[i].refused.number > 3)
            test_open(&refused_calls[i]);
    test_moduli_of_systems();
    for (size_t i = 0; i < sizeof adds / sizeof *adds; i++)
        test_refused_add(&adds[i]);
    for (size_t i = 0; i < sizeof withdrawals / sizeof *withdrawals; i++)
        test_refused_withdrawal(&withdrawals[i]);
    test_full();
    test_fetches();
    test_null();
}
