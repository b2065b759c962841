/* Rule 7 on lists with known answers, in each operation that takes a list and in the reference. */
#include "check.h"
#include "reference.h"
#include "tests.h"

#include <string.h>
#include <wimpleclay.h>

enum { ENTRIES = 3 };

typedef struct {
    const char *what;
    uint32_t p, n;
    size_t k;
    int32_t residues[ENTRIES];
    uint8_t levels[ENTRIES];
    refusal refused;
    uint32_t first; /* the least member, where the list is accepted */
} entries;

static const entries lists[] = {
    {"both signs", 5, 2, 2, {-7, 7}, {2, 2}, {0, 0}, 7},
    {"both signs and 0", 3, 2, 3, {-1, 0, 1}, {1, 1, 1}, {0, 0}, 0},
    {"both signs, other levels", 3, 2, 3, {-4, 0, 4}, {2, 1, 2}, {0, 0}, 0},
    {"negative residues", 7, 2, 3, {-24, -2, -1}, {2, 1, 1}, {0, 0}, 5},
    {"everything", 65521, 2, 1, {0}, {0}, {0, 0}, 0},

    /* the range, at its ends */
    {"1/0", 3, 2, 1, {1}, {0}, {7, 0}, 0},
    {"-1/0", 3, 2, 1, {-1}, {0}, {7, 0}, 0},
    {"4/2 modulo 9", 3, 2, 1, {4}, {2}, {0, 0}, 4},
    {"5/2 modulo 9", 3, 2, 1, {5}, {2}, {7, 0}, 0},
    {"-4/2 modulo 9", 3, 2, 1, {-4}, {2}, {0, 0}, 5},
    {"-5/2 modulo 9", 3, 2, 1, {-5}, {2}, {7, 0}, 0},
    {"half of 2", 2, 1, 1, {1}, {1}, {0, 0}, 1},
    {"minus half of 2", 2, 1, 1, {-1}, {1}, {7, 0}, 0},
    {"half of 2^3", 2, 4, 1, {4}, {3}, {0, 0}, 4},
    {"minus half of 2^3", 2, 4, 1, {-4}, {3}, {7, 0}, 0},
    {"half of 2^4", 2, 4, 1, {8}, {4}, {0, 0}, 8},
    {"minus half of 2^4", 2, 4, 1, {-8}, {4}, {7, 0}, 0},
    {"minus half of 2^3 after an entry", 2, 4, 2, {-7, -4}, {4, 3}, {7, 1}, 0},
    {"p^t", 3, 2, 1, {9}, {2}, {7, 0}, 0},
    {"-p^t", 3, 2, 1, {-9}, {2}, {7, 0}, 0},
    {"p^t for p = 2", 2, 4, 1, {8}, {3}, {7, 0}, 0},
    {"-p^t for p = 2", 2, 4, 1, {-8}, {3}, {7, 0}, 0},
    {"p^t after an entry", 3, 2, 2, {0, 3}, {1, 1}, {7, 1}, 0},
    {"in the range of another level", 3, 2, 2, {-1, 4}, {2, 1}, {7, 1}, 0},

    /* the range, where it is widest and at the ends of the type */
    {"half of 2^31", 2, 31, 1, {1073741824}, {31}, {0, 0}, 1073741824},
    {"half of 2^31 and one more", 2, 31, 1, {1073741825}, {31}, {7, 0}, 0},
    {"minus half of 2^31", 2, 31, 1, {-1073741824}, {31}, {7, 0}, 0},
    {"minus half of 2^31 and one more", 2, 31, 1, {-1073741823}, {31}, {0, 0}, 1073741825},
    {"the largest residue", 65521, 2, 1, {2146500720}, {2}, {0, 0}, 2146500720},
    {"the largest residue and one more", 65521, 2, 1, {2146500721}, {2}, {7, 0}, 0},
    {"the least residue", 65521, 2, 1, {-2146500720}, {2}, {0, 0}, 2146500721},
    {"the least residue less one", 65521, 2, 1, {-2146500721}, {2}, {7, 0}, 0},
    {"the least residue, then the largest", 65521, 2, 2, {-2146500720, 2146500720}, {2, 2}, {0, 0}, 2146500720},
    {"INT32_MIN at level 0", 2, 31, 1, {INT32_MIN}, {0}, {7, 0}, 0},
    {"INT32_MIN modulo 2^31", 2, 31, 1, {INT32_MIN}, {31}, {7, 0}, 0},
    {"INT32_MIN modulo 65521^2", 65521, 2, 1, {INT32_MIN}, {2}, {7, 0}, 0},
    {"INT32_MIN after an entry", 65521, 2, 2, {-2146500720, INT32_MIN}, {2, 2}, {7, 1}, 0},
    {"-INT32_MAX modulo 2^31", 2, 31, 1, {-INT32_MAX}, {31}, {7, 0}, 0},
    {"-INT32_MAX modulo 65521^2", 65521, 2, 1, {-INT32_MAX}, {2}, {7, 0}, 0},
    {"INT32_MAX modulo 2^31", 2, 31, 1, {INT32_MAX}, {31}, {7, 0}, 0},
    {"INT32_MAX modulo 65521^2", 65521, 2, 1, {INT32_MAX}, {2}, {7, 0}, 0},

    {"a level above n", 3, 2, 3, {-1, 0, 1}, {1, 3, 1}, {7, 1}, 0},
    {"a level above n in whose range the residue is", 3, 2, 1, {5}, {3}, {7, 0}, 0},
    {"level 32 modulo 2^31", 2, 31, 1, {1}, {32}, {7, 0}, 0},
    {"level 255", 3, 2, 3, {-1, 0, 1}, {1, 1, 255}, {7, 2}, 0},

    /* rising by the signed number */
    {"7/2, 18/2 as once", 5, 2, 2, {7, 18}, {2, 2}, {7, 1}, 0},
    {"1/3, 7/3 as once", 2, 4, 2, {1, 7}, {3, 3}, {7, 1}, 0},
    {"rising by the least member", 5, 2, 2, {7, -7}, {2, 2}, {7, 1}, 0},
    {"a negative residue after 0", 3, 2, 3, {0, -1, 1}, {1, 1, 1}, {7, 1}, 0},
    {"falling negative residues", 5, 2, 2, {-1, -2}, {1, 1}, {7, 1}, 0},
    {"below the entry before alone", 5, 2, 3, {-2, 1, 0}, {1, 1, 1}, {7, 2}, 0},
    {"equal classes", 3, 2, 3, {-1, 1, 1}, {1, 1, 1}, {7, 2}, 0},
    {"equal residues at levels 1 and 2", 3, 2, 2, {1, 1}, {1, 2}, {7, 1}, 0},
    {"equal residues at levels 2 and 1", 3, 2, 2, {-1, -1}, {2, 1}, {7, 1}, 0},
    {"0 at levels 0 and 2", 3, 2, 2, {0, 0}, {0, 2}, {7, 1}, 0},

    /* shared members */
    {"an earlier entry inside a later one", 3, 2, 2, {-2, 1}, {2, 1}, {7, 1}, 0},
    {"a later entry inside an earlier one", 3, 2, 2, {-1, 2}, {1, 2}, {7, 1}, 0},
    {"the first entry inside the third", 3, 2, 3, {-4, -3, -1}, {2, 2, 1}, {7, 2}, 0},
    {"the third entry inside the first", 3, 2, 3, {-1, 0, 2}, {1, 1, 2}, {7, 2}, 0},
    {"everything after a class", 3, 2, 2, {-4, 0}, {2, 0}, {7, 1}, 0},
    {"a class after everything", 3, 2, 2, {0, 4}, {0, 2}, {7, 1}, 0},
    {"the least residue inside a later entry", 65521, 2, 2, {-2146500720, -32760}, {2, 1}, {7, 1}, 0},
    {"the largest residue inside an earlier entry", 65521, 2, 2, {32760, 2146500720}, {1, 2}, {7, 1}, 0},
    {"the largest residue outside an earlier entry", 65521, 2, 2, {-32760, 2146500720}, {1, 2}, {0, 0}, 32761},

    {"the first of two faults", 3, 2, 3, {-1, 5, -1}, {1, 2, 1}, {7, 1}, 0},
};

/* The answer where the list is raised from n to n, for the polynomial 0. */
static refusal raised(const entries *c)
{
    static const int64_t zero[] = {0};
    int32_t residues[ENTRIES];
    uint8_t levels[ENTRIES], marks[ENTRIES];
    wimpleclay_raise_answer a = wimpleclay_raise(zero, 1, c->p, c->n, c->n, c->residues, c->k, c->levels, c->k,
                                                 residues, ENTRIES, levels, ENTRIES, marks, ENTRIES);
    return (refusal){a.number, a.place};
}

static void test_entries(const entries *c)
{
    static list l;
    static uint8_t map[WIMPLECLAY_MAP_BYTES(MOST)];
    static const uint8_t marks[ENTRIES] = {2, 1, 0};
    uint8_t text[WIMPLECLAY_TEXT_BYTES(ENTRIES)];
    const refusal *r = &c->refused;
    memcpy(l.residues, c->residues, sizeof c->residues);
    memcpy(l.levels, c->levels, sizeof c->levels);
    refusal by_trial = refused_list(c->p, c->n, &l, c->k, c->k, NULL);
    expect(by_trial.number == r->number && by_trial.place == r->place, c->what);

    refusal by_raise = raised(c);
    expect(by_raise.number == r->number && by_raise.place == r->place, c->what);

    wimpleclay_next_answer next = wimpleclay_next_root(c->p, c->n, c->residues, c->k, c->levels, c->k, 0);
    expect(next.number == r->number && next.place == r->place, c->what);
    expect(next.found == !r->number && next.root == c->first, c->what);

    uint64_t m = power(c->p, c->n);
    size_t bytes = m <= MOST ? WIMPLECLAY_MAP_BYTES(m) : 0;
    wimpleclay_map_answer filled = wimpleclay_fill_map(c->p, c->n, c->residues, c->k, c->levels, c->k, map, bytes);
    expect(filled.number == (r->number || bytes ? r->number : 9) && filled.place == r->place, c->what);

    wimpleclay_write_answer written =
        wimpleclay_write_classes(c->p, c->n, c->residues, c->k, c->levels, c->k, marks, c->k, text, sizeof text);
    expect(written.number == r->number && written.place == r->place, c->what);
}

/* The writer's answer for three classes with these marks. */
static refusal written_with(const uint8_t *marks, int32_t last)
{
    const int32_t residues[] = {-1, 0, last};
    static const uint8_t levels[] = {1, 1, 1};
    uint8_t text[WIMPLECLAY_TEXT_BYTES(3)];
    wimpleclay_write_answer a = wimpleclay_write_classes(3, 2, residues, 3, levels, 3, marks, 3, text, sizeof text);
    return (refusal){a.number, a.place};
}

static void test_marks(void)
{
    refusal r = written_with((const uint8_t[]){2, 2, 2}, 1);
    expect(r.number == 0, "write_classes: marks 2");
    r = written_with((const uint8_t[]){0, 3, 0}, 1);
    expect(r.number == 7 && r.place == 1, "write_classes: mark 3");
    r = written_with((const uint8_t[]){255, 0, 0}, 2);
    expect(r.number == 7 && r.place == 0, "write_classes: mark 255 before a faulty residue");
    r = written_with((const uint8_t[]){0, 0, 3}, 2);
    expect(r.number == 7 && r.place == 2, "write_classes: mark 3 and a faulty residue");
}

void test_rule_7(void)
{
    for (size_t i = 0; i < sizeof lists / sizeof *lists; i++)
        test_entries(&lists[i]);
    test_marks();
}
