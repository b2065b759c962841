/* Systems of congruences: drawn rows of calls against a plain set of tagged polynomials and trial of all residues. */
#include "systems.h"
#include "drawn.h"
#include "tests.h"

#include <string.h>

/* Drawn polynomials **************************************************************************************************/

/* The tags of a row, and the most shared roots, each counted as often as it comes at least. */
enum { TAGS = 20, MOST_TIMES = 36 };

static uint32_t draw_tag(const sharing *r)
{
    uint32_t i = (uint32_t)draw(TAGS);
    return i == 0 ? r->tag : r->tag ^ UINT32_C(1) << (r->bit + i) % 32;
}

/* A number of least size modulo m, or one not far from 0. */
static int64_t draw_root(uint64_t m)
{
    return draw(3) ? (int64_t)draw(m) - (int64_t)((m - 1) / 2) : (int64_t)draw(9) - 4;
}

void draw_sharing(uint32_t p, uint32_t n, sharing *r)
{
    r->tag = draw(3) ? (uint32_t)draw(UINT32_MAX) : draw(2) ? 0 : UINT32_MAX;
    r->bit = (uint32_t)draw(32);
    r->roots = draw(3) ? draw(4) : 1 + draw(SHARED);
    for (size_t i = 0; i < r->roots; i++) {
        uint64_t most = MOST_TIMES / r->roots - 1;
        r->root[i] = draw_root(power(p, n));
        r->times[i] = 1 + draw(n < most ? n : most);
    }
}

/* f(-x) in the place of f: its roots are those of f with the other sign. */
static void mirror(int64_t *f, size_t count)
{
    for (size_t i = 1; i < count; i += 2)
        f[i] = -f[i];
}

/* Multiplies f by x - z or z - x. */
static size_t times_signed(int64_t *f, size_t count, int64_t z, uint32_t m)
{
    if (z >= 0)
        return times_root(f, count, (uint32_t)z, m);
    mirror(f, count);
    count = times_root(f, count, (uint32_t)-z, m);
    mirror(f, count);
    return count;
}

void draw_congruence(uint32_t p, uint32_t n, const sharing *r, congruence *c)
{
    uint32_t m = (uint32_t)power(p, n);
    if (draw(60) == 0) {
        c->count = m <= MOST ? draw_polynomial(p, n, (int)draw(60), c->f) : draw_large_polynomial(p, n, c->f);
        return;
    }
    c->f[0] = draw(15) ? 1 + (int64_t)draw(m) : m;
    c->count = 1;
    for (size_t i = 0; i < r->roots; i++)
        for (uint64_t j = r->times[i] + draw(3); j > 0; j--)
            c->count = times_signed(c->f, c->count, r->root[i], m);
    for (uint64_t j = draw(4); j > 0; j--)
        c->count = times_signed(c->f, c->count, draw_root(m), m);
    if (draw(3) == 0)
        times_power(c->f, c->count, p, n);
}

/* Drawn rows of calls ************************************************************************************************/

void make_anew(const checked_system *s, const list *common)
{
    checked_system anew = lend_system("a system made anew");
    uint32_t turn = (uint32_t)draw(WIMPLECLAY_MAX_HELD), tag = (uint32_t)draw(UINT32_MAX);
    open_once(&anew, s->p, s->n);
    for (size_t i = 0; i < s->held; i++)
        add_once(&anew, &s->congruences[i]);
    expect(memcmp(system_of(&anew), system_of(s), sizeof(wimpleclay_system)) == 0, anew.what);
    open_once(&anew, s->p, s->n);
    for (size_t i = s->held; i > 0; i--) {
        congruence c = s->congruences[(i + turn) % s->held];
        c.tag = tag++;
        add_once(&anew, &c);
    }
    fetch_into_slots(&anew, common);
    end_loan(&anew.memory);
}

/* The answers to adding and to withdrawing by their number, and the lists that are empty, of one class and longer. */
static unsigned long added[17], withdrawn[17], lists[3];

static void add_or_withdraw(checked_system *s, const sharing *r, int growing)
{
    congruence c = {.tag = draw_tag(r)};
    if ((draw(12) > 0) != growing) {
        withdrawn[withdraw_once(s, c.tag).number]++;
        return;
    }
    draw_congruence(s->p, s->n, r, &c);
    if (draw(40) == 0)
        c.count = draw(2) ? 0 : COEFFICIENTS + 1;
    added[add_once(s, &c).number]++;
}

/* The system becomes a copy of the other one. */
static void copy(checked_system *s, const checked_system *other)
{
    loan memory = s->memory;
    *system_of(s) = *system_of(other);
    *s = *other;
    s->memory = memory;
}

/* Calls on two systems by turns, first more that add and then more that withdraw. What happens to one leaves the other as it is. */
static void test_row(uint32_t p, uint32_t n, int calls)
{
    static list common;
    sharing r;
    checked_system two[2] = {lend_system("a drawn row of calls"), lend_system("a drawn row of calls")};
    draw_sharing(p, n, &r);
    open_once(&two[0], p, n);
    open_once(&two[1], p, n);
    for (int i = 0; i < calls; i++) {
        checked_system *s = &two[draw(2)], *other = s == two ? two + 1 : two;
        wimpleclay_system before = *system_of(other);
        if (draw(30) == 0)
            copy(s, other);
        else if (draw(80) == 0)
            open_once(s, p, draw(2) ? n : 1 + (uint32_t)draw(n));
        else
            add_or_withdraw(s, &r, i < calls / 2);
        common_by_trial(s, &common);
        fetch_into_slots(s, &common);
        lists[common.k < 2 ? common.k : 2]++;
        if (draw(8) == 0)
            make_anew(s, &common);
        expect(memcmp(&before, system_of(other), sizeof before) == 0, "the other system is kept");
    }
    end_loan(&two[0].memory);
    end_loan(&two[1].memory);
}

static void expect_every_answer(void)
{
    static const int numbers[] = {0, 2, 3, 15, 16};
    for (size_t i = 0; i < sizeof numbers / sizeof *numbers; i++)
        expect(added[numbers[i]] > 0, "every answer to adding is drawn");
    expect(withdrawn[0] > 0 && withdrawn[15] > 0, "both answers to withdrawing are drawn");
    expect(lists[0] > 0 && lists[1] > 0 && lists[2] > 0, "lists of every kind are drawn");
}

void test_systems(void)
{
    static const uint32_t primes[] = {2, 3, 5, 7, 13, 47};
    for (size_t i = 0; i < sizeof primes / sizeof *primes; i++)
        for (uint32_t n = 1; power(primes[i], n) <= MOST; n++)
            for (int j = 0; j < 2; j++)
                test_row(primes[i], n, 240);
    expect_every_answer();
}
