/* wimpleclay_raise on drawn polynomials and lists, against trial, and on the solver's lists, against wimpleclay_solve. */
#include "raised.h"
#include "check.h"
#include "drawn.h"
#include "tests.h"

#include <string.h>
#include <wimpleclay.h>

void raise_once(const raising *c)
{
    const list *s = c->raised;
    size_t word = sizeof *s->residues, k = c->refused.number ? 0 : s->k;
    loan f = lend(c->f, c->count * sizeof *c->f);
    loan given_residues = lend(c->given->residues, c->lengths[0] * word);
    loan given_levels = lend(c->given->levels, c->lengths[1]);
    loan residues = lend(NULL, c->slots[0] * word), levels = lend(NULL, c->slots[1]), marks = lend(NULL, c->slots[2]);
    wimpleclay_raise_answer a = wimpleclay_raise(lent(&f), c->count, c->p, c->n, c->m, lent(&given_residues),
                                                 c->lengths[0], lent(&given_levels), c->lengths[1], lent(&residues),
                                                 c->slots[0], lent(&levels), c->slots[1], lent(&marks), c->slots[2]);
    expect(a.number == c->refused.number && a.place == c->refused.place, c->what);
    expect(a.classes == k && a.roots == (c->refused.number ? 0 : s->members), c->what);
    expect(memcmp(lent(&residues), s->residues, k * word) == 0, c->what);
    expect(memcmp(lent(&levels), s->levels, k) == 0 && memcmp(lent(&marks), s->marks, k) == 0, c->what);
    expect(kept_from(&residues, k * word) && kept_from(&levels, k) && kept_from(&marks, k), c->what);
    expect(kept_from(&f, 0) && kept_from(&given_residues, 0) && kept_from(&given_levels, 0), c->what);
    end_loan(&f);
    end_loan(&given_residues);
    end_loan(&given_levels);
    end_loan(&residues);
    end_loan(&levels);
    end_loan(&marks);
}

static void raise_into(raising *c, size_t slots)
{
    c->lengths[0] = c->lengths[1] = c->given->k;
    c->slots[0] = c->slots[1] = c->slots[2] = slots;
    c->refused = slots < c->raised->k ? (refusal){11, c->raised->k} : (refusal){0, 0};
    raise_once(c);
}

void raise_into_slots(raising *c)
{
    size_t k = c->raised->k;
    expect(k <= WIMPLECLAY_MAX_RAISED, "no more classes than WIMPLECLAY_MAX_RAISED");
    raise_into(c, k);
    raise_into(c, k + 1 + draw(5));
    if (k > 0) {
        raise_into(c, k - 1);
        raise_into(c, 0);
    }
}

/* Against trial ******************************************************************************************************/

static list given, raised;

/* Any list, sound or not, and lists to be filled of the same length or not. */
static void test_list(raising *c)
{
    draw_list(c->p, c->n, &given, 0);
    c->refused = refused_list(c->p, c->n, &given, given.k, given.k, NULL);
    c->lengths[0] = c->lengths[1] = given.k;
    c->slots[0] = c->slots[1] = c->slots[2] = draw(9);
    if (c->refused.number) {
        raise_once(c);
    } else {
        raise_by_trial(c->f, c->count, c->p, c->m, &given, &raised);
        raise_into_slots(c);
    }
    c->slots[draw(3)] += 1 + draw(5);
    c->refused = (refusal){6, c->slots[0] < c->slots[1] ? c->slots[0] : c->slots[1]};
    if (c->slots[2] < c->refused.place)
        c->refused.place = c->slots[2];
    raise_once(c);
}

/* Parts of everything. */
static void test_parts(raising *c)
{
    draw_parts(c->p, c->n, &given);
    expect(refused_list(c->p, c->n, &given, given.k, given.k, NULL).number == 0, "parts share no member");
    raise_by_trial(c->f, c->count, c->p, c->m, &given, &raised);
    raise_into_slots(c);
}

/* The roots at n. */
static void test_roots(raising *c)
{
    solve_by_trial(c->f, c->count, c->p, c->n, &given);
    solve_by_trial(c->f, c->count, c->p, c->m, &raised);
    raise_into_slots(c);
}

static void test_drawn(uint32_t p, uint32_t m, int polynomials)
{
    raising c = {.what = "raise: agrees with trial", .p = p, .m = m, .given = &given, .raised = &raised};
    for (int turn = 0; turn < polynomials; turn++) {
        c.count = draw_polynomial(p, m, turn, c.f);
        c.n = 1 + (uint32_t)draw(m);
        test_list(&c);
        test_parts(&c);
        test_roots(&c);
    }
}

/* Against the solver *************************************************************************************************/

static void solve(const raising *c, uint32_t n, list *l)
{
    wimpleclay_solve_answer a = wimpleclay_solve(c->f, c->count, c->p, n, l->residues, WIMPLECLAY_MAX_CLASSES,
                                                 l->levels, WIMPLECLAY_MAX_CLASSES, l->marks, WIMPLECLAY_MAX_CLASSES);
    l->k = a.classes;
    l->members = a.roots;
}

/* Leaves out some classes of what is given, and those of the result that lie in them. */
static void leave_out(const raising *c)
{
    size_t kept = 0;
    for (size_t i = 0; i < given.k; i++)
        if (draw(3)) {
            given.residues[kept] = given.residues[i];
            given.levels[kept++] = given.levels[i];
        }
    given.k = kept;
    kept = 0;
    raised.members = 0;
    for (size_t i = 0; i < raised.k; i++)
        if (in_list(c->p, &given, raised.residues[i])) {
            raised.residues[kept] = raised.residues[i];
            raised.marks[kept] = raised.marks[i];
            raised.levels[kept++] = raised.levels[i];
            raised.members += power(c->p, c->m - raised.levels[i]);
        }
    raised.k = kept;
}

/* Splits some of what is given into the p classes one level below, as long as there are not more than 64. */
static void split(const raising *c)
{
    static list whole;
    whole = given;
    given.k = 0;
    for (size_t i = 0; i < whole.k; i++) {
        uint64_t q = power(c->p, whole.levels[i]);
        uint64_t a = (uint64_t)(whole.residues[i] < 0 ? whole.residues[i] + (int64_t)q : whole.residues[i]);
        int splits = whole.levels[i] < c->n && draw(2) && given.k + c->p + whole.k - i - 1 <= WIMPLECLAY_MAX_CLASSES;
        for (uint32_t digit = 0; digit < (splits ? c->p : 1); digit++)
            insert_class(c->p, &given, a + q * digit, whole.levels[i] + (uint32_t)splits);
    }
}

/* A modulus that is too large for trial. */
static void test_large(uint32_t p, uint32_t most)
{
    raising c = {.what = "raise: agrees with the solver", .p = p, .given = &given, .raised = &raised};
    c.count = draw_large_polynomial(p, most, c.f);
    c.m = 1 + (uint32_t)draw(most);
    c.n = 1 + (uint32_t)draw(c.m);
    solve(&c, c.n, &given);
    solve(&c, c.m, &raised);
    raise_into_slots(&c);
    leave_out(&c);
    raise_into_slots(&c);
    for (uint64_t i = draw(5); i > 0; i--)
        split(&c);
    raise_into_slots(&c);
}

/* Many classes *******************************************************************************************************/

/* The polynomial 0 modulo 2^m, given the classes of 0 to 63 at level 7, of which no two make up a class, and at level 6, where all do. */
static void test_64_given(uint32_t m)
{
    raising c = {.what = "64 given", .count = 1, .p = 2, .n = 7, .m = m, .given = &given, .raised = &raised};
    memset(&given, 0, sizeof given);
    for (uint32_t i = 0; i < 64; i++)
        insert_class(2, &given, i, 7);
    raised = given;
    raised.members = 64 * power(2, m - 7);
    raise_into_slots(&c);
    given.k = 0;
    for (uint32_t i = 0; i < 64; i++)
        insert_class(2, &given, i, 6);
    raised = (list){.k = 1, .members = power(2, m)};
    raise_into_slots(&c);
}

/* x^m times each x - i - 13 j with i from 1 to the last and j from 0 to m - 2. Modulo 13^m its classes are 0/1 and each (i + 13 j)/2, all
   with mark 0. Given are each i/1 and, up to 64, the parts 0/3, 13/3, 26/3, .. of 0/1, too few to make up a class. */
static void test_many(uint32_t m, uint32_t last)
{
    raising c = {.what = "more than 64 classes", .p = 13, .n = 3, .m = m, .given = &given, .raised = &raised};
    memset(&given, 0, sizeof given);
    memset(&raised, 0, sizeof raised);
    c.f[m] = 1;
    c.count = m + 1;
    for (uint32_t i = 1; i <= last; i++) {
        insert_class(13, &given, i, 1);
        for (uint32_t j = 0; j < m - 1; j++) {
            c.count = times_root(c.f, c.count, i + 13 * j, (uint32_t)power(13, m));
            insert_class(13, &raised, i + 13 * j, 2);
            raised.members += power(13, m - 2);
        }
    }
    for (uint32_t j = 0; given.k < 64; j++) {
        insert_class(13, &given, 13 * j, 3);
        insert_class(13, &raised, 13 * j, 3);
        raised.members += power(13, m - 3);
    }
    expect(raised.k > 64, c.what);
    raise_into_slots(&c);
    if (power(13, m) > MOST)
        return;
    raise_by_trial(c.f, c.count, 13, m, &given, &raised);
    raise_into_slots(&c);
}

void test_raised(void)
{
    static const uint32_t primes[] = {2, 3, 5, 7, 13, 47};
    for (size_t i = 0; i < sizeof primes / sizeof *primes; i++)
        for (uint32_t m = 1; power(primes[i], m) <= MOST; m++)
            test_drawn(primes[i], m, 60);
    expect_every_fault(0);
    for (size_t i = 0; i < LARGE; i++)
        for (int j = 0; j < 200; j++)
            test_large(large_moduli[i][0], large_moduli[i][1]);
    test_64_given(7);
    test_64_given(11);
    test_64_given(31);
    test_many(3, 12);
    test_many(8, 8);
}
