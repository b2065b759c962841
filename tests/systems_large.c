/* Systems of congruences with moduli that are too large for trial: the lists of the solver are cut by one another. */
#include "drawn.h"
#include "systems.h"
#include "tests.h"

static list common;

/* Drawn rows of calls ************************************************************************************************/

/* The polynomials of a row under the tags 0, 1, .., and their lists. */
static congruence drawn[WIMPLECLAY_MAX_HELD];
static list solved[WIMPLECLAY_MAX_HELD];

static void solve(uint32_t p, uint32_t n, const congruence *c, list *l)
{
    wimpleclay_solve_answer a = wimpleclay_solve(c->f, c->count, p, n, l->residues, WIMPLECLAY_MAX_CLASSES, l->levels,
                                                 WIMPLECLAY_MAX_CLASSES, l->marks, WIMPLECLAY_MAX_CLASSES);
    l->k = a.classes;
}

/* Adds the class i of a where it lies in the class j of b, which is not of a higher level. */
static void keep_inside(uint32_t p, uint32_t n, const list *a, size_t i, const list *b, size_t j, list *left)
{
    int64_t z = a->residues[i], q = (int64_t)power(p, a->levels[i]);
    if ((z - b->residues[j]) % (int64_t)power(p, b->levels[j]) != 0)
        return;
    insert_class(p, left, (uint64_t)(z < 0 ? z + q : z), a->levels[i]);
    left->members += power(p, n - a->levels[i]);
}

/* Cuts the common list by another one: of two classes that share a member one lies in the other, and stays. */
static void cut(uint32_t p, uint32_t n, const list *by)
{
    static list left;
    left.k = left.members = 0;
    for (size_t i = 0; i < common.k; i++)
        for (size_t j = 0; j < by->k; j++)
            if (common.levels[i] >= by->levels[j])
                keep_inside(p, n, &common, i, by, j, &left);
            else
                keep_inside(p, n, by, j, &common, i, &left);
    common = left;
}

/* Whether residues are common roots is told by the list: drawn ones, members, and those that are just not in a class. */
static void test_residues(const checked_system *s)
{
    uint64_t m = power(s->p, s->n);
    for (int i = 0; i < 10; i++) {
        uint64_t x = draw(m);
        if (common.k > 0 && draw(5)) {
            size_t j = draw(common.k);
            uint32_t t = common.levels[j];
            uint64_t q = power(s->p, t > 0 && draw(2) ? t - 1 : t);
            x = ((uint64_t)(common.residues[j] + (int64_t)m) + q * draw(m / q)) % m;
        }
        uint32_t root = 1;
        for (size_t j = 0; j < s->held; j++)
            root &= wimpleclay_is_root(s->congruences[j].f, s->congruences[j].count, s->p, s->n, (uint32_t)x).root;
        expect((int)root == in_list(s->p, &common, (int64_t)x), "the common list has the common roots");
    }
}

static void test_large(uint32_t p, uint32_t n)
{
    sharing r;
    size_t most = draw(4) ? 4 : WIMPLECLAY_MAX_HELD;
    checked_system s = lend_system("agrees with the solver's lists");
    draw_sharing(p, n, &r);
    for (uint32_t i = 0; i < most; i++) {
        drawn[i].tag = i;
        draw_congruence(p, n, &r, &drawn[i]);
        solve(p, n, &drawn[i], &solved[i]);
    }
    open_once(&s, p, n);
    for (size_t i = 3 * most; i > 0; i--) {
        size_t tag = draw(most);
        if (add_once(&s, &drawn[tag]).number && draw(3) == 0)
            withdraw_once(&s, drawn[tag].tag);
        common = (list){.k = 1, .members = power(p, n)};
        for (size_t j = 0; j < s.held; j++)
            cut(p, n, &solved[s.congruences[j].tag]);
        fetch_into_slots(&s, &common);
        test_residues(&s);
    }
    make_anew(&s, &common);
    end_loan(&s.memory);
}

/* Many classes *******************************************************************************************************/

/* Two polynomials modulo 13^8. The first is x^8 times each x - i - 13 j, with i from 1 to 8 and j from 0 to 6, and has the classes 0/1 and
   (i + 13 j)/2. The second is each x - 13 j times each (x - i)^8 with i up to 7, and has the classes 13 j / 2 and i/1. Many classes of
   either lie in larger ones of the other. */
static void test_many(void)
{
    congruence two[2] = {{.tag = 0, .count = 1, .f = {1}}, {.tag = 1, .count = 1, .f = {1}}};
    uint32_t m = (uint32_t)power(13, 8);
    checked_system s = lend_system("many classes");
    common = (list){.members = 56 * power(13, 6)};
    for (uint32_t i = 0; i <= 8; i++)
        for (uint32_t j = 0; j < 8; j++) {
            if (i == 0 || j < 7)
                two[0].count = times_root(two[0].f, two[0].count, i == 0 ? 0 : i + 13 * j, m);
            if (i == 0 ? j < 7 : i < 8)
                two[1].count = times_root(two[1].f, two[1].count, i == 0 ? 13 * j : i, m);
            if (i < 8 && j < 7)
                insert_class(13, &common, i + 13 * j, 2);
        }
    open_once(&s, 13, 8);
    add_once(&s, &two[0]);
    add_once(&s, &two[1]);
    fetch_into_slots(&s, &common);
    make_anew(&s, &common);
    end_loan(&s.memory);
}

/* x (x - 1) .. (x - 63) modulo 67^5 under two tags: the classes are i/5. */
static void test_64_classes(void)
{
    congruence c = {.tag = 1, .count = 1, .f = {1}};
    checked_system s = lend_system("64 classes");
    common = (list){.members = WIMPLECLAY_MAX_CLASSES};
    for (uint32_t i = 0; i < WIMPLECLAY_MAX_CLASSES; i++) {
        c.count = times_root(c.f, c.count, i, (uint32_t)power(67, 5));
        insert_class(67, &common, i, 5);
    }
    open_once(&s, 67, 5);
    for (; c.tag <= 2; c.tag++) {
        add_once(&s, &c);
        fetch_into_slots(&s, &common);
    }
    end_loan(&s.memory);
}

void test_large_systems(void)
{
    for (size_t i = 0; i < LARGE; i++)
        for (int j = 0; j < 20; j++)
            test_large(large_moduli[i][0], large_moduli[i][1]);
    test_many();
    test_64_classes();
}
