/* wimpleclay_next_root, wimpleclay_fill_map and wimpleclay_count_map on drawn lists, sound and damaged, against trial. */
#include "check.h"
#include "drawn.h"
#include "tests.h"

#include <wimpleclay.h>

/* The list drawn, as it is lent, and its refusal by rules 6 and 7. */
static list l;
static loan residues, levels;
static size_t lengths[2];
static refusal refused;

/* Asks for the next root, and gives the right answer, p^n for none or a refusal. */
static uint64_t test_point(uint32_t p, uint32_t n, uint64_t point)
{
    uint64_t m = power(p, n), next = refused.number ? m : next_by_trial(p, n, &l, point);
    refusal r = !refused.number && point >= m ? (refusal){8, 0} : refused;
    wimpleclay_next_answer a =
        wimpleclay_next_root(p, n, lent(&residues), lengths[0], lent(&levels), lengths[1], (uint32_t)point);
    expect(a.number == r.number && a.place == r.place, "next_root: refusal and place");
    expect(a.found == (next < m) && a.root == (next < m ? next : 0), "next_root: the least member");
    return next;
}

static void test_next(uint32_t p, uint32_t n)
{
    uint64_t m = power(p, n);
    for (uint64_t point = 0; point < m; point += 1 + draw(1 + m / 8)) {
        uint64_t next = test_point(p, n, point);
        test_point(p, n, next);
        test_point(p, n, next < m ? next + 1 : UINT32_MAX);
    }
    test_point(p, n, m - 1);
}

static void test_map(uint32_t p, uint32_t n)
{
    uint32_t m = (uint32_t)power(p, n);
    size_t bytes = WIMPLECLAY_MAP_BYTES(m) + (draw(8) == 0);
    bytes -= draw(8) == 0;
    loan map = lend(NULL, bytes);
    wimpleclay_map_answer a =
        wimpleclay_fill_map(p, n, lent(&residues), lengths[0], lent(&levels), lengths[1], lent(&map), bytes);
    int wrong = bytes != WIMPLECLAY_MAP_BYTES(m);
    refusal r = !refused.number && wrong ? (refusal){10, 0} : refused;
    expect(a.number == r.number && a.place == r.place, "fill_map: refusal and place");
    expect(kept_from(&map, r.number ? 0 : bytes), "fill_map: other memory is kept");
    if (!refused.number)
        fill_members(p, n, &l);
    const uint8_t *byte = lent(&map);
    uint64_t ones = 0, agree = 1;
    for (uint32_t bit = 0; !wrong && bit < 8 * bytes; bit++) {
        uint32_t set = byte[bit / 8] >> bit % 8 & 1;
        ones += bit < m && set;
        agree &= set == (bit < m && l.member[bit]);
    }
    expect(r.number || (agree && ones == l.members), "fill_map: bits");
    wimpleclay_count_answer c = wimpleclay_count_map(p, n, byte, bytes);
    expect(c.number == (wrong ? 10 : 0) && c.place == 0 && c.ones == ones, "count_map: ones");
    expect(kept_from(&map, r.number ? 0 : bytes), "count_map: the map is kept");
    end_loan(&map);
}

/* A modulus that has no map: rule 7 comes before rule 9. */
static void test_no_map(uint32_t p, uint32_t n)
{
    refusal r = refused.number ? refused : (refusal){9, 0};
    wimpleclay_map_answer a =
        wimpleclay_fill_map(p, n, lent(&residues), lengths[0], lent(&levels), lengths[1], NULL, 0);
    expect(a.number == r.number && a.place == r.place, "fill_map: a modulus above 524288");
}

static void test_list(uint32_t p, uint32_t n)
{
    draw_list(p, n, &l, 0);
    lengths[0] = l.k;
    lengths[1] = l.k + (draw(15) == 0);
    residues = lend(l.residues, lengths[0] * sizeof *l.residues);
    levels = lend(l.levels, lengths[1]);
    refused = refused_list(p, n, &l, lengths[0], lengths[1], NULL);
    test_next(p, n);
    if (power(p, n) <= MOST)
        test_map(p, n);
    else
        test_no_map(p, n);
    expect(kept_from(&residues, 0) && kept_from(&levels, 0), "the lists are kept");
    end_loan(&residues);
    end_loan(&levels);
}

void test_lists(void)
{
    static const uint32_t primes[] = {2, 3, 5, 7, 13};
    for (size_t i = 0; i < sizeof primes / sizeof *primes; i++)
        for (uint32_t n = 1; power(primes[i], n) <= 729; n++)
            for (int j = 0; j < 500; j++)
                test_list(primes[i], n);
    for (size_t i = 0; i < LARGE; i++)
        for (int j = 0; j < 100; j++)
            test_list(large_moduli[i][0], large_moduli[i][1]);
    expect_every_fault(0);
}
