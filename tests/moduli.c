/* Rules 4, 14 and 5 in every operation that takes p and n, for every p up to 66000, against trial division. Opening a system is tested
   likewise among the cases of systems. */
#include "check.h"
#include "reference.h"
#include "tests.h"

#include <wimpleclay.h>

enum { SLOTS = 3, BYTES = 44 };

/* The operation has the refusal of p and n, or none of these three. */
static void judge(refusal r, uint32_t number, size_t place, const char *what)
{
    if (r.number)
        expect(number == r.number && place == r.place, what);
    else
        expect(number != 4 && number != 14 && number != 5, what);
}

static const int64_t one[] = {1};

/* Raising from n to m, with given lists that differ in length. */
static void test_raise(refusal r, uint32_t p, uint32_t n, uint32_t m)
{
    loan given_residues = lend(NULL, SLOTS * sizeof(int32_t)), given_levels = lend(NULL, SLOTS - 1);
    loan residues = lend(NULL, SLOTS * sizeof(int32_t)), levels = lend(NULL, SLOTS), marks = lend(NULL, SLOTS);
    wimpleclay_raise_answer a =
        wimpleclay_raise(one, 1, p, n, m, lent(&given_residues), SLOTS, lent(&given_levels), SLOTS - 1,
                         lent(&residues), SLOTS, lent(&levels), SLOTS, lent(&marks), SLOTS);
    judge(r, a.number, a.place, "raise: p, n and m");
    expect(a.classes == 0 && a.roots == 0, "raise: 0 in a refusal");
    expect(kept_from(&given_residues, 0) && kept_from(&given_levels, 0), "raise: the given lists are kept");
    expect(kept_from(&residues, 0) && kept_from(&levels, 0) && kept_from(&marks, 0),
           "raise: a refusal writes nothing");
    end_loan(&given_residues);
    end_loan(&given_levels);
    end_loan(&residues);
    end_loan(&levels);
    end_loan(&marks);
}

static void test_pair(uint32_t p, uint32_t n)
{
    refusal r = refused_modulus(p, n);
    loan residues = lend(NULL, SLOTS * sizeof(int32_t)), levels = lend(NULL, SLOTS), marks = lend(NULL, SLOTS - 1);
    loan bytes = lend(NULL, BYTES), queries = lend(NULL, SLOTS * sizeof(wimpleclay_query));
    loan counts = lend(NULL, SLOTS * sizeof(uint64_t));
    wimpleclay_solve_answer solved = wimpleclay_solve(one, 1, p, n, lent(&residues), SLOTS, lent(&levels), SLOTS,
                                                      lent(&marks), SLOTS - 1);
    wimpleclay_test_answer tested = wimpleclay_is_root(one, 1, p, n, UINT32_MAX);
    wimpleclay_points_answer asked = wimpleclay_test_points(one, 1, p, n, lent(&queries), SLOTS);
    wimpleclay_counts_answer row = wimpleclay_counts(one, 1, p, n, lent(&counts), SLOTS);
    wimpleclay_next_answer next =
        wimpleclay_next_root(p, n, lent(&residues), SLOTS, lent(&levels), SLOTS, UINT32_MAX);
    wimpleclay_map_answer filled =
        wimpleclay_fill_map(p, n, lent(&residues), SLOTS, lent(&levels), SLOTS - 1, lent(&bytes), BYTES);
    wimpleclay_count_answer counted = wimpleclay_count_map(p, n, lent(&bytes), BYTES);
    wimpleclay_write_answer written = wimpleclay_write_classes(p, n, lent(&residues), SLOTS, lent(&levels), SLOTS,
                                                               lent(&marks), SLOTS - 1, lent(&bytes), BYTES);
    judge(r, solved.number, solved.place, "solve: p and n");
    expect(solved.classes == 0 && solved.roots == 0 && solved.live == 0, "solve: 0 in a refusal");
    judge(r, tested.number, tested.place, "is_root: p and n");
    judge(r, asked.number, asked.place, "test_points: p and n");
    expect(kept_from(&queries, r.number ? 0 : queries.bytes), "test_points: a refusal writes nothing");
    judge(r, row.number, row.place, "counts: p and n");
    expect(kept_from(&counts, r.number || n >= SLOTS ? 0 : (n + 1) * sizeof(uint64_t)),
           "counts: a refusal writes nothing");
    judge(r, next.number, next.place, "next_root: p and n");
    judge(r, filled.number, filled.place, "fill_map: p and n");
    judge(r, counted.number, counted.place, "count_map: p and n");
    judge(r, written.number, written.place, "write_classes: p and n");
    expect(kept_from(&residues, 0) && kept_from(&levels, 0) && kept_from(&marks, 0) && kept_from(&bytes, 0),
           "p and n: all memory is kept");
    end_loan(&residues);
    end_loan(&levels);
    end_loan(&marks);
    end_loan(&bytes);
    end_loan(&queries);
    end_loan(&counts);
    test_raise(r, p, n, n);
    test_raise(r, p, 1, n);
}

void test_moduli(void)
{
    static const uint32_t precisions[] = {0, 1, 2, 33};
    for (uint32_t p = 0; p <= 66000; p++)
        test_pair(p, precisions[draw(4)]);
    for (uint32_t p = 0; p < 100; p++)
        for (uint32_t n = 0; n <= 33; n++)
            test_pair(p, n);
    test_pair(UINT32_MAX, 1);
}
