/* wimpleclay_count_map on maps with any spare bits, at any address, against a count bit by bit. */
#include "check.h"
#include "reference.h"
#include "tests.h"

#include <wimpleclay.h>

#include <string.h>

/* The ones of the first bits, this many. */
static uint64_t ones_by_trial(const uint8_t *map, uint64_t bits)
{
    uint64_t ones = 0;
    for (uint64_t r = 0; r < bits; r++)
        ones += map[r / 8] >> r % 8 & 1;
    return ones;
}

static void test_count(uint32_t p, uint32_t n, const uint8_t *map, uint64_t ones, const char *what)
{
    wimpleclay_count_answer a = wimpleclay_count_map(p, n, map, WIMPLECLAY_MAP_BYTES(power(p, n)));
    expect(a.number == 0 && a.place == 0 && a.ones == ones, what);
}

/* Drawn bits, all bits 1 and all bits 0, in a map that is lent `shift` bytes after an address that eight divides. */
static void test_map(uint32_t p, uint32_t n, size_t shift)
{
    uint64_t m = power(p, n);
    loan memory = lend(NULL, shift + WIMPLECLAY_MAP_BYTES(m));
    uint8_t *map = (uint8_t *)lent(&memory) + shift;
    test_count(p, n, map, ones_by_trial(map, m), "count_map: drawn bits");
    expect(kept_from(&memory, 0), "count_map: all memory is kept");
    memset(map, 255, memory.bytes - shift);
    test_count(p, n, map, m, "count_map: all bits 1");
    memset(map, 0, memory.bytes - shift);
    test_count(p, n, map, 0, "count_map: all bits 0");
    end_loan(&memory);
}

/* Each bit alone, spare bits among them. */
static void test_bits(uint32_t p, uint32_t n)
{
    uint8_t map[WIMPLECLAY_MAP_BYTES(1024)] = {0};
    uint32_t m = (uint32_t)power(p, n);
    for (uint32_t r = 0; r < 8 * WIMPLECLAY_MAP_BYTES(m); r++) {
        map[r / 8] = (uint8_t)(1 << r % 8);
        test_count(p, n, map, r < m, "count_map: one bit");
        map[r / 8] = 0;
    }
}

/* All powers of p that have a map; none where p is composite. */
static void test_powers(uint32_t p)
{
    for (uint32_t n = 1; !refused_modulus(p, n).number && power(p, n) <= 524288; n++) {
        if (power(p, n) <= 1024)
            test_bits(p, n);
        for (size_t shift = 0; shift < 8; shift++)
            test_map(p, n, shift);
    }
}

void test_ones(void)
{
    for (uint32_t p = 2; p < 1024; p++)
        test_powers(p);
    for (uint32_t p = 65000; p < 65536; p++)
        test_powers(p);
}
