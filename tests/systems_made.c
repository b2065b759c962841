/* Systems whose bytes were made otherwise: every function ends and writes to no memory but what it is lent. What it answers and writes
   there is free. */
#include "systems.h"
#include "tests.h"

#include <string.h>

enum { WORDS = sizeof(wimpleclay_system) / sizeof(uint64_t), KINDS = 6, MOST_DAMAGED = 8 };

static const int64_t f[] = {0, -1, 0, 1};
static const size_t coefficients = sizeof f / sizeof *f;

/* Fetches into few slots or into more than a list has; one length may be another. */
static void fetch_any(const loan *system)
{
    size_t slots = draw(2) ? draw(20) : WIMPLECLAY_MAX_COMMON - 20 + draw(40), word = sizeof(int32_t);
    size_t other = draw(8) ? slots : draw(40);
    wimpleclay_system before;
    memcpy(&before, lent(system), sizeof before);
    loan residues = lend(NULL, slots * word), levels = lend(NULL, other);
    wimpleclay_system_fetch(lent(system), lent(&residues), slots, lent(&levels), other);
    expect(kept_from(&residues, slots * word) && kept_from(&levels, other), "fetch: memory around the lists is kept");
    expect(memcmp(&before, lent(system), sizeof before) == 0, "fetch: the system is kept");
    end_loan(&residues);
    end_loan(&levels);
}

/* A tag that may be one of those held: any half of a word of the system. */
static uint32_t draw_tag(const wimpleclay_system *system)
{
    return (uint32_t)(system->bytes[draw(WORDS)] >> 32 * draw(2));
}

/* Some calls on a system with these bytes, and then it is opened and a system again. */
static void call_any(const wimpleclay_system *made)
{
    static const list everything = {.k = 1, .members = 25};
    checked_system s = lend_system("opened again");
    loan polynomial = lend(f, sizeof f);
    *system_of(&s) = *made;
    for (uint64_t i = 1 + draw(4); i > 0; i--) {
        fetch_any(&s.memory);
        if (draw(2))
            wimpleclay_system_add(system_of(&s), draw_tag(system_of(&s)), lent(&polynomial), 1 + draw(coefficients));
        else
            wimpleclay_system_withdraw(system_of(&s), draw_tag(system_of(&s)));
        expect(kept_from(&s.memory, s.memory.bytes), "memory around the system is kept");
        expect(kept_from(&polynomial, 0), "the coefficients are kept");
    }
    fetch_any(&s.memory);
    expect(open_once(&s, 5, 2).number == 0, s.what);
    fetch_into_slots(&s, &everything);
    end_loan(&s.memory);
    end_loan(&polynomial);
}

/* A word of some kind: any bits, a small number, two small numbers, small bytes, no bit or all bits. */
static uint64_t draw_word(int kind)
{
    switch (kind) {
    case 0:
        return draw(UINT64_MAX);
    case 1:
        return draw(WIMPLECLAY_MAX_COMMON + 40);
    case 2:
        return draw(WIMPLECLAY_MAX_CLASSES + 4) << 32 | draw(WIMPLECLAY_MAX_HELD + 4);
    case 3:
        return draw(UINT64_MAX) & 0x1f1f1f1f1f1f1f1f;
    default:
        return kind == 4 ? 0 : UINT64_MAX;
    }
}

/* Words of one kind, or of any. */
static void test_words(int kind)
{
    wimpleclay_system made;
    for (size_t i = 0; i < WORDS; i++)
        made.bytes[i] = draw_word(kind < KINDS ? kind : (int)draw(KINDS));
    call_any(&made);
}

/* A sound system with a drawn byte in this place, or in some places. */
static void test_damaged(const wimpleclay_system *sound, size_t place)
{
    wimpleclay_system made = *sound;
    uint8_t *bytes = (uint8_t *)made.bytes;
    if (place < sizeof made)
        bytes[place] = (uint8_t)draw(256);
    else
        for (uint64_t i = 1 + draw(MOST_DAMAGED); i > 0; i--)
            bytes[draw(sizeof made)] = (uint8_t)draw(256);
    call_any(&made);
}

void test_made_systems(void)
{
    wimpleclay_system sound;
    wimpleclay_system_open(2, 4, &sound);
    for (uint32_t tag = 0; tag < 10; tag++)
        wimpleclay_system_add(&sound, tag, f, coefficients);
    for (int i = 0; i < 3000; i++)
        test_words(i % (KINDS + 1));
    for (size_t place = 0; place < sizeof sound + 1000; place++)
        test_damaged(&sound, place);
}
