/* Single calls on a system, each checked against the plain set. */
#include "systems.h"

#include <string.h>

checked_system lend_system(const char *what)
{
    return (checked_system){.what = what, .memory = lend(NULL, sizeof(wimpleclay_system))};
}

wimpleclay_system *system_of(const checked_system *s)
{
    return lent(&s->memory);
}

/* Checks an answer and the memory around the system, and that a refused call has left the system as it was. */
static refusal check_answer(const checked_system *s, const wimpleclay_system *before, wimpleclay_system_answer a,
                            refusal r)
{
    expect(a.number == r.number && a.place == r.place, s->what);
    expect(kept_from(&s->memory, s->memory.bytes), s->what);
    expect(!r.number || memcmp(before, system_of(s), sizeof *before) == 0, s->what);
    return r;
}

/* The index of the tag, or the number of polynomials held where it is not held. */
static size_t index_of(const checked_system *s, uint32_t tag)
{
    size_t i = 0;
    while (i < s->held && s->congruences[i].tag != tag)
        i++;
    return i;
}

refusal open_once(checked_system *s, uint32_t p, uint32_t n)
{
    refusal r = refused_modulus(p, n);
    wimpleclay_system before = *system_of(s);
    if (!r.number) {
        s->p = p;
        s->n = n;
        s->held = 0;
    }
    return check_answer(s, &before, wimpleclay_system_open(p, n, system_of(s)), r);
}

refusal add_once(checked_system *s, const congruence *c)
{
    refusal r = {0, 0};
    wimpleclay_system before = *system_of(s);
    loan f = lend(c->f, c->count * sizeof *c->f);
    wimpleclay_system_answer a = wimpleclay_system_add(system_of(s), c->tag, lent(&f), c->count);
    expect(kept_from(&f, 0), s->what);
    end_loan(&f);
    if (c->count == 0)
        r.number = 2;
    else if (c->count > COEFFICIENTS)
        r.number = 3;
    else if (index_of(s, c->tag) < s->held)
        r.number = 15;
    else if (s->held == WIMPLECLAY_MAX_HELD)
        r.number = 16;
    else
        s->congruences[s->held++] = *c;
    return check_answer(s, &before, a, r);
}

refusal withdraw_once(checked_system *s, uint32_t tag)
{
    size_t i = index_of(s, tag);
    refusal r = {i < s->held ? 0 : 15, 0};
    wimpleclay_system before = *system_of(s);
    s->held -= i < s->held;
    for (; i < s->held; i++)
        s->congruences[i] = s->congruences[i + 1];
    return check_answer(s, &before, wimpleclay_system_withdraw(system_of(s), tag), r);
}

void fetch_once(const checked_system *s, const list *common, const size_t slots[2], refusal refused)
{
    size_t word = sizeof *common->residues, k = refused.number ? 0 : common->k;
    wimpleclay_system before = *system_of(s);
    loan residues = lend(NULL, slots[0] * word), levels = lend(NULL, slots[1]);
    wimpleclay_fetch_answer a =
        wimpleclay_system_fetch(system_of(s), lent(&residues), slots[0], lent(&levels), slots[1]);
    expect(a.number == refused.number && a.place == refused.place, s->what);
    expect(a.classes == k && a.roots == (refused.number ? 0 : common->members), s->what);
    expect(memcmp(lent(&residues), common->residues, k * word) == 0, s->what);
    expect(memcmp(lent(&levels), common->levels, k) == 0, s->what);
    expect(kept_from(&residues, k * word) && kept_from(&levels, k), s->what);
    expect(memcmp(&before, system_of(s), sizeof before) == 0 && kept_from(&s->memory, s->memory.bytes), s->what);
    end_loan(&residues);
    end_loan(&levels);
}

void fetch_into_slots(const checked_system *s, const list *common)
{
    size_t k = common->k, more = k + 1 + draw(5), fewer = k > 0 ? k - 1 : 0, other = draw(more);
    refusal few = {k > 0 ? 11 : 0, k}, none = {0, 0};
    expect(k <= WIMPLECLAY_MAX_COMMON, "no more classes than WIMPLECLAY_MAX_COMMON");
    fetch_once(s, common, (const size_t[]){k, k}, none);
    fetch_once(s, common, (const size_t[]){more, more}, none);
    fetch_once(s, common, (const size_t[]){fewer, fewer}, few);
    fetch_once(s, common, (const size_t[]){0, 0}, few);
    fetch_once(s, common, (const size_t[]){more, other}, (refusal){6, other});
    fetch_once(s, common, (const size_t[]){other, more}, (refusal){6, other});
}

static int solves_all(const checked_system *s, uint64_t r, uint64_t m)
{
    for (size_t i = 0; i < s->held; i++)
        if (value(s->congruences[i].f, s->congruences[i].count, r, m) != 0)
            return 0;
    return 1;
}

void common_by_trial(const checked_system *s, list *l)
{
    uint64_t m = power(s->p, s->n);
    for (uint64_t r = 0; r < m; r++)
        l->member[r] = (uint8_t)solves_all(s, r, m);
    shortest_by_trial(s->p, s->n, l);
}
