/* A system beside a plain set of tagged polynomials, for the files that test systems. */
#ifndef SYSTEMS_H
#define SYSTEMS_H

#include "check.h"
#include "reference.h"

#include <wimpleclay.h>

/* A polynomial under its tag. */
typedef struct {
    uint32_t tag;
    size_t count;
    int64_t f[COEFFICIENTS + 1];
} congruence;

/* A system in lent memory, and what it must hold, in the order of coming. */
typedef struct {
    const char *what;
    loan memory;
    uint32_t p, n;
    size_t held;
    congruence congruences[WIMPLECLAY_MAX_HELD];
} checked_system;

/* Lends memory of drawn bytes for a system; end_loan ends it. */
checked_system lend_system(const char *what);

wimpleclay_system *system_of(const checked_system *s);

/* Each calls once, and checks the answer and all memory that is lent. It gives the refusal that there must be. */
refusal open_once(checked_system *s, uint32_t p, uint32_t n);
refusal add_once(checked_system *s, const congruence *c);
refusal withdraw_once(checked_system *s, uint32_t tag);

/* Fetches once into lists of these lengths, and checks the same: the common list is this one, or the call is refused so. */
void fetch_once(const checked_system *s, const list *common, const size_t slots[2], refusal refused);

/* Fetches into the exact number of slots, more, one fewer, none, and into lists of other lengths. */
void fetch_into_slots(const checked_system *s, const list *common);

/* The common list, by going through all residues. */
void common_by_trial(const checked_system *s, list *common);

/* Makes a system anew of the same polynomials. In the same order it must be equal bytes; in another order and under other tags it must have
   this list. */
void make_anew(const checked_system *s, const list *common);

/* No row of calls has more shared roots. */
enum { SHARED = 12 };

/* What the polynomials of a row of calls have in common. */
typedef struct {
    uint32_t tag, bit; /* the other tags differ from this one in a single bit: one of those after this one */
    size_t roots;
    int64_t root[SHARED];
    uint64_t times[SHARED]; /* how often each root comes at least */
} sharing;

void draw_sharing(uint32_t p, uint32_t n, sharing *r);

/* Draws a polynomial with the shared roots and some of its own. A root that comes more often has the larger class, so that of two such
   polynomials either may have the larger. Some polynomials are 0 modulo p^n, and some are of any other kind. */
void draw_congruence(uint32_t p, uint32_t n, const sharing *r, congruence *c);

#endif
