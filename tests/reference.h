/* Plain trial: what the library must answer, worked out by going through all residues or all members of the classes. */
#ifndef REFERENCE_H
#define REFERENCE_H

#include <stddef.h>
#include <stdint.h>

/* The largest modulus that trial goes through, and the most coefficients. */
enum { MOST = 2401, COEFFICIENTS = 65 };

typedef struct {
    uint32_t number;
    size_t place;
} refusal;

/* A list of classes with its members. */
typedef struct {
    size_t k;
    int32_t residues[MOST];
    uint8_t levels[MOST];
    uint8_t marks[MOST];
    uint8_t member[MOST];
    uint64_t members;
} list;

/* What rule 7 looks for in an entry, in this order. INSIDE and AROUND: it lies in an earlier entry, or has one inside it. */
typedef enum {
    SOUND,
    HIGH_LEVEL,
    LOW_RESIDUE,
    HIGH_RESIDUE,
    EQUAL_RESIDUE,
    FALLING_RESIDUE,
    INSIDE,
    AROUND,
    HIGH_MARK,
    FAULTS
} fault;

/* p to the power n, or 0 where that exceeds 4294967295. */
uint64_t power(uint32_t p, uint32_t n);

/* Rules 4, 14 and 5. */
refusal refused_modulus(uint32_t p, uint32_t n);

/* The value of f at x modulo m, where x is below m. */
uint64_t value(const int64_t *f, size_t count, uint64_t x, uint64_t m);

/* The number of residues below m at which m divides f. */
uint64_t count_by_trial(const int64_t *f, size_t count, uint64_t m);

/* The shortest list of the members that are set: the whole classes that lie in no larger whole class, rising by the residue of least size.
   Marks stay as they are. */
void shortest_by_trial(uint32_t p, uint32_t n, list *s);

/* The root classes of f, with their marks. */
void solve_by_trial(const int64_t *f, size_t count, uint32_t p, uint32_t n, list *s);

/* Whether x is in a class of the list: congruent to its residue modulo p to the power of its level. */
int in_list(uint32_t p, const list *l, int64_t x);

/* The same for the roots of f modulo p^n that are in the given classes. */
void raise_by_trial(const int64_t *f, size_t count, uint32_t p, uint32_t n, const list *given, list *s);

/* The number of live classes of f. Everything is live. A live class a/t has the polynomial f(a + p^t y), coefficients modulo p^n; if they
   are all zero it is finished. Otherwise divide by the largest power of p common to them, and for each digit c where the quotient is a
   multiple of p, the class of a + p^t c at level t + 1 is live. */
uint64_t live_by_trial(const int64_t *f, size_t count, uint32_t p, uint32_t n);

/* D: the highest index at which p does not divide the coefficient of f / p^s, or 0 where all reduce to zero. */
size_t degree_bound(const int64_t *f, size_t count, uint32_t p, uint32_t n);

/* The first fault of entry i, where the entries before it are sound; its mark is looked at where marked is not 0. */
fault fault_at(uint32_t p, uint32_t n, const list *l, size_t i, int marked);

/* Rules 4, 14, 5, 6 and 7 for a list whose two or (marks not null) three parts have these lengths. */
refusal refused_list(uint32_t p, uint32_t n, const list *l, size_t residues, size_t levels, const size_t *marks);

/* Sets the members of an accepted list. */
void fill_members(uint32_t p, uint32_t n, list *l);

/* The least member of an accepted list at or after the point, or p^n where there is none. */
uint64_t next_by_trial(uint32_t p, uint32_t n, const list *l, uint64_t point);

#endif
