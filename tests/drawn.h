/* Lists of classes, drawn sound or with a fault of every kind that rule 7 knows, and polynomials. */
#ifndef DRAWN_H
#define DRAWN_H

#include "reference.h"

/* No list that is drawn has more entries. */
enum { MOST_ENTRIES = 22 };

/* Each a p and an n: powers just below and above 2^31 and close to 2^32, the largest of all among them. */
enum { LARGE = 7 };
extern const uint32_t large_moduli[LARGE][2];

/* Draws a list: sound entries and, in half of the lists, one with a fault and then some of any kind. Marks above 2 come only where
   marked is not 0. */
void draw_list(uint32_t p, uint32_t n, list *l, int marked);

/* Checks that the lists drawn since the last call have had every fault in each of the first places as their first fault. */
void expect_every_fault(int marked);

/* Adds the class of a, from 0 to p^t - 1, at level t to entries that rise by the residue, at its place. */
void insert_class(uint32_t p, list *l, uint64_t a, uint32_t t);

/* Draws at most 64 classes that share no member: everything is split again and again, and of its parts some are kept, sometimes all. */
void draw_parts(uint32_t p, uint32_t n, list *l);

/* A coefficient: small, any, an extreme one, or a multiple of a power of p. */
int64_t draw_coefficient(uint32_t p, uint32_t n);

/* Multiplies f by x - a, so that there are roots, and gives the new count; (a + 1) * m is below 2^63. */
size_t times_root(int64_t *f, size_t count, uint32_t a, uint32_t m);

/* Multiplies f by a power of p, so that the coefficients have a common factor. */
void times_power(int64_t *f, size_t count, uint32_t p, uint32_t n);

/* Draws a polynomial for p^n up to MOST into f, which has room for 65 coefficients, and gives the count. The turns
   0, 1, .. bring every kind: few coefficients and many, a root for every digit, a common factor. */
size_t draw_polynomial(uint32_t p, uint32_t n, int turn, int64_t *f);

/* Draws a polynomial for a modulus that may be too large for trial: any coefficients, many of them extreme, times some x - a, and in half
   of them a common factor. */
size_t draw_large_polynomial(uint32_t p, uint32_t n, int64_t *f);

#endif
