/* wimpleclay.h: the roots of a polynomial modulo a prime power, as root classes.

   A polynomial is given by 1 to 65 signed 64-bit coefficients, the constant one first. p is a prime from 2 to 65521,
   n is at least 1, and p^n is at most 4294967295. A root is a residue r from 0 to p^n - 1 at which p^n divides the
   polynomial's value. A class a/t, of level t from 0 to n, has as members the residues r from 0 to p^n - 1 with r = a
   modulo p^t; there are p^(n-t). Its residue a is the one of least size, a signed number: -p^t < 2a <= p^t. The solver
   gives the shortest list of classes whose members are exactly the roots. Example: x^2 - 1 modulo 2^4 has the classes
   -1/3 and 1/3 and the four roots 1, 7, 9 and 15.

   What is lent. A list, a map or a text is lent as a pointer and the number of its elements, and a system as a pointer
   to its struct. The library allocates nothing, keeps no pointer after a call and has no state but what is lent: calls
   from several threads at once are fine as long as they do not share memory that one of them writes.

   What comes back. Each function returns a struct. `number` is 0 if the call was accepted and otherwise the number of
   the rule that refused it (below), and `place` says where; the other fields are 0 in a refusal. A refused call
   writes to no lent memory. An accepted call writes what is said at its function and nothing else.

   What a caller must not do:
   - pass a null or dangling pointer with a length other than 0 (with length 0 the pointer is not used and may be
     null);
   - pass a length that is larger than the memory lent, or a pointer that is not aligned for its type;
   - let memory that a call writes (parameters without const) overlap any other memory lent to the same call;
   - write to lent memory from another thread during the call.
   All else is checked: no value in the lists, maps and texts and no number can lead to more than a refusal. What a
   system holds is the library's own: see at its struct. */

#ifndef WIMPLECLAY_H
#define WIMPLECLAY_H

#include <stddef.h>
#include <stdint.h>

#ifdef __cplusplus
extern "C" {
#endif

/* Refusals *********************************************************************************************************/

/* The rules, tried in the order in which they stand here; the first that applies is the refusal. A function skips the
   rules about what it does not take. The place is 0 where none is named. */
enum wimpleclay_number {
    WIMPLECLAY_ACCEPTED = 0,
    /* The report alone gives this one, and no function here: 1000 problems are done and bytes remain; place: the
       offset of the first of them. */
    WIMPLECLAY_TOO_MANY_PROBLEMS = 13,
    /* The text departs from its form, or a number in it from its range; place: offset of the first faulty or
       incomplete column, of a missing line end, or of the first byte past the end. */
    WIMPLECLAY_FORM = 1,
    WIMPLECLAY_NO_COEFFICIENT = 2,
    WIMPLECLAY_TOO_MANY_COEFFICIENTS = 3, /* more than 65 */
    WIMPLECLAY_PRIME_OUT_OF_RANGE = 4,    /* p is below 2 or above 65535 */
    WIMPLECLAY_COMPOSITE = 14,            /* p is composite; place: its least divisor above 1, which is a prime */
    WIMPLECLAY_PRECISION = 5,             /* n is 0, or p^n exceeds 4294967295; then the same for m */
    WIMPLECLAY_TAG = 15,                  /* the tag is held already (add), or is not held (withdraw) */
    WIMPLECLAY_FULL = 16,                 /* WIMPLECLAY_MAX_HELD polynomials are held (add) */
    WIMPLECLAY_PRECISIONS_FALL = 17,      /* m is below n, or a given list has more than 64 entries */
    /* The lists differ in length; place: the shortest length. Where lists are given and others are to be filled, those
       given are looked at first, by themselves. */
    WIMPLECLAY_LENGTHS = 6,
    /* A given list has an entry with level above n, residue outside -p^level < 2 * residue <= p^level, residue not
       above the entry before (as signed numbers), a member shared with an earlier entry, or (writer) a mark above 2;
       place: the first such index. */
    WIMPLECLAY_ENTRY = 7,
    WIMPLECLAY_POINT = 8,            /* the point is not below p^n */
    WIMPLECLAY_MAP_TOO_LARGE = 9,    /* a map, or its count, is asked for with p^n above 524288 */
    WIMPLECLAY_MAP_LENGTH = 10,      /* the map's length is not WIMPLECLAY_MAP_BYTES(p^n) */
    WIMPLECLAY_TOO_FEW_SLOTS = 11,   /* the lent lists have fewer slots than are needed; place: the number needed */
    WIMPLECLAY_BUFFER_TOO_SMALL = 12 /* the lent text has fewer bytes than are needed; place: the number needed */
};

/* Sizes ************************************************************************************************************/

/* The most coefficients, and the slots of a row for wimpleclay_read_problem. */
#define WIMPLECLAY_MAX_COEFFICIENTS 65

/* No polynomial has more classes: wimpleclay_solve never refuses lists of this many slots by rule 11. It is also the
   most entries that wimpleclay_raise is given. */
#define WIMPLECLAY_MAX_CLASSES 64

/* No more classes come of raising the precision of a list: wimpleclay_raise never refuses lists of this many slots by
   rule 11. */
#define WIMPLECLAY_MAX_RAISED 128

/* The most polynomials that a system holds. */
#define WIMPLECLAY_MAX_HELD 16

/* No common root list has more classes: wimpleclay_system_fetch never refuses lists of this many slots by rule 11. */
#define WIMPLECLAY_MAX_COMMON 1024

/* No n is above 31: a row of counts with this many slots is never refused 11. */
#define WIMPLECLAY_MAX_COUNTS 32

/* The bytes of a root map, given p^n. */
#define WIMPLECLAY_MAP_BYTES(modulus) (((size_t)(modulus) + 7) / 8)

/* The bytes that wimpleclay_write_classes writes for this many classes. */
#define WIMPLECLAY_TEXT_BYTES(classes) ((size_t)45 * ((size_t)(classes) + 1))

/* The bytes of the longest problem text. */
#define WIMPLECLAY_PROBLEM_BYTES 1399

/* Solving **********************************************************************************************************/

typedef struct {
    uint32_t number;
    size_t place;
    size_t classes; /* k, the number of classes */
    uint64_t roots; /* the number of roots: the sum of the classes' members */
    uint64_t live;  /* the number of live classes, see below */
} wimpleclay_solve_answer;

/* The root classes of the polynomial modulo p^n. The lent lists must have the same length. The k classes go into the
   first k slots, rising by the signed residue: of each its residue, its level and its mark. The mark tells of g, which
   is the polynomial divided by the largest power of p that is common to its coefficients modulo p^n: it is 1 if p
   divides the derivative of g at none of the class's members, 0 if at all, 2 if at some, and 0 if all coefficients are
   0 modulo p^n. Only a class of level 0, which is everything, can have mark 2. Later slots keep their content. The
   list is the shortest that there is, the only one of its length, and no residue is a member of two of its classes.

   live is the number of live classes. Everything, the class of level 0, is live. A live class a/t has the polynomial
   f(a + p^t y) in y, where f is the polynomial given, with coefficients modulo p^n. If they are all 0, the class is
   finished. Otherwise they are divided by the largest power of p that is common to them, and for each digit c from 0
   to p - 1 at which p divides the value of the quotient, the class of a + p^t c at level t + 1 is live. The number is
   1 if all coefficients are 0 modulo p^n, and never above 1 + n D, where D is the highest index at which p does not
   divide the coefficient of g. For x^2 - 1 modulo 2^4 it is 6. Polynomials with the same roots may differ in it.

   Rules 2, 3, 4, 14, 5, 6 and 11 (place: k, so a call with lists of length 0 asks for k). */
wimpleclay_solve_answer wimpleclay_solve(const int64_t *coefficients, size_t coefficients_length, uint32_t p,
                                         uint32_t n, int32_t *residues, size_t residues_length, uint8_t *levels,
                                         size_t levels_length, uint8_t *marks, size_t marks_length);

typedef struct {
    uint32_t number;
    size_t place;
    uint32_t root; /* 1 if the point is a root, 0 if it is not */
} wimpleclay_test_answer;

/* Whether p^n divides the polynomial's value at the point. Rules 2, 3, 4, 14, 5 and 8. */
wimpleclay_test_answer wimpleclay_is_root(const int64_t *coefficients, size_t coefficients_length, uint32_t p,
                                          uint32_t n, uint32_t point);

/* A point and the place for its answer. */
typedef struct {
    uint32_t point;
    uint32_t answer; /* 1 if the point is a root, 0 if it is not, 8 (WIMPLECLAY_POINT) if it is not below p^n */
} wimpleclay_query;

typedef struct {
    uint32_t number;
    size_t place;
} wimpleclay_points_answer;

/* The test at many points: each record of the row gets its answer, whatever it held, and every point is left as it
   is. A point that is not below p^n has the answer 8 and disturbs no other record. A row of length 0 is fine. The
   coefficients are reduced once for all points. Rules 2, 3, 4, 14 and 5 refuse the whole call. */
wimpleclay_points_answer wimpleclay_test_points(const int64_t *coefficients, size_t coefficients_length, uint32_t p,
                                                uint32_t n, wimpleclay_query *queries, size_t queries_length);

typedef struct {
    uint32_t number;
    size_t place;
} wimpleclay_counts_answer;

/* The number of solutions at every precision. For j from 0 to n, counts[j] becomes the number of residues r from 0 to
   p^j - 1 at which p^j divides the polynomial's value; counts[0] is 1. Later slots keep their content. For x^2 - 1
   modulo 2^4 the row is 1, 1, 2, 4, 4. Rules 2, 3, 4, 14, 5 and 11 (place: n + 1). */
wimpleclay_counts_answer wimpleclay_counts(const int64_t *coefficients, size_t coefficients_length, uint32_t p,
                                           uint32_t n, uint64_t *counts, size_t counts_length);

typedef struct {
    uint32_t number;
    size_t place;
    size_t classes; /* k, the number of classes */
    uint64_t roots; /* the number of roots: the sum of the classes' members */
} wimpleclay_raise_answer;

/* The precision of a list raised from n to m, which is not below n: the roots modulo p^m that are congruent to a
   modulo p^t for some given class a/t. The two given lists hold classes modulo p^n, as the solver left them or as
   given. All entries are used, at most 64: pass the number of classes for both lengths; 0 is fine and gives k = 0. The
   lists to be filled must have the same length and be other memory than those given. The k classes of the shortest
   list at precision m whose members are exactly these roots go into the first k slots, as wimpleclay_solve fills them,
   with marks for the polynomial modulo p^m. Later slots keep their content.

   Where the given list is the one that wimpleclay_solve fills at n, the result is the one that it fills at m. With
   another list, roots in no given class are left out, a given class that holds no root adds nothing, and where classes
   make up a larger one, that stands for them. 128 slots are always enough: a class of the result is one of the at most
   64 that wimpleclay_solve fills at m, or one of the at most 64 given, or stands for several of these.

   For x^2 - 1 from 2^3 to 2^4 the given class 1/1 becomes -1/3 and 1/3, with four roots; for x^2 + 1 from 5 to 5^2 the
   given class 2/1 becomes 7/2, with one.

   Rules 2, 3, 4, 14, 5 for n, 5 for m, 17, 6 for the given lists, 6 for those to be filled, 7 at n and 11 (place:
   k, so a call with no slots asks for k). */
wimpleclay_raise_answer wimpleclay_raise(const int64_t *coefficients, size_t coefficients_length, uint32_t p,
                                         uint32_t n, uint32_t m, const int32_t *given_residues,
                                         size_t given_residues_length, const uint8_t *given_levels,
                                         size_t given_levels_length, int32_t *residues, size_t residues_length,
                                         uint8_t *levels, size_t levels_length, uint8_t *marks, size_t marks_length);

/* Systems of congruences *******************************************************************************************/

/* A system: up to 16 polynomials under one p and n, each with a tag of the caller's choice, and their common root list.
   It has no pointers and needs no closing: it can be kept anywhere, copied with = or memcpy, and forgotten. Systems
   that hold the same polynomials under the same tags in the same order of coming are equal bytes. What is inside is not
   to be read or written. It is made by wimpleclay_system_open; with bytes made otherwise every function below still
   ends and writes to no memory but what it is lent, but what it answers and writes there is not defined. */
typedef struct {
    uint64_t bytes[1300];
} wimpleclay_system;

typedef struct {
    uint32_t number;
    size_t place;
} wimpleclay_system_answer;

/* Makes *system, whatever it held, a system for p and n that holds no polynomial. Rules 4, 14 and 5; a refused call
   leaves *system as it was. */
wimpleclay_system_answer wimpleclay_system_open(uint32_t p, uint32_t n, wimpleclay_system *system);

/* Adds the polynomial under the tag. The same polynomial may be held under several tags and counts as several. Rules 2,
   3, 15 (the tag is held) and 16 (16 polynomials are held); a refused call leaves *system as it was. */
wimpleclay_system_answer wimpleclay_system_add(wimpleclay_system *system, uint32_t tag, const int64_t *coefficients,
                                               size_t coefficients_length);

/* Withdraws the polynomial of the tag: the system is then as if it had never come. The tag may be used again. Rule 15
   (the tag is not held); a refused call leaves *system as it was. */
wimpleclay_system_answer wimpleclay_system_withdraw(wimpleclay_system *system, uint32_t tag);

typedef struct {
    uint32_t number;
    size_t place;
    size_t classes; /* k, the number of classes */
    uint64_t roots; /* the number of common roots: the sum of the classes' members */
} wimpleclay_fetch_answer;

/* The common root list: the shortest list of classes whose members are exactly the residues from 0 to p^n - 1 that are
   roots of all the polynomials held; with none held it is 0/0, everything. The lent lists must have the same length.
   The k classes go into the first k slots, rising by the signed residue, without marks; later slots keep their content.
   Adding and withdrawing keep the list up to date, and a fetch only copies it. It depends on the set of polynomials
   held and not on the order of their coming. Rules 6 and 11 (place: k, so a call with lists of length 0 asks for k). */
wimpleclay_fetch_answer wimpleclay_system_fetch(const wimpleclay_system *system, int32_t *residues,
                                                size_t residues_length, uint8_t *levels, size_t levels_length);

/* Stepping through the roots ***************************************************************************************/

typedef struct {
    uint32_t number;
    size_t place;
    uint32_t found; /* 1 if there is a member at or after the point, 0 if there is none */
    uint32_t root;  /* the least such member, from 0 to p^n - 1; 0 if there is none */
} wimpleclay_next_answer;

/* The least member at or after the point of the classes in the two lists, as the solver left them or as given. Points
   and members are from 0 to p^n - 1, never negative as a class's residue may be. All entries are used: pass k for both
   lengths. To get every root in rising order start with the point 0 and go on with root + 1, until found is 0; where
   p^n - 1 is a root, the call after it is refused 8. Rules 4, 14, 5, 6, 7 and 8. */
wimpleclay_next_answer wimpleclay_next_root(uint32_t p, uint32_t n, const int32_t *residues, size_t residues_length,
                                            const uint8_t *levels, size_t levels_length, uint32_t point);

/* Root maps ********************************************************************************************************/

typedef struct {
    uint32_t number;
    size_t place;
} wimpleclay_map_answer;

/* The root map of the classes in the two lists: the residue r from 0 to p^n - 1 is the bit of weight 2^(r % 8) in byte
   r / 8, 1 for a member. Every byte of the map is written, whatever it held; spare high bits of the last byte are 0.
   Rules 4, 14, 5, 6, 7, 9 and 10. */
wimpleclay_map_answer wimpleclay_fill_map(uint32_t p, uint32_t n, const int32_t *residues, size_t residues_length,
                                          const uint8_t *levels, size_t levels_length, uint8_t *map,
                                          size_t map_length);

typedef struct {
    uint32_t number;
    size_t place;
    uint64_t ones; /* the ones among the first p^n bits */
} wimpleclay_count_answer;

/* The number of ones among the first p^n bits of a map; spare bits are ignored. Rules 4, 14, 5, 9 and 10. */
wimpleclay_count_answer wimpleclay_count_map(uint32_t p, uint32_t n, const uint8_t *map, size_t map_length);

/* Texts ************************************************************************************************************/

/* A text has decimal numbers right-justified in fixed columns, filled with blanks on the left; each line ends in byte
   10. */

typedef struct {
    uint32_t number;
    size_t place;
    uint32_t p;
    uint32_t n;
    size_t count; /* the number of coefficients */
} wimpleclay_read_answer;

/* A problem from its text: a line of p, n and the coefficient count c in 11 columns each, then c lines of one
   coefficient in 20 columns, then the end. The c coefficients go into the first c slots of the lent row and 0 into
   the others up to 65; slots from 65 on keep their content. p and n are not judged: the solver does that. Rules 1 for
   the first line, 2 and 3 for c, 1 for the rest, and then 11 with place 65 where the row has fewer than 65 slots,
   whatever c is. */
wimpleclay_read_answer wimpleclay_read_problem(const uint8_t *text, size_t text_length, int64_t *coefficients,
                                               size_t coefficients_length);

typedef struct {
    uint32_t number;
    size_t place;
    size_t bytes; /* the number of bytes written */
} wimpleclay_write_answer;

/* The text of a list of classes: a line of p, n, the number of classes and the number of roots, then a line a class
   of residue, level, number of members and mark; all columns are 11 wide, and a negative residue has its minus before
   its digits. It is WIMPLECLAY_TEXT_BYTES(k) bytes, with no 0 at its end; later bytes of the lent text keep their
   content. Rules 4, 14, 5, 6, 7 and 12 (place: the bytes needed). */
wimpleclay_write_answer wimpleclay_write_classes(uint32_t p, uint32_t n, const int32_t *residues,
                                                 size_t residues_length, const uint8_t *levels, size_t levels_length,
                                                 const uint8_t *marks, size_t marks_length, uint8_t *text,
                                                 size_t text_length);

#ifdef __cplusplus
}
#endif

#endif
