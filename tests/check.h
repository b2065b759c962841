/* What every test uses: counted checks, numbers drawn from a fixed seed, and memory that is lent between guard bytes. */
#ifndef CHECK_H
#define CHECK_H

#include <stddef.h>
#include <stdint.h>

/* Counts a check, and prints it where it fails. */
void expect(int held, const char *what);

/* Prints 'N passed, M failed' and gives the exit status. */
int finish(void);

/* The next drawn number, below the limit. */
uint64_t draw(uint64_t limit);

/* Lent memory, and a copy of it and of its guard bytes from before the call. */
typedef struct {
    uint8_t *memory;
    uint8_t *before;
    size_t bytes;
} loan;

/* Lends a copy of the content, or drawn bytes where content is null. */
loan lend(const void *content, size_t bytes);

/* The pointer to pass to the library. */
void *lent(const loan *l);

/* Whether all of it is as it was lent, guard bytes included, but for the first bytes, this many. */
int kept_from(const loan *l, size_t bytes);

void end_loan(loan *l);

#endif
