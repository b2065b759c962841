/* A call of wimpleclay_raise with what it must give, for the files that test it. */
#ifndef RAISED_H
#define RAISED_H

#include "reference.h"

typedef struct {
    const char *what;
    int64_t f[COEFFICIENTS + 1];
    size_t count;
    uint32_t p, n, m;
    const list *given, *raised; /* where the call is refused, raised is not looked at */
    size_t lengths[2], slots[3];
    refusal refused;
} raising;

/* Calls once, and checks the answer and all memory that is lent. */
void raise_once(const raising *c);

/* Calls with all that is given and the exact number of slots, more, one fewer and none. */
void raise_into_slots(raising *c);

#endif
