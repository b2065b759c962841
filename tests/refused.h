/* Calls with coefficients, p and n that are refused by rule 2, 3, 4, 14 or 5. */
#ifndef REFUSED_H
#define REFUSED_H

#include "reference.h"

typedef struct {
    const char *what;
    size_t count; /* of coefficients */
    uint32_t p, n;
    refusal refused;
} refused_call;

enum { REFUSED = 22 };
extern const refused_call refused_calls[REFUSED];

#endif
