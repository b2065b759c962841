/* Counted checks, drawn numbers and loans. */
#include "check.h"

#include <stdio.h>
#include <stdlib.h>
#include <string.h>

enum { GUARD = 64 };

static unsigned long passed, failed;

void expect(int held, const char *what)
{
    if (held) {
        passed++;
        return;
    }
    failed++;
    if (failed <= 20)
        printf("failed: %s\n", what);
}

int finish(void)
{
    printf("%lu passed, %lu failed\n", passed, failed);
    return failed != 0;
}

uint64_t draw(uint64_t limit)
{
    static uint64_t state = 20011;
    uint64_t x = state += 0x9e3779b97f4a7c15u;
    x = (x ^ (x >> 30)) * 0xbf58476d1ce4e5b9u;
    x = (x ^ (x >> 27)) * 0x94d049bb133111ebu;
    return (x ^ (x >> 31)) % limit;
}

loan lend(const void *content, size_t bytes)
{
    size_t all = bytes + 2 * GUARD;
    loan l = {malloc(all), malloc(all), bytes};
    if (!l.memory || !l.before)
        abort();
    for (size_t i = 0; i < all; i++)
        l.memory[i] = (uint8_t)draw(256);
    if (content && bytes)
        memcpy(l.memory + GUARD, content, bytes);
    memcpy(l.before, l.memory, all);
    return l;
}

void *lent(const loan *l)
{
    return l->memory + GUARD;
}

int kept_from(const loan *l, size_t bytes)
{
    size_t after = GUARD + bytes;
    return memcmp(l->memory, l->before, GUARD) == 0 &&
           memcmp(l->memory + after, l->before + after, l->bytes - bytes + GUARD) == 0;
}

void end_loan(loan *l)
{
    free(l->memory);
    free(l->before);
}
