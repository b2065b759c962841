/* Texts that grow, and the program fed through pipes. */
#ifndef FEED_H
#define FEED_H

#include <stddef.h>
#include <sys/types.h>

struct text {
    char *bytes;
    size_t length, room;
};

void append(struct text *text, const char *bytes, size_t length);
void put(struct text *text, const char *format, ...);

/* Starts the program, with its standard input and output as pipes. */
pid_t start(const char *program, int *to, int *from);

/* Writes all, in pieces of this size. A reader that has ended is none of its concern. */
void feed(int to, const char *bytes, size_t length, size_t piece);

/* What the program prints for a text that comes in such pieces. */
void run(const char *program, const struct text *input, size_t piece, struct text *output);

#endif
