/* Texts that grow, and the program fed through pipes. */
#define _POSIX_C_SOURCE 200809L
#include "feed.h"

#include <stdarg.h>
#include <stdio.h>
#include <stdlib.h>
#include <string.h>
#include <sys/wait.h>
#include <unistd.h>

void append(struct text *text, const char *bytes, size_t length)
{
    if (text->room < text->length + length + 1) {
        text->room = 2 * (text->length + length + 1);
        text->bytes = realloc(text->bytes, text->room);
        if (!text->bytes)
            exit(2);
    }
    if (length)
        memcpy(text->bytes + text->length, bytes, length);
    text->length += length;
    text->bytes[text->length] = 0;
}

void put(struct text *text, const char *format, ...)
{
    char line[1024];
    va_list arguments;
    va_start(arguments, format);
    int length = vsnprintf(line, sizeof line, format, arguments);
    va_end(arguments);
    append(text, line, (size_t)length);
}

pid_t start(const char *program, int *to, int *from)
{
    int in[2], out[2];
    if (pipe(in) || pipe(out))
        exit(2);
    pid_t child = fork();
    if (child == 0) {
        dup2(in[0], 0);
        dup2(out[1], 1);
        close(in[0]);
        close(in[1]);
        close(out[0]);
        close(out[1]);
        execl(program, program, (char *)NULL);
        _exit(127);
    }
    close(in[0]);
    close(out[1]);
    *to = in[1];
    *from = out[0];
    return child;
}

void feed(int to, const char *bytes, size_t length, size_t piece)
{
    for (size_t at = 0; at < length;) {
        size_t size = length - at < piece ? length - at : piece;
        ssize_t done = write(to, bytes + at, size);
        if (done <= 0)
            return;
        at += (size_t)done;
    }
}

/* A child writes, so that neither pipe blocks the other. */
void run(const char *program, const struct text *input, size_t piece, struct text *output)
{
    int to, from;
    pid_t child = start(program, &to, &from);
    pid_t writer = fork();
    if (writer == 0) {
        close(from);
        feed(to, input->bytes, input->length, piece);
        _exit(0);
    }
    close(to);
    char buffer[65536];
    ssize_t got;
    while ((got = read(from, buffer, sizeof buffer)) > 0)
        append(output, buffer, (size_t)got);
    close(from);
    waitpid(writer, NULL, 0);
    waitpid(child, NULL, 0);
}
