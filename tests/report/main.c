/* The report, fed through a pipe in pieces of many sizes: report-test PROGRAM. The last line counts the checks. */
#define _POSIX_C_SOURCE 200809L
#include "feed.h"

#include <poll.h>
#include <signal.h>
#include <stdio.h>
#include <stdlib.h>
#include <string.h>
#include <sys/wait.h>
#include <unistd.h>

static const char *program;
static unsigned long passed, failed;

/* A problem and its row. */
struct problem {
    unsigned p, n, count;
    long long coefficients[4];
    unsigned long long row[8];
};

static const struct problem problems[] = {
    {2, 4, 3, {-1, 0, 1}, {1, 1, 2, 4, 4}},
    {3, 2, 3, {1, 0, 1}, {1, 0, 0}},
    {2, 3, 1, {0}, {1, 2, 4, 8}},
    {3, 2, 2, {0, 3}, {1, 3, 3}},
    {65521, 2, 2, {-7, 1}, {1, 1, 1}},
};
enum { kinds = sizeof problems / sizeof *problems };

static void put_head(struct text *text, unsigned p, unsigned n, unsigned count)
{
    put(text, "%11u%11u%11u\n", p, n, count);
}

static void put_problem(struct text *text, const struct problem *problem)
{
    put_head(text, problem->p, problem->n, problem->count);
    for (unsigned i = 0; i < problem->count; i++)
        put(text, "%20lld\n", problem->coefficients[i]);
}

static void put_row(struct text *text, const struct problem *problem)
{
    for (unsigned j = 0; j <= problem->n; j++)
        put(text, "%20llu", problem->row[j]);
    put(text, "\n");
}

/* The last line for the first `count` problems, the kinds in turn. */
static void put_totals(struct text *text, unsigned count)
{
    unsigned long long rootless = 0, roots = 0;
    for (unsigned i = 0; i < count; i++) {
        const struct problem *problem = &problems[i % kinds];
        rootless += problem->row[problem->n] == 0;
        roots += problem->row[problem->n];
    }
    put(text, "%20u%20llu%20llu\n", count, rootless, roots);
}

static void put_refusal(struct text *text, unsigned number, size_t place)
{
    put(text, "%11u%11zu\n", number, place);
}

/* The first `count` problems in turn, and their lines. */
static void put_turn(struct text *input, struct text *lines, unsigned count)
{
    for (unsigned i = 0; i < count; i++) {
        put_problem(input, &problems[i % kinds]);
        put_row(lines, &problems[i % kinds]);
    }
}

static void check(int holds, const char *what, size_t detail)
{
    if (holds) {
        passed++;
        return;
    }
    failed++;
    printf("report: %s, %zu\n", what, detail);
}

static int same(const struct text *a, const struct text *b)
{
    return a->length == b->length && memcmp(a->bytes, b->bytes, a->length) == 0;
}

static void expect(const struct text *input, const struct text *wanted, size_t piece, const char *what, size_t detail)
{
    struct text output = {0};
    append(&output, "", 0);
    run(program, input, piece, &output);
    check(same(&output, wanted), what, detail);
    free(output.bytes);
}

static const size_t pieces[] = {1, 7, 34, 97, 1398, 1399, 1400, 4096, 65535, 65536, 65537, 1 << 20};

/* No problem, one, some, and so many that the buffer is filled more than once. */
static void test_pieces(void)
{
    static const unsigned counts[] = {0, 1, 2, kinds, 40, 1000};
    for (size_t c = 0; c < sizeof counts / sizeof *counts; c++) {
        struct text input = {0}, wanted = {0};
        append(&input, "", 0);
        put_turn(&input, &wanted, counts[c]);
        put_totals(&wanted, counts[c]);
        for (size_t i = 0; i < sizeof pieces / sizeof *pieces; i++)
            expect(&input, &wanted, pieces[i], "problems in pieces", counts[c]);
        free(input.bytes);
        free(wanted.bytes);
    }
}

/* Rule 13: after 1,000 problems any byte is one too many, whatever it is; before rule 1. */
static void test_too_many(void)
{
    static const char *const tails[] = {"x", "\n", " ", "          2          4          3\n"};
    for (size_t t = 0; t <= sizeof tails / sizeof *tails; t++) {
        struct text input = {0}, wanted = {0};
        put_turn(&input, &wanted, 1000);
        put_refusal(&wanted, 13, input.length);
        if (t < sizeof tails / sizeof *tails)
            put(&input, "%s", tails[t]);
        else
            put_problem(&input, &problems[0]);
        expect(&input, &wanted, 1, "1,000 problems and more, byte by byte", t);
        expect(&input, &wanted, 65536, "1,000 problems and more", t);
        free(input.bytes);
        free(wanted.bytes);
    }
}

/* The longest text, 1,399,000 bytes, and one byte more. */
static void test_longest(void)
{
    struct text input = {0}, lines = {0};
    for (unsigned i = 0; i < 1000; i++) {
        put_head(&input, 251, 4, 65);
        for (unsigned j = 0; j < 65; j++)
            put(&input, "%20d\n", j == 1);
        put(&lines, "%20d%20d%20d%20d%20d\n", 1, 1, 1, 1, 1);
    }
    check(input.length == 1399000, "the longest text", input.length);
    struct text wanted = {0};
    append(&wanted, lines.bytes, lines.length);
    put(&wanted, "%20d%20d%20d\n", 1000, 0, 1000);
    for (size_t i = 2; i < sizeof pieces / sizeof *pieces; i++)
        expect(&input, &wanted, pieces[i], "the longest text in pieces", pieces[i]);
    append(&input, "\n", 1);
    put_refusal(&lines, 13, 1399000);
    expect(&input, &lines, 4096, "a byte after the longest text", 0);
    free(input.bytes);
    free(lines.bytes);
    free(wanted.bytes);
}

/* Where rule 1 strikes in a problem that ends after k bytes: at the first column or line end that is not there. */
static size_t missing(unsigned count, size_t k)
{
    for (size_t at = 0; at < 33; at += 11)
        if (k < at + 11)
            return at;
    if (k < 34)
        return 33;
    for (size_t i = 0, at = 34; i < count; i++, at += 21) {
        if (k < at + 20)
            return at;
        if (k < at + 21)
            return at + 20;
    }
    return k;
}

/* A text that ends at each byte of its second problem. */
static void test_cuts(void)
{
    struct text input = {0}, first = {0};
    put_turn(&input, &first, 1);
    size_t one = input.length;
    put_problem(&input, &problems[1]);
    size_t two = input.length;
    for (size_t cut = 0; cut <= two; cut++) {
        struct text wanted = {0};
        if (cut < one) {
            if (cut == 0)
                put_totals(&wanted, 0);
            else
                put_refusal(&wanted, 1, missing(problems[0].count, cut));
        } else {
            put_row(&wanted, &problems[0]);
            if (cut == two)
                put_row(&wanted, &problems[1]);
            if (cut == one || cut == two)
                put_totals(&wanted, cut == one ? 1 : 2);
            else
                put_refusal(&wanted, 1, one + missing(problems[1].count, cut - one));
        }
        struct text part = {input.bytes, cut, 0};
        expect(&part, &wanted, 1, "a text cut, byte by byte", cut);
        expect(&part, &wanted, 65536, "a text cut", cut);
        free(wanted.bytes);
    }
    free(input.bytes);
    free(first.bytes);
}

/* A refused problem after three ends the report; problems after it are not looked at. */
static void test_refusals(void)
{
    static const struct {
        unsigned p, n, count, number;
        size_t place;
        int from_start;
        const char *rest;
    } refusals[] = {
        {2, 4, 0, 2, 0, 0, ""},
        {2, 4, 66, 3, 0, 0, ""},
        {1, 4, 1, 4, 0, 0, "                   1\n"},
        {65537, 4, 1, 4, 0, 0, "                   1\n"},
        {91, 4, 1, 14, 7, 0, "                   1\n"},
        {2, 0, 1, 5, 0, 0, "                   1\n"},
        {2, 32, 1, 5, 0, 0, "                   1\n"},
        /* rule 1 on the rest comes before the rules on p and n */
        {91, 4, 1, 1, 34, 1, "                  1 \n"},
        {1, 4, 1, 1, 54, 1, "                   1 "},
        {2, 4, 1, 1, 34, 1, "                  -0\n"},
        {2, 4, 2, 1, 55, 1, "                   1\n 9223372036854775808\n"},
    };
    for (size_t r = 0; r < sizeof refusals / sizeof *refusals; r++)
        for (int more = 0; more < 2; more++) {
            struct text input = {0}, wanted = {0};
            put_turn(&input, &wanted, 3);
            put_refusal(&wanted, refusals[r].number, refusals[r].place + (refusals[r].from_start ? input.length : 0));
            put_head(&input, refusals[r].p, refusals[r].n, refusals[r].count);
            put(&input, "%s", refusals[r].rest);
            for (unsigned i = 0; more && i < 40; i++)
                put_problem(&input, &problems[0]);
            expect(&input, &wanted, 1, "a refused problem, byte by byte", r);
            expect(&input, &wanted, 65536, "a refused problem", r);
            free(input.bytes);
            free(wanted.bytes);
        }
}

/* A line comes as soon as the last byte of its problem is there, though the text has not ended. */
static void test_lines(void)
{
    int to, from;
    pid_t child = start(program, &to, &from);
    for (unsigned i = 0; i < 2 * kinds; i++) {
        struct text input = {0}, wanted = {0}, output = {0};
        put_problem(&input, &problems[i % kinds]);
        put_row(&wanted, &problems[i % kinds]);
        append(&output, "", 0);
        feed(to, input.bytes, input.length - 1, 3);
        struct pollfd ready = {from, POLLIN, 0};
        check(poll(&ready, 1, 20) == 0, "no line before its problem ends", i);
        feed(to, input.bytes + input.length - 1, 1, 1);
        while (output.length < wanted.length && poll(&ready, 1, 10000) == 1) {
            char buffer[1024];
            ssize_t got = read(from, buffer, sizeof buffer);
            if (got <= 0)
                break;
            append(&output, buffer, (size_t)got);
        }
        check(same(&output, &wanted), "a line when its problem ends", i);
        free(input.bytes);
        free(wanted.bytes);
        free(output.bytes);
    }
    close(to);
    struct text wanted = {0}, output = {0};
    append(&output, "", 0);
    put_totals(&wanted, 2 * kinds);
    char buffer[1024];
    ssize_t got;
    while ((got = read(from, buffer, sizeof buffer)) > 0)
        append(&output, buffer, (size_t)got);
    check(same(&output, &wanted), "the last line at the end", 0);
    free(wanted.bytes);
    free(output.bytes);
    close(from);
    waitpid(child, NULL, 0);
}

int main(int count, char **words)
{
    if (count != 2)
        return 2;
    program = words[1];
    /* a program that ends before its input does closes the pipe */
    if (signal(SIGPIPE, SIG_IGN) == SIG_ERR)
        return 2;
    test_pieces();
    test_too_many();
    test_longest();
    test_cuts();
    test_refusals();
    test_lines();
    printf("report: %lu passed, %lu failed\n", passed, failed);
    return failed != 0;
}
