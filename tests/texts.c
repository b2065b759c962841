/* wimpleclay_write_classes and wimpleclay_read_problem on drawn lists and texts, sound and damaged. */
#include "check.h"
#include "drawn.h"
#include "tests.h"

#include <inttypes.h>
#include <stdio.h>
#include <string.h>
#include <wimpleclay.h>

/* Writer ******************************************************************************************************************************/

static list l;

static size_t print_list(uint32_t p, uint32_t n, char *text)
{
    uint64_t members = 0;
    for (size_t i = 0; i < l.k; i++)
        members += power(p, n - l.levels[i]);
    size_t at = (size_t)sprintf(text, "%11" PRIu32 "%11" PRIu32 "%11zu%11" PRIu64 "\n", p, n, l.k, members);
    for (size_t i = 0; i < l.k; i++)
        at += (size_t)sprintf(text + at, "%11" PRId32 "%11d%11" PRIu64 "%11d\n", l.residues[i], l.levels[i],
                              power(p, n - l.levels[i]), l.marks[i]);
    return at;
}

static void test_writer(uint32_t p, uint32_t n)
{
    char expected[WIMPLECLAY_TEXT_BYTES(MOST_ENTRIES) + 1];
    draw_list(p, n, &l, 1);
    size_t needed = WIMPLECLAY_TEXT_BYTES(l.k), room = needed + draw(50);
    if (draw(5) == 0)
        room -= 1 + draw(45);
    size_t third = l.k + (draw(20) == 0);
    loan residues = lend(l.residues, l.k * sizeof *l.residues), levels = lend(l.levels, l.k),
         marks = lend(l.marks, third);
    loan text = lend(NULL, room);
    wimpleclay_write_answer a = wimpleclay_write_classes(p, n, lent(&residues), l.k, lent(&levels), l.k, lent(&marks),
                                                         third, lent(&text), room);
    refusal r = refused_list(p, n, &l, l.k, l.k, &third);
    if (!r.number && room < needed)
        r = (refusal){12, needed};
    size_t bytes = r.number ? 0 : print_list(p, n, expected);
    expect(a.number == r.number && a.place == r.place && a.bytes == bytes, "write_classes: answer");
    expect(memcmp(lent(&text), expected, bytes) == 0, "write_classes: text");
    expect(kept_from(&text, bytes), "write_classes: other memory is kept");
    expect(kept_from(&residues, 0) && kept_from(&levels, 0) && kept_from(&marks, 0), "write_classes: lists are kept");
    end_loan(&residues);
    end_loan(&levels);
    end_loan(&marks);
    end_loan(&text);
}

/* Reader ******************************************************************************************************************************/

/* Reads a column by the form: blanks, then a number as printed. Gives whether it has a value up to most, or down to -least. */
static int column(const char *text, size_t length, size_t at, size_t width, uint64_t most, uint64_t least,
                  uint64_t *bits)
{
    char part[32], printed[32];
    uint64_t size = 0;
    if (at + width > length || memchr(text + at, 0, width))
        return 0;
    sprintf(part, "%.*s", (int)width, text + at);
    size_t first = strspn(part, " ");
    int minus = part[first] == '-';
    int read = sscanf(part + first + (size_t)minus, "%20[0-9]", printed);
    if (read != 1 || strlen(printed) > 19 || strlen(printed) + first + (size_t)minus != width ||
        (printed[0] == '0' && (printed[1] || minus)))
        return 0;
    sscanf(printed, "%" SCNu64, &size);
    *bits = minus ? 0 - size : size;
    return size <= (minus ? least : most);
}

/* What the reader must answer; the coefficients go into the row. */
static refusal read_by_form(const char *text, size_t length, uint64_t head[3], int64_t *row)
{
    size_t at = 0;
    memset(row, 0, WIMPLECLAY_MAX_COEFFICIENTS * sizeof *row);
    for (int i = 0; i < 3; i++, at += 11)
        if (!column(text, length, at, 11, UINT32_MAX, 0, &head[i]))
            return (refusal){1, at};
    if (at >= length || text[at] != '\n')
        return (refusal){1, at};
    at++;
    if (head[2] == 0 || head[2] > 65)
        return (refusal){head[2] == 0 ? 2 : 3, 0};
    for (uint64_t i = 0; i < head[2]; i++, at += 21) {
        uint64_t bits;
        if (!column(text, length, at, 20, INT64_MAX, (uint64_t)INT64_MAX + 1, &bits))
            return (refusal){1, at};
        if (at + 20 >= length || text[at + 20] != '\n')
            return (refusal){1, at + 20};
        memcpy(&row[i], &bits, sizeof bits);
    }
    return (refusal){at < length, at < length ? at : 0};
}

static void test_reader(const char *bytes, size_t length, size_t slots)
{
    int64_t row[WIMPLECLAY_MAX_COEFFICIENTS];
    uint64_t head[3] = {0, 0, 0};
    loan text = lend(bytes, length), coefficients = lend(NULL, slots * sizeof *row);
    wimpleclay_read_answer a = wimpleclay_read_problem(lent(&text), length, lent(&coefficients), slots);
    refusal r = read_by_form(bytes, length, head, row);
    if (!r.number && slots < WIMPLECLAY_MAX_COEFFICIENTS)
        r = (refusal){11, WIMPLECLAY_MAX_COEFFICIENTS};
    if (r.number)
        memset(head, 0, sizeof head);
    size_t written = r.number ? 0 : sizeof row;
    expect(a.number == r.number && a.place == r.place, "read_problem: refusal and place");
    expect(a.p == head[0] && a.n == head[1] && a.count == head[2], "read_problem: p, n and count");
    expect(memcmp(lent(&coefficients), row, written) == 0, "read_problem: coefficients");
    expect(kept_from(&coefficients, written) && kept_from(&text, 0), "read_problem: other memory is kept");
    end_loan(&text);
    end_loan(&coefficients);
}

/* Draws a problem's text; its count may be 0 or 66. */
static size_t print_problem(char *text)
{
    uint64_t count = draw(4) ? 1 + draw(5) : draw(67);
    uint32_t p = (uint32_t)draw(draw(2) ? 10 : (uint64_t)UINT32_MAX + 1), n = (uint32_t)draw(draw(2) ? 40 : 200000);
    size_t at = (size_t)sprintf(text, "%11" PRIu32 "%11" PRIu32 "%11" PRIu64 "\n", p, n, count);
    for (uint64_t i = 0; i < count; i++) {
        int64_t c = draw(2)   ? (int64_t)draw(9) - 4
                    : draw(9) ? (int64_t)(draw(UINT64_MAX) - INT64_MAX)
                    : draw(2) ? INT64_MIN
                              : INT64_MAX;
        at += (size_t)sprintf(text + at, "%20" PRId64 "\n", c);
    }
    return at;
}

static void test_drawn_text(void)
{
    static const char bytes[] = "0123456789 -\n+x";
    char text[34 + 66 * 21 + 8];
    size_t length = print_problem(text), slots = draw(9) ? 65 + draw(4) : draw(65);
    test_reader(text, length, slots);
    test_reader(text, draw(length), slots);
    text[length] = bytes[draw(15)];
    test_reader(text, length + 1, slots);
    for (int i = 0; i < 4; i++) {
        size_t at = draw(length);
        char kept = text[at];
        text[at] = draw(5) ? bytes[draw(15)] : (char)draw(256);
        test_reader(text, length, slots);
        text[at] = draw(3) ? kept : text[at];
    }
}

void test_texts(void)
{
    for (int i = 0; i < 4000; i++) {
        test_writer(2, 1 + (uint32_t)draw(10));
        test_writer(3, 1 + (uint32_t)draw(6));
        test_drawn_text();
    }
    for (size_t i = 0; i < LARGE; i++)
        for (int j = 0; j < 50; j++)
            test_writer(large_moduli[i][0], large_moduli[i][1]);
    expect_every_fault(1);
}
