/* roots P N C0 C1 ..: prints the root classes of C0 + C1 x + .. modulo P^N, and then the roots one after the other. The status is 1 where the
   library refuses the problem, and 2 where a word is no number or out of its type's range.

   Link with the library: cc roots.c $(pkg-config --cflags --libs wimpleclay) -o roots */
#include <errno.h>
#include <inttypes.h>
#include <stdio.h>
#include <stdlib.h>
#include <wimpleclay.h>

static int refused(uint32_t number, size_t place)
{
    fprintf(stderr, "refused: rule %" PRIu32 ", place %zu\n", number, place);
    return 1;
}

/* Steps through the members of the k classes. */
static int print_roots(uint32_t p, uint32_t n, const int32_t *residues, const uint8_t *levels, size_t k)
{
    uint32_t point = 0;
    for (;;) {
        wimpleclay_next_answer next = wimpleclay_next_root(p, n, residues, k, levels, k, point);
        if (next.number == WIMPLECLAY_POINT) /* the root before was the largest residue */
            return 0;
        if (next.number != WIMPLECLAY_ACCEPTED)
            return refused(next.number, next.place);
        if (!next.found)
            return 0;
        printf("%" PRIu32 "\n", next.root);
        point = next.root + 1;
    }
}

/* Reads a whole word as a number from least to most. */
static int read_number(const char *word, int64_t least, int64_t most, int64_t *number)
{
    char *end;
    errno = 0;
    long long x = strtoll(word, &end, 10);
    if (end == word || *end != '\0') {
        fprintf(stderr, "roots: %s is no number\n", word);
        return 0;
    }
    if (errno == ERANGE || x < least || x > most) {
        fprintf(stderr, "roots: %s is out of range\n", word);
        return 0;
    }
    *number = x;
    return 1;
}

int main(int argc, char **argv)
{
    int64_t coefficients[WIMPLECLAY_MAX_COEFFICIENTS];
    int32_t residues[WIMPLECLAY_MAX_CLASSES];
    uint8_t levels[WIMPLECLAY_MAX_CLASSES], marks[WIMPLECLAY_MAX_CLASSES];
    if (argc < 4 || argc > 3 + WIMPLECLAY_MAX_COEFFICIENTS) {
        fprintf(stderr, "usage: roots P N C0 C1 ..\n");
        return 2;
    }
    int64_t prime, precision;
    if (!read_number(argv[1], 0, UINT32_MAX, &prime) || !read_number(argv[2], 0, UINT32_MAX, &precision))
        return 2;
    uint32_t p = (uint32_t)prime, n = (uint32_t)precision;
    size_t count = (size_t)argc - 3;
    for (size_t i = 0; i < count; i++)
        if (!read_number(argv[3 + i], INT64_MIN, INT64_MAX, &coefficients[i]))
            return 2;

    wimpleclay_solve_answer solved = wimpleclay_solve(coefficients, count, p, n, residues, WIMPLECLAY_MAX_CLASSES,
                                                      levels, WIMPLECLAY_MAX_CLASSES, marks, WIMPLECLAY_MAX_CLASSES);
    if (solved.number != WIMPLECLAY_ACCEPTED)
        return refused(solved.number, solved.place);
    printf("%zu classes, %" PRIu64 " roots\n", solved.classes, solved.roots);
    static const char *const words[] = {"", ", simple", ", some of them simple"};
    for (size_t i = 0; i < solved.classes; i++)
        printf("%" PRId32 " modulo %" PRIu32 "^%d%s\n", residues[i], p, levels[i], words[marks[i]]);
    return print_roots(p, n, residues, levels, solved.classes);
}
