/* wimpleclay for PARI/GP: functions that gp's `install` takes (wimpleclay.gp). */
#include <pari/pari.h>
#include <wimpleclay.h>

typedef struct {
    wimpleclay_solve_answer answer;
    int32_t residues[WIMPLECLAY_MAX_CLASSES];
    uint8_t levels[WIMPLECLAY_MAX_CLASSES], marks[WIMPLECLAY_MAX_CLASSES];
} solution;

/* Solves the polynomial with these coefficients, the constant one first, modulo p^n. A refusal is an error in gp. */
static solution solve(GEN row, long p, long n)
{
    int64_t coefficients[WIMPLECLAY_MAX_COEFFICIENTS];
    solution s;
    long count = glength(row);
    if (typ(row) != t_VEC || count > WIMPLECLAY_MAX_COEFFICIENTS)
        pari_err(e_MISC, "wimpleclay: not a vector of at most 65 coefficients");
    if (p < 0 || p > UINT32_MAX || n < 0 || n > UINT32_MAX)
        pari_err(e_MISC, "wimpleclay: p or n is out of range");
    for (long i = 0; i < count; i++)
        coefficients[i] = gtos(gel(row, i + 1));
    wimpleclay_solve_answer a =
        wimpleclay_solve(coefficients, (size_t)count, (uint32_t)p, (uint32_t)n, s.residues, WIMPLECLAY_MAX_CLASSES,
                         s.levels, WIMPLECLAY_MAX_CLASSES, s.marks, WIMPLECLAY_MAX_CLASSES);
    if (a.number == WIMPLECLAY_COMPOSITE)
        pari_err(e_MISC, "wimpleclay: refused by rule 14: p is composite, least divisor %lu", (ulong)a.place);
    if (a.number)
        pari_err(e_MISC, "wimpleclay: refused by rule %lu, place %lu", (ulong)a.number, (ulong)a.place);
    s.answer = a;
    return s;
}

/* The root classes: a vector of [residue, level, mark]. */
GEN gp_wimpleclay(GEN row, long p, long n)
{
    solution s = solve(row, p, n);
    GEN classes = cgetg((long)s.answer.classes + 1, t_VEC);
    for (size_t i = 0; i < s.answer.classes; i++)
        gel(classes, i + 1) = mkvec3s(s.residues[i], s.levels[i], s.marks[i]);
    return classes;
}

/* The number of live classes. */
long gp_wimpleclaylive(GEN row, long p, long n)
{
    return (long)solve(row, p, n).answer.live;
}
