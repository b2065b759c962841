/* Calls that are refused. */
#include "refused.h"

const refused_call refused_calls[REFUSED] = {
    {"no coefficient", 0, 2, 1, {2, 0}},
    {"no coefficient, p is 1, n is 0", 0, 1, 0, {2, 0}},
    {"no coefficient, p is 4", 0, 4, 1, {2, 0}},
    {"66 coefficients", COEFFICIENTS + 1, 2, 1, {3, 0}},
    {"66 coefficients, p is 0, n is 0", COEFFICIENTS + 1, 0, 0, {3, 0}},
    {"66 coefficients, p is 4", COEFFICIENTS + 1, 4, 33, {3, 0}},
    {"p is 0", 1, 0, 1, {4, 0}},
    {"p is 1", 1, 1, 1, {4, 0}},
    {"p is 1, n is 0", 1, 1, 0, {4, 0}},
    {"p is 65536", 1, 65536, 1, {4, 0}},
    {"p is 65536, n is 3", COEFFICIENTS, 65536, 3, {4, 0}},
    {"p is 65537, a prime", 1, 65537, 1, {4, 0}},
    {"p is 4294967295", 1, UINT32_MAX, 1, {4, 0}},
    {"p is 4", 1, 4, 1, {14, 2}},
    {"p is 9, n is 0", 1, 9, 0, {14, 3}},
    {"p is 64507", COEFFICIENTS, 64507, 1, {14, 251}},
    {"p is 65535, n is 3", 1, 65535, 3, {14, 3}},
    {"n is 0", 1, 2, 0, {5, 0}},
    {"2^32", 1, 2, 32, {5, 0}},
    {"3^21", COEFFICIENTS, 3, 21, {5, 0}},
    {"65521^3", 1, 65521, 3, {5, 0}},
    {"n is 4294967295", 1, 3, UINT32_MAX, {5, 0}},
};
