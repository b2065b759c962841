"""Roots of a polynomial modulo a prime power.

The coefficients start with the constant one. A class has its residue of least size, which may be negative; roots and points are from 0
to p^n - 1. x^2 - 1 modulo 2^4:

>>> classes([-1, 0, 1], 2, 4)
[Class(residue=-1, level=3, mark=0), Class(residue=1, level=3, mark=0)]
>>> roots([-1, 0, 1], 2, 4)
[1, 7, 9, 15]
>>> count([-1, 0, 1], 2, 4)
4
>>> live([-1, 0, 1], 2, 4)
6
>>> is_root([-1, 0, 1], 2, 4, 9)
True

The number of solutions modulo 1, p, p^2, ..., p^n:

>>> counts([-1, 0, 1], 2, 4)
[1, 1, 2, 4, 4]

The classes at one precision raised to a higher one, and other lists of classes, of which the roots in them are kept:

>>> raise_precision([-1, 0, 1], 2, 3, 4, classes([-1, 0, 1], 2, 3))
[Class(residue=-1, level=3, mark=0), Class(residue=1, level=3, mark=0)]
>>> raise_precision([1, 0, 1], 5, 1, 2, [(2, 1)])
[Class(residue=7, level=2, mark=1)]
>>> raise_precision([1, 0, 1], 5, 1, 2, [])
[]
>>> raise_precision([0], 2, 1, 3, [(0, 1), (1, 1)])
[Class(residue=0, level=0, mark=0)]

The common roots of polynomials that come and go, each under a tag; with none held every residue is one:

>>> system = System(2, 4)
>>> system.count()
16
>>> system.add(7, [-1, 0, 1])
>>> system.classes()
[Class(residue=-1, level=3, mark=None), Class(residue=1, level=3, mark=None)]
>>> system.add(9, [-1, 1])
>>> system.classes(), system.count()
([Class(residue=1, level=4, mark=None)], 1)
>>> system.withdraw(9)
>>> system.count()
4
>>> system.add(7, [-1, 1])
Traceback (most recent call last):
    ...
wimpleclay.Refused: rule 15, place 0

Many points are tested in one call. A point that is not below p^n has the answer None:

>>> test_points([-1, 0, 1], 2, 4, [0, 1, 7, 16, 9])
[False, True, True, None, True]
>>> test_points([-1, 0, 1], 2, 4, [])
[]

A class is marked 1 if its members are simple roots, 0 if they are not, 2 if only some are. 3x modulo 3^2, x^3 + x^2 modulo 2:

>>> classes([0, 3], 3, 2)
[Class(residue=0, level=1, mark=1)]
>>> classes([0, 0, 1, 1], 2, 1)
[Class(residue=0, level=0, mark=2)]

Roots from a point on come one at a time, so a polynomial may have many:

>>> stream = iterate([0], 2, 31, start=5)
>>> next(stream), next(stream)
(5, 6)

A refusal is an exception with the number of the rule and the place:

>>> roots([-1, 0, 1], 2, 32)
Traceback (most recent call last):
    ...
wimpleclay.Refused: rule 5, place 0
>>> roots([-1, 0, 1], 91, 2)
Traceback (most recent call last):
    ...
wimpleclay.Refused: rule 14: p is composite, least divisor 7
>>> raise_precision([-1, 0, 1], 2, 4, 3, [(1, 1)])
Traceback (most recent call last):
    ...
wimpleclay.Refused: rule 17, place 0

The library is found as libwimpleclay.so on the loader's path, or where WIMPLECLAY_LIBRARY says.
"""

import ctypes
import os
from array import array
from ctypes import POINTER, c_int32, c_int64, c_size_t, c_uint8, c_uint32, c_uint64
from typing import NamedTuple, Optional

MAX_CLASSES = 64
MAX_RAISED = 128
MAX_COMMON = 1024
MAX_COUNTS = 32
POINT = 8
COMPOSITE = 14

_library = ctypes.CDLL(os.environ.get("WIMPLECLAY_LIBRARY", "libwimpleclay.so"))


class Refused(ValueError):
    """A call that the library refused: the number of the rule, and the place."""

    def __init__(self, number, place):
        where = f": p is composite, least divisor {place}" if number == COMPOSITE else f", place {place}"
        super().__init__(f"rule {number}{where}")
        self.number = number
        self.place = place


class Class(NamedTuple):
    """The residues congruent to residue modulo p^level, where -p^level < 2 * residue <= p^level.

    mark is 1 if they are all simple roots, 0 if none is, 2 if only some are. A root r is simple if p does not divide g'(r), where g is
    the polynomial divided by the largest power of p common to its coefficients modulo p^n; if all these are 0, mark is 0. mark is None if
    the class is one of common roots, which have no marks.
    """

    residue: int
    level: int
    mark: Optional[int] = None


class _Query(ctypes.Structure):
    """A point and the place for its answer."""

    _fields_ = [("point", c_uint32), ("answer", c_uint32)]


class _System(ctypes.Structure):
    """A system as the library keeps it."""

    _fields_ = [("bytes", c_uint64 * 1300)]


def _word(value):
    """The value; one that is no unsigned 32-bit integer is an OverflowError."""
    if not 0 <= value < 2**32:
        raise OverflowError(f"{value} is not from 0 to 2^32 - 1")
    return value


def _function(name, values, arguments):
    """The library's function, whose answer has these values after number and place; a list is a pointer and a length."""
    fields = [("number", c_uint32), ("place", c_size_t), *values]
    function = getattr(_library, "wimpleclay_" + name)
    function.restype = type(name, (ctypes.Structure,), {"_fields_": fields})
    function.argtypes = arguments

    def call(*given):
        for of, value in zip(arguments, given):
            if of is c_uint32:
                _word(value)
        answer = function(*given)
        if answer.number:
            raise Refused(answer.number, answer.place)
        return answer

    return call


def _list(of):
    return POINTER(of), c_size_t


_problem = (*_list(c_int64), c_uint32, c_uint32)
_residues, _levels, _marks = _list(c_int32), _list(c_uint8), _list(c_uint8)
_solve = _function(
    "solve",
    [("classes", c_size_t), ("roots", c_uint64), ("live", c_uint64)],
    (*_problem, *_residues, *_levels, *_marks),
)
_is_root = _function("is_root", [("root", c_uint32)], (*_problem, c_uint32))
_test_points = _function("test_points", [], (*_problem, *_list(_Query)))
_counts = _function("counts", [], (*_problem, *_list(c_uint64)))
_raise = _function(
    "raise",
    [("classes", c_size_t), ("roots", c_uint64)],
    (*_problem, c_uint32, *_residues, *_levels, *_residues, *_levels, *_marks),
)
_system_open = _function("system_open", [], (c_uint32, c_uint32, POINTER(_System)))
_system_add = _function("system_add", [], (POINTER(_System), c_uint32, *_list(c_int64)))
_system_withdraw = _function("system_withdraw", [], (POINTER(_System), c_uint32))
_system_fetch = _function(
    "system_fetch", [("classes", c_size_t), ("roots", c_uint64)], (POINTER(_System), *_residues, *_levels)
)
_next_root = _function(
    "next_root", [("found", c_uint32), ("root", c_uint32)], (c_uint32, c_uint32, *_residues, *_levels, c_uint32)
)


def _lent(of, code, values):
    """The values as they are lent, and their number; one that the type does not hold is an OverflowError."""
    row = array(code, values)
    return (of * len(row)).from_buffer(row), len(row)


def _row(coefficients):
    """The coefficients as they are lent."""
    return _lent(c_int64, "q", coefficients)


def _lists(slots, types=(c_int32, c_uint8, c_uint8)):
    """Lists to be filled, and the same as they are lent: of residues, of levels and, unless the types say otherwise, of marks."""
    lists = [(of * slots)() for of in types]
    return lists, [x for one in lists for x in (one, slots)]


def _classes(answer, lists):
    """The classes in lists that are filled."""
    return [Class(*one) for one in zip(*lists)][: answer.classes]


def _solved(coefficients, p, n):
    """The solver's answer, and its lists."""
    lists, lent = _lists(MAX_CLASSES)
    return _solve(*_row(coefficients), p, n, *lent), lists


def classes(coefficients, p, n):
    """The root classes, rising by residue: the shortest list there is."""
    return _classes(*_solved(coefficients, p, n))


def raise_precision(coefficients, p, n, m, classes):
    """The root classes modulo p^m of the roots in the given classes, a list at precision n: the shortest list there is.

    A given class is a Class or a pair of residue and level; there are at most 64. Where they are classes(coefficients, p, n), the result is
    classes(coefficients, p, m).
    """
    given = list(classes)
    residues = _lent(c_int32, "i", [one[0] for one in given])
    levels = _lent(c_uint8, "B", [one[1] for one in given])
    lists, lent = _lists(MAX_RAISED)
    return _classes(_raise(*_row(coefficients), p, n, m, *residues, *levels, *lent), lists)


def count(coefficients, p, n):
    """The number of roots."""
    return _solved(coefficients, p, n)[0].roots


def counts(coefficients, p, n):
    """The numbers N_0 to N_n: N_j is the number of residues from 0 to p^j - 1 at which p^j divides the value."""
    row = (c_uint64 * MAX_COUNTS)()
    _counts(*_row(coefficients), p, n, row, MAX_COUNTS)
    return row[: n + 1]


def live(coefficients, p, n):
    """The number of live classes.

    Everything is live. A live class a/t has the polynomial f(a + p^t * y), coefficients modulo p^n. If they are all 0, it is finished.
    Otherwise they are divided by the largest power of p common to them, and for each digit c where p divides the value of the quotient,
    the class of a + p^t * c at level t + 1 is live. Polynomials with the same roots may differ in the number.
    """
    return _solved(coefficients, p, n)[0].live


def is_root(coefficients, p, n, point):
    """Whether p^n divides the value at the point."""
    return bool(_is_root(*_row(coefficients), p, n, point).root)


def test_points(coefficients, p, n, points):
    """For each point whether p^n divides the value there, or None if the point is not below p^n."""
    queries = [_Query(_word(point)) for point in points]
    row = (_Query * len(queries))(*queries)
    _test_points(*_row(coefficients), p, n, row, len(row))
    return [None if query.answer == POINT else bool(query.answer) for query in row]


def iterate(coefficients, p, n, start=0):
    """The roots from start on, rising."""
    answer, (residues, levels, _) = _solved(coefficients, p, n)
    point, modulus = start, p**n
    while point < modulus:
        step = _next_root(p, n, residues, answer.classes, levels, answer.classes, point)
        if not step.found:
            return
        yield step.root
        point = step.root + 1


def roots(coefficients, p, n):
    """The roots, rising."""
    return list(iterate(coefficients, p, n))


class System:
    """The common roots modulo p^n of up to 16 polynomials, each under a tag of the caller's choice, which come and go at any time.

    A refused call leaves what is held as it was: rule 15 if the tag is held already (add) or not held (withdraw), rule 16 if 16
    polynomials are held (add).
    """

    def __init__(self, p, n):
        self._system = _System()
        _system_open(p, n, self._system)

    def add(self, tag, coefficients):
        """Adds a polynomial under the tag, from 0 to 2^32 - 1. The same polynomial may be held under several tags."""
        _system_add(self._system, tag, *_row(coefficients))

    def withdraw(self, tag):
        """Withdraws the polynomial of the tag: all is then as if it had never come."""
        _system_withdraw(self._system, tag)

    def _fetched(self):
        """The library's answer, and its lists."""
        lists, lent = _lists(MAX_COMMON, (c_int32, c_uint8))
        return _system_fetch(self._system, *lent), lists

    def classes(self):
        """The root classes of all polynomials held, rising by residue: the shortest list there is. They have no marks."""
        return _classes(*self._fetched())

    def count(self):
        """The number of common roots."""
        return self._fetched()[0].roots
