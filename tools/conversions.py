#!/usr/bin/env python3
"""Known results of conversions to the database grid, of lengths within bounds and of pitch surveys, for the program `test_conversions`.

A model of convert_unit, convert_physical and checked_array_endpoint of gdsr's write/conversion.rs, with the sign that document
02's request 2 gives a deviation, and of its requests 11 and 12. Products, quotients and differences are Python's own, IEEE
doubles; rounding to whole numbers is done exactly, over fractions, and the step between neighbours by the bit patterns. Where
two bounds are few steps apart, every double between them is converted.

    python3 tools/conversions.py > crates/test_conversions/stdin
    python3 tools/conversions.py text       a line to read for each case

Each case is 54 bytes on standard output, numbers with the highest byte first:

    0  1  what: 0 an integer with its unit, 1 a double with its unit, 2 an array's endpoint, 3 two bounds, 4 a pitch survey
    1  1  policy: 0 nearest, 1 floor, 2 ceiling, 3 strict
    2  8  database unit
   10  8  the integer (four zeros, then 32 bits); the double; of an endpoint the physical value; the lower bound; the pitch
   18  8  the unit; of an endpoint the origin and the spacing, 32 bits each; the upper bound; of a survey 0
   26  4  of an endpoint the count, of a survey the number of places, else 0
   30  8  two zero bytes, the refusal's number or 0, 1 if the deviation counts or 0, the database value in 32 bits or 0; of bounds the least; of a survey the clean places
   38  8  the physical value of a deviation that counts, else 0; of bounds four zeros and the greatest database value in 32 bits, or 0; of a survey the places with an entry due
   46  8  the deviation, database value * database unit - physical value, with its sign, else 0; of a survey the refused places

The cases of bounds_cases.txt and of survey_cases.txt, whose answers are another model's, stand after those of their kind.

Exit status: 0 with the cases, 1 where these two files cannot be read or differ, 2 where it was called wrongly.
"""
import math
import os
import random
import struct
import sys
from fractions import Fraction

import called
from ravenvanity import files

POLICY, DATABASE_UNIT, SOURCE_UNIT, NOT_FINITE, OFF_GRID, OUT_OF_RANGE, BAD_BOUNDS, SURVEY_COUNT = 1, 2, 16, 17, 18, 19, 32, 33
NEAREST, FLOOR, CEIL, STRICT = range(4)
INTEGER, DOUBLE, ENDPOINT, BOUNDS, SURVEY = range(5)
MAX_PLACES = 65536
FEW = 64  # doubles between two bounds that are all looked at
# files of stored cases, the layout of a case's input, and how many numbers an answer has
BOUNDS_CASES, SURVEY_CASES = ("bounds_cases.txt", ">Bddd", 2), ("survey_cases.txt", ">BddI", 3)
HERE = os.path.dirname(os.path.abspath(__file__))
TEXT = "text"


class Refused(Exception):
    pass


def bits(x):
    return struct.unpack(">Q", struct.pack(">d", x))[0]


def ordered(x):
    """The place of x in the order of the doubles, -0 just below 0."""
    b = bits(x)
    return (1 << 64) - 1 - b if b >> 63 else b + (1 << 63)


def double_at(place):
    """The double at a place in that order."""
    b = place - (1 << 63) if place >> 63 else (1 << 64) - 1 - place
    return struct.unpack(">d", struct.pack(">Q", b))[0]


def within_one_ulp(x, y):
    return abs(ordered(x) - ordered(y)) <= 1


def nearest(s):
    """The whole number nearest to s, halves away from zero."""
    n = math.floor(abs(Fraction(s)) + Fraction(1, 2))
    return -n if math.copysign(1, s) < 0 else n


def rounded(policy, s):
    n = nearest(s)
    if policy == NEAREST or within_one_ulp(s, math.copysign(float(n), s)):
        return n
    if policy == STRICT:
        raise Refused(OFF_GRID)
    return math.floor(Fraction(s)) if policy == FLOOR else math.ceil(Fraction(s))


def in_range(q):
    if not -(2**31) <= q < 2**31:
        raise Refused(OUT_OF_RANGE)
    return q


def deviation(d, p, q):
    """(database value, counts, physical value, deviation with its sign)"""
    signed = float(q) * d - p
    if abs(signed) > 0 and not within_one_ulp(p / d, float(q)):
        return q, 1, p, signed
    return q, 0, None, None


def convert_physical(policy, d, p):
    if not math.isfinite(p):
        raise Refused(NOT_FINITE)
    s = p / d
    if not math.isfinite(s):
        raise Refused(NOT_FINITE)
    return deviation(d, p, in_range(rounded(policy, s)))


def convert_unit(policy, d, value, unit):
    if isinstance(value, int) and unit == d:
        return value, 0, None, None
    if not (math.isfinite(unit) and unit > 0):
        raise Refused(SOURCE_UNIT)
    return convert_physical(policy, d, float(value) * unit)


def checked_array_endpoint(d, origin, spacing, count, p):
    if not math.isfinite(p):
        raise Refused(NOT_FINITE)
    return deviation(d, p, in_range(origin + spacing * count))


def check_caller(policy, d):
    if policy > STRICT:
        raise Refused(POLICY)
    if not (math.isfinite(d) and d > 0):
        raise Refused(DATABASE_UNIT)


def convert_bounds(policy, d, lower, upper):
    """(least, greatest) database value of all doubles between the two"""
    check_caller(policy, d)
    if not (math.isfinite(lower) and math.isfinite(upper)):
        raise Refused(NOT_FINITE)
    if lower > upper or policy == STRICT and lower != upper:
        raise Refused(BAD_BOUNDS)
    least, greatest = (convert_physical(policy, d, end)[0] for end in (lower, upper))
    places = sorted((ordered(lower), ordered(upper)))  # +0 and -0 may stand the other way round
    if places[1] - places[0] < FEW:
        every = [convert_physical(policy, d, double_at(place))[0] for place in range(places[0], places[1] + 1)]
        assert (min(every), max(every)) == (least, greatest), (policy, d, lower, upper)
    return least, greatest


def placed(policy, d, pitch, i):
    """Place i of a row: 0 clean, 1 due, 2 refused"""
    try:
        return convert_physical(policy, d, float(i) * pitch)[1]
    except Refused:
        return 2


def survey_pitch(policy, d, pitch, n):
    """[clean, due, refused] of the places 0 to n - 1"""
    check_caller(policy, d)
    if not 1 <= n <= MAX_PLACES:
        raise Refused(SURVEY_COUNT)
    if not math.isfinite(pitch):
        raise Refused(NOT_FINITE)
    counts = [0, 0, 0]
    for i in range(n):
        counts[placed(policy, d, pitch, i)] += 1
    return counts


def case(what, policy, d, operands, answer):
    try:
        q, counts, p, signed = answer()
        known = struct.pack(">xxBBiQQ", 0, counts, q, bits(p) if counts else 0, bits(signed) if counts else 0)
        said = f"{q}" + (f" off by {abs(signed)!r} {'above' if signed > 0 else 'below'}" if counts else "")
    except Refused as refused:
        known = struct.pack(">xxBBiQQ", refused.args[0], 0, 0, 0, 0)
        said = f"refused {refused.args[0]}"
    record = struct.pack(">BBd", what, policy, d) + operands + known
    return record, said


def coordinate(policy, d, value, unit):
    if isinstance(value, int):
        operands, what = struct.pack(">iidI", 0, value, unit, 0), INTEGER
    else:
        operands, what = struct.pack(">ddI", value, unit, 0), DOUBLE
    record, said = case(what, policy, d, operands, lambda: convert_unit(policy, d, value, unit))
    return record, f"policy {policy} unit {d!r}: {value!r} of {unit!r} -> {said}"


def endpoint(d, origin, spacing, count, p):
    operands = struct.pack(">diiI", p, origin, spacing, count)
    record, said = case(ENDPOINT, NEAREST, d, operands, lambda: checked_array_endpoint(d, origin, spacing, count, p))
    return record, f"unit {d!r}: {origin} + {count} * {spacing}, {p!r} -> {said}"


def bounds(policy, d, lower, upper):
    try:
        least, greatest = convert_bounds(policy, d, lower, upper)
        known, said = struct.pack(">xxBBiIIQ", 0, 0, least, 0, greatest & 0xffffffff, 0), f"{least} to {greatest}"
    except Refused as refused:
        known, said = struct.pack(">xxBBiQQ", refused.args[0], 0, 0, 0, 0), f"refused {refused.args[0]}"
    record = struct.pack(">BBdddI", BOUNDS, policy, d, lower, upper, 0) + known
    return record, f"policy {policy} unit {d!r}: from {lower!r} to {upper!r} -> {said}"


def survey(policy, d, pitch, n):
    try:
        clean, due, refused = survey_pitch(policy, d, pitch, n)
        known, said = struct.pack(">QQQ", clean, due, refused), f"{clean} clean, {due} due, {refused} refused"
    except Refused as refusal:
        known, said = struct.pack(">xxBBiQQ", refusal.args[0], 0, 0, 0, 0), f"refused {refusal.args[0]}"
    record = struct.pack(">BBddQI", SURVEY, policy, d, pitch, 0, n) + known
    return record, f"policy {policy} unit {d!r}: {n} places of {pitch!r} -> {said}"


def answer_of(words, count):
    """(0, the numbers), or (the refusal's number, zeros)"""
    word, numbers = words[0], list(map(int, words[1:]))
    if word == "no" and len(numbers) == 1:
        return (numbers[0],) + count * (0,)
    if word == "ok" and len(numbers) == count:
        return (0, *numbers)
    raise ValueError


def stored_answers(name, layout, count):
    """(name, operands, answer) of each case of another model."""
    path = os.path.join(HERE, name)
    for number, line in enumerate(files.read_input(path).decode("ascii", "replace").splitlines(), 1):
        if line.startswith("#"):
            continue
        try:
            case, given, *words = line.split(" ")
            yield case, struct.unpack(layout, bytes.fromhex(given)), answer_of(words, count)
        except (ValueError, IndexError, struct.error):
            raise called.Bad(f"{path}, line {number}: it is no stored case") from None


def stored(kind, made, words):
    """Another model's cases; this one's answer must be the same."""
    for case, operands, (refused, *numbers) in stored_answers(*kind):
        record, said = made(*operands)
        told = f"refused {refused}" if refused else words.format(*numbers)
        if not said.endswith(f"-> {told}"):
            raise called.Bad(f"{case}: stored {told}, and here {said}")
        yield record, f"{case}: {said}"


def values():
    """(database unit, value, unit) for every policy."""
    ulp = math.ulp
    # the rows of document 01, unit 1
    for x in (2.5, -2.5, 3 + 2.0**-51, 3 + 2.0**-50, 3 - 2.0**-51, 2147483647.25, 2147483647.5, -2147483648.5):
        yield 1.0, x, 1.0
    # halves, whole numbers and their neighbours
    for x in (0.5, 1.0, 1.5, 4.0, 1e6, 2147483646.5, 2147483647.0, 2147483648.0, 2147483648.5, 2147483649.0):
        for y in (x - 2 * ulp(x), x - ulp(x), x, x + ulp(x), x + 2 * ulp(x)):
            yield 1.0, y, 1.0
            yield 1.0, -y, 1.0
    for x in (0.0, -0.0, 0.49999999999999994, -0.49999999999999994, 5e-324, -5e-324, 2.0**52 + 1, 1e300, -1e300):
        yield 1.0, x, 1.0
    # not finite, in the value, the unit, the product, the quotient
    for x in (math.nan, math.inf, -math.inf):
        yield 1.0, x, 1.0
        yield 1.0, 1.0, x
    for unit in (0.0, -0.0, -1e-9):
        yield 1e-9, 1.0, unit
        yield 1e-9, 7, unit
    yield 1.0, 1e200, 1e200
    yield 1e-300, 1e300, 1.0
    # integers: passed, converted, beyond 32 bits
    for n in (0, 1, -1, 2147483647, -2147483648):
        yield 1e-9, n, 1e-9
        yield 1e-9, n, 1e-6
        yield 1e-9, n, 5e-10
    # nanometres and micrometres
    r = random.Random(20)
    for _ in range(12):
        yield 1e-9, r.uniform(-1000, 1000), 1e-6
        yield 1e-9, round(r.uniform(-1000, 1000), 3), 1e-6
        yield 1e-9, r.randrange(-(2**31), 2**31), 1e-10


def sides():
    """(database unit, value, unit) for every policy, for the deviation's sign."""
    for x in (2.25, 2.75, -2.25, -2.75):
        yield 1.0, x, 1.0
    # database value times unit overflows: infinite, with the database value's sign
    for x in (1.4e308, 1.7e308, -1.4e308, -1.7e308):
        yield 1e308, x, 1.0
    # s is -2^-1074, which becomes 0 and lies two steps below it, and 2^-1074, which lies one above
    for x in (-2e-323, 2e-323):
        yield 4.0, x, 1.0


# database unit, origin, spacing, count, physical value
ENDPOINTS = (
    (1.0, 1, 11, 4, 42.5),  # document 01's array
    (1.0, 1, 0, 1, 0.5),
    (1.0, 0, 10, 3, 30.0),
    (1.0, 2147483647, 0, 32767, 2147483647.0),
    (1.0, 2147483647, 1, 1, 2147483648.0),
    (1.0, -2147483648, -2147483648, 32767, -1.0),
    (1.0, 2147483647, 2147483647, 4294967295, 0.0),
    (1.0, 0, 10, 3, math.nan),
    (1.0, 0, 10, 3, math.inf),
    (1e-9, 100, 5, 7, 1.35e-7),
    (1e-9, 100, 5, 7, 1.3500000000000003e-7),
    (1e-9, 100, 5, 7, 1.36e-7),
    (1e-9, -3, 3, 1, -0.0),
    (1e-9, -3, 3, 1, 5e-324),
    # below, and both sides of a negative one
    (1.0, 1, 11, 4, 47.5),
    (1.0, -1, -11, 4, -42.5),
    (1.0, -1, -11, 4, -47.5),
    (1.0, 0, 0, 1, -5e-324),
    # infinite, with the database value's sign whatever the physical value's
    (1e308, 0, 1, 2, 1.7e308),
    (1e308, 0, -1, 2, -1.7e308),
    (1e308, 0, -1, 2, 1.7e308),
    # infinite by the distance alone: database value times unit is finite
    (1e308, 0, -1, 1, 1.7e308),
    (1e308, 0, 1, 1, -1.7e308),
)


def pairs():
    """(policies, database unit, lower, upper)"""
    every, some, most, least = range(4), (NEAREST, STRICT), sys.float_info.max, 5e-324
    up, down = (lambda x, k=1: double_at(ordered(x) + k)), (lambda x, k=1: double_at(ordered(x) - k))
    # neighbours and their order
    for x in (0.0, -0.0, 0.5, 1.0, -3.0):
        for y in (down(x), x, -x, up(x), up(x, 2)):
            yield every, 1.0, x, y
    # not finite: an end, a quotient
    for x in (math.nan, math.inf, -math.inf):
        for lower, upper in ((x, 0.0), (0.0, x), (x, -x)):
            yield some, 1.0, lower, upper
    for x in (most / 2, up(most / 2)):
        for lower, upper in ((-x, 0.0), (0.0, x), (x, x), (x, 0.0), (-x, 1e250), (-1e250, x)):
            yield some, 0.5, lower, upper
    # the ends of 32 bits
    for x in (2147483647.5, 2147483648.0):
        for y in (down(x, 2), down(x), x, up(x)):
            for lower, upper in ((0.0, y), (-y, 0.0), (y, y)):
                yield every, 1.0, lower, upper
    # the least unit and the greatest
    for x in (least, most):
        for lower, upper in ((-x, x), (x, -x)):
            yield every, x, lower, upper
    # nanometres, a lower and an upper length
    r = random.Random(11)
    for _ in range(8):
        x, width = round(r.uniform(-1000, 1000), 3) * 1e-6, r.choice((0.0, 1e-10, 2.5e-9, 3e-6))
        yield every, 1e-9, x - width, x + width
    # the policy's number and the unit
    for d in (1.0, 0.0, -0.0, -least, math.nan, math.inf):
        for lower in (0.0, math.nan):
            yield (STRICT, 4, 255), d, lower, 0.0


def rows():
    """(policies, database unit, pitch, number of places)"""
    every, some, most, least = range(4), (NEAREST, STRICT), sys.float_info.max, 5e-324
    up, down = (lambda x: double_at(ordered(x) + 1)), (lambda x: double_at(ordered(x) - 1))
    # on the grid, beside it, off it, either way
    for pitch in (0.0, -0.0, 1.0, up(1.0), down(1.0), 0.5, -0.5, 0.25, -3.0, least, -least):
        yield every, 1.0, pitch, 9
    # decimals: products and quotients that are rounded
    for d, pitch in ((0.1, 0.3), (1e-9, 1e-9), (1e-9, 1e-7), (1e-9, 4.8e-7), (1e-9, -1.3e-7), (1e-9, 2.5e-9), (5e-9, 1.28e-7)):
        yield every, d, pitch, 1000
    # out of range, a quotient and a product that are not finite
    for d, pitch in ((1.0, 2147483647.0), (1.0, 2147483648.0), (1.0, -2147483648.0), (1.0, -2147483649.0), (0.5, most / 2), (1.0, most), (most, most), (most, most / 3), (least, least), (least, 1.0)):
        yield every, d, pitch, 4
    # the number of places, and what comes before and after it
    for d in (1.0, 0.0, math.nan):
        for pitch in (0.5, math.inf, -math.inf, math.nan):
            for n in (0, 1, MAX_PLACES, MAX_PLACES + 1, 2**32 - 1):
                yield (some if d == 1.0 and pitch == 0.5 else (NEAREST, 4)), d, pitch, n
    # the unit
    for d in (-0.0, least, -least, -1.0, most, math.inf, -math.inf):
        yield (NEAREST, 255), d, 1.0, 3


def cases():
    for d, value, unit in (*values(), *sides()):
        for policy in range(4):
            yield coordinate(policy, d, value, unit)
    for operands in ENDPOINTS:
        yield endpoint(*operands)
    for policies, d, lower, upper in pairs():
        for policy in policies:
            yield bounds(policy, d, lower, upper)
    yield from stored(BOUNDS_CASES, bounds, "{} to {}")
    for policies, d, pitch, n in rows():
        for policy in policies:
            yield survey(policy, d, pitch, n)
    yield from stored(SURVEY_CASES, survey, "{} clean, {} due, {} refused")


def records():
    return b"".join(record for record, _ in cases())


def main(words):
    if words == [TEXT]:
        for number, (_, line) in enumerate(cases()):
            print(number, line)
    elif words:
        raise called.Wrong(f"it takes `{TEXT}` or no word")
    else:
        files.write_whole(files.STANDARD, records())


if __name__ == "__main__":
    called.run(main, __doc__)
