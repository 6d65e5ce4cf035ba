#!/usr/bin/env python3
"""Writes crates/list_cases/stdin (books, one case after the other) and, from a slow reading of document 01 and request 04 of its own,
crates/list_cases/stdout (what the program must print of them). Run it after a change of the cases; --check only compares."""
import struct

import stored
import survey_cases
from books import BOOKS
from page_cases import not_checked, ring
from reader_cases import UNTOUCHED, WORKED, book, held, line, opened, shown
from survey_cases import loops_of, refusal

LENT = 20
WITHDRAWN = 3


def printed(call, a, out):
    return f"  {call}:" + "".join(f" {x}" for x in a) + " |" + shown(out) + "\n"


def listed(entries, out):
    """The answer with a whole list, the other places of the output as they were; or 10."""
    if len(out) < len(entries):
        return 10, 0, 0
    out[: len(entries)] = entries
    return 0, 0, len(entries)


def signed_lines(loop):
    return [sense * (i + 1) for i, sense in loop[0]]


def loop_listed(loops, number, out):
    if not 1 <= number <= len(loops):
        return 8, 0, 0
    return listed(signed_lines(loops[number - 1]), out)


def all_listed(loops, out):
    """The lines of all loops, one loop after the other."""
    return printed("all loops", listed([x for loop in loops for x in signed_lines(loop)], out), out)


def loops_listed(b, t, lines, out):
    loops, _ = loops_of(b, t, lines)
    one_by_one = (printed(f"loop {number}", loop_listed(loops, number, out), out) for number in range(-1, len(loops) + 2))
    return "".join(one_by_one) + all_listed(loops, out)


def not_checked_listed(lines, out):
    return printed("not checked", listed(not_checked(lines), out), out)


def spoilt_listed(name, version, b, t, helds, lines, out):
    """The three lists of a book that may be refused: the refusal, with the output as it was, or what they are."""
    number, place = refusal(version, b, t, helds, lines)
    if number:
        return f"{name}\n" + "".join(printed(call, (number, place, 0), out) for call in ("loop 1", "all loops", "not checked"))
    loops, _ = loops_of(b, t, lines)
    first = printed("loop 1", loop_listed(loops, 1, out), out)
    return f"{name}\n" + first + all_listed(loops, out) + not_checked_listed(lines, out)


def spoilt(version, b, t, helds, lines, out):
    """The book told as of either version, spoilt number by number, and told as of neither."""
    text = spoilt_listed("version 1, t 1", 1, b, 1, helds, lines, out) + spoilt_listed("version 2, t 0", 2, b, 0, helds, lines, out)
    if lines:
        lines[-1][5] = 5
    text += spoilt_listed("the last line of class 5", version, b, t, helds, lines, out)
    if lines:
        lines[-1][0] = 0
    text += spoilt_listed("the last line from mark 0", version, b, t, helds, lines, out)
    if helds:
        helds[-2] = 0
    text += spoilt_listed("the last held entry of mark 0", version, b, t, helds, lines, out)
    text += spoilt_listed("version 1, t 0", 1, b, 0, helds, lines, out) + spoilt_listed("version 2, t 1", 2, b, 1, helds, lines, out)
    text += spoilt_listed("version 0", 0, b, t, helds, lines, out) + spoilt_listed("version 3, t 1001", 3, b, 1001, helds, lines, out)
    return text + spoilt_listed("version 255", 255, b, t, helds, lines, out)


def outcome(file, lent):
    version, b, t, helds, lines = opened(file)
    out = [UNTOUCHED] * lent
    text = loops_listed(b, t, lines, out) + not_checked_listed(lines, out)
    if len(lines) >= WITHDRAWN:
        lines[WITHDRAWN - 1][4] = 0
    text += f"line {WITHDRAWN} withdrawn\n" + not_checked_listed(lines, out) + loops_listed(b, t, lines, out)
    return text + spoilt(version, b, t, helds, lines, out)


def in_a_ring(marks):
    """Lines from each of these marks to the next, and from the last back to the first."""
    return [line(a, z, 10 * a, 100) for a, z in zip(marks, marks[1:] + marks[:1])]


def cases():
    """Name, how many numbers of output are lent, and the book."""
    for name, file in survey_cases.networks():
        yield name, LENT, file
    for name, file in survey_cases.classed_networks():
        yield name, LENT, file
    yield "three classes and a withdrawn line", LENT, BOOKS["three_classes"]
    yield "two pieces, a mark held in each", LENT, BOOKS["two_pieces"]
    yield "512 parallel lines", LENT, book(2, 40, lines=[line(1 + i % 2, 2 - i % 2, i % 3 - 1, 10 + i % 7) for i in range(512)])
    yield "two rings that share a mark", LENT, book(7, 60, lines=in_a_ring([4, 1, 2, 3]) + in_a_ring([6, 4, 7, 5]))
    yield "two rings with a line between them", LENT, book(
        6, 60, [held(2), held(5), held(6)], [line(2, 5)] + in_a_ring([1, 2, 3]) + in_a_ring([4, 5, 6]))
    across = [line(1, 5), line(6, 2), line(3, 7), line(8, 4)]
    yield "a ring with lines across", LENT, book(8, 60, lines=across + in_a_ring([1, 2, 3, 4, 5, 6, 7, 8]))
    yield "a loop of 256 lines", 300, ring(10**8)
    yield "256 places for it", 256, ring(-(10**8))
    yield "255 places", 255, ring(10**8)
    branches = book(256, 40, [held(256), held(1)], [line(i // 2, i, i, 10 * i) for i in range(2, 257)])
    yield "255 lines not checked", 300, branches
    yield "255 places for them", 255, branches
    yield "254 places", 254, branches
    yield "all loops of the worked network just fit", 10, WORKED
    yield "one place too few for all", 9, WORKED
    yield "the longest loop of the worked network just fits", 4, WORKED
    yield "one place too few for it", 3, WORKED
    yield "one place too few for any", 2, WORKED
    yield "no place", 0, WORKED
    yield "four not checked just fit", 4, BOOKS["past_the_last_junction"]
    yield "one place too few for them", 3, BOOKS["past_the_last_junction"]
    yield "no line, no place, and none needed", 0, book(5, 120)


def files():
    given, wanted = b"", ""
    for name, lent, file in cases():
        assert len(name) <= 48, name
        given += name.ljust(48).encode() + struct.pack(">HH", lent, len(file)) + file
        wanted += f"{name:48}\n" + outcome(file, lent)
    assert len(given) <= 131072, len(given)
    return {"crates/list_cases/stdin": given, "crates/list_cases/stdout": wanted.encode()}


if __name__ == "__main__":
    stored.main(files())
