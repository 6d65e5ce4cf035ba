#!/usr/bin/env python3
"""Writes crates/page_cases/stdin (book files, one case after the other) and, from a slow reading of document 01 and requests 03 and 04 of
its own, crates/page_cases/stdout (their reports). Run it after a change of the cases; --check only compares."""
import struct

import stored
from books import BOOKS
from reader_cases import ALL_CLASS_4, LARGEST_CLASSED, WORKED, answer, book, classed_book, classed_line, line, opened, worked_with
from survey_cases import loops_of

NAME_BYTES = 48


def joined(lines, start, goal):
    beside = {}
    for a, z, *_ in lines:
        beside.setdefault(a, set()).add(z)
        beside.setdefault(z, set()).add(a)
    seen, todo = {start}, [start]
    while todo:
        new = beside.get(todo.pop(), set()) - seen
        seen |= new
        todo += new
    return goal in seen


def not_checked(lines):
    """Standing lines without which their two ends are apart: no circuit passes them."""
    standing = [(i, l) for i, l in enumerate(lines) if l[4]]
    return [i + 1 for i, l in standing if not joined([m for j, m in standing if j != i], l[0], l[1])]


def report(file):
    if len(answer(file)) == 2:
        return "REFUSED %d AT %d\n" % answer(file)
    version, b, t, _, lines = opened(file)
    loops, pieces = loops_of(b, t, lines)
    left = not_checked(lines)
    text = f"LEVEL BOOK {version}\nMARKS {b} LINES {len(lines)} PIECES {pieces} LOOPS {len(loops)}\n"
    for k, (loop, length, misclosure, over) in enumerate(loops):
        text += f"LOOP {k + 1} LENGTH {length} MISCLOSURE {misclosure} {'OVER' if over else 'WITHIN'}:"
        text += "".join(f" {sense * (i + 1)}" for i, sense in loop) + "\n"
    return text + f"NOT CHECKED {len(left)}:" + "".join(f" {i}" for i in left) + "\n"


def ring(difference):
    """256 lines in one loop, the longest there are and all of one difference."""
    return book(256, 1000, lines=[line(i, i % 256 + 1, difference, 100000) for i in range(1, 257)])


def doubled_ring(misclosure):
    """512 lines of 10 m: a ring of 256, each line twice. At t = 40 the ring, which counts 64,000 m, is within up to 32,000."""
    once = [line(i, i % 256 + 1, 0 if i > 1 else misclosure, 10) for i in range(1, 257)]
    return book(256, 40, lines=once + once)


def classed_ring(misclosure, class_of):
    """256 lines of 100 km in one loop, of these classes, that closes so."""
    return classed_book(256, lines=[classed_line(i, i % 256 + 1, 0 if i > 1 else misclosure, 100000, class_of(i)) for i in range(1, 257)])


def classed():
    """Version 2. 256 lines of 100 km allow 1,920,000 in class 4; by turns in class 0 and 4 they allow 1,431,083."""
    yield "the worked network, every line of class 4", ALL_CLASS_4
    yield "the worked network, mixed classes", worked_with(0, 1, 2, 3, 4, 3, 2)
    yield "version 2, no line", classed_book(5)
    yield "version 2, no line stands", classed_book(3, lines=[classed_line(1, 2, 5, 10, k, 0) for k in range(5)])
    yield "9,741 bytes", LARGEST_CLASSED
    for misclosure in (1_920_000, 1_920_001):
        yield f"256 lines of class 4, {misclosure}", classed_ring(misclosure, lambda i: 4)
    for misclosure in (-1_431_083, -1_431_084):
        yield f"256 lines of classes 0 and 4, {misclosure}", classed_ring(misclosure, lambda i: 4 * (i % 2))
    yield "version 2, a tolerance", classed_book(t=40)
    yield "version 2, 12-byte lines", classed_book(lines=[line(1, 2), line(2, 3)])
    yield "version 2, the second line of no class", classed_book(lines=[classed_line(1, 2), classed_line(2, 3, class_=5)])
    yield "version 2, the first line stands twice", classed_book(lines=[classed_line(1, 2, standing=2), classed_line(2, 3)])
    yield "version 3", book(version=3)


def cases():
    for name, file in BOOKS.items():
        yield name, file
    yield "nothing at all", b""
    yield "twelve bytes", WORKED[:12]
    yield "one byte too many", WORKED + b"\0"
    yield "as much as is read, and no book", b"\0" * 16384
    yield "one byte more than that", b"\0" * 16385
    yield "no line", book(5, 120)
    yield "256 marks and no line", book(256, 120)
    yield "511 loops", book(2, 40, lines=[line(1 + i % 2, 2 - i % 2, i % 3 - 1, 100 + i) for i in range(512)])
    yield "256 lines in one loop, up", ring(10**8)
    yield "256 lines in one loop, down", ring(-(10**8))
    yield "512 lines of 10 m, at the edge", doubled_ring(32_000)
    yield "512 lines of 10 m, one micrometre over it", doubled_ring(-32_001)
    yield "255 lines not checked", book(256, 40, lines=[line(i // 2, i, i, 10 * i) for i in range(2, 257)])
    yield "a checked pair on a chain", book(4, 40, lines=[line(1, 2, 7, 10), line(2, 3, 7, 10), line(3, 2, -9, 10), line(3, 4, 7, 10)])
    yield from classed()


def files():
    given, wanted = b"", ""
    for name, file in cases():
        assert len(name) <= NAME_BYTES, name
        given += name.encode().ljust(NAME_BYTES) + struct.pack(">H", len(file)) + file
        wanted += name.ljust(NAME_BYTES) + "\n" + report(file)
    assert len(given) <= 131072, len(given)
    return {"crates/page_cases/stdin": given, "crates/page_cases/stdout": wanted.encode()}


if __name__ == "__main__":
    stored.main(files())
