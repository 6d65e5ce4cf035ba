#!/usr/bin/env python3
"""Writes crates/writer_cases/stdin (book files, one case after the other) and, from a reading of document 01 and requests 04 and 05 of its
own, crates/writer_cases/stdout (what the program must print of them) and examples/hand_in.book (what that example must write). Run it
after a change of the cases; --check only compares."""
import random
import struct

import stored
from books import BOOKS
from reader_cases import (DIFFERENCE, HEIGHT, LARGEST, LARGEST_CLASSED, LINE, answer, book, classed_book, classed_line, digest, held, line,
                          shown)
from survey_cases import refusal

HELD = 2
SPACE = 9741 + 5
UNTOUCHED = 165
# In each entry of held and of lines.
MARK, HELD_HEIGHT = 0, 1
FROM, LINE_DIFFERENCE, STANDING, CLASS = 0, 2, 4, 5
NO_VERSIONS = {"0": 0, "3": 3, "255": 255, "-1": -1, "2^32 + 1": 2**32 + 1}


def entries(numbers, words):
    return [numbers[i : i + words] for i in range(0, len(numbers), words)]


def file_of(told, helds, lines):
    """The file of a good book."""
    version, b, t = told
    held_parts = [held(*entry) for entry in entries(helds, HELD)]
    if version == 1:
        return book(b, t, held_parts, [line(*entry[:4]) for entry in entries(lines, LINE)])
    return classed_book(b, held_parts, [classed_line(*entry[:4], entry[CLASS], entry[STANDING]) for entry in entries(lines, LINE)])


def refused(told, helds, lines, places):
    """Number and place by request 05's order: 3, 4, 6, 7, 16, 10; both 0 of a book that is written."""
    if told[0] in (1, 2) and (len(helds) % HELD or len(lines) % LINE):
        return 4, 0
    number, place = refusal(*told, helds, entries(lines, LINE))
    if number:
        return number, place
    if told[0] == 1 and 0 in lines[STANDING::LINE]:
        return 16, 0
    return (10, 0) if places < len(file_of(told, helds, lines)) else (0, 0)


def compared(file, written):
    if file == written:
        return "the file that was read"
    same = [x == y for x, y in zip(file, written)] + [False]
    return f"another file from byte {same.index(False) + 1}"


def read(file):
    """What the reader answers, the held numbers and the line numbers."""
    a = answer(file)
    return ([*a, 0, 0, 0, 0, 0], [], []) if len(a) == 2 else ([0, 0, *a[:5]], a[5], a[6])


def spaced(numbers):
    return "".join(f" {x}" for x in numbers)


def read_again(written, helds, lines):
    head, helds_read, lines_read = read(written)
    return (f"    read again{spaced(head)} | held #{digest(helds_read)}, lent #{digest(helds)}"
            f" | lines #{digest(lines_read)}, lent #{digest(lines)}\n")


def write(name, told, helds, lines, file, places):
    number, place = refused(told, helds, lines, places)
    written = b"" if number else file_of(told, helds, lines)
    lent = list(written) + [UNTOUCHED] * (places - len(written))
    text = f"  {name}, lent {places}:{spaced((number, place, len(written)))} |{shown(lent)}"
    if number:
        return text + "\n"
    return text + f" | {compared(file, written)}\n" + read_again(written, helds, lines)


def with_last(numbers, words, k, x):
    """Number k of the last entry is x."""
    return [*numbers[: len(numbers) - words + k], x, *numbers[len(numbers) - words + k + 1 :]] if numbers else []


def told_otherwise(told, helds, lines):
    """The book, told otherwise than it is or with entries that are not whole."""
    version, b, t = told
    for other in (1, 2):
        for t_told in (0, 1):
            yield f"version {other}, t {t_told}", (other, b, t_told), helds, lines
    for name, other in NO_VERSIONS.items():
        yield f"version {name}", (other, b, t), helds, lines
    for b_told in (0, 257):
        yield f"b {b_told}", (version, b_told, t), helds, lines
    for t_told in (-1, 1001):
        yield f"t {t_told}", (version, b, t_told), helds, lines
    yield "held cut", told, helds[:-1], lines
    yield "lines cut", told, helds, lines[:-1]


def changed(told, helds, lines):
    """The book with one fault, with a line withdrawn, and with one fault more each time."""
    version, b, t = told
    yield "the last held mark 0", told, with_last(helds, HELD, MARK, 0), lines
    yield "the last line from 0", told, helds, with_last(lines, LINE, FROM, 0)
    yield "the last line withdrawn", told, helds, with_last(lines, LINE, STANDING, 0)
    lines = [0 if i == STANDING else x for i, x in enumerate(lines)]
    yield "the first line withdrawn", told, helds, lines
    lines = with_last(lines, LINE, CLASS, 5)
    yield "and the last of class 5", told, helds, lines
    helds = with_last(helds, HELD, HELD_HEIGHT, HEIGHT + 1)
    yield "and the last held too high", told, helds, lines
    yield "and t 1001", (version, b, 1001), helds, lines
    yield "and version 0", (0, b, 1001), helds, lines


def outcome(file):
    head, helds, lines = read(file)
    text = f"  read{spaced(head)}\n"
    if head[0]:
        return text
    told = tuple(head[2:5])
    for places in (0, len(file) - 1, len(file), SPACE):
        text += write("the book", told, helds, lines, file, places)
    for other in (*told_otherwise(told, helds, lines), *changed(told, helds, lines)):
        for places in (len(file) - 1, len(file)):
            text += write(*other, file, places)
    return text


# Held heights and differences at both ends and where a byte more is needed.
HEIGHTS = [HEIGHT, -HEIGHT, 0, -1, 1, 255, 256, -256, -257, 2**31, -(2**31), 2**32, -(2**32) - 1]
DIFFERENCES = [DIFFERENCE, -DIFFERENCE, 0, -1, 127, 128, -128, -129, 65535, 65536, -65536, -65537]
LENGTHS = [10, 255, 256, 65535, 65536, 100000]
HELD_HEIGHTS = [held(256 - i, z) for i, z in enumerate(HEIGHTS)]
RUN = [(1 + i, 256 - i, d, LENGTHS[i % len(LENGTHS)]) for i, d in enumerate(DIFFERENCES)]
CLASSED_RUN = [classed_line(*l, i % 5, int(i % 4 > 0)) for i, l in enumerate(RUN)]


def scattered(seed, version):
    """A book of this version with held marks and lines of any numbers that are inside their limits."""
    dice = random.Random(seed)
    b = dice.randint(2, 256)
    helds = [held(mark, dice.randint(-HEIGHT, HEIGHT)) for mark in dice.sample(range(1, b + 1), dice.randint(0, min(b, 5)))]
    lines = [(*dice.sample(range(1, b + 1), 2), dice.randint(-DIFFERENCE, DIFFERENCE), dice.randint(10, 100000))
             for _ in range(dice.randint(1, 9))]
    if version == 1:
        return book(b, dice.randint(1, 1000), helds, [line(*l) for l in lines])
    return classed_book(b, helds, [classed_line(*l, dice.randint(0, 4), int(dice.random() > 0.25)) for l in lines])


def corrected():
    """The book that examples/hand_in.c hands in: line 3 is run again, line 6 is withdrawn."""
    head, helds, lines = read(BOOKS["three_classes"])
    lines[2 * LINE + LINE_DIFFERENCE], lines[5 * LINE + STANDING] = -1_194_600, 0
    return file_of(head[2:5], helds, lines)


def cases():
    for name, file in BOOKS.items():
        yield f"books/{name}.book", file
    yield "examples/hand_in.book", corrected()
    yield "13 bytes, one mark and the least tolerance", book(1, 1)
    yield "13 bytes, 256 marks and the greatest tolerance", book(256, 1000)
    yield "13 bytes, version 2, one mark", classed_book(1)
    yield "13 bytes, version 2, 256 marks", classed_book(256)
    yield "8,717 bytes", LARGEST
    yield "9,741 bytes, version 2", LARGEST_CLASSED
    yield "held heights at both ends", book(256, 255, HELD_HEIGHTS)
    yield "held heights at both ends, version 2", classed_book(256, HELD_HEIGHTS)
    yield "differences and lengths at both ends", book(256, 256, lines=[line(*l) for l in RUN])
    yield "differences and lengths at both ends, version 2", classed_book(256, lines=CLASSED_RUN)
    yield "one held mark and one line", book(2, 40, [held(2, -HEIGHT)], [line(2, 1, -DIFFERENCE, 10)])
    yield "one held mark and one line, version 2", classed_book(2, [held(1, HEIGHT)], [classed_line(1, 2, DIFFERENCE, 100000, 4, 0)])
    yield "no line stands", classed_book(3, lines=[classed_line(1, 2, -7, 10, class_, 0) for class_ in range(5)])
    for seed in range(6):
        yield f"scattered, {seed}", scattered(seed, 1)
        yield f"scattered, version 2, {seed}", scattered(100 + seed, 2)


def files():
    given, wanted = b"", ""
    for name, file in cases():
        assert len(name) <= 48, name
        given += name.ljust(48).encode() + struct.pack(">H", len(file)) + file
        wanted += f"{name:48}\n" + outcome(file)
    assert len(given) <= 131072, len(given)
    return {
        "crates/writer_cases/stdin": given,
        "crates/writer_cases/stdout": wanted.encode(),
        "examples/hand_in.book": corrected(),
    }


if __name__ == "__main__":
    stored.main(files())
