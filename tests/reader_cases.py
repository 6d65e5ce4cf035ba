#!/usr/bin/env python3
"""Writes crates/reader_cases/stdin (book files, one case after the other) and, from a reading of document 01 and request 04 of its own,
crates/reader_cases/stdout (what the program must print of them). Run it after a change of the cases; --check only compares."""
import struct

import stored

UNTOUCHED = -7777
HEIGHT, DIFFERENCE = 10**10, 10**8
LINE = 6


def held(mark, height=0):
    return struct.pack(">Hq", mark, height)


def line(a, z, difference=0, length=100):
    return struct.pack(">HHiI", a, z, difference, length)


def classed_line(a, z, difference=0, length=100, class_=0, standing=1):
    """A line of a version 2 file."""
    return line(a, z, difference, length) + bytes([class_, standing])


def book(b=5, t=120, helds=(), lines=(), version=1, h=None, n=None, length=None):
    body = b"".join(helds) + b"".join(lines)
    h = len(helds) if h is None else h
    n = len(lines) if n is None else n
    length = 13 + len(body) if length is None else length
    return struct.pack(">IBHHHH", length, version, t, b, h, n) + body


def classed_book(b=5, helds=(), lines=(), t=0, **stated):
    """A version 2 file."""
    return book(b, t, helds, lines, 2, **stated)


def lines_of(part, version):
    """The numbers of each line in memory: from, to, difference, length, standing, class. A version 1 line stands and has no class."""
    if version == 1:
        return [[*entry, 1, -1] for entry in struct.iter_unpack(">HHiI", part)]
    return [[*entry, standing, class_] for *entry, class_, standing in struct.iter_unpack(">HHiIBB", part)]


def answer(file):
    """The refusal (number, place) or the book (version, b, t, h, n, held numbers, line numbers)."""
    if len(file) < 13:
        return 1, 0
    length, version, t, b, h, n = struct.unpack(">IBHHHH", file[:13])
    if length != len(file):
        return 2, 0
    if version not in (1, 2):
        return 3, 0
    good_t = 1 <= t <= 1000 if version == 1 else t == 0
    if not (1 <= b <= 256 and good_t and h <= 256 and n <= 512):
        return 4, 0
    if length != 13 + 10 * h + (12 if version == 1 else 14) * n:
        return 5, 0
    helds = list(struct.iter_unpack(">Hq", file[13 : 13 + 10 * h]))
    lines = lines_of(file[13 + 10 * h :], version)
    for i, (mark, height) in enumerate(helds):
        if not (1 <= mark <= b and abs(height) <= HEIGHT) or any(mark == helds[j][0] for j in range(i)):
            return 6, i + 1
    for i, (a, z, difference, length, standing, class_) in enumerate(lines):
        good_class = class_ == -1 if version == 1 else 0 <= class_ <= 4
        if not (1 <= a <= b and 1 <= z <= b and a != z and abs(difference) <= DIFFERENCE and 10 <= length <= 100000
                and standing in (0, 1) and good_class):
            return 7, i + 1
    return version, b, t, h, n, [x for e in helds for x in e], [x for e in lines for x in e]


def opened(file):
    """The book of a good file: version, b, t, the held numbers, and each line's numbers."""
    version, b, t, _, _, helds, numbers = answer(file)
    return version, b, t, helds, [numbers[i : i + LINE] for i in range(0, len(numbers), LINE)]


def digest(numbers):
    total = 0
    for x in numbers:
        total = (total * 257 + abs(x) % 1000003 + (500000 if x < 0 else 0)) % 1000003
    return total


def shown(numbers):
    return "".join(f" {x}" for x in numbers[:7]) + f" #{digest(numbers)}"


def outcome(file, held_places, line_places):
    helds, lines = [UNTOUCHED] * held_places, [UNTOUCHED] * line_places
    a = answer(file)
    if len(a) == 7 and (len(a[5]) > held_places or len(a[6]) > line_places):
        a = 10, 0
    if len(a) == 2:
        head = [*a, 0, 0, 0, 0, 0]
    else:
        head = [0, 0, *a[:5]]
        helds[: len(a[5])], lines[: len(a[6])] = a[5], a[6]
    return "".join(f" {x}" for x in head) + " | held" + shown(helds) + " | lines" + shown(lines)


# The worked network: from, to, difference, length.
WORKED_LINES = [
    (1, 3, 6_345_000, 1600), (2, 3, 4_235_000, 2500), (5, 2, 3_060_000, 1000), (5, 1, 920_000, 4000),
    (1, 4, 3_895_000, 1600), (4, 3, 2_410_000, 1250), (5, 4, 4_820_000, 2000)]
WORKED_HELD = [held(1, 100_000_000)]
WORKED = book(5, 120, WORKED_HELD, [line(*l) for l in WORKED_LINES])


def worked_with(*classes):
    """The worked network as version 2, its lines of these classes."""
    return classed_book(5, WORKED_HELD, [classed_line(*l, class_) for l, class_ in zip(WORKED_LINES, classes)])


ALL_CLASS_4 = worked_with(4, 4, 4, 4, 4, 4, 4)
GOOD = [line(1, 2), line(2, 3)]
GOOD_CLASSED = [classed_line(1, 2, class_=3), classed_line(2, 3, class_=1, standing=0)]
MOST_HELD = [held(m, HEIGHT if m % 2 else -HEIGHT) for m in range(1, 257)]
MOST_LINES = [(1 + i % 255, 256, DIFFERENCE if i % 2 else -DIFFERENCE, 100000 if i % 3 else 10) for i in range(512)]
LARGEST = book(256, 1000, MOST_HELD, [line(*l) for l in MOST_LINES])
LARGEST_CLASSED = classed_book(256, MOST_HELD, [classed_line(*l, i % 5, int(i % 7 > 0)) for i, l in enumerate(MOST_LINES)])


def limits():
    """Each limit of document 01's table: the first and the last value inside and outside."""
    for b in (0, 1, 256, 257, 65535):
        yield f"marks {b}", book(b=b)
    for t in (0, 1, 1000, 1001):
        yield f"tolerance {t}", book(t=t)
    for h in (0, 256, 257):
        yield f"held marks {h}", book(b=256, helds=[held(1 + i % 256) for i in range(h)])
    for n in (0, 512, 513):
        yield f"lines {n}", book(lines=[line(1, 2)] * n)
    for d in (-DIFFERENCE - 1, -DIFFERENCE, -1, DIFFERENCE, DIFFERENCE + 1, -(2**31), 2**31 - 1):
        yield f"difference {d}", book(lines=[line(2, 1, d)])
    for m in (0, 9, 10, 100000, 100001, 2**32 - 1):
        yield f"length {m}", book(lines=[line(2, 1, 0, m)])
    for z in (-HEIGHT - 1, -HEIGHT, -1, HEIGHT, HEIGHT + 1, -(2**63), 2**63 - 1):
        yield f"held height {z}", book(helds=[held(5, z)])
    for mark in (0, 1, 5, 6, 65535):
        yield f"held mark {mark}", book(helds=[held(mark, 7)])
        yield f"line from {mark}", book(lines=[line(mark, 3)])
        yield f"line to {mark}", book(lines=[line(3, mark)])


def classed_limits():
    """The limits that are a version 2 book's own, and those of its lines once more."""
    for t in (0, 1, 40, 1000, 65535):
        yield f"version 2, tolerance {t}", classed_book(t=t)
    for b in (0, 1, 256, 257):
        yield f"version 2, marks {b}", classed_book(b)
    for n in (512, 513):
        yield f"version 2, lines {n}", classed_book(lines=[classed_line(1, 2)] * n)
    for class_ in (0, 1, 2, 3, 4, 5, 127, 128, 254, 255):
        yield f"class {class_}", classed_book(lines=[classed_line(2, 1, class_=class_)])
    for standing in (0, 1, 2, 128, 255):
        yield f"standing {standing}", classed_book(lines=[classed_line(2, 1, class_=4, standing=standing)])
    for d in (-DIFFERENCE - 1, -DIFFERENCE, DIFFERENCE, DIFFERENCE + 1):
        yield f"version 2, difference {d}", classed_book(lines=[classed_line(2, 1, d, class_=2)])
    for m in (9, 10, 100000, 100001):
        yield f"version 2, length {m}", classed_book(lines=[classed_line(2, 1, 0, m, 3)])
    for mark in (0, 5, 6):
        yield f"version 2, line from {mark}", classed_book(lines=[classed_line(mark, 3)])
        yield f"version 2, line to {mark}", classed_book(lines=[classed_line(3, mark)])


def versions():
    """Request 04: which versions there are, and what one version's file is as the other's."""
    for version in (0, 3, 128, 255):
        yield f"version {version}", book(version=version)
        yield f"version {version}, a tolerance of 0", book(t=0, version=version)
    yield "version 2 with version 1's tolerance", book(version=2, lines=GOOD)
    yield "12-byte lines in a version 2 file", classed_book(lines=GOOD)
    yield "14-byte lines in a version 1 file", book(lines=GOOD_CLASSED)
    yield "no line, a version 1 file stated as version 2", book(version=2)
    yield "no line, a version 2 file stated as version 1", book(t=0)
    yield "seven lines of 12 bytes as six of 14", classed_book(lines=[line(1, 2)] * 7, n=6)
    yield "six lines of 14 bytes as seven of 12", book(lines=[classed_line(1, 2)] * 6, n=7)
    yield "14-byte lines, a version that is none", book(version=3, lines=GOOD_CLASSED)


def classed():
    """Version 2 files."""
    yield "the worked network, every line of class 4", ALL_CLASS_4
    yield "the worked network, mixed classes", worked_with(0, 1, 2, 3, 4, 3, 2)
    yield "version 2, no entries", classed_book()
    yield "version 2, no line", classed_book(helds=[held(2, 5), held(1, -5)])
    yield "version 2, a withdrawn line", classed_book(lines=GOOD_CLASSED)
    yield "version 2, no line stands", classed_book(lines=[classed_line(1, 2, 7, 10, class_, 0) for class_ in range(5)])
    yield "version 2, one byte short", ALL_CLASS_4[:-1]
    yield "version 2, one byte long", ALL_CLASS_4 + b"\1"
    yield "9,741 bytes", LARGEST_CLASSED
    yield "9,742 bytes, the length stated", classed_book(256, [LARGEST_CLASSED[13:]], [b"\0"], h=256, n=512)
    yield "the last line without its standing", classed_book(lines=[GOOD_CLASSED[0], GOOD_CLASSED[1][:-1]])
    yield "the last line without class and standing", classed_book(lines=[GOOD_CLASSED[0], GOOD_CLASSED[1][:-2]])
    yield "class and standing exchanged", classed_book(lines=[classed_line(1, 2, class_=1, standing=4)])
    yield "a withdrawn line of no class", classed_book(lines=GOOD_CLASSED + [classed_line(1, 2, class_=5, standing=0)])
    yield "a withdrawn line from a mark to itself", classed_book(lines=GOOD_CLASSED + [classed_line(4, 4, standing=0)])
    yield "a withdrawn line too long", classed_book(lines=[classed_line(1, 2, 0, 100001, standing=0)])
    yield "version 2, 4 and 5", classed_book(t=1, n=3)
    yield "version 2, 5 and 6", classed_book(helds=[held(0)], n=3)
    yield "version 2, 5 and 7", classed_book(lines=[classed_line(1, 2, class_=5)], h=1)
    yield "version 2, 6 and 7", classed_book(helds=[held(1), held(1)], lines=[classed_line(1, 2, class_=5)])
    yield "version 2, 7 and 10", classed_book(helds=[held(1)], lines=[classed_line(1, 2, standing=2)]), 0, 0
    yield "version 2, three lines wrong", classed_book(
        lines=[classed_line(1, 2), classed_line(1, 2, class_=5), classed_line(2, 2), classed_line(1, 2, standing=2)])
    yield "version 2, the first wrong line has two faults", classed_book(
        lines=[classed_line(1, 2), classed_line(1, 2, class_=9, standing=9), classed_line(0, 2)])
    yield "version 2, too few places for lines", ALL_CLASS_4, 2, 41
    yield "version 2, just the places", ALL_CLASS_4, 2, 42
    yield "version 2, places to spare", ALL_CLASS_4, 5, 48
    yield "version 2, no entries, no places", classed_book(), 0, 0
    yield from classed_limits()


def cases():
    yield "the worked network", WORKED
    yield "nothing", b""
    yield "12 bytes", WORKED[:12]
    yield "13 bytes, no entries", book()
    yield "13 bytes of a longer book", WORKED[:13]
    yield "one byte short", WORKED[:-1]
    yield "one byte long", WORKED + b"\0"
    yield "8,717 bytes", LARGEST
    yield "8,718 bytes, the length stated", book(256, 1000, helds=[LARGEST[13:]], lines=[b"\0"], h=256, n=512)
    yield from versions()
    yield "a line from a mark to itself", book(lines=GOOD + [line(4, 4)])
    yield "a held mark twice", book(helds=[held(1), held(2), held(1)])
    yield "a repeat after an entry that is wrong", book(helds=[held(9), held(2), held(2)])
    yield "a repeat before an entry that is wrong", book(helds=[held(2), held(2), held(9)])
    yield "the third and fourth held again", book(helds=[held(3), held(4), held(3), held(4)])
    yield "counts that are not the length's", book(lines=GOOD, n=1)
    yield "h and n exchanged", book(helds=[held(1)], lines=GOOD, h=2, n=1)
    yield "1 and no more", b"\0\0\0\7\2"
    yield "2 and 3", book(version=9, length=40)
    yield "2, 3 and 4", book(b=0, version=9, length=40)
    yield "3 and 4", book(b=0, version=9)
    yield "3, 4 and 5", book(b=0, version=9, n=3)
    yield "4 and 5", book(t=0, n=3)
    yield "4, 5 and 6", book(t=0, helds=[held(0)], h=4)
    yield "5 and 6", book(helds=[held(0)], n=3)
    yield "5 and 7", book(lines=[line(1, 1)], h=1)
    yield "6 and 7", book(helds=[held(1), held(1)], lines=[line(1, 1)])
    yield "6, 7 and 10", book(helds=[held(1), held(1)], lines=[line(1, 1)]), 0, 0
    yield "7 and 10", book(helds=[held(1)], lines=GOOD + [line(1, 1)]), 0, 0
    yield "three lines wrong", book(lines=[line(1, 2), line(1, 6), line(2, 2), line(0, 1)])
    yield "too few places for held", WORKED, 1, 42
    yield "too few places for lines", WORKED, 2, 41
    yield "too few places for both", WORKED, 1, 41
    yield "no places", WORKED, 0, 0
    yield "just the places", WORKED, 2, 42
    yield "places to spare", WORKED, 5, 48
    yield "no entries, no places", book(), 0, 0
    yield from limits()
    yield from classed()


def files():
    given, wanted = b"", ""
    for case in cases():
        name, file, held_places, line_places = (*case, 520, 520 * LINE)[:4]
        assert len(name) <= 48, name
        given += name.ljust(48).encode() + struct.pack(">HHH", held_places, line_places, len(file)) + file
        wanted += f"{name:48} |" + outcome(file, held_places, line_places) + "\n"
    assert len(given) <= 131072, len(given)
    return {"crates/reader_cases/stdin": given, "crates/reader_cases/stdout": wanted.encode()}


if __name__ == "__main__":
    stored.main(files())
