# Reads a book file, surveys it, runs line 6 again and withdraws line 3; then a book of version 2. examples/run makes the shared
# library and runs this:
#     python3 worked.py liblevel.so worked.book
import ctypes
import sys

library, path = sys.argv[1:]
level = ctypes.CDLL(library)


class ReadAnswer(ctypes.Structure):
    _fields_ = [(name, ctypes.c_int64) for name in ("number", "place", "version", "b", "t", "h", "n")]


class Answer(ctypes.Structure):
    _fields_ = [(name, ctypes.c_int64) for name in ("number", "place", "rows", "pieces")]


level.level_read.restype = ReadAnswer
for call in (level.level_survey, level.level_rerun, level.level_withdraw):
    call.restype = Answer


def numbers(those):
    return (ctypes.c_int64 * len(those))(*those)


def lent(elements):
    """A slice: a pointer and a count of elements."""
    return elements, ctypes.c_size_t(len(elements))


def number(n):
    return ctypes.c_int64(n)


def show(what, a):
    print(f"{what}: number {a.number}, {a.rows} loops")
    for i in range(a.rows):
        closing, count, length, misclosure, verdict = rows[5 * i : 5 * i + 5]
        print(f"  closing line {closing}, {count} lines, {length} m, misclosure {misclosure}, {'over' if verdict else 'within'}")


file = open(path, "rb").read()
held, lines, rows = numbers([0] * 2 * 256), numbers([0] * 6 * 512), numbers([0] * 5 * 512)
r = level.level_read(*lent((ctypes.c_uint8 * len(file))(*file)), *lent(held), *lent(lines))
print(f"read: number {r.number}, version {r.version}, {r.b} marks, {r.n} lines")
if r.number != 0:
    sys.exit(1)
lines = numbers(lines[: 6 * r.n])
book = number(r.version), number(r.b), number(r.t), *lent(numbers(held[: 2 * r.h])), *lent(lines)

show("survey", level.level_survey(*book, *lent(rows)))
show("line 6 run again", level.level_rerun(*book, *lent(rows), number(6), number(2428000)))
show("line 3 withdrawn", level.level_withdraw(*book, *lent(rows), number(3)))
show("line 3 once more", level.level_withdraw(*book, *lent(rows), number(3)))

# Version 2: t is 0, and the last number of a line is its class. Classes 0 and 4 allow 12649 here.
lines = numbers([1, 2, 0, 1000, 1, 0, 1, 2, 12649, 1000, 1, 4])
book = number(2), number(2), number(0), *lent(numbers([])), *lent(lines)
show("classes 0 and 4", level.level_survey(*book, *lent(rows)))
show("line 2 run again", level.level_rerun(*book, *lent(rows), number(2), number(12650)))
