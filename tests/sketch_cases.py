#!/usr/bin/env python3
"""Writes crates/sketch_cases/stdin (book files, one case after the other) and, from a slow reading of document 02's junction sketch of its
own, crates/sketch_cases/stdout (their sketches, and what is answered of some of them as books in memory, with lines withdrawn and told as
of versions that are not theirs). Run it after a change of the cases; --check only compares. Writes the Memorandum's network and its sketch
for crates/sketch too."""
import random
import struct

import stored
from books import BOOKS, NETWORK
from list_cases import in_a_ring
from page_cases import NAME_BYTES, ring
from reader_cases import ALL_CLASS_4, LARGEST, UNTOUCHED, WORKED, answer, book, classed_book, classed_line, held, line, opened, shown
from survey_cases import refusal

# A link, a spur or a loop is its first mark, its last mark and its lines in their order, negative where a line is run from its to to its
# from. sketch, sketch_answer and sketch_text are of a book in memory, whose lines may be withdrawn.


def lowest_line(link):
    return min(abs(number) for number in link[2])


def turned(link):
    first, last, run = link
    return last, first, [-number for number in reversed(run)]


def read_from(link, mark):
    return link if link[0] == mark else turned(link)


def begun_with_lowest(link):
    """A loop begun with its lowest line, that line forward."""
    first, last, run = link if lowest_line(link) in link[2] else turned(link)
    at = run.index(lowest_line(link))
    return first, last, run[at:] + run[:at]


def ends_of(b, links):
    """For each mark its link ends: the link of each. A link from a mark to itself has two ends there."""
    ends = {mark: [] for mark in range(1, b + 1)}
    for link in links:
        ends[link[0]].append(link)
        ends[link[1]].append(link)
    return ends


def step(b, links, spurs, loops):
    """Takes the first step there is, "the spur of lowest mark, else the self-closing loop of lowest line, else the merge at the lowest
    mark that has exactly two link ends, of two different links"; says whether there was one."""
    ends = ends_of(b, links)
    for mark, at in ends.items():
        if len(at) == 1:
            links.remove(at[0])
            spurs.append(read_from(at[0], mark))
            return True
    self_closing = [link for link in links if link[0] == link[1]]
    if self_closing:
        taken = min(self_closing, key=lowest_line)
        links.remove(taken)
        loops.append(begun_with_lowest(taken))
        return True
    for mark, at in ends.items():
        if len(at) == 2 and at[0] is not at[1]:
            before, after = turned(read_from(at[0], mark)), read_from(at[1], mark)
            links.remove(at[0])
            links.remove(at[1])
            links.append((before[0], after[1], before[2] + after[2]))
            return True
    return False


def sketch(b, lines):
    """Links, spurs and loops of a book: every standing line begins as a link, and steps are taken until none is left."""
    links = [(l[0], l[1], [i + 1]) for i, l in enumerate(lines) if l[4]]
    spurs, loops = [], []
    while step(b, links, spurs, loops):
        pass
    links = [read_from(link, min(link[:2])) for link in links]
    return sorted(links, key=lowest_line), spurs, loops


def entry(link, lines):
    """First mark, last mark, count of lines, length, difference from the first mark to the last."""
    first, last, run = link
    length = sum(lines[abs(number) - 1][3] for number in run)
    difference = sum(lines[abs(number) - 1][2] if number > 0 else -lines[abs(number) - 1][2] for number in run)
    return [first, last, len(run), length, difference]


def sketch_answer(b, lines):
    """What level_sketch writes of a good book: the numbers of links, spurs, loops and run."""
    lists = sketch(b, lines)
    entries = [[number for link in one for number in entry(link, lines)] for one in lists]
    return (*entries, [number for one in lists for _, _, run in one for number in run])


def sketch_text(b, lines):
    """The text of a good book."""
    links, spurs, loops = sketch(b, lines)
    text = f"JUNCTION SKETCH\nMARKS {b} LINES {len(lines)} LINKS {len(links)} SPURS {len(spurs)} LOOPS {len(loops)}\n"
    for name, word, one in (("LINK", "DIFFERENCE", links), ("SPUR", "DIFFERENCE", spurs), ("LOOP", "MISCLOSURE", loops)):
        for link in one:
            first, last, _, length, difference = entry(link, lines)
            marks = f"{first} {last}" if name == "LINK" else f"{first}"
            text += f"{name} {marks} LENGTH {length} {word} {difference}:" + "".join(f" {number}" for number in link[2]) + "\n"
    return text


def file_text(file):
    """What the sketch program prints of a file, the same for both versions."""
    if len(answer(file)) == 2:
        return "REFUSED %d AT %d\n" % answer(file)
    _, b, _, _, lines = opened(file)
    return sketch_text(b, lines)


# Places for the links, spurs, loops and lines of any book; and one in each.
MUCH_ROOM = (2560, 2560, 2560, 512)
ONE_EACH = (1, 1, 1, 1)


def printed(name, number, place, lists, room):
    """An answer, and what outputs of so many places then hold: nothing new after a refusal."""
    outputs = [[UNTOUCHED] * places for places in room]
    counts = [0, 0, 0, 0]
    if number == 0:
        counts = [len(numbers) // words for numbers, words in zip(lists, (5, 5, 5, 1))]
        for output, numbers in zip(outputs, lists):
            output[: len(numbers)] = numbers
    return f"{name}: " + " ".join(str(x) for x in (number, place, *counts)) + "".join(" |" + shown(output) for output in outputs) + "\n"


def sketched(name, lists, room):
    """The sketch of a good book, or 10 where any of the four is too short."""
    short = any(places < len(numbers) for places, numbers in zip(room, lists))
    return printed(name, 10 if short else 0, 0, lists, room)


def tested(name, version, b, t, helds, lines, lists, room):
    """The sketch of a book that may be refused."""
    number, place = refusal(version, b, t, helds, lines)
    return printed(name, number, place, lists, room) if number else sketched(name, lists, room)


def told_otherwise(version, b, t, helds, lines, lists):
    """The book told as of either version, with a last line of no class, and told as of no version."""
    text = ""
    for told in (1, 2):
        for t_told in (0, 1):
            text += tested(f"version {told}, t {t_told}", told, b, t_told, helds, lines, lists, ONE_EACH)
    if lines:
        lines[-1][5] = 5
    text += tested("class 5", version, b, t, helds, lines, lists, ONE_EACH)
    for told, room in ((0, ONE_EACH), (3, ONE_EACH), (255, MUCH_ROOM)):
        text += tested(f"version {told}", told, b, t, helds, lines, lists, room)
    return text


def in_memory(file, every):
    """What is answered of a file's book with the last of each so many lines withdrawn."""
    version, b, t, helds, lines = opened(file)
    for withdrawn in lines[every - 1 :: every]:
        withdrawn[4] = 0
    lists = sketch_answer(b, lines)
    fitting = [len(numbers) for numbers in lists]
    text = sketched("much room", lists, MUCH_ROOM) + sketched("just enough", lists, fitting)
    for i, name in enumerate(("fewer links", "fewer spurs", "fewer loops", "a shorter run")):
        text += sketched(name, lists, [max(0, places - (i == j)) for j, places in enumerate(fitting)])
    return text + told_otherwise(version, b, t, helds, lines, lists)


# Request 01's own text for the Memorandum's network.
MEMORANDUM_SKETCH = """JUNCTION SKETCH
MARKS 16 LINES 20 LINKS 6 SPURS 4 LOOPS 2
LINK 1 2 LENGTH 200 DIFFERENCE 0: 1 2
LINK 2 3 LENGTH 100 DIFFERENCE 0: 3
LINK 3 4 LENGTH 200 DIFFERENCE 0: 4 5
LINK 1 4 LENGTH 100 DIFFERENCE 0: -6
LINK 1 3 LENGTH 200 DIFFERENCE 0: 7 8
LINK 2 4 LENGTH 100 DIFFERENCE 0: 9
SPUR 16 LENGTH 100 DIFFERENCE 0: -20
SPUR 15 LENGTH 100 DIFFERENCE 0: -19
SPUR 12 LENGTH 200 DIFFERENCE 0: -15 -14
SPUR 8 LENGTH 100 DIFFERENCE 0: -10
LOOP 12 LENGTH 300 MISCLOSURE 0: 16 17 18
LOOP 8 LENGTH 300 MISCLOSURE 0: 11 12 13
"""


def memorandum(difference):
    """The Memorandum's network, each line of 100 m and with the difference of its number."""
    return book(16, 40, lines=[line(*ends, difference(number), 100) for number, ends in enumerate(NETWORK, 1)])


def lines_of(pairs):
    """A line for each pair of marks, each with a difference and a length of its own."""
    return [line(a, z, 10**i % 99991 - 50000, 10 + 13 * i % 997) for i, (a, z) in enumerate(pairs)]


def chain(marks):
    return list(zip(marks, marks[1:]))


def around(marks):
    return chain(marks + marks[:1])


def mixed(b, pairs, seed):
    """Marks numbered anew, lines turned and in another order."""
    dice = random.Random(seed)
    anew = dice.sample(range(1, b + 1), b)
    pairs = [dice.sample((anew[a - 1], anew[z - 1]), 2) for a, z in pairs]
    return book(b, 60, lines=lines_of(dice.sample(pairs, len(pairs))))


def theta(*inner):
    """Marks 1 and 2, and between them ways with so many marks on each: the pairs of its lines, and how many marks it has."""
    b, pairs = 2, []
    for count in inner:
        pairs += chain([1, *range(b + 1, b + count + 1), 2])
        b += count
    return b, pairs


def scattered(seed):
    """Lines between any marks, from none to about two for each mark."""
    dice = random.Random(seed)
    b = dice.randint(2, 11)
    pairs = [dice.sample(range(1, b + 1), 2) for _ in range(dice.randint(0, min(2 * b, 14)))]
    return book(b, 60, lines=[line(a, z, dice.randint(-99, 99), dice.randint(10, 99)) for a, z in pairs])


def hung(seed):
    """Rings and tails, each hung at a mark that is there before it."""
    dice = random.Random(seed)
    b, pairs = 1, []
    while b < 12:
        at, last = dice.randint(1, b), b + dice.randint(1, 3)
        marks = [at, *range(b + 1, last + 1)]
        pairs += chain(marks) if dice.random() < 0.4 else around(marks)
        b = last
    return mixed(b, pairs, seed)


def junctions(seed):
    """A few junctions with several links between them, marks set into the links."""
    dice = random.Random(seed)
    b = dice.randint(2, 4)
    pairs = [dice.sample(range(1, b + 1), 2) for _ in range(dice.randint(3, 7))]
    for _ in range(dice.randint(0, 6)):
        b += 1
        a, z = pairs.pop(dice.randrange(len(pairs)))
        pairs += [(a, b), (b, z)]
    return mixed(b, pairs, seed)


def rings():
    for n in (3, 4, 5, 7, 12, 255, 256):
        yield f"a ring of {n} marks", book(n, 60, lines=lines_of(around(list(range(1, n + 1)))))
    for n in (5, 40, 256):
        yield f"a ring of {n} marks, mixed", mixed(n, around(list(range(1, n + 1))), n)
    yield "two rings that share a mark", book(7, 60, lines=in_a_ring([4, 1, 2, 3]) + in_a_ring([6, 4, 7, 5]))
    yield "two rings that share their highest mark", book(7, 60, lines=in_a_ring([7, 1, 2, 3]) + in_a_ring([4, 7, 5, 6]))
    yield "two rings that share their lowest mark", book(7, 60, lines=in_a_ring([1, 2, 3, 4]) + in_a_ring([1, 5, 6, 7]))
    yield "a ring on a ring on a ring", book(9, 60, lines=lines_of(around([1, 2, 3]) + around([3, 4, 5]) + around([5, 6, 7, 8, 9])))
    yield "a ring on a ring, the inner marks low", book(6, 60, lines=lines_of(around([4, 5, 6, 3]) + around([3, 1, 2])))
    yield "four rings at one mark", book(9, 60, lines=lines_of([p for m in (1, 3, 5, 7) for p in around([9, m, m + 1])]))
    yield "two rings with a line between them", book(6, 60, lines=lines_of([(2, 5)] + around([1, 2, 3]) + around([4, 5, 6])))
    yield "two rings with a chain between them", book(9, 60, lines=lines_of(chain([2, 7, 8, 9, 5]) + around([1, 2, 3]) + around([4, 5, 6])))
    yield "two rings apart", book(6, 60, lines=lines_of(around([1, 2, 3]) + around([4, 5, 6])))
    yield "a ring run the other way", book(4, 60, lines=lines_of(around([4, 3, 2, 1])))
    yield "a ring with a tail", book(5, 60, lines=lines_of(around([1, 2, 3]) + [(2, 4), (5, 4)]))
    yield "a ring with tails at every mark", book(6, 60, lines=lines_of([(4, 1), (2, 5), (6, 3)] + around([1, 2, 3])))
    yield "a ring with a tail in the middle of the lines", book(5, 60, lines=lines_of([(4, 2), (5, 1), (3, 5), (2, 5), (1, 4)]))
    yield "two rings, a line between and a tail after", book(
        8, 60, lines=lines_of(around([1, 2, 3]) + [(3, 4)] + around([4, 5, 6]) + [(6, 7), (7, 8)]))


def parallels():
    for n in (1, 2, 3, 4, 512):
        yield f"{n} parallel lines", book(2, 60, lines=[line(1 + i % 2, 2 - i % 2, 3 * i - 500, 10 + i) for i in range(n)])
    yield "a pair on a chain", book(4, 60, lines=lines_of([(1, 2), (2, 3), (3, 2), (3, 4)]))
    yield "three parallel lines on a chain", book(4, 60, lines=lines_of([(1, 2), (2, 3), (3, 2), (2, 3), (3, 4)]))
    yield "a chain of pairs", book(5, 60, lines=lines_of([(i, i + 1) for i in (1, 2, 3, 4)] * 2))
    yield "a doubled ring of 5 marks", book(5, 60, lines=lines_of(around([1, 2, 3, 4, 5]) * 2))
    yield "255 pairs at mark 1", book(256, 60, lines=lines_of([(1, m) for m in range(2, 257)] * 2))
    yield "255 pairs at mark 256, mixed", mixed(256, [(1, m) for m in range(2, 257)] * 2, 255)


def trees():
    yield "one line, down", book(2, 60, lines=[line(2, 1, 7, 10)])
    for n in (3, 4, 9):
        yield f"a path of {n} marks", book(n, 60, lines=lines_of(chain(list(range(1, n + 1)))))
        yield f"a path of {n} marks, mixed", mixed(n, chain(list(range(1, n + 1))), n)
        yield f"a star of {n} marks", book(n, 60, lines=lines_of([(1, m) for m in range(2, n + 1)]))
        yield f"a star at mark {n}", book(n, 60, lines=lines_of([(m, n) for m in range(1, n)]))
    yield "255 lines in a tree", book(256, 40, lines=lines_of([(m // 2, m) for m in range(2, 257)]))
    yield "a path of 256 marks, mixed", mixed(256, chain(list(range(1, 257))), 256)


def thetas():
    for inner in ((0, 0, 0), (1, 0, 0), (1, 1, 1), (0, 2, 3), (3, 2, 1, 0), (4, 4, 4)):
        b, pairs = theta(*inner)
        name = " and ".join(str(count) for count in inner)
        yield f"ways with {name} marks", book(b, 60, lines=lines_of(pairs))
        yield f"ways with {name} marks, mixed", mixed(b, pairs, b)
    b, pairs = theta(2, 1, 1)
    yield "three ways and a ring on one", book(b + 2, 60, lines=lines_of(pairs + around([3, b + 1, b + 2])))
    yield "three ways and a tail on one", book(b + 2, 60, lines=lines_of(pairs + chain([3, b + 1, b + 2])))
    yield "four junctions, each line a link", book(4, 60, lines=lines_of([(4, 3), (3, 2), (4, 2), (2, 1), (1, 3), (1, 4)]))


def large():
    dice = random.Random(15)
    yield "8,717 bytes", LARGEST
    tree = [(dice.randint(1, m - 1), m) for m in range(2, 257)]
    more = [dice.sample(range(1, 257), 2) for _ in range(257)]
    yield "256 marks and 512 lines", mixed(256, tree + more, 1)
    yield "a ring of 256 lines, each as great as can be", ring(10**8)


def classed():
    """Version 2 books, some with lines that are withdrawn in the file."""
    yield "the worked network, every line of class 4", ALL_CLASS_4
    yield "version 2, no line", classed_book(5)
    yield "version 2, no line stands", classed_book(3, lines=[classed_line(1, 2, 5, 10, k, 0) for k in range(5)])
    ring_of_5 = [classed_line(a, z, 3 * a, 10 + a, a % 5) for a, z in around([1, 2, 3, 4, 5])]
    yield "version 2, a withdrawn line across a ring", classed_book(5, lines=[classed_line(2, 4, 7, 20, 4, 0)] + ring_of_5)
    yield "version 2, a withdrawn line opens the ring", classed_book(5, lines=ring_of_5[:4] + [classed_line(5, 1, 7, 20, 4, 0)])
    for standing in (2, 3):
        yield f"version 2, {standing} of five parallel lines stand", classed_book(
            2, lines=[classed_line(1, 2, 9 * k, 10 + k, k, int(k < standing)) for k in range(5)])


def refused():
    yield "nothing at all", b""
    yield "one byte too many", WORKED + b"\0"
    yield "version 3", book(version=3)
    yield "version 2 with version 1's tolerance", book(version=2)
    yield "version 2, 12-byte lines", classed_book(lines=[line(1, 2)])
    yield "version 2, a line of no class", classed_book(lines=[classed_line(1, 2), classed_line(2, 3, class_=5, standing=0)])
    yield "no mark", book(b=0)
    yield "a wrong count", book(lines=[line(1, 2)], n=2)
    yield "a mark held twice, and a wrong line", book(helds=[held(1), held(2), held(1)], lines=[line(1, 1)])
    yield "a line to itself", book(lines=[line(1, 2), line(2, 3), line(3, 3)])


# In place of "the last of each so many lines": the text is all that is wanted, and no line of any book.
TEXT_ALONE, NO_LINE = 0, 600


def thinned(every, files):
    """The cases of these files, with the last of each so many lines withdrawn. A file that is refused has no book in memory."""
    for name, file in files:
        yield name, file, TEXT_ALONE if len(answer(file)) == 2 else every


def any_books(seed):
    yield f"scattered, {seed}", scattered(seed)
    yield f"rings and tails, {seed}", hung(seed)
    yield f"junctions, {seed}", junctions(seed)


def cases():
    """Name, book, and which of its lines are withdrawn in memory."""
    yield from thinned(NO_LINE, BOOKS.items())
    yield "the Memorandum's, a difference to each line", memorandum(lambda number: 2**number - 50000), 4
    yield "one mark", book(1, 120), 1
    yield "no line", book(5, 120), 1
    yield "256 marks and no line", book(256, 120), 1
    yield "marks without lines between others", book(9, 60, lines=lines_of([(2, 5), (5, 8), (8, 2), (8, 9)])), NO_LINE
    yield from thinned(4, rings())
    yield from thinned(3, parallels())
    yield from thinned(5, trees())
    yield from thinned(NO_LINE, thetas())
    yield from thinned(7, large())
    yield from thinned(6, classed())
    yield from thinned(NO_LINE, refused())
    for seed in range(100):
        yield from thinned((NO_LINE, 1, 2, 3)[seed % 4] if seed < 16 else TEXT_ALONE, any_books(seed))


def files():
    given, wanted = b"", ""
    for name, file, every in cases():
        assert len(name) <= NAME_BYTES, name
        given += name.encode().ljust(NAME_BYTES) + struct.pack(">HH", every, len(file)) + file
        wanted += name.ljust(NAME_BYTES) + "\n" + file_text(file)
        if every != TEXT_ALONE:
            wanted += in_memory(file, every)
    assert len(given) <= 131072, len(given)
    assert file_text(BOOKS["memorandum_network"]) == MEMORANDUM_SKETCH
    return {
        "crates/sketch_cases/stdin": given,
        "crates/sketch_cases/stdout": wanted.encode(),
        "crates/sketch/stdin": BOOKS["memorandum_network"],
        "crates/sketch/stdout": MEMORANDUM_SKETCH.encode(),
    }


if __name__ == "__main__":
    stored.main(files())
