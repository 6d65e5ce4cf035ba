#!/usr/bin/env python3
"""Writes the standard input of crates/adjust_cases and crates/heights and, from a reading of document 01 and request 04 of its own, what
the two programs must print. Run it after a change of the cases; --check only compares."""
import random
import struct

import stored
from books import BOOKS
from reader_cases import ALL_CLASS_4, HEIGHT, UNTOUCHED, WORKED, book, classed_book, classed_line, held, line, opened, shown
from survey_cases import refusal, tree_and_closing

WORK = 5 * 10**10
SWEEPS = 10_000
SHOWN_LINES = 9


def nearest(g, d):
    """g/d to the nearest whole number, halves toward zero."""
    size = (2 * abs(g) + d - 1) // (2 * d)
    return size if g >= 0 else -size


def held_heights(helds):
    return dict(zip(helds[::2], helds[1::2]))


def start(b, helds, lines):
    """Each mark's height before the first sweep, or the lowest mark of a piece without a held mark."""
    tree, _, _ = tree_and_closing(b, lines)
    near = {m: [] for m in range(1, b + 1)}
    for i in tree:
        a, z, difference, *_ = lines[i]
        near[a].append((z, difference))
        near[z].append((a, -difference))
    own, heights, unheld = held_heights(helds), {}, []
    for m in range(1, b + 1):
        piece, todo = {m: 0}, [m]
        while todo:
            x = todo.pop()
            for y, up in near[x]:
                if y not in piece:
                    piece[y] = piece[x] + up
                    todo.append(y)
        fixed = [x for x in sorted(piece) if x in own]
        if not fixed:
            unheld.append(m)
            continue
        heights[m] = own[fixed[0]] - piece[fixed[0]]
    return min(unheld, default=0), {m: own.get(m, z) for m, z in heights.items()}


def adjust(version, b, t, helds, lines, room):
    """The answer (number, place, sweeps), and the heights when done."""
    number, place = refusal(version, b, t, helds, lines)
    if number:
        return (number, place, 0), None
    if room < b:
        return (10, 0, 0), None
    unheld, z = start(b, helds, lines)
    if unheld:
        return (11, unheld, 0), None
    sights = {m: [] for m in range(1, b + 1)}
    for a, to, difference, length, standing, _ in lines:
        if standing:
            sights[to].append((a, difference, 10**6 // length))
            sights[a].append((to, -difference, 10**6 // length))
    free = [m for m in range(1, b + 1) if m not in held_heights(helds)]
    for sweep in range(1, SWEEPS + 1):
        moved = False
        for m in free:
            d = sum(w for _, _, w in sights[m])
            g = sum(w * (z[o] + rise - z[m]) for o, rise, w in sights[m])
            step = nearest(g, d) if d else 0
            z[m] += step
            moved = moved or step != 0
            if abs(z[m]) > WORK:
                return (13, m, 0), None
        if not moved:
            return (0, 0, sweep), [z[m] for m in range(1, b + 1)]
    return (12, 0, 0), None


def rate(version, b, t, helds, lines, heights, number):
    """The answer (number, place, line, correction) and the rate, None of a withdrawn line."""
    refused, place = refusal(version, b, t, helds, lines)
    if refused != 3 and len(heights) != b:
        refused, place = 4, 0
    if refused:
        return (refused, place, 0, 0), 0.0
    if not 1 <= number <= len(lines):
        return (8, 0, 0, 0), 0.0
    high = [m + 1 for m, z in enumerate(heights) if abs(z) > WORK]
    if high:
        return (13, high[0], 0, 0), 0.0
    a, to, difference, length, standing, _ = lines[number - 1]
    if not standing:
        return (0, 0, number, 0), None
    correction = heights[to - 1] - heights[a - 1] - difference
    return (0, 0, number, correction), correction / length


def adjusted(name, version, b, t, helds, lines, heights):
    answer, done = adjust(version, b, t, helds, lines, len(heights))
    if done:
        heights[:b] = done
    return name + "".join(f" {x}" for x in answer) + " |" + shown(heights) + "\n"


def rated(name, version, b, t, helds, lines, heights, number):
    answer, x = rate(version, b, t, helds, lines, heights, number)
    bits = "withdrawn" if x is None else str(struct.unpack(">Q", struct.pack(">d", x))[0])
    return name + "".join(f" {v}" for v in answer) + f" {bits}\n"


def told_otherwise(version, b, t, helds, lines, heights):
    """The book told as of either version, with a last line of no class, and told as of no version."""
    text = ""
    for told in (1, 2):
        for t_told in (0, 1):
            text += rated(f"version {told}, t {t_told}, rate", told, b, t_told, helds, lines, heights, 1)
    if lines:
        lines[-1][5] = 5
    text += adjusted("class 5, adjusted", version, b, t, helds, lines, heights)
    text += rated("class 5, rate", version, b, t, helds, lines, heights, 1)
    for told in (0, 3, 255):
        text += adjusted(f"version {told}, adjusted", told, b, t, helds, lines, heights)
    for told in (0, 3, 255):
        text += rated(f"version {told}, rate", told, b, t, helds, lines, heights, 1)
    return text


def outcome(file, room, spoilt):
    version, b, t, helds, lines = opened(file)
    heights = [UNTOUCHED] * room
    text = adjusted("adjusted", version, b, t, helds, lines, heights)
    for number in range(min(len(lines) + 2, SHOWN_LINES)):
        text += rated("  rate", version, b, t, helds, lines, heights, number)
    if spoilt < room:
        heights[spoilt] = WORK + 1
    text += rated("  rate", version, b, t, helds, lines, heights, 1)
    if lines:
        lines[0][4] = 0
    text += adjusted("line 1 withdrawn, adjusted", version, b, t, helds, lines, heights)
    text += rated("  rate", version, b, t, helds, lines, heights, 1)
    return text + told_otherwise(version, b, t, helds, lines, heights)


def scattered(seed, b, n, holds):
    dice = random.Random(seed)
    heights = [dice.randint(-(10**9), 10**9) for _ in range(b)]
    lines = []
    for i in range(n):
        a = 1 + (i if i < b - 1 else dice.randint(0, b - 1))
        z = dice.choice([m for m in range(1, b + 1) if m != a and abs(heights[m - 1] - heights[a - 1]) < 9 * 10**7] or [a % b + 1])
        drop = max(-(10**8), min(10**8, heights[z - 1] - heights[a - 1] + dice.randint(-3000, 3000)))
        lines.append(line(a, z, drop, dice.randint(10, 4000)))
    return book(b, 60, [held(m, heights[m - 1]) for m in holds], lines)


def chain(b, ends):
    return book(b, 60, [held(1, ends[0]), held(b, ends[1])], [line(i, i + 1, 0, 1000) for i in range(1, b)])


def classed():
    """Version 2 books: the class of a line moves no height, and a line that is withdrawn in the file has no weight."""
    yield "three classes and a withdrawn line", BOOKS["three_classes"], 6, 5
    yield "three classes, one place too few", BOOKS["three_classes"], 5, 0
    yield "three classes, places past the heights", BOOKS["three_classes"], 9, 5
    yield "the worked network, every line of class 4", ALL_CLASS_4, 5, 3
    yield "version 2, no line, one mark, held", classed_book(1, [held(1, HEIGHT)]), 1, 0
    yield "version 2, a withdrawn line leaves a piece", classed_book(4, [held(1, 5)], [
        classed_line(1, 2, 3, class_=1), classed_line(2, 3, 3, class_=2, standing=0), classed_line(3, 4, 3, class_=3)]), 4, 0
    yield "version 2, a withdrawn line beside a standing", classed_book(2, [held(1, 0)], [
        classed_line(1, 2, 7, class_=4), classed_line(1, 2, 99, class_=0, standing=0), classed_line(1, 2, 8, class_=0)]), 2, 1
    yield "version 2, the first line withdrawn already", classed_book(2, [held(2, 0)], [
        classed_line(1, 2, 7, class_=4, standing=0), classed_line(1, 2, 99, class_=0)]), 2, 2


def cases():
    """Name, book, how many heights are lent, and the place of a height that is spoilt before a rate."""
    yield "the worked network", WORKED, 5, 3
    yield "with places past the heights", WORKED, 8, 3
    yield "one place too few", WORKED, 4, 0
    yield "no line, one mark, held", book(1, 60, [held(1, -HEIGHT)]), 1, 0
    yield "no free mark", book(3, 60, [held(3, 5), held(1, 7), held(2, 9)], [line(1, 2, 2), line(2, 3, 4)]), 3, 2
    yield "two held marks at both extremes", book(3, 60, [held(1, HEIGHT), held(3, -HEIGHT)], [line(1, 2, 10**8, 10), line(2, 3, 10**8, 100000)]), 3, 0
    yield "a chain of 120 marks does not settle", chain(120, (0, HEIGHT)), 120, 60
    yield "a chain of 12 marks settles", chain(12, (-HEIGHT, HEIGHT)), 12, 1
    yield "a piece without a held mark", book(6, 60, [held(2, 5)], [line(1, 2, 3), line(6, 4, 3), line(5, 3, 3)]), 6, 0
    yield "a mark without lines, not held", book(3, 60, [held(1, 5)], [line(1, 2, 3)]), 3, 0
    yield "three held marks in one piece", book(5, 60, [held(4, 900), held(2, 100), held(5, 77)], [line(1, 2, 50), line(2, 3, 40), line(3, 4, 30), line(1, 5, 20)]), 5, 4
    yield "a move of just a half, up", book(2, 60, [held(1, 0)], [line(1, 2, 0), line(1, 2, 7)]), 2, 1
    yield "a move of just a half, down", book(2, 60, [held(1, 0)], [line(1, 2, 0), line(1, 2, -7)]), 2, 1
    yield "a micrometre over a half, up", book(2, 60, [held(1, 0)], [line(1, 2, 0, 100), line(1, 2, 7, 99)]), 2, 1
    yield "a micrometre over a half, down", book(2, 60, [held(1, 0)], [line(2, 1, 0, 100), line(2, 1, 7, 99)]), 2, 1
    yield "the highest start", book(256, 60, [held(1, HEIGHT)], [line(i, i + 1, 10**8, 10) for i in range(1, 256)]), 256, 255
    for seed in range(6):
        yield f"scattered, one held mark, {seed}", scattered(seed, 12, 24, [5]), 12, 11
        yield f"scattered, three held marks, {seed}", scattered(100 + seed, 12, 24, [2, 12, 7]), 12, 0
    yield from classed()


def fixed(x, places, width):
    """The number x / 10 ** places in so many characters, its sign right before its digits."""
    digits = f"{abs(x) // 10**places}"
    return " " * (width - len(digits)) + ("-" if x < 0 else " ") + digits + f".{abs(x) % 10**places:0{places}}"


def sheet(file):
    version, b, t, helds, lines = opened(file)
    (number, place, sweeps), heights = adjust(version, b, t, helds, lines, b)
    assert number == 0
    own = held_heights(helds)
    text = f"ADJUSTED HEIGHTS\nMARKS {b} LINES {len(lines)} HELD {len(own)} SWEEPS {sweeps}\nMARK      HEIGHT m\n"
    for m, z in enumerate(heights):
        text += f"{m + 1:4}" + fixed(z, 6, 6) + ("  HELD" if m + 1 in own else "") + "\n"
    text += "LINE CORRECTION mm   RATE mm/km\n"
    for i in range(len(lines)):
        (_, _, _, correction), x = rate(version, b, t, helds, lines, heights, i + 1)
        thousandths = int(abs(x) * 1000.0 + 0.5)
        text += f"{i + 1:4}" + fixed(correction, 3, 9) + fixed(thousandths if x >= 0 else -thousandths, 3, 8) + "\n"
    return text


def files():
    given, wanted = b"", ""
    for name, file, room, spoilt in cases():
        assert len(name) <= 48, name
        given += name.ljust(48).encode() + struct.pack(">HHH", room, spoilt, len(file)) + file
        wanted += f"{name:48}\n" + outcome(file, room, spoilt)
    assert len(given) <= 131072, len(given)
    settled = adjust(*opened(WORKED), 5)
    assert settled[0] == (0, 0, 15)
    assert all(abs(z - want) <= 100 for z, want in zip(settled[1][1:], (102_123_500, 106_335_800, 103_907_200, 99_072_600)))
    return {
        "crates/adjust_cases/stdin": given,
        "crates/adjust_cases/stdout": wanted.encode(),
        "crates/heights/stdin": WORKED,
        "crates/heights/stdout": sheet(WORKED).encode(),
    }


if __name__ == "__main__":
    stored.main(files())
