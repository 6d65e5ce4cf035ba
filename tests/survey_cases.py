#!/usr/bin/env python3
"""Writes crates/survey_cases/stdin (books, one case after the other) and, from a slow reading of document 01 and requests 03 and 04 of its
own, crates/survey_cases/stdout (what the program must print of them). Run it after a change of the cases; --check only compares."""
import random
import struct

import stored
from reader_cases import (ALL_CLASS_4, DIFFERENCE, HEIGHT, UNTOUCHED, WORKED, book, classed_book, classed_line, digest, held, line, opened,
                          shown, worked_with)

ROW = 5
# Of classes 0 to 4, in tenths of mm per root km.
TOLERANCES = [40, 50, 60, 80, 120]
NO_VERSIONS = {"0": 0, "3": 3, "255": 255, "-1": -1, "2^32 + 1": 2**32 + 1, "2^63 - 1": 2**63 - 1}


def bad_held(b, helds):
    for i in range(0, len(helds), 2):
        if not (1 <= helds[i] <= b and abs(helds[i + 1]) <= HEIGHT) or helds[i] in helds[:i:2]:
            return i // 2 + 1
    return 0


def bad_line(version, b, lines):
    classes = [-1] if version == 1 else range(5)
    for i, (a, z, difference, length, standing, class_) in enumerate(lines):
        if not (1 <= a <= b and 1 <= z <= b and a != z and abs(difference) <= DIFFERENCE and 10 <= length <= 100000):
            return i + 1
        if standing not in (0, 1) or class_ not in classes:
            return i + 1
    return 0


def refusal(version, b, t, helds, lines):
    """Of a lent book 3, 4, 6 or 7 with its place, by rising number; 0 of a good one."""
    if version not in (1, 2):
        return 3, 0
    if not 1 <= b <= 256 or not (1 <= t <= 1000 if version == 1 else t == 0):
        return 4, 0
    if bad_held(b, helds):
        return 6, bad_held(b, helds)
    return (7, bad_line(version, b, lines)) if bad_line(version, b, lines) else (0, 0)


def tree_and_closing(b, lines):
    """Document 01, "Tree and closing lines": tree line numbers in order, closing line numbers in order, pieces."""
    distance, tree, closing, pieces = {}, [], [], 0
    standing = [i for i, l in enumerate(lines) if l[4]]

    def candidates():
        found = []
        for i in standing:
            a, z = lines[i][0], lines[i][1]
            if (a in distance) != (z in distance):
                found.append((distance.get(a, distance.get(z)) + lines[i][3], i))
        return found

    while len(distance) < b:
        before = candidates()
        if before:
            score, i = min(before)
            mark = lines[i][1] if lines[i][0] in distance else lines[i][0]
            tree.append(i)
            closing += [j for _, j in sorted(c for c in before if mark in lines[c[1]][:2] and c[1] != i)]
        else:
            mark, score, pieces = min(m for m in range(1, b + 1) if m not in distance), 0, pieces + 1
        distance[mark] = score
    return tree, closing, pieces


def path(lines, usable, start, goal):
    """The shortest path over the usable lines, of equally short ones the first by line numbers read from the start."""
    near, nearer = {goal: 0}, True
    while nearer:
        nearer = False
        for i in usable:
            a, z, _, length, *_ = lines[i]
            for x, y in ((a, z), (z, a)):
                if x in near and near[x] + length < near.get(y, 10**12):
                    near[y], nearer = near[x] + length, True
    way, at = [], start
    while at != goal:
        steps = []
        for i in usable:
            a, z, _, length, *_ = lines[i]
            if a == at and near.get(z, 10**12) + length == near[at]:
                steps.append((i, z, 1))
            if z == at and near.get(a, 10**12) + length == near[at]:
                steps.append((i, a, -1))
        i, at, sense = min(steps)
        way.append((i, sense))
    return way


def tolerance(t, line):
    """By the line's class; the book's own where it has none."""
    return t if line[5] == -1 else TOLERANCES[line[5]]


def allowed(t, loop, lines):
    """The greatest square of a misclosure that is within."""
    return 10 * sum(tolerance(t, lines[i]) ** 2 * max(lines[i][3], 250) for i, _ in loop)


def loops_of(b, t, lines):
    """Each loop as its lines with their senses, its length, its misclosure and whether that is over; and the pieces."""
    tree, closing, pieces = tree_and_closing(b, lines)
    usable, loops = set(tree), []
    for c in closing:
        way = path(lines, sorted(usable), lines[c][1], lines[c][0])
        if len(way) != 1:
            usable.add(c)
        loop = [(c, 1)] + way
        length = sum(lines[i][3] for i, _ in loop)
        misclosure = sum(sense * lines[i][2] for i, sense in loop)
        loops.append((loop, length, misclosure, misclosure**2 > allowed(t, loop, lines)))
    return loops, pieces


def survey(b, t, lines):
    """The report's numbers and the pieces."""
    loops, pieces = loops_of(b, t, lines)
    rows = [[loop[0][0] + 1, len(loop), length, misclosure, int(over)] for loop, length, misclosure, over in loops]
    return [number for row in rows for number in row], pieces


def printed(name, answer, report, lines):
    numbers = [x for l in lines for x in l]
    return f"{name}" + "".join(f" {x}" for x in answer) + " |" + shown(report) + f" lines #{digest(numbers)}\n"


def corrections(b, t, lines, report):
    text = ""
    for number in range(len(lines) + 1):
        stands = 1 <= number <= len(lines) and lines[number - 1][4] == 1
        for call in ("re-run", "withdrawn"):
            if not stands:
                answer = (8, 0, 0, 0)
            else:
                before = len(survey(b, t, lines)[0])
                if call == "re-run":
                    lines[number - 1][2] = number % 1000 * 10_000
                else:
                    lines[number - 1][4] = 0
                rows, pieces = survey(b, t, lines)
                report[:before] = rows + [0] * (before - len(rows))
                answer = (0, 0, len(rows) // ROW, pieces)
            text += printed(f"  {call}", answer, report, lines)
    return text


def surveyed(name, version, b, t, helds, lines, report):
    number, place = refusal(version, b, t, helds, lines)
    if number:
        return printed(name, (number, place, 0, 0), report, lines)
    rows, pieces = survey(b, t, lines)
    report[: len(rows)] = rows
    return printed(name, (0, 0, len(rows) // ROW, pieces), report, lines)


def told_otherwise(version, b, t, helds, lines, report):
    """A book none of whose lines stands, told as of either version, with a last line of no class, and told as of no version."""
    text = ""
    for told in (1, 2):
        for t_told in (0, 1):
            text += surveyed(f"  version {told}, t {t_told}", told, b, t_told, helds, lines, report)
    if lines:
        lines[-1][5] = 5
    text += surveyed("  class 5", version, b, t, helds, lines, report)
    for name, told in NO_VERSIONS.items():
        text += surveyed(f"  version {name}", told, b, t, helds, lines, report)
    # 3 before 4: the new difference is outside its limit
    text += printed("  version 3, re-run", (3, 0, 0, 0), report, lines)
    return text + printed("  version 0, withdrawn", (3, 0, 0, 0), report, lines)


def outcome(file):
    version, b, t, helds, lines = opened(file)
    report = [UNTOUCHED] * 2600
    text = surveyed("survey", version, b, t, helds, lines, report)
    return text + corrections(b, t, lines, report) + told_otherwise(version, b, t, helds, lines, report)


def squares(order):
    """The Memorandum's six-mark, seven-link figure with equal links, its lines in this order."""
    links = [(1, 2), (2, 3), (4, 5), (5, 6), (1, 4), (2, 5), (3, 6)]
    return book(6, 100, lines=[line(*links[i], 1000 * (i + 1), 500) for i in order])


def scattered(seed, b, n, lengths):
    dice = random.Random(seed)
    lines = []
    while len(lines) < n:
        a, z = dice.randint(1, b), dice.randint(1, b)
        if a != z:
            lines.append(line(a, z, dice.randint(-5000, 5000) * 10, dice.choice(lengths)))
    return book(b, dice.randint(1, 1000), [held(dice.randint(1, b), 7)], lines)


def ring(t, misclosure, lengths):
    """One loop of lines of these lengths that closes so."""
    last = len(lengths)
    return book(last, t, lines=[line(i + 1, (i + 1) % last + 1, 0 if i else misclosure, metres) for i, metres in enumerate(lengths)])


def parallel(*differences):
    """Lines of 40 m from mark 1 to mark 2 at t = 100: every loop has two, which count 500 m, so 7,071 is within and 7,072 over."""
    return book(2, 100, lines=[line(1, 2, difference, 40) for difference in differences])


def short_lines():
    """Request 03: a line shorter than 250 m counts as one of 250 m. Line 1 is re-run to 10,000 and then withdrawn, before the others."""
    for misclosure in (4000, 4001, -4000, -4001):
        yield f"four lines of 40 m, {misclosure}", ring(40, misclosure, [40] * 4)
    for misclosure in (3466, 3467):
        yield f"249, 250 and 251 m count 751, {misclosure}", ring(40, misclosure, [249, 250, 251])
    for misclosure in (12_499, 12_500, 12_501):
        yield f"25 lines of 10 m, {misclosure}", ring(50, misclosure, [10] * 25)
    yield "short lines, a re-run turns it within", parallel(0, 17_071)
    yield "short lines, a re-run turns it over", parallel(12_000, 17_072)
    yield "short lines, a re-run leaves it within", parallel(12_000, 17_071)
    yield "short lines, a re-run leaves it over", parallel(0, 17_072)
    yield "short lines, a withdrawal turns it over", parallel(10_000, 4_000, 15_000)
    yield "short lines, a withdrawal turns it within", parallel(10_000, 15_000, 20_000)
    yield "short lines, a withdrawal turns nothing", parallel(10_000, 11_000, 12_000)


def pair(first, second, misclosure, lengths=(1000, 1000)):
    """Two lines between two marks, of these classes, that close so; the second is not shorter and closes the loop."""
    return classed_book(2, lines=[classed_line(1, 2, 0, lengths[0], first), classed_line(1, 2, misclosure, lengths[1], second)])


def classed_parallel(*lines):
    """Lines of 1,000 m from mark 1 to mark 2: class and difference of each."""
    return classed_book(2, lines=[classed_line(1, 2, difference, 1000, class_) for class_, difference in lines])


def classed_ring(misclosure, metres, classes):
    """One loop with a line of each of these classes, all of one length, that closes so."""
    last = len(classes)
    return classed_book(last, lines=[
        classed_line(i + 1, (i + 1) % last + 1, 0 if i else misclosure, metres, class_) for i, class_ in enumerate(classes)])


def each_at_its_edge(more):
    """For each class two marks with two lines of it, of 1,000 m in all, so much over what they just allow: 100 times the tolerance."""
    once = [(2 * k + 1, 2 * k + 2, 100 * own + more, 500, k) for k, own in enumerate(TOLERANCES)]
    again = [(a, z, 0, 500, k) for a, z, _, _, k in once]
    return classed_book(10, lines=[classed_line(*l) for l in once + again])


def classed_scattered(seed, b, n, lengths):
    """Lines of any class between any marks, about one of four withdrawn."""
    dice = random.Random(seed)
    pairs = [dice.sample(range(1, b + 1), 2) for _ in range(n)]
    return classed_book(b, [held(dice.randint(1, b), 7)], [
        classed_line(a, z, dice.randint(-2000, 2000) * 10, dice.choice(lengths), dice.randint(0, 4), int(dice.random() > 0.25))
        for a, z in pairs])


def verdicts_by_class():
    """Request 04: what each line allows is by its class. Line 1 is re-run to 10,000 and then withdrawn, before the others."""
    for misclosure in (12_649, 12_650, -12_649, -12_650):
        yield f"classes 0 and 4, {misclosure}", pair(0, 4, misclosure)
    for misclosure in (4000, 4001):
        yield f"280 m of class 0 and 320 m of class 2, {misclosure}", pair(0, 2, misclosure, (280, 320))
    for misclosure in (6324, 6325):
        yield f"40 m of class 4 and 250 m of class 0, {misclosure}", pair(4, 0, misclosure, (40, 250))
    yield "each class at its edge", each_at_its_edge(0)
    yield "each class one micrometre over its edge", each_at_its_edge(1)
    for misclosure in (16_881, 16_882, -16_881, -16_882):
        yield f"all five classes in one loop, {misclosure}", classed_ring(misclosure, 1000, range(5))
    for misclosure in (8440, 8441):
        yield f"five lines of 40 m and of five classes, {misclosure}", classed_ring(misclosure, 40, (4, 2, 0, 3, 1))
    yield "the worked network, every line of class 4", ALL_CLASS_4
    yield "the worked network, mixed classes", worked_with(0, 1, 2, 3, 4, 3, 2)
    yield "classes, a re-run turns it within", classed_parallel((0, 0), (4, 22_649))
    yield "classes, a re-run turns it over", classed_parallel((0, 12_000), (4, 22_650))
    yield "classes, a withdrawal turns it over", classed_parallel((4, 10_000), (0, 20_000), (0, 14_000))
    yield "classes, a withdrawal turns it within", classed_parallel((0, 10_000), (4, 25_000), (4, 24_000))


def classed_networks():
    """Version 2 books of which the lists are wanted too."""
    yield "version 2, no line", classed_book(5)
    yield "version 2, one mark", classed_book(1)
    yield "version 2, no line stands", classed_book(3, lines=[classed_line(1, 2, 5, 10, k, 0) for k in range(5)])
    yield "version 2, a withdrawn line opens the ring", classed_book(4, lines=[
        classed_line(1, 2, 5, 100, 0), classed_line(2, 3, 5, 100, 1), classed_line(3, 4, 5, 100, 2, 0), classed_line(4, 1, 5, 100, 3)])
    yield "version 2, a withdrawn line beside a standing", classed_book(3, lines=[
        classed_line(1, 2, 5, 10, 4, 0), classed_line(1, 2, 9, 100, 0), classed_line(2, 3, 7, 10, 0), classed_line(3, 1, -16, 10, 0)])
    for seed in range(4):
        yield f"scattered, classes, {seed}", classed_scattered(300 + seed, 7, 14, [10, 20, 300])


def networks():
    yield "the worked network", WORKED
    yield "no line", book(5, 120)
    yield "one mark", book(1, 120)
    yield "two pieces", book(7, 60, lines=[line(1, 2, 5, 10), line(2, 3, 5, 10), line(3, 1, -11, 10), line(5, 6, 1, 99), line(6, 7, 1, 10), line(7, 5, -2, 40)])
    yield "past the last junction to three final marks", book(7, 60, lines=[
        line(1, 2, 5, 100), line(2, 3, 5, 100), line(3, 1, -10, 100), line(3, 4, 9, 50), line(4, 5, 9, 50), line(4, 6, 9, 50), line(4, 7, 9, 50)])
    yield "parallel lines of equal length", book(2, 60, lines=[line(1 + i % 2, 2 - i % 2, 7 * i, 30) for i in range(7)])
    yield "a chain and a line of its whole length", book(5, 60, lines=[line(i, i + 1, 3, 10) for i in range(1, 5)] + [line(1, 5, 12, 40)] * 3)
    yield "the edge of the allowable", book(2, 40, lines=[line(1, 2, 4000, 500), line(1, 2, 0, 500)])
    yield "one micrometre over it", book(2, 40, lines=[line(1, 2, 4001, 500), line(1, 2, 0, 500)])
    yield "the greatest misclosure", book(2, 1000, lines=[line(1, 2, 10**8, 100000), line(2, 1, 10**8, 100000), line(1, 2, -(10**8), 100000)])
    yield from short_lines()
    for k, order in enumerate(((0, 1, 2, 3, 4, 5, 6), (6, 5, 4, 3, 2, 1, 0), (5, 0, 1, 2, 3, 4, 6), (3, 1, 6, 0, 5, 2, 4))):
        yield f"the Memorandum's figure, numbering {k + 1}", squares(order)
    for seed in range(6):
        yield f"scattered, equal lengths, {seed}", scattered(seed, 6, 11, [10])
        yield f"scattered, few lengths, {seed}", scattered(100 + seed, 8, 14, [10, 20, 30])
        yield f"scattered, many lengths, {seed}", scattered(200 + seed, 9, 14, list(range(10, 500)))


def cases():
    yield from networks()
    yield from verdicts_by_class()
    yield from classed_networks()


def files():
    given, wanted = b"", ""
    for name, file in cases():
        assert len(name) <= 48, name
        given += name.ljust(48).encode() + struct.pack(">H", len(file)) + file
        wanted += f"{name:48}\n" + outcome(file)
    assert len(given) <= 131072, len(given)
    assert survey(5, 0, opened(ALL_CLASS_4)[4]) == survey(5, 120, opened(WORKED)[4])
    return {"crates/survey_cases/stdin": given, "crates/survey_cases/stdout": wanted.encode()}


if __name__ == "__main__":
    stored.main(files())
