#!/usr/bin/env python3
"""Writes crates/afternoon/stdin (two stories, each the worked network's file and the steps taken on it) and, from a reading of document 01
and request 04 of its own, crates/afternoon/stdout (what the program must print of them). Run it after a change of the steps; --check only
compares."""
import struct

import stored
from reader_cases import DIFFERENCE, LINE, UNTOUCHED, WORKED, opened, worked_with
from survey_cases import ROW, refusal, survey

SURVEY, RERUN, WITHDRAW, PEN_IN_HELD, PEN_IN_LINES, PEN_IN_REPORT, READ = range(7)
PLACES = 20
HELD_NAMES = ["MARK", "HEIGHT"]
LINE_NAMES = ["FROM", "TO", "DIFFERENCE", "LENGTH", "STANDING", "CLASS"]
ROW_NAMES = ["CLOSING LINE", "LINES", "LENGTH", "MISCLOSURE", "VERDICT"]


def rerun(note, line, difference, lent=PLACES):
    return note, RERUN, lent, line, difference


def withdraw(note, line, lent=PLACES):
    return note, WITHDRAW, lent, line, 0


def resurvey(note, lent=PLACES):
    return note, SURVEY, lent, 0, 0


def read(note):
    return note, READ, 0, 0, 0


def pen(note, kind, entry, name, value):
    names = {PEN_IN_HELD: HELD_NAMES, PEN_IN_LINES: LINE_NAMES, PEN_IN_REPORT: ROW_NAMES}[kind]
    return note, kind, 0, (entry - 1) * len(names) + names.index(name), value


STEPS = [
    read("The book of the worked network is read."),
    resurvey("The morning's survey. The report has room for a row more."),
    rerun("After lunch line 6 comes back.", 6, 2428000),
    rerun("The same again moves nothing.", 6, 2428000),
    rerun("One micrometre outside the limit.", 6, DIFFERENCE + 1),
    rerun("And on the other side.", 6, -DIFFERENCE - 1),
    rerun("There is no line 0.", 0, 5),
    withdraw("Nor can it be withdrawn.", 0),
    rerun("Seven lines, and no line 8.", 8, 5),
    withdraw("Nor can it be withdrawn.", 8),
    rerun("No line is negative.", -1, 5),
    withdraw("Nor can it be withdrawn.", -1),
    rerun("The report that is lent is one row short.", 6, 0, lent=10),
    rerun("One number short.", 6, 0, lent=14),
    withdraw("No report at all.", 6, lent=0),
    rerun("Just the rows, and no place more.", 6, 2428000, lent=15),
    pen("A slip of the pen in the report's last place.", PEN_IN_REPORT, 3, "VERDICT", 0),
    rerun("That is not this book's report.", 6, 0),
    withdraw("For a withdrawal neither.", 6),
    pen("Mended.", PEN_IN_REPORT, 3, "VERDICT", 1),
    pen("A slip by one micrometre.", PEN_IN_REPORT, 2, "MISCLOSURE", -5001),
    rerun("Not this book's report.", 6, 0),
    pen("Mended.", PEN_IN_REPORT, 2, "MISCLOSURE", -5000),
    pen("A slip in a length.", PEN_IN_REPORT, 1, "LENGTH", 4451),
    withdraw("Not this book's report.", 6),
    pen("Mended.", PEN_IN_REPORT, 1, "LENGTH", 4450),
    pen("A place past the rows is nobody's.", PEN_IN_REPORT, 4, "LINES", 77),
    rerun("The report is this book's, and that place stays.", 6, 2428000),
    pen("A colleague's book still has the morning's line 6.", PEN_IN_LINES, 6, "DIFFERENCE", 2410000),
    rerun("The right rows of another book.", 5, 3895000),
    withdraw("The right rows of another book.", 5),
    pen("Our own book again.", PEN_IN_LINES, 6, "DIFFERENCE", 2428000),
    pen("Five marks, and mark 6 is held.", PEN_IN_HELD, 1, "MARK", 6),
    rerun("The book is refused.", 6, 0),
    pen("A length under the limit as well.", PEN_IN_LINES, 3, "LENGTH", 9),
    withdraw("Of several the lowest number is given.", 8, lent=0),
    rerun("A difference outside is lower still.", 6, DIFFERENCE + 1),
    pen("The held mark mended.", PEN_IN_HELD, 1, "MARK", 1),
    rerun("The length is left.", 6, 0),
    pen("Line 2 from a mark to itself.", PEN_IN_LINES, 2, "TO", 2),
    withdraw("The first such line is named.", 6),
    pen("Line 1 has a class, in a book of version 1.", PEN_IN_LINES, 1, "CLASS", 0),
    withdraw("Now that one is named.", 6),
    pen("Mended.", PEN_IN_LINES, 1, "CLASS", -1),
    pen("Mended.", PEN_IN_LINES, 2, "TO", 3),
    pen("Mended.", PEN_IN_LINES, 3, "LENGTH", 1000),
    withdraw("No such line and a report too short: the lower number.", 8, lent=0),
    rerun("Line 6 to one extreme.", 6, DIFFERENCE),
    rerun("To the other.", 6, -DIFFERENCE),
    rerun("And back.", 6, 2428000),
    withdraw("Line 6 goes. It closed a loop and lay in a later one.", 6),
    withdraw("It is withdrawn already.", 6),
    rerun("And cannot be re-run.", 6, 2428000),
    rerun("Line 7 is line 7 as before.", 7, 4821000),
    rerun("And back.", 7, 4820000),
    resurvey("A survey of the corrected book into the kept report changes nothing."),
    withdraw("Line 3 goes, and line 2 hangs at mark 3 alone.", 3),
    withdraw("A bridge: no loop had it.", 2),
    withdraw("The last closing line.", 4),
    withdraw("No loop is left, only lines.", 7),
    withdraw("The next.", 1),
    withdraw("The last.", 5),
    withdraw("No line stands.", 5),
    resurvey("Every mark is a piece."),
    read("The next morning the file is read again."),
    rerun("With last night's report.", 6, 2428000),
    resurvey("A survey into one number too few.", lent=14),
    resurvey("A survey."),
    withdraw("Line 3 goes first today.", 3),
    rerun("Line 2 in no loop: every row stands.", 2, 0),
    withdraw("A line of the tree goes. Line 6 takes its place and closes no loop.", 1),
    withdraw("Another bridge.", 6),
]


# The same network as version 2. Lines 1, 5 and 6 are loop 1: with line 6 of class 0 it is within up to 21,927, with class 1 up to 22,182.
CLASSED = worked_with(4, 2, 3, 4, 4, 0, 1)
CLASSED_STEPS = [
    read("A week later the book comes back with a class for each line."),
    resurvey("Each loop is judged by the classes of its lines."),
    rerun("Line 6 comes back. It is of class 0, and its loop stays over.", 6, 2428000),
    pen("The class was a slip of the pen.", PEN_IN_LINES, 6, "CLASS", 1),
    rerun("The verdict is another: not this book's report.", 6, 2428000),
    resurvey("With class 1 the loop is within."),
    pen("There is no class 5.", PEN_IN_LINES, 6, "CLASS", 5),
    rerun("The line is named.", 7, 4821000),
    pen("Nor is a line without a class in this book.", PEN_IN_LINES, 6, "CLASS", -1),
    withdraw("The line is named.", 7),
    pen("Mended.", PEN_IN_LINES, 6, "CLASS", 1),
    pen("A line stands or is withdrawn.", PEN_IN_LINES, 4, "STANDING", 2),
    resurvey("The line is named."),
    pen("Mended.", PEN_IN_LINES, 4, "STANDING", 1),
    rerun("Line 7 is run again, and keeps its class.", 7, 4821000),
    withdraw("Line 6 goes, and keeps its class.", 6),
    pen("A withdrawn line of no class.", PEN_IN_LINES, 6, "CLASS", 5),
    withdraw("It is tested like any other.", 3),
    pen("Mended.", PEN_IN_LINES, 6, "CLASS", 1),
    withdraw("Line 3 goes.", 3),
    resurvey("A survey of the corrected book into the kept report changes nothing."),
]


def number(x):
    return struct.pack(">HI", int(x < 0), abs(x))


def called(version, b, t, held, lines, report, kind, lent, line, difference):
    """The answer; lines and report are changed as the call changes them. Refusals by rising number."""
    number, place = refusal(version, b, t, held, lines)
    if number != 3 and kind == RERUN and abs(difference) > DIFFERENCE:
        number, place = 4, 0
    if number:
        return number, place, 0, 0
    before, _ = survey(b, t, lines)
    if kind == SURVEY:
        if lent < len(before):
            return 10, 0, 0, 0
    else:
        if not 1 <= line <= len(lines) or lines[line - 1][4] == 0:
            return 8, 0, 0, 0
        if report[:lent][: len(before)] != before:
            return 9, 0, 0, 0
        lines[line - 1][2 if kind == RERUN else 4] = difference
    rows, pieces = survey(b, t, lines)
    report[: len(before)] = rows + [0] * (len(before) - len(rows))
    return 0, 0, len(rows) // ROW, pieces


def change(sheet, names, place, was, now):
    return f"    {sheet} {place // len(names) + 1}: {names[place % len(names)]} {was} BECOMES {now}\n"


def row_words(row):
    if row[0] < 1:
        return ": EMPTY" + "".join(f" {x}" for x in row)
    words = ", ".join(f"{name} {x}" for name, x in zip(ROW_NAMES[:4], row))
    return f": {words}, {['WITHIN', 'OVER'][row[4]]}"


def flat(lines):
    return [x for l in lines for x in l]


def call_words(kind, a, line, difference, lines_were, lines, was, report):
    call = ["SURVEY", f"RE-RUN {line} TO {difference}", f"WITHDRAW {line}"][kind]
    text = f"  {call}: {'REFUSED' if a[0] else 'DONE'}, {a[0]} AT {a[1]}, ROWS {a[2]}, PIECES {a[3]}\n"
    changes = [change("LINE", LINE_NAMES, i, x, y) for i, (x, y) in enumerate(zip(lines_were, flat(lines))) if x != y]
    text += "".join(changes) or "    BOOK AS IT WAS\n"
    if a[0] and was == report:
        return text + "    REPORT AS IT WAS\n"
    for i in range(0, PLACES, ROW):
        text += f"    ROW {i // ROW + 1}" + row_words(report[i : i + ROW]) + ", AS IT WAS" * (was[i : i + ROW] == report[i : i + ROW]) + "\n"
    return text


def played(file, steps):
    text, held, lines, report = "", [], [], [UNTOUCHED] * PLACES
    for note, kind, lent, which, value in steps:
        text += note + "\n"
        if kind == READ:
            version, b, t, held, lines = opened(file)
            text += f"  READ: 0 AT 0, VERSION {version}, MARKS {b}, LINES {len(lines)}\n"
        elif kind == PEN_IN_HELD:
            text += change("HELD", HELD_NAMES, which, held[which], value)
            held[which] = value
        elif kind == PEN_IN_LINES:
            text += change("LINE", LINE_NAMES, which, lines[which // LINE][which % LINE], value)
            lines[which // LINE][which % LINE] = value
        elif kind == PEN_IN_REPORT:
            text += change("ROW", ROW_NAMES, which, report[which], value)
            report[which] = value
        else:
            lines_were, was = flat(lines), list(report)
            a = called(version, b, t, held, lines, report, kind, lent, which, value)
            text += call_words(kind, a, which, value, lines_were, lines, was, report)
    return text


def story(file, steps):
    """A story as the program reads it: how long its file and its steps are, the file, the steps."""
    taken = b"".join(struct.pack(">HHH", len(s[0]), s[1], s[2]) + number(s[3]) + number(s[4]) + s[0].encode() for s in steps)
    return struct.pack(">HH", len(file), len(taken)) + file + taken


def files():
    stories = [(WORKED, STEPS), (CLASSED, CLASSED_STEPS)]
    given = b"".join(story(*one) for one in stories)
    assert len(given) <= 16384, len(given)
    return {"crates/afternoon/stdin": given, "crates/afternoon/stdout": "".join(played(*one) for one in stories).encode()}


if __name__ == "__main__":
    stored.main(files())
