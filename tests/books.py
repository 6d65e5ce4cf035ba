#!/usr/bin/env python3
"""Writes the book files of books/ from the tables below. Run it after a change of the tables; --check only compares."""
import stored
from reader_cases import WORKED_LINES, book, classed_book, classed_line, held, line


def file_of(tolerance, marks, heights, lines):
    return book(marks, tolerance, [held(*h) for h in heights], [line(*l) for l in lines])


def classed_file_of(marks, heights, lines):
    return classed_book(marks, [held(*h) for h in heights], [classed_line(*l) for l in lines])


# Each line is from, to, difference in micrometres, length in metres; in a version 2 book class and standing too.

# Six marks, seven equal links: two squares side by side, 1-2-5-4 and 2-3-6-5.
FIGURE = [
    (1, 2, 1_000_000, 1000),
    (2, 3, -400_000, 1000),
    (4, 5, 700_000, 1000),
    (5, 6, 100_000, 1000),
    (1, 4, 250_000, 1000),
    (2, 5, -51_000, 1000),
    (3, 6, 452_000, 1000),
]

# The network in the text of the Memorandum's part 1, its letters in alphabetical order (there is no I and no O) as marks 1 to 16: the two
# marks of each line.
LETTERS = "ABCDEFGHJKLMNPQR"
NETWORK = [
    tuple(LETTERS.index(letter) + 1 for letter in ends)
    for ends in "AE EB BC CG GD DA AF FC BD FH HJ JK KH KL LM MN NP PM PQ QR".split()
]

# A checked triangle, and a line out past its last junction to three final marks.
PAST_THE_LAST_JUNCTION = [
    (1, 2, 1_204_000, 800),
    (2, 3, -310_500, 650),
    (3, 1, -893_000, 900),
    (3, 4, 2_015_000, 1200),
    (4, 5, 480_000, 400),
    (4, 6, -1_090_000, 1500),
    (6, 7, 75_000, 300),
]

# A ring of three and a ring of two, with no line between them.
TWO_PIECES = [
    (1, 2, 500_000, 700),
    (4, 5, 812_000, 1100),
    (2, 3, 250_000, 400),
    (5, 4, -811_000, 1100),
    (3, 1, -749_000, 900),
]

# Four lines from one mark to another, each closing on the shortest before it.
PARALLEL = [
    (1, 2, 1_000_000, 500),
    (1, 2, 1_001_000, 400),
    (2, 1, -1_000_500, 400),
    (1, 2, 1_050_000, 600),
]

# Version 2. A triangle of class 0 and beside it a ring with lines of classes 2 and 4: 9 mm are over in the triangle, 15 mm within in the
# ring, and no one tolerance judges both so. Line 8, misread by a metre, is withdrawn, and no circuit passes line 7.
THREE_CLASSES = [
    (1, 2, 2_315_400, 1240, 0, 1),
    (2, 3, -1_120_300, 1510, 0, 1),
    (3, 1, -1_186_100, 1250, 0, 1),
    (3, 4, 846_200, 900, 2, 1),
    (4, 5, -431_500, 820, 4, 1),
    (5, 2, 720_600, 680, 4, 1),
    (5, 6, 1_064_000, 540, 2, 1),
    (6, 4, 367_800, 610, 4, 0),
]

BOOKS = {
    "worked": file_of(120, 5, [(1, 100_000_000)], WORKED_LINES),
    "memorandum_figure": file_of(40, 6, [(1, 0)], FIGURE),
    "memorandum_network": file_of(40, 16, [(1, 0)], [(*ends, 0, 100) for ends in NETWORK]),
    "past_the_last_junction": file_of(80, 7, [(1, 52_310_000)], PAST_THE_LAST_JUNCTION),
    "two_pieces": file_of(40, 5, [(1, 0), (4, 10_000_000)], TWO_PIECES),
    "parallel_lines": file_of(40, 2, [(1, 0)], PARALLEL),
    "three_classes": classed_file_of(6, [(1, 250_000_000)], THREE_CLASSES),
    # the worked network with line 3 run from mark 5 to itself
    "damaged": file_of(120, 5, [(1, 100_000_000)], WORKED_LINES[:2] + [(5, 5, 3_060_000, 1000)] + WORKED_LINES[3:]),
}


if __name__ == "__main__":
    stored.main({f"books/{name}.book": file for name, file in BOOKS.items()})
