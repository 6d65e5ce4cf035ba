/*
 * level.h: level-network reduction, the calls of liblevel.a.
 *
 * The archive has the calls that are declared here. docs/PROMISES.md says what is proved of each.
 *
 * THE BOOK
 *
 * A level book has b marks, numbered 1 to b, a tolerance t, held marks and lines. Heights,
 * differences and misclosures are whole micrometres, lengths are whole metres, tolerances are in tenths
 * of a millimetre per root kilometre.
 *
 *   lines   six numbers to a line, one line after the other: from, to, difference, length, standing,
 *           class. A line was run from its from mark to its to mark and rose by its difference. Standing
 *           is 1, or 0 once the line is withdrawn. Lines are numbered from 1 as they lie in the slice,
 *           and a withdrawn line keeps its place and number.
 *   held    two numbers to an entry: mark, height. These marks are not moved by an adjustment.
 *   rows    five numbers to a loop, the report: closing line, count of lines, length, misclosure,
 *           verdict (0 within the allowable, 1 over). With misclosure m a loop is within exactly if
 *           m*m is at most 10 times the sum over its lines of T*T*L, T being the line's tolerance and L
 *           the larger of its length and 250; the row's length is the sum of the lengths as they are.
 *
 * A book has a version, 1 or 2, which level_read answers and every other call is told first. In version
 * 1 every line has the tolerance t, and its class is -1. In version 2 t is 0, and a line has the
 * tolerance of its class:
 *
 *   class        0    1    2    3    4
 *   tolerance   40   50   60   80  120
 *
 *   marks b     1 to 256            difference  -100,000,000 to 100,000,000
 *   lines       0 to 512            length      10 to 100,000
 *   held marks  0 to 256            held height -10^10 to 10^10
 *   tolerance t 1 to 1,000, or 0    any height  -5*10^10 to 5*10^10
 *               in version 2
 *
 * SLICES
 *
 * A slice is a pointer and, after it, the count of its elements (numbers, not lines or bytes; of a file,
 * bytes). Slices that are lent to one call must not overlap. Nothing is kept of them after the call, and
 * no memory is taken or given back. An output may be longer than its answer needs: the places after the
 * answer stay as they were.
 *
 * ANSWERS
 *
 * Every answer begins with a number and a place. Number 0: done, and the place is 0. Any other number is
 * a refusal: the other numbers of the answer are 0 and no lent slice has changed. Where several apply,
 * the lowest is given, except that 16 comes before 10, and of 12 and 13 the one that comes first in the
 * sweeps.
 *
 *    1  the file has fewer than 13 bytes
 *    2  the length that the file states is not its length
 *    3  the version is not 1 or 2
 *    4  b, t, the count of held marks or of lines, or a new difference is outside its limit (in version
 *       2, t is not 0); held or lines are not whole entries; the heights lent to level_rate are not b in
 *       number
 *    5  the file's length does not fit its version and its counts of held marks and lines
 *    6  a held entry: mark not 1 to b, height outside, or mark held by an earlier entry; the place is
 *       the first such entry
 *    7  a line: an end not 1 to b, ends equal, difference or length outside, standing not 0 or 1, class
 *       not 0 to 4 in version 2 or not -1 in version 1; the place is the first such line
 *    8  there is no such line or loop; in level_rerun and level_withdraw also: the line is withdrawn
 *    9  the lent report is shorter than the book's rows or differs from them
 *   10  an output is too short for the whole answer
 *   11  level_adjust: a piece of the network has no held mark; the place is its lowest mark, of the
 *       first such piece
 *   12  level_adjust: the 10,000th sweep still moved a mark
 *   13  a height is outside its limit; the place is the mark
 *   16  level_write: a line of a version 1 book is withdrawn, which a version 1 file cannot say
 */
#ifndef LEVEL_H
#define LEVEL_H

#include <stddef.h>
#include <stdint.h>

#ifdef __cplusplus
extern "C" {
#endif

/* What level_read answers: version, marks b, tolerance t, held entries h and lines n of the book. */
struct ReadAnswer {
    int64_t number, place;
    int64_t version, b, t, h, n;
};

/* What level_write answers: how many bytes the file has. */
struct Written {
    int64_t number, place;
    int64_t bytes;
};

/* What a survey or a correction answers: rows of the report and pieces of the network. A piece is a
 * set of marks joined by standing lines; a mark without lines is a piece. */
struct Answer {
    int64_t number, place;
    int64_t rows, pieces;
};

/* What a listing answers: how many entries it has. */
struct Listed {
    int64_t number, place;
    int64_t entries;
};

/* What the sketch answers: how many links, spurs and loops there are, and how many numbers run has: as
 * many as lines stand. */
struct Sketched {
    int64_t number, place;
    int64_t links, spurs, loops, run;
};

/* What the adjustment answers: how many sweeps it took, the last one, that moved nothing, too. */
struct Adjusted {
    int64_t number, place;
    int64_t sweeps;
};

/* What level_rate answers: the line, its correction in micrometres and its rate in millimetres per
 * kilometre; or, of a withdrawn line, withdrawn is 1 and correction and rate are 0. */
struct Rated {
    int64_t number, place;
    int64_t line, correction, withdrawn;
    double rate;
};

/* Reads a book file into held (2*h numbers) and lines (6*n numbers). A file of version 1 cannot say that
 * a line is withdrawn: all of its lines stand. */
struct ReadAnswer level_read(const uint8_t *file, size_t file_bytes,
                             int64_t *held, size_t held_count,
                             int64_t *lines, size_t lines_count);

/* Writes the book as a file, from which level_read reads the same book; a book that was read is written
 * with the same bytes. With h held entries and n lines the file has 13 + 10*h + 12*n bytes, in version 2
 * 13 + 10*h + 14*n: 8,717 are enough for every book of version 1, and 9,741 for every book. */
struct Written level_write(int64_t version, int64_t b, int64_t t,
                           const int64_t *held, size_t held_count,
                           const int64_t *lines, size_t lines_count,
                           uint8_t *file, size_t file_bytes);

/* The loop survey: finds the loops of the book and fills rows, five numbers to a loop. There are as
 * many loops as standing lines, less marks, plus pieces. */
struct Answer level_survey(int64_t version, int64_t b, int64_t t,
                           const int64_t *held, size_t held_count,
                           const int64_t *lines, size_t lines_count,
                           int64_t *rows, size_t rows_count);

/* Lists the lines of one loop, named by its row from 1: the closing line first, then the others in the
 * order in which the loop runs them. A line run from its to to its from is negative. */
struct Listed level_listing(int64_t version, int64_t b, int64_t t,
                            const int64_t *held, size_t held_count,
                            const int64_t *lines, size_t lines_count,
                            int64_t loop,
                            int64_t *out, size_t out_count);

/* Lists the lines of all loops, one loop after the other, each as level_listing lists it. The count of a
 * loop's lines is the second number of its row; a book has at most 65,792 of them in all. */
struct Listed level_listings(int64_t version, int64_t b, int64_t t,
                             const int64_t *held, size_t held_count,
                             const int64_t *lines, size_t lines_count,
                             int64_t *out, size_t out_count);

/* Lists the standing lines that no loop checks, by rising number. */
struct Listed level_not_checked(int64_t version, int64_t b, int64_t t,
                                const int64_t *held, size_t held_count,
                                const int64_t *lines, size_t lines_count,
                                int64_t *out, size_t out_count);

/* The junction sketch: the network as links between its junctions, with the spurs and loops that come off
 * before. Every standing line begins as a link of its own, and steps are taken until none is left, each
 * the first there is: the link of the lowest mark with one link end comes off as a spur; else the link
 * of lowest line that runs from a mark to itself, two ends there, comes off as a loop; else the two links
 * at the lowest mark with two link ends become one.
 *
 *   links   what remains, by lowest line, each read from its lower junction to its higher.
 *   spurs   in the order in which they came off, each read from the mark that had one link end.
 *   loops   in the order in which they came off, each begun with its lowest line, run forward. That line
 *           need not start at the mark at which the loop hangs.
 *   run     the line numbers of all links, then of all spurs, then of all loops, in the order of these
 *           lists. A line run from its to to its from is negative. Each standing line is there once.
 *
 * Links, spurs and loops have five numbers to an entry: first mark, last mark, count of lines, length,
 * difference from the first mark to the last. Of a loop both marks are the one at which it hangs, and
 * the difference is its misclosure. Each has a line, so that there are no more of them in all than lines
 * stand. */
struct Sketched level_sketch(int64_t version, int64_t b, int64_t t,
                             const int64_t *held, size_t held_count,
                             const int64_t *lines, size_t lines_count,
                             int64_t *links, size_t links_count,
                             int64_t *spurs, size_t spurs_count,
                             int64_t *loops, size_t loops_count,
                             int64_t *run, size_t run_count);

/* A line was run again: sets its difference in lines, and makes the report, which must be that of the
 * book as it was lent, the report of the corrected book. */
struct Answer level_rerun(int64_t version, int64_t b, int64_t t,
                          const int64_t *held, size_t held_count,
                          int64_t *lines, size_t lines_count,
                          int64_t *report, size_t report_count,
                          int64_t line, int64_t difference);

/* Withdraws a line: sets its standing in lines to 0, and makes the report, which must be that of the
 * book as it was lent, the report of the corrected book. If there is one loop fewer, the row that
 * was the last becomes zeros. */
struct Answer level_withdraw(int64_t version, int64_t b, int64_t t,
                             const int64_t *held, size_t held_count,
                             int64_t *lines, size_t lines_count,
                             int64_t *report, size_t report_count,
                             int64_t line);

/* Adjusts the network to its held marks, each line weighted by 1,000,000 divided by its length, and
 * fills heights with the heights of marks 1 to b. */
struct Adjusted level_adjust(int64_t version, int64_t b, int64_t t,
                             const int64_t *held, size_t held_count,
                             const int64_t *lines, size_t lines_count,
                             int64_t *heights, size_t heights_count);

/* The correction rate of one line by these heights of marks 1 to b: adjusted less observed difference,
 * divided by the length. */
struct Rated level_rate(int64_t version, int64_t b, int64_t t,
                        const int64_t *held, size_t held_count,
                        const int64_t *lines, size_t lines_count,
                        const int64_t *heights, size_t heights_count,
                        int64_t line);

#ifdef __cplusplus
}
#endif

#endif
