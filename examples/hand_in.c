/* Corrects a book and hands it in: reads a book file of version 2, runs line 3 again, withdraws line 6, writes the corrected book as a
 * new file and reads that. Then a withdrawn line in a book of version 1. examples/run builds and runs this:
 *     hand_in three_classes.book corrected.book */
#include "level.h"
#include <stdio.h>
#include <string.h>

enum { MARKS = 256, LINES = 512, MOST_BYTES = 9741 };

struct Book {
    struct ReadAnswer head;
    int64_t held[2 * MARKS], lines[6 * LINES];
};

/* Both are zeros past their entries, so that the same books have the same bytes. */
static struct Book book, again;
static int64_t rows[5 * LINES];
/* One place more than a file has, so that a longer one is seen. */
static uint8_t file[MOST_BYTES + 1];

static void print(const char *what, struct Answer a)
{
    printf("%s: number %lld, %lld loops\n", what, (long long)a.number, (long long)a.rows);
    for (int64_t i = 0; i < a.rows; i++) {
        const int64_t *row = rows + 5 * i;
        printf("  closing line %lld, %lld lines, %lld m, misclosure %lld, %s\n", (long long)row[0], (long long)row[1],
               (long long)row[2], (long long)row[3], row[4] == 0 ? "within" : "over");
    }
}

static void print_written(const char *what, struct Written w)
{
    printf("%s: number %lld, %lld bytes\n", what, (long long)w.number, (long long)w.bytes);
}

/* A file that cannot be opened is read as one without bytes: number 1. */
static void read_book(const char *what, const char *path, struct Book *k)
{
    FILE *from = fopen(path, "rb");
    size_t bytes = from == NULL ? 0 : fread(file, 1, sizeof file, from);
    if (from != NULL)
        fclose(from);
    k->head = level_read(file, bytes, k->held, 2 * MARKS, k->lines, 6 * LINES);
    printf("%s: number %lld, version %lld, %lld marks, %lld lines\n", what, (long long)k->head.number,
           (long long)k->head.version, (long long)k->head.b, (long long)k->head.n);
}

static int save(const char *path, size_t bytes)
{
    FILE *to = fopen(path, "wb");
    if (to == NULL)
        return 0;
    size_t saved = fwrite(file, 1, bytes, to);
    return fclose(to) == 0 && saved == bytes;
}

/* Either version of one book of two lines, the second of them withdrawn. Version 1 cannot say so, which is refusal 16. Class 4 has
 * the tolerance that t was. */
static void write_either(void)
{
    int64_t lines[] = {1, 2, 1000000, 800, 1, -1, 2, 1, -1900000, 900, 0, -1};
    print_written("withdrawn in version 1", level_write(1, 2, 120, book.held, 0, lines, 12, file, sizeof file));
    lines[5] = lines[11] = 4;
    print_written("withdrawn in version 2", level_write(2, 2, 0, book.held, 0, lines, 12, file, sizeof file));
}

int main(int count, char **words)
{
    if (count != 3)
        return 2;
    read_book("read", words[1], &book);
    if (book.head.number != 0)
        return 1;
    int64_t version = book.head.version, b = book.head.b, t = book.head.t;
    size_t h = 2 * (size_t)book.head.h, n = 6 * (size_t)book.head.n;

    print("survey", level_survey(version, b, t, book.held, h, book.lines, n, rows, 5 * LINES));
    print("line 3 run again", level_rerun(version, b, t, book.held, h, book.lines, n, rows, 5 * LINES, 3, -1194600));
    print("line 6 withdrawn", level_withdraw(version, b, t, book.held, h, book.lines, n, rows, 5 * LINES, 6));

    struct Written w = level_write(version, b, t, book.held, h, book.lines, n, file, sizeof file);
    print_written("written", w);
    if (w.number != 0 || !save(words[2], (size_t)w.bytes))
        return 1;
    print_written("one byte too few", level_write(version, b, t, book.held, h, book.lines, n, file, (size_t)w.bytes - 1));

    read_book("read again", words[2], &again);
    puts(memcmp(&again, &book, sizeof book) == 0 ? "  the corrected book" : "  another book");
    print("survey", level_survey(version, b, t, again.held, h, again.lines, n, rows, 5 * LINES));

    write_either();
    return 0;
}
