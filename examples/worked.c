/* Reads a book file, surveys it, runs line 6 again and withdraws line 3; then a book of version 2. examples/run builds and
 * runs this. */
#include "level.h"
#include <stdio.h>

enum { MARKS = 256, LINES = 512 };

static int64_t held[2 * MARKS], lines[6 * LINES], rows[5 * LINES];

static void print(const char *what, struct Answer a)
{
    printf("%s: number %lld, %lld loops\n", what, (long long)a.number, (long long)a.rows);
    for (int64_t i = 0; i < a.rows; i++) {
        const int64_t *row = rows + 5 * i;
        printf("  closing line %lld, %lld lines, %lld m, misclosure %lld, %s\n", (long long)row[0], (long long)row[1],
               (long long)row[2], (long long)row[3], row[4] == 0 ? "within" : "over");
    }
}

int main(int count, char **words)
{
    static uint8_t file[16384];
    FILE *from = count > 1 ? fopen(words[1], "rb") : NULL;
    if (from == NULL)
        return 2;
    size_t bytes = fread(file, 1, sizeof file, from);
    fclose(from);

    struct ReadAnswer r = level_read(file, bytes, held, 2 * MARKS, lines, 6 * LINES);
    printf("read: number %lld, version %lld, %lld marks, %lld lines\n", (long long)r.number, (long long)r.version,
           (long long)r.b, (long long)r.n);
    if (r.number != 0)
        return 1;
    size_t h = 2 * (size_t)r.h, n = 6 * (size_t)r.n;

    print("survey", level_survey(r.version, r.b, r.t, held, h, lines, n, rows, 5 * LINES));
    print("line 6 run again", level_rerun(r.version, r.b, r.t, held, h, lines, n, rows, 5 * LINES, 6, 2428000));
    print("line 3 withdrawn", level_withdraw(r.version, r.b, r.t, held, h, lines, n, rows, 5 * LINES, 3));
    print("line 3 once more", level_withdraw(r.version, r.b, r.t, held, h, lines, n, rows, 5 * LINES, 3));

    /* Version 2: t is 0, and the last number of a line is its class. Classes 0 and 4 allow 12649 here. */
    int64_t two[] = {1, 2, 0, 1000, 1, 0, 1, 2, 12649, 1000, 1, 4};
    print("classes 0 and 4", level_survey(2, 2, 0, held, 0, two, 12, rows, 5));
    print("line 2 run again", level_rerun(2, 2, 0, held, 0, two, 12, rows, 5, 2, 12650));
    return 0;
}
