/*
 * Calls the functions of liblevel.a for a program on another processor, which cannot link it.
 *
 * Reads requests on standard input and answers each on standard output. A request is twelve numbers
 * (the call, version, b, t, loop or line, difference, and the counts of six slices), then the slices: held,
 * lines, and those that are left in the order of the call, none to four of them; the others have no
 * elements. Of level_read and level_write the third is the file, in bytes; all else is int64. The answer is
 * twelve numbers (up to seven of the call's answer, 1 if the call touched nothing but its outputs, and four
 * zeros), then the slices as they are after the call.
 *
 * Every slice lies between guards, and those that are lent to be read are compared afterwards.
 */
#include "../../include/level.h"

/* Of the C library. */
extern long read(int, void *, unsigned long);
extern long write(int, const void *, unsigned long);
extern void *memcpy(void *, const void *, size_t);
extern int memcmp(const void *, const void *, size_t);
extern void *memset(void *, int, size_t);
extern void _exit(int);

/* An archive that has some of the calls can be linked too; those it has not must not be asked for. */
#pragma weak level_read
#pragma weak level_write
#pragma weak level_survey
#pragma weak level_listing
#pragma weak level_listings
#pragma weak level_not_checked
#pragma weak level_sketch
#pragma weak level_rerun
#pragma weak level_withdraw
#pragma weak level_adjust
#pragma weak level_rate

enum { READ, WRITE, SURVEY, LISTING, LISTINGS, NOT_CHECKED, SKETCH, RERUN, WITHDRAW, ADJUST, RATE };
enum { HELD, LINES, THIRD, FOURTH, FIFTH, SIXTH, SLICES };
/* Where the counts of the slices begin in a request, how many numbers a request or an answer has, and where in an
 * answer the 1 is. */
enum { COUNTS = 6, HEAD = COUNTS + SLICES, UNTOUCHED = 7 };
enum { GUARD = 64, MOST = 1 << 20, CANARY = 0xA5 };

/* A slice in bytes, between its guards, and as it was lent. */
static unsigned char room[SLICES][GUARD + MOST + GUARD] __attribute__((aligned(64)));
static unsigned char lent[SLICES][MOST];
static size_t bytes[SLICES];

static void get(void *into, size_t count)
{
    unsigned char *at = into;
    while (count > 0) {
        long got = read(0, at, count);
        if (got <= 0)
            _exit(got < 0);
        at += got;
        count -= (size_t)got;
    }
}

static void put(const void *from, size_t count)
{
    const unsigned char *at = from;
    while (count > 0) {
        long put = write(1, at, count);
        if (put <= 0)
            _exit(1);
        at += put;
        count -= (size_t)put;
    }
}

static int64_t *slice(int i)
{
    return (int64_t *)(void *)(room[i] + GUARD);
}

/* The bytes of one element of a slice. */
static size_t size_in(int64_t call, int i)
{
    return i == THIRD && (call == READ || call == WRITE) ? 1 : sizeof(int64_t);
}

/* Takes a slice in, between guards. */
static void take(int i, int64_t count, size_t size)
{
    if (count < 0 || (size_t)count > MOST / size)
        _exit(2);
    bytes[i] = (size_t)count * size;
    memset(room[i], CANARY, GUARD + bytes[i] + GUARD);
    get(slice(i), bytes[i]);
    memcpy(lent[i], slice(i), bytes[i]);
}

static int guarded(int i)
{
    const unsigned char *after = room[i] + GUARD + bytes[i];
    for (int k = 0; k < GUARD; k++)
        if (room[i][k] != CANARY || after[k] != CANARY)
            return 0;
    return 1;
}

static int unchanged(int i)
{
    return memcmp(slice(i), lent[i], bytes[i]) == 0;
}

/* Whether a call may write a slice. */
static int is_output(int64_t call, int i)
{
    switch (call) {
    case READ:
        return i < THIRD;
    case RERUN:
    case WITHDRAW:
        return i != HELD;
    case RATE:
        return 0;
    default:
        return i >= THIRD;
    }
}

static void sketch(const int64_t *q, int64_t *a)
{
    size_t n[SLICES];
    for (int i = 0; i < SLICES; i++)
        n[i] = (size_t)q[COUNTS + i];
    struct Sketched r = level_sketch(q[1], q[2], q[3], slice(HELD), n[HELD], slice(LINES), n[LINES],
                                     slice(THIRD), n[THIRD], slice(FOURTH), n[FOURTH],
                                     slice(FIFTH), n[FIFTH], slice(SIXTH), n[SIXTH]);
    a[0] = r.number, a[1] = r.place, a[2] = r.links, a[3] = r.spurs, a[4] = r.loops, a[5] = r.run;
}

/* Makes a call; its answer goes to a. */
static void make(const int64_t *q, int64_t *a)
{
    int64_t call = q[0], version = q[1], b = q[2], t = q[3], number = q[4], difference = q[5];
    int64_t *held = slice(HELD), *lines = slice(LINES), *third = slice(THIRD);
    size_t h = (size_t)q[COUNTS], l = (size_t)q[COUNTS + 1], n = (size_t)q[COUNTS + 2];
    switch (call) {
    case READ: {
        struct ReadAnswer r = level_read(room[THIRD] + GUARD, n, held, h, lines, l);
        a[0] = r.number, a[1] = r.place, a[2] = r.version;
        a[3] = r.b, a[4] = r.t, a[5] = r.h, a[6] = r.n;
        break;
    }
    case WRITE: {
        struct Written r = level_write(version, b, t, held, h, lines, l, room[THIRD] + GUARD, n);
        a[0] = r.number, a[1] = r.place, a[2] = r.bytes;
        break;
    }
    case SURVEY:
    case RERUN:
    case WITHDRAW: {
        struct Answer r =
            call == SURVEY  ? level_survey(version, b, t, held, h, lines, l, third, n)
            : call == RERUN ? level_rerun(version, b, t, held, h, lines, l, third, n, number, difference)
                            : level_withdraw(version, b, t, held, h, lines, l, third, n, number);
        a[0] = r.number, a[1] = r.place, a[2] = r.rows, a[3] = r.pieces;
        break;
    }
    case LISTING:
    case LISTINGS:
    case NOT_CHECKED: {
        struct Listed r =
            call == LISTING    ? level_listing(version, b, t, held, h, lines, l, number, third, n)
            : call == LISTINGS ? level_listings(version, b, t, held, h, lines, l, third, n)
                               : level_not_checked(version, b, t, held, h, lines, l, third, n);
        a[0] = r.number, a[1] = r.place, a[2] = r.entries;
        break;
    }
    case SKETCH:
        sketch(q, a);
        break;
    case ADJUST: {
        struct Adjusted r = level_adjust(version, b, t, held, h, lines, l, third, n);
        a[0] = r.number, a[1] = r.place, a[2] = r.sweeps;
        break;
    }
    case RATE: {
        struct Rated r = level_rate(version, b, t, held, h, lines, l, third, n, number);
        a[0] = r.number, a[1] = r.place, a[2] = r.line, a[3] = r.correction, a[4] = r.withdrawn;
        memcpy(&a[5], &r.rate, sizeof r.rate);
        break;
    }
    default:
        _exit(2);
    }
}

int main(void)
{
    for (;;) {
        int64_t request[HEAD], answer[HEAD] = {0};
        get(request, sizeof request);
        for (int i = 0; i < SLICES; i++)
            take(i, request[COUNTS + i], size_in(request[0], i));
        make(request, answer);
        answer[UNTOUCHED] = 1;
        for (int i = 0; i < SLICES; i++)
            if (!guarded(i) || (!is_output(request[0], i) && !unchanged(i)))
                answer[UNTOUCHED] = 0;
        put(answer, sizeof answer);
        for (int i = 0; i < SLICES; i++)
            put(slice(i), bytes[i]);
    }
}
