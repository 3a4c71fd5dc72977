/* Times the proved library against plain C in one process, on the files that are named, after their answers were compared.
 *
 *   bench check FILE..              each file's printed answer, byte for byte; the last line: N the same
 *   bench rows FILE TURNS           shares of the rows of FILE: 27 numbers of a hull and four of each row, eight bytes each, low byte first
 *   bench files TURNS FILE..        whole files to their printed answers: a line for each file
 *   bench one WHO TIMES FILE        WHO (proved, plain, tabled, whole) on one file so many times and nothing else, for a count of instructions
 *
 * A turn runs the proved library, the plain C, the same with a span table and the same without a square root of the processor's one after the
 * other, each for a millisecond or more, so that a slow moment meets all of them. What is printed: the best and the middle of the turns of each. */
#define _POSIX_C_SOURCE 200809L
#include <stdint.h>
#include <stdio.h>
#include <stdlib.h>
#include <string.h>
#include <time.h>

enum { ROOM = 12569, LONGEST = 65536 + 8, MOST_TURNS = 1000, ALL = 4 }; /* more than a file may have is read, so that its length is known */

typedef size_t Report(const uint8_t *input, size_t size, uint8_t *out, size_t room);
typedef size_t Shares(const uint64_t *hull, size_t numbers, const uint64_t *rows, size_t fields, uint64_t *out, size_t room);

Report damindex_report, plain_report, tabled_report, whole_report;
Shares probe_shares, plain_shares, tabled_shares, whole_shares;

static const char *const names[ALL] = {"proved", "plain", "tabled", "whole"};
static Report *const reports[ALL] = {damindex_report, plain_report, tabled_report, whole_report};
static Shares *const shares[ALL] = {probe_shares, plain_shares, tabled_shares, whole_shares};

static void die(const char *what, const char *name) {
    fprintf(stderr, "bench: %s: %s\n", name, what);
    exit(1);
}

static size_t read_file(const char *name, uint8_t *to) {
    FILE *f = fopen(name, "rb");
    if (!f) die("cannot be read", name);
    size_t size = fread(to, 1, LONGEST, f);
    fclose(f);
    return size;
}

static double now(void) {
    struct timespec t;
    clock_gettime(CLOCK_MONOTONIC, &t);
    return 1e9 * (double)t.tv_sec + (double)t.tv_nsec;
}

static int rising(const void *a, const void *b) {
    double x = *(const double *)a, y = *(const double *)b;
    return (x > y) - (x < y);
}

/* The best and the middle of the turns. */
typedef struct { double best[ALL], middle[ALL]; } Times;

/* What is timed: one of them, so many times. */
typedef void Work(int who, long times, const void *what);

static Times timed(Work *work, const void *what, long turns) {
    static double all[ALL][MOST_TURNS];
    Times t;
    long times[ALL];
    for (int who = 0; who < ALL; who++) {
        double took = 0;
        for (times[who] = 1; took < 1e6; times[who] *= 2) {
            double from = now();
            work(who, times[who], what);
            took = now() - from;
        }
        times[who] /= 2;
    }
    for (long i = 0; i < turns; i++)
        for (int who = 0; who < ALL; who++) {
            double from = now();
            work(who, times[who], what);
            all[who][i] = (now() - from) / (double)times[who];
        }
    for (int who = 0; who < ALL; who++) {
        qsort(all[who], (size_t)turns, sizeof(double), rising);
        t.best[who] = all[who][0];
        t.middle[who] = all[who][turns / 2];
    }
    return t;
}

/* ---- whole files */

typedef struct { uint8_t bytes[LONGEST]; size_t size; } File;

static void report(int who, long times, const void *what) {
    const File *f = what;
    uint8_t out[ROOM];
    while (times-- > 0) reports[who](f->bytes, f->size, out, ROOM);
}

static void same_reports(const char *name, const File *f) {
    uint8_t out[ALL][ROOM];
    size_t size[ALL];
    for (int who = 0; who < ALL; who++) size[who] = reports[who](f->bytes, f->size, out[who], ROOM);
    for (int who = 1; who < ALL; who++)
        if (size[who] != size[0] || memcmp(out[who], out[0], size[0])) die("the answers differ", name);
}

static size_t rows_of(const File *f) {
    uint8_t out[ROOM];
    size_t size = damindex_report(f->bytes, f->size, out, ROOM);
    return size < 69 ? 0 : (size - 69) / 25;
}

static void files(long turns, int count, char **paths) {
    for (int i = 0; i < count; i++) {
        static File f;
        f.size = read_file(paths[i], f.bytes);
        same_reports(paths[i], &f);
        Times t = timed(report, &f, turns);
        printf("%s %zu %zu", paths[i], f.size, rows_of(&f));
        for (int who = 0; who < ALL; who++) printf(" %.0f %.0f", t.best[who], t.middle[who]);
        printf("\n");
        fflush(stdout);
    }
}

/* ---- shares of rows */

typedef struct { uint64_t numbers[LONGEST / 8]; size_t fields; } Rows;

static void share(int who, long times, const void *what) {
    const Rows *r = what;
    uint64_t out[LONGEST / 16];
    while (times-- > 0) shares[who](r->numbers, 27, r->numbers + 27, r->fields, out, LONGEST / 16);
}

static void rows(const char *name, long turns) {
    static Rows r;
    static uint64_t out[ALL][LONGEST / 16];
    r.fields = read_file(name, (uint8_t *)r.numbers) / 8 - 27;
    for (int who = 0; who < ALL; who++)
        if (shares[who](r.numbers, 27, r.numbers + 27, r.fields, out[who], LONGEST / 16) != r.fields / 4) die("not all rows were told", name);
    for (int who = 1; who < ALL; who++)
        if (memcmp(out[0], out[who], r.fields / 4 * 16)) die("the shares differ", name);
    Times t = timed(share, &r, turns);
    printf("%s %zu", name, r.fields / 4);
    for (int who = 0; who < ALL; who++) printf(" %.1f %.1f", t.best[who] / (double)(r.fields / 4), t.middle[who] / (double)(r.fields / 4));
    printf("\n");
}

int main(int count, char **words) {
    const char *mode = count > 1 ? words[1] : "";
    if (!strcmp(mode, "check")) {
        static File f;
        for (int i = 2; i < count; i++) {
            f.size = read_file(words[i], f.bytes);
            same_reports(words[i], &f);
        }
        printf("%d the same\n", count - 2);
        return 0;
    }
    if (!strcmp(mode, "rows") && count == 4) return rows(words[2], atol(words[3])), 0;
    if (!strcmp(mode, "files") && count > 3) return files(atol(words[2]), count - 3, words + 3), 0;
    if (!strcmp(mode, "one") && count == 5) {
        static File f;
        f.size = read_file(words[4], f.bytes);
        for (int who = 0; who < ALL; who++)
            if (!strcmp(words[2], names[who])) return report(who, atol(words[3]), &f), 0;
    }
    fprintf(stderr, "usage: bench check FILE.. | rows FILE TURNS | files TURNS FILE.. | one WHO TIMES FILE\n");
    return 2;
}
