#!/usr/bin/env python3
"""Measures `dovranis_draw` of the proved library beside `baseline_draw` of baseline.c, an unverified program written for speed: the call alone.

  measure.py [WORD..]              a line for each list whose name has all the words: instructions and time of both, and the ratios
  measure.py --markdown [WORD..]   the same as a table for docs/PERFORMANCE.md
  measure.py --quoted [WORD..]     as a table: instructions of both, without a discount and with one (`dovranis_draw_quoted`), and what a cable's price takes
  measure.py --spaced [WORD..]     as a table: instructions of both, on the grid and in a spacing (`dovranis_draw_spaced`), and what a spot on the sheet takes
  measure.py --editor [WORD..]     as a table: instructions of `dovranis_propose` and `dovranis_commit` and of their like in baseline.c, on
                                   rows of 256 and of 512 parts
  measure.py --canonical [WORD..]  as a table: instructions of `dovranis_canonicalize` and of its like in baseline.c
  measure.py --levels [WORD..]     as a table: instructions of `dovranis_levels` and of its like in baseline.c, and of these what checks 1 to 10 and
                                   the order do not take
  measure.py --sheets [WORD..]     as a table: instructions and time of `dovranis_check_sheet` and of its like in baseline.c, on our own sheets, on the
                                   grid and spaced by 8, and on refused ones; of the instructions also what checks 1 to 10 do not take
  measure.py --long-sheets [WORD..]
                                   as a table: seconds of the same on sheets of two million words, one call each
  measure.py --marks [WORD..]      as a table: instructions of `dovranis_locate`, `dovranis_cable_words` and
                                   `dovranis_cable_bounds` and of their like in baseline.c, on our own sheets, on the
                                   grid and spaced by 8; and what of them is the judging of the sheet
  measure.py --functions [WORD..]  where the instructions go, on stations of 512 parts
  measure.py --passes [WORD..]     instructions on stations of 512 parts, with baseline.c in its simpler form too: a depth-first pass at
                                   each rank
  measure.py --stack               as a table: the most bytes of stack that each call takes, and the like in baseline.c, on the stations and
                                   rows of 256 to 512 parts that lists.py names
  measure.py --program             instructions of the program crates/sheet/out/sheet (made by `rt run` in crates/sheet) and of baseline.c as a program
  --parts N                        with --functions or --passes: stations of N parts
  --archive FILE                   takes this archive, and neither proves nor builds one; it may be without `dovranis_draw_quoted`, but for --quoted, without
                                   `dovranis_draw_spaced` and `dovranis_draw_quoted_spaced`, but for --spaced, without `dovranis_propose` and
                                   `dovranis_commit`, but for --editor, without `dovranis_canonicalize`, but for --canonical, without
                                   `dovranis_levels`, but for --levels, without `dovranis_check_sheet`, but for --sheets and --long-sheets, and without
                                   `dovranis_locate`, `dovranis_cable_words` and `dovranis_cable_bounds`, but for
                                   --marks; for --stack it has all of them

It needs cc, nm, objdump and valgrind. Instructions are callgrind's, of one call and all that it calls. Time is the best of many rounds, a round being
as many calls as take 20 microseconds; the two have four rounds each in turn. Both answers are compared. It is no part of the gate."""
import math
import os
import random
import re
import subprocess
import sys
import tempfile

import door
import lists
import marks
import reference
import sheets

HERE = os.path.dirname(os.path.abspath(__file__))
PROGRAM = os.path.join(door.TOP, 'crates', 'sheet', 'out', 'sheet')
ROOM = 8192                     # words of output, more than any sheet has
DISCOUNT = 1250
SPACING = 7, 6, 20              # column pitch, row pitch, margin: every station here fits
MOST_PITCH = 8                  # of both, for a sheet to check
SWEEPS, SECONDS = 10, 0.1       # over all lists, so that a busy minute of the machine spoils no list's best; for one list in a sweep, both calls together

DRIVER = r'''
#include <stdio.h>
#include <stdlib.h>
#include <string.h>
#include <time.h>
#include "dovranis.h"

typedef uint32_t plain(const uint32_t *, size_t, uint32_t *, size_t, size_t *, size_t *, size_t *);
typedef uint32_t quoted(const uint32_t *, size_t, uint32_t *, size_t, uint32_t, size_t *, size_t *, size_t *);
typedef uint32_t spaced(const uint32_t *, size_t, uint32_t *, size_t, uint32_t, uint32_t, uint32_t, size_t *, size_t *, size_t *);
typedef uint32_t quoted_spaced(const uint32_t *, size_t, uint32_t *, size_t, uint32_t, uint32_t, uint32_t, uint32_t, size_t *, size_t *, size_t *);
plain baseline_draw;
quoted baseline_draw_quoted;
spaced baseline_draw_spaced;
quoted_spaced baseline_draw_quoted_spaced;

struct answer { uint32_t result, sheet[8192]; size_t words, crossings, place; };

static uint32_t *list, discount, columns, rows, margin;
static size_t count, room;

typedef void call(struct answer *);

static void ask(plain *draw, struct answer *a) { a->result = draw(list, count, a->sheet, room, &a->words, &a->crossings, &a->place); }
static void ask_quoted(quoted *draw, struct answer *a) { a->result = draw(list, count, a->sheet, room, discount, &a->words, &a->crossings, &a->place); }
static void ask_spaced(spaced *draw, struct answer *a) { a->result = draw(list, count, a->sheet, room, columns, rows, margin, &a->words, &a->crossings, &a->place); }
static void ask_quoted_spaced(quoted_spaced *draw, struct answer *a) { a->result = draw(list, count, a->sheet, room, discount, columns, rows, margin, &a->words, &a->crossings, &a->place); }

static void ours_plain(struct answer *a) { ask(dovranis_draw, a); }
static void theirs_plain(struct answer *a) { ask(baseline_draw, a); }
static void theirs_quoted(struct answer *a) { ask_quoted(baseline_draw_quoted, a); }
static void theirs_spaced(struct answer *a) { ask_spaced(baseline_draw_spaced, a); }
static void theirs_quoted_spaced(struct answer *a) { ask_quoted_spaced(baseline_draw_quoted_spaced, a); }
#ifdef QUOTED
static void ours_quoted(struct answer *a) { ask_quoted(dovranis_draw_quoted, a); }
#else
#define ours_quoted NULL
#endif
#ifdef SPACED
static void ours_spaced(struct answer *a) { ask_spaced(dovranis_draw_spaced, a); }
static void ours_quoted_spaced(struct answer *a) { ask_quoted_spaced(dovranis_draw_quoted_spaced, a); }
#else
#define ours_spaced NULL
#define ours_quoted_spaced NULL
#endif

static double now(void) {
    struct timespec t;
    clock_gettime(CLOCK_MONOTONIC, &t);
    return t.tv_sec + 1e-9 * t.tv_nsec;
}

static double seconds(call *draw, long calls) {
    static struct answer a;
    double from = now();
    for (long k = 0; k < calls; k++) draw(&a);
    return now() - from;
}

static long calls_of_a_round(call *draw) {
    long calls = 1;
    while (seconds(draw, calls) < 2e-5) calls *= 2;
    return calls;
}

static uint32_t number(const char *text) { return strtoul(text, NULL, 10); }

/* FILE ROOM ours|baseline|SECONDS [DISCOUNT] [COLUMN_PITCH ROW_PITCH MARGIN] */
int main(int argc, char **argv) {
    static struct answer ours, theirs;
    if (argc != 4 && argc != 5 && argc != 7 && argc != 8) return 2;
    FILE *f = fopen(argv[1], "rb");
    fseek(f, 0, SEEK_END);
    count = ftell(f) / 4;
    rewind(f);
    list = malloc(4 * count + 4);
    if (fread(list, 4, count, f) != count) return 2;
    room = atol(argv[2]);
    int with_discount = argc == 5 || argc == 8, with_spacing = argc > 5;
    call *all[2][2][2] = {{{ours_plain, theirs_plain}, {ours_spaced, theirs_spaced}}, {{ours_quoted, theirs_quoted}, {ours_quoted_spaced, theirs_quoted_spaced}}};
    call **draws = all[with_discount][with_spacing];
    if (with_discount) discount = number(argv[4]);
    if (with_spacing) {
        columns = number(argv[argc - 3]);
        rows = number(argv[argc - 2]);
        margin = number(argv[argc - 1]);
    }
    if (!strcmp(argv[3], "ours")) { draws[0](&ours); return 0; }
    if (!strcmp(argv[3], "baseline")) { draws[1](&theirs); return 0; }
    draws[0](&ours);
    draws[1](&theirs);
    double best[2] = {1, 1}, until = now() + atof(argv[3]);
    long calls[2] = {calls_of_a_round(draws[0]), calls_of_a_round(draws[1])};
    for (long turns = 0; turns < 4 || now() < until; turns++)
        for (int i = 0; i < 2; i++)
            for (int round = 0; round < 4; round++) {
                double took = seconds(draws[i], calls[i]) / calls[i];
                if (took < best[i]) best[i] = took;
            }
    printf("%d %u %zu %.4g %.4g\n", memcmp(&ours, &theirs, sizeof ours) == 0, ours.result, ours.result ? ours.place : ours.words, best[0], best[1]);
    return 0;
}
'''

EDITOR_DRIVER = r'''
#include <stdio.h>
#include <stdlib.h>
#include <string.h>
#include "dovranis.h"

typedef uint32_t propose(const uint32_t *, size_t, uint32_t, uint32_t, uint32_t *, size_t *);
typedef uint32_t commit(uint32_t *, size_t, struct dovranis_proposal, size_t *);
propose baseline_propose;
commit baseline_commit;

struct answer { uint32_t result, version, row[2048]; size_t place; };

/* FILE propose|commit ours|baseline|both ONE OTHER VERSION */
int main(int argc, char **argv) {
    static struct answer answers[2];
    if (argc != 7) return 2;
    struct dovranis_proposal p = {strtoul(argv[4], NULL, 10), strtoul(argv[5], NULL, 10), strtoul(argv[6], NULL, 10)};
    FILE *f = fopen(argv[1], "rb");
    size_t count = fread(answers[0].row, 4, 2048, f);
    memcpy(answers[1].row, answers[0].row, sizeof answers[0].row);
    for (int i = 0; i < 2; i++) {
        struct answer *a = &answers[i];
        if (!strcmp(argv[3], i ? "ours" : "baseline")) continue;
        if (!strcmp(argv[2], "propose")) a->result = (i ? baseline_propose : dovranis_propose)(a->row, count, p.one, p.other, &a->version, &a->place);
        else a->result = (i ? baseline_commit : dovranis_commit)(a->row, count, p, &a->place);
    }
    printf("%d %u\n", memcmp(&answers[0], &answers[1], sizeof answers[0]) == 0, answers[0].result);
    return 0;
}
'''

CANONICAL_DRIVER = r'''
#include <stdio.h>
#include <stdlib.h>
#include <string.h>
#include "dovranis.h"

uint32_t baseline_canonicalize(const uint32_t *, size_t, uint32_t *, size_t, size_t *, size_t *);

struct answer { uint32_t result, canonical[8192]; size_t words, place; };

/* FILE ROOM ours|baseline|both */
int main(int argc, char **argv) {
    static struct answer answers[2];
    static uint32_t list[65537];
    if (argc != 4) return 2;
    FILE *f = fopen(argv[1], "rb");
    size_t count = fread(list, 4, 65537, f), room = atol(argv[2]);
    for (int i = 0; i < 2; i++) {
        struct answer *a = &answers[i];
        if (!strcmp(argv[3], i ? "ours" : "baseline")) continue;
        a->result = (i ? baseline_canonicalize : dovranis_canonicalize)(list, count, a->canonical, room, &a->words, &a->place);
    }
    printf("%d %u\n", memcmp(&answers[0], &answers[1], sizeof answers[0]) == 0, answers[0].result);
    return 0;
}
'''

LEVELS_DRIVER = r'''
#include <stdio.h>
#include <stdlib.h>
#include <string.h>
#include "dovranis.h"

uint32_t baseline_levels(const uint32_t *, size_t, const uint32_t *, size_t, float *, size_t, size_t *, size_t *);

enum { MOST = 1 << 20 };

struct answer { uint32_t result; float levels[8192]; size_t floats, place; };

/* FILE COUNT ROOM ours|baseline|both; FILE has the COUNT words of a list and behind them the sorts. Before the call each float is a NaN. */
int main(int argc, char **argv) {
    static struct answer answers[2];
    static uint32_t words[MOST];
    if (argc != 5) return 2;
    FILE *f = fopen(argv[1], "rb");
    size_t both = fread(words, 4, MOST, f), count = atol(argv[2]), room = atol(argv[3]);
    memset(answers, 0xff, sizeof answers);
    for (int i = 0; i < 2; i++) {
        struct answer *a = &answers[i];
        if (!strcmp(argv[4], i ? "ours" : "baseline")) continue;
        a->result = (i ? baseline_levels : dovranis_levels)(words, count, words + count, both - count, a->levels, room, &a->floats, &a->place);
    }
    printf("%d %u\n", memcmp(&answers[0], &answers[1], sizeof answers[0]) == 0, answers[0].result);
    return 0;
}
'''

SHEET_DRIVER = r'''
#include <stdio.h>
#include <stdlib.h>
#include <string.h>
#include <time.h>
#include "dovranis.h"

typedef uint32_t check(const uint32_t *, size_t, const uint32_t *, size_t, size_t *);
check baseline_check_sheet;

struct answer { uint32_t result; size_t place; };

static uint32_t *words, sheet[8192];
static size_t count, sheet_count;

static struct answer ask(check *call) {
    struct answer a = {0, 0};
    a.result = call(words, count, words + count, sheet_count, &a.place);
    return a;
}

static double now(void) {
    struct timespec t;
    clock_gettime(CLOCK_MONOTONIC, &t);
    return t.tv_sec + 1e-9 * t.tv_nsec;
}

/* The best of the calls that take so many seconds together, or of one call. */
static double seconds(check *call, double together, struct answer *a) {
    double best = 1e9, from = now(), before = from, after;
    do {
        *a = ask(call);
        after = now();
        if (after - before < best) best = after - before;
        before = after;
    } while (after - from < together);
    return best;
}

/* FILE COUNT ours|baseline|SECONDS, or FILE COUNT draw PITCH; FILE has the COUNT words of a list and behind them a sheet. */
int main(int argc, char **argv) {
    if (argc != 4 && argc != 5) return 2;
    FILE *f = fopen(argv[1], "rb");
    fseek(f, 0, SEEK_END);
    size_t all = ftell(f) / 4;
    rewind(f);
    words = malloc(4 * all + 4);
    if (fread(words, 4, all, f) != all) return 2;
    count = atol(argv[2]);
    sheet_count = all - count;
    if (!strcmp(argv[3], "ours")) { ask(dovranis_check_sheet); return 0; }
    if (!strcmp(argv[3], "baseline")) { ask(baseline_check_sheet); return 0; }
    if (!strcmp(argv[3], "draw")) {
        size_t due = 0, crossings, place;
        uint32_t pitch = atol(argv[4]);
        if (dovranis_draw_spaced(words, count, sheet, 8192, pitch, pitch, 0, &due, &crossings, &place)) return 1;
        for (size_t i = 0; i < due; i++) printf("%u ", sheet[i]);
        return 0;
    }
    struct answer a, b;
    double ours = seconds(dovranis_check_sheet, atof(argv[3]), &a), theirs = seconds(baseline_check_sheet, atof(argv[3]), &b);
    printf("%d %u %zu %.4g %.4g\n", a.result == b.result && a.place == b.place, a.result, a.place, ours, theirs);
    return 0;
}
'''

MARKS_DRIVER = r'''
#include <alloca.h>
#include <stdio.h>
#include <stdlib.h>
#include <string.h>
#include "dovranis.h"

typedef uint32_t check_sheet(const uint32_t *, size_t, const uint32_t *, size_t, size_t *);
typedef uint32_t locate(const uint32_t *, size_t, const uint32_t *, size_t, const uint32_t *, size_t, uint32_t *,
                        size_t, size_t *);
typedef uint32_t cable_words(const uint32_t *, size_t, const uint32_t *, size_t, size_t, size_t *, size_t *, size_t *);
typedef uint32_t cable_bounds(const uint32_t *, size_t, const uint32_t *, size_t, size_t, struct dovranis_bounds *,
                              size_t *);
check_sheet baseline_check_sheet;
locate baseline_locate;
cable_words baseline_cable_words;
cable_bounds baseline_cable_bounds;

enum { MOST = 1 << 16, PAGE = 4096 };

static uint32_t list[MOST], *sheet, *marks;
static size_t count, sheet_count, mark_count, line;

struct answer {
    uint32_t result, hits[DOVRANIS_MOST_MARKS];
    size_t start, count, place;
    struct dovranis_bounds bounds;
};

#define OF(name) (theirs ? baseline_##name : dovranis_##name)
#define ROWS list, count, sheet, sheet_count

static __attribute__((noinline)) void ask(const char *call, int theirs, struct answer *a) {
    if (!strcmp(call, "check_sheet"))
        a->result = OF(check_sheet)(ROWS, &a->place);
    else if (!strcmp(call, "locate"))
        a->result = OF(locate)(ROWS, marks, mark_count, a->hits, DOVRANIS_MOST_MARKS, &a->place);
    else if (!strcmp(call, "cable_words"))
        a->result = OF(cable_words)(ROWS, line, &a->start, &a->count, &a->place);
    else
        a->result = OF(cable_bounds)(ROWS, line, &a->bounds, &a->place);
}

/* FILE COUNT SHEET_COUNT check_sheet|locate|cable_words|cable_bounds LINE ours|baseline|both; FILE has the words of a
   list, of a sheet and of the marks. The stack is moved to the same place in a page for each call, since how memory is
   copied depends on it. */
int main(int argc, char **argv) {
    static struct answer answers[2];
    volatile char *unused = alloca((uintptr_t)__builtin_frame_address(0) % PAGE + 1);
    if (argc != 7) return 2;
    FILE *f = fopen(argv[1], "rb");
    size_t all = fread(list, 4, MOST, f);
    *unused = 0;
    count = atol(argv[2]);
    sheet_count = atol(argv[3]);
    mark_count = all - count - sheet_count;
    line = atol(argv[5]);
    sheet = list + count;
    marks = sheet + sheet_count;
    for (int i = 0; i < 2; i++)
        if (strcmp(argv[6], i ? "ours" : "baseline")) ask(argv[4], i, &answers[i]);
    printf("%d %u\n", memcmp(&answers[0], &answers[1], sizeof answers[0]) == 0, answers[0].result);
    return 0;
}
'''

# Each call is made twice on a stack of its own, painted with one pattern and then with another; what it takes is told by the lowest byte
# that is no longer as painted.
STACK_DRIVER = r'''
#define _GNU_SOURCE
#include <stdio.h>
#include <string.h>
#include <sys/mman.h>
#include <ucontext.h>
#include "dovranis.h"

typedef uint32_t plain(const uint32_t *, size_t, uint32_t *, size_t, size_t *, size_t *, size_t *);
typedef uint32_t quoted(const uint32_t *, size_t, uint32_t *, size_t, uint32_t, size_t *, size_t *, size_t *);
typedef uint32_t spaced(const uint32_t *, size_t, uint32_t *, size_t, uint32_t, uint32_t, uint32_t, size_t *, size_t *, size_t *);
typedef uint32_t both(const uint32_t *, size_t, uint32_t *, size_t, uint32_t, uint32_t, uint32_t, uint32_t, size_t *, size_t *, size_t *);
typedef uint32_t propose(const uint32_t *, size_t, uint32_t, uint32_t, uint32_t *, size_t *);
typedef uint32_t commit(uint32_t *, size_t, struct dovranis_proposal, size_t *);
plain baseline_draw;
quoted baseline_draw_quoted;
spaced baseline_draw_spaced;
both baseline_draw_quoted_spaced;
propose baseline_propose;
commit baseline_commit;
uint32_t baseline_canonicalize(const uint32_t *, size_t, uint32_t *, size_t, size_t *, size_t *);
uint32_t baseline_levels(const uint32_t *, size_t, const uint32_t *, size_t, float *, size_t, size_t *, size_t *);
uint32_t baseline_check_sheet(const uint32_t *, size_t, const uint32_t *, size_t, size_t *);
uint32_t baseline_locate(const uint32_t *, size_t, const uint32_t *, size_t, const uint32_t *, size_t, uint32_t *,
                         size_t, size_t *);
uint32_t baseline_cable_words(const uint32_t *, size_t, const uint32_t *, size_t, size_t, size_t *, size_t *, size_t *);
uint32_t baseline_cable_bounds(const uint32_t *, size_t, const uint32_t *, size_t, size_t, struct dovranis_bounds *,
                               size_t *);

enum { STACK = 1 << 20, MOST = 1 << 17, ROOM = 8192 };

static uint32_t row[MOST], list[MOST], sheet[ROOM], version, result;
static struct dovranis_bounds bounds;
static float levels[ROOM];
static uint32_t k[6];       /* the call, the count of words, and four numbers that the call is given */
static size_t words, crossings, place, sum;
static int theirs;
static char *stack, *from;
static ucontext_t here, there;

#define OF(name) (theirs ? baseline_##name : dovranis_##name)
#define NUMBERS &words, &crossings, &place
#define SCREEN list, count, list + count, k[2]

static __attribute__((noinline)) void ask(void) {
    from = __builtin_frame_address(0);
    struct dovranis_proposal p = {k[2], k[3], k[4]};
    size_t count = k[1] - k[2] - k[3];      /* of the list, with a sheet of k[2] words and k[3] marks behind it */
    switch (k[0]) {
    case 0: result = OF(draw)(list, k[1], sheet, ROOM, NUMBERS); break;
    case 1: result = OF(draw_quoted)(list, k[1], sheet, ROOM, k[2], NUMBERS); break;
    case 2: result = OF(draw_spaced)(list, k[1], sheet, ROOM, k[3], k[4], k[5], NUMBERS); break;
    case 3: result = OF(draw_quoted_spaced)(list, k[1], sheet, ROOM, k[2], k[3], k[4], k[5], NUMBERS); break;
    case 4: result = OF(propose)(list, k[1], k[2], k[3], &version, &place); break;
    case 5: result = OF(commit)(list, k[1], p, &place); break;
    case 6: result = OF(canonicalize)(list, k[1], sheet, ROOM, &words, &place); break;
    case 7: result = OF(levels)(list, k[1] - k[2], list + k[1] - k[2], k[2], levels, k[3], &words, &place); break;  /* the last k[2] words are sorts */
    case 8: result = OF(check_sheet)(list, k[1] - k[2], list + k[1] - k[2], k[2], &place); break;   /* the last k[2] words are a sheet */
    case 9: result = OF(locate)(SCREEN, list + k[1] - k[3], k[3], sheet, ROOM, &place); break;
    case 10: result = OF(cable_words)(SCREEN, k[4], &words, &crossings, &place); break;
    case 11: result = OF(cable_bounds)(SCREEN, k[4], &bounds, &place); break;
    case 12: if (!theirs) sum += dovranis_most_words(); break;
    case 13: if (!theirs) sum += dovranis_most_quoted_words(); break;
    }
}

static long taken(char pattern) {
    memset(stack, pattern, STACK);
    memcpy(list, row, 4 * k[1]);
    getcontext(&there);
    there.uc_stack.ss_sp = stack;
    there.uc_stack.ss_size = STACK;
    there.uc_link = &here;
    makecontext(&there, ask, 0);
    swapcontext(&here, &there);
    char *lowest = stack;
    while (*lowest == pattern) lowest++;
    return from - lowest;
}

/* FILE has for each call the six numbers and the words of the list or the row. A line for each call: bytes and result, ours and the
   baseline's. */
int main(int argc, char **argv) {
    if (argc != 2) return 2;
    FILE *f = fopen(argv[1], "rb");
    stack = mmap(NULL, STACK, PROT_READ | PROT_WRITE, MAP_PRIVATE | MAP_ANONYMOUS, -1, 0);
    while (fread(k, 4, 6, f) == 6 && fread(row, 4, k[1], f) == k[1]) {
        for (theirs = 0; theirs < 2; theirs++) {
            long one = taken(0x5a), other = taken(0xa5);
            printf("%ld %u ", one > other ? one : other, k[0] < 12 ? result : 0);
        }
        puts("");
    }
    return 0;
}
'''


# The lists, as (name, words, length of output).

NUMBERS = ('in order', 'reversed', 'shuffled')


def numbered(rng, n, cables, numbers):
    """The station with its part numbers in this order; s has been part 0 and t part n - 1."""
    by = list(range(n))
    if numbers == 'reversed':
        by.reverse()
    elif numbers == 'shuffled':
        rng.shuffle(by)
    return lists.build(n, by[0], by[n - 1], [(by[a], by[b]) for a, b in sorted(cables)])


# With repeated cables, and shuffled numbers: their parts are joined as those of a ring and of a ladder.
PAIRED = (('doubled ring', lambda n: lists.doubled(*lists.ring(n))), ('triple ring', lists.triple_ring),
          ('pair ladder', lambda n: lists.pair_ladder(n // 2)))


def stations(sizes=(16, 64, 256, 512)):
    for n in sizes:
        for kind, make in lists.KINDS:
            name = '%s of %d' % (kind, n)
            rng = random.Random(name)
            _, cables = make(rng, n)
            for numbers in NUMBERS:
                yield '%s, %s' % (name, numbers), numbered(rng, n, cables, numbers), ROOM
        for kind, make in lists.CHAINS:
            name = '%s of %d' % (kind, n)
            for numbers in NUMBERS:
                yield '%s, %s' % (name, numbers), numbered(random.Random(name), *make(n), numbers), ROOM
        for kind, make in PAIRED:
            name = '%s of %d' % (kind, n)
            yield name + ', shuffled', numbered(random.Random(name), *make(n), 'shuffled'), ROOM
        yield 'rails of %d' % n, lists.rails(n), ROOM


def refusals():
    """The longest list that each check refuses, with its fault as far behind as it can be; a million words where there is
    no longest. Of 8 also as many pairs of 512 parts as there are lines, each once; 7 is the number of no check. 10 refuses
    part 511, which two blocks with four cables at each part share, with s and t in the first; of 10 also a chain of 512 parts,
    whose t is the last but one."""
    rng = random.Random(2)
    most = 65535
    long = [lists.cable(0, 1), lists.cable(1, 2)] * 500000

    def full(n, cables, last=()):
        return [lists.head(n, most), lists.ends(0, 1)] + (list(cables) + list(last))[:most]

    yield 'refused 1', [lists.head(3, 0)], ROOM
    yield 'refused 2', [lists.head(512, most), lists.ends(0, 1)] + long[:999997] + [0x40000000], ROOM
    yield 'refused 3', [lists.head(512, most), lists.ends(0, 1)] + long[:999998], ROOM
    yield 'refused 4', full(513, long[:most]), ROOM
    yield 'refused 5', full(512, long[:most - 1], [lists.cable(0, 512)]), ROOM
    yield 'refused 6', full(512, long[:most - 1], [lists.cable(511, 511)]), ROOM
    yield 'refused 8', full(512, [lists.cable(a, b) for a, b in sorted(lists.complete(512)[1])]), ROOM
    yield 'refused 8, longest', full(512, most * [lists.cable(510, 511)]), ROOM
    n, cables = lists.four_regular(rng, 507)
    yield 'refused 9', lists.build(512, 0, 1, sorted(cables) + [(n + a, n + b) for a, b in sorted(lists.complete(5)[1])]), ROOM
    yield 'refused 10, chain', lists.build(512, 0, 510, sorted(lists.chain(512)[1])), ROOM
    n, cables = lists.two_blocks(rng, 256, 255)
    yield 'refused 10', lists.build(n, 0, 1, sorted(cables)), ROOM
    n, cables = lists.four_regular(rng, 512)
    yield 'refused 11', lists.build(n, 0, 511, sorted(cables)), 3589


def check_of(name):
    """The number in the name of a refused list."""
    return int(re.match(r'refused (\d+)', name)[1])


def chosen(rows, asked):
    return [row for row in rows if all(re.search(r'(?<!\w)%s(?!\w)' % re.escape(word), row[0]) for word in asked)]


# The calls. What one is given: nothing, a discount, a spacing, or a discount and a spacing, as a row of numbers.

class Linked:
    """A program in C with the archive and baseline.c, in a folder of its own."""
    def __init__(self, folder, archive, text, flags):
        self.folder, self.program = folder, os.path.join(folder, 'driver')
        os.mkdir(folder)
        source = self.program + '.c'
        with open(source, 'w') as f:
            f.write(text)
        subprocess.run(['cc', '-O3', '-Wl,-z,now', *flags, '-I', door.INCLUDE, '-o', self.program, source, os.path.join(HERE, 'baseline.c'), archive], check=True)

    def keep(self, words):
        path = os.path.join(self.folder, 'list')
        with open(path, 'wb') as f:
            f.write(b''.join(w.to_bytes(4, 'little') for w in words))
        return path

    def traced(self, name, asked, more=()):
        """The path of callgrind's file for the function of this name in a run of the program, and the instructions."""
        out = os.path.join(self.folder, 'callgrind.out')
        r = subprocess.run(['valgrind', '--tool=callgrind', '--toggle-collect=' + name, '--callgrind-out-file=' + out, *more, self.program, *asked],
                           check=True, stdout=subprocess.PIPE, stderr=subprocess.PIPE)
        return out, int(re.search(rb'Collected : (\d+)', r.stderr).group(1))


def functions_of(archive):
    symbols = subprocess.run(['nm', archive], check=True, stdout=subprocess.PIPE, text=True).stdout
    return set(re.findall(r' T (\w+)$', symbols, re.M))


class Driver(Linked):
    def __init__(self, folder, archive, flags=()):
        has = functions_of(archive)
        self.has_quoted = 'dovranis_draw_quoted' in has
        self.has_spaced = {'dovranis_draw_spaced', 'dovranis_draw_quoted_spaced'} <= has
        super().__init__(folder, archive, DRIVER, [*flags, *(['-DQUOTED'] if self.has_quoted else []), *(['-DSPACED'] if self.has_spaced else [])])

    def run_both(self, name, words, room, seconds, given=()):
        """Seconds of ours and of the baseline, whose answers are compared."""
        same, result, place, ours, theirs = subprocess.run([self.program, self.keep(words), str(room), str(seconds), *map(str, given)], check=True, stdout=subprocess.PIPE, text=True).stdout.split()
        if same != '1':
            sys.exit('%s: the answers differ' % name)
        if int(result) != (check_of(name) if name.startswith('refused') else 0):
            sys.exit('%s: the result is %s %s' % (name, result, place))
        return float(ours), float(theirs)

    def times(self, name, words, room):
        return self.run_both(name, words, room, SECONDS)

    def trace(self, which, words, room, more=(), given=()):
        """The path of callgrind's file for one call, and the instructions."""
        name = {'ours': 'dovranis_draw', 'baseline': 'baseline_draw'}[which] + {0: '', 1: '_quoted', 3: '_spaced', 4: '_quoted_spaced'}[len(given)]
        return self.traced(name, [self.keep(words), str(room), which, *map(str, given)], more)

    def instructions(self, which, words, room, given=()):
        return self.trace(which, words, room, given=given)[1]


HEADS = ('list', 'words', 'instructions', 'baseline', 'ratio', 'µs', 'baseline', 'ratio')


def shown(row, markdown):
    row = [str(k) for k in row]
    return '| %s |' % ' | '.join(row) if markdown else '%-28s' % row[0] + ''.join('%14s' % k for k in row[1:])


def microseconds(t):
    """Three digits."""
    return '{:,.{}f}'.format(1e6 * t, max(0, 2 - math.floor(math.log10(1e6 * t))))


def compare(driver, asked, markdown):
    rows = chosen(list(stations()) + list(refusals()), asked)
    best = [(math.inf, math.inf)] * len(rows)
    for _ in range(SWEEPS):
        best = [tuple(map(min, best[i], driver.times(*row))) for i, row in enumerate(rows)]
    print(shown(HEADS, markdown))
    if markdown:
        print('|---|' + '---:|' * (len(HEADS) - 1))
    groups = {}
    for (name, words, room), (a, b) in zip(rows, best):
        i, j = (driver.instructions(which, words, room) for which in ('ours', 'baseline'))
        print(shown((name, '{:,}'.format(len(words)), '{:,}'.format(i), '{:,}'.format(j), '%.1f' % (i / j), microseconds(a), microseconds(b), '%.1f' % (a / b)), markdown), flush=True)
        size = name.split(',')[0].split(' of ')[-1]
        groups.setdefault('stations of %s parts' % size if size.isdigit() else 'refusals', []).append((i / j, a / b))
    print()
    for name, ratios in groups.items():
        (i, a), (j, b) = (map(f, zip(*ratios)) for f in (min, max))
        print('- %s: %.1f to %.1f times the instructions, %.1f to %.1f times the time' % (name, i, j, a, b))


def quoted(driver, asked):
    """The calls with a discount are compared on each list too."""
    if not driver.has_quoted:
        sys.exit('the archive has no dovranis_draw_quoted')
    print('| list | cables | without a discount | with one | more a cable | baseline, without | with one | more a cable |\n|---|' + '---:|' * 7)
    for name, words, room in chosen(stations(), asked):
        driver.run_both(name, words, room, 0, [DISCOUNT])
        m, row = len(words) - 2, []
        for which in ('ours', 'baseline'):
            plain, bill = (driver.instructions(which, words, room, given) for given in ([], [DISCOUNT]))
            row += ['{:,}'.format(plain), '{:,}'.format(bill), '%.1f' % ((bill - plain) / m)]
        print('| %s | %s |' % (name, ' | '.join(['{:,}'.format(m)] + row)), flush=True)
    print()
    refused(driver, 12, next(refusals())[1], [10001])


def refused(driver, check, words, given):
    """A line for the call that this check refuses."""
    driver.run_both('refused %d' % check, words, ROOM, 0, given)
    print('- refused %d: %s instructions, baseline %s' % (check, *('{:,}'.format(driver.instructions(which, words, ROOM, given)) for which in ('ours', 'baseline'))))


def spaced(driver, asked):
    """The calls with a spacing, and with a discount and a spacing, are compared on each list too. Spots are the words that a spacing changes: the head, the parts
    and the corners."""
    if not driver.has_spaced:
        sys.exit('the archive has no dovranis_draw_spaced and dovranis_draw_quoted_spaced')
    print('| list | spots | on the grid | in a spacing | more a spot | baseline, on the grid | in a spacing | more a spot |\n|---|' + '---:|' * 7)
    for name, words, room in chosen(stations(), asked):
        for given in (SPACING, (DISCOUNT, *SPACING)):
            driver.run_both(name, words, room, 0, given)
        n, m, de = lists.counts(words)
        spots, row = 1 + n + 2 * m - 2 * n + 2 + de, []
        for which in ('ours', 'baseline'):
            grid, wider = (driver.instructions(which, words, room, given) for given in ([], SPACING))
            row += ['{:,}'.format(grid), '{:,}'.format(wider), '%.1f' % ((wider - grid) / spots)]
        print('| %s | %s |' % (name, ' | '.join(['{:,}'.format(spots)] + row)), flush=True)
    print()
    refused(driver, 13, next(refusals())[1], (64, 64, 256))
    refused(driver, 14, lists.full_list(512), (64, 64, 255))


# The editor. The rows, as (name, words, cable); each has room behind its list.

def rows():
    for n in (256, 512):
        last, most = n - 1, 2 * n - 1
        for cables, words, cable in ((0, lists.build(n, 0, last, []), (0, last)), (n, lists.ring_list(n), (0, n // 2)),
                                     (most, lists.wide_list(n), (0, last))):
            yield '%d parts, %d cables' % (n, cables), lists.slots(words, 8), cable
        again = reference.two(words[-1])[::-1]
        yield '%d parts, %d cables, repeated' % (n, n), lists.slots(lists.ring_list(n), 8), (last, 0)
        yield '%d parts, %d cables, repeated, refused 8' % (n, most), lists.slots(words, 8), again
        yield '%d parts, %d cables, refused 8' % (n, most), lists.slots(words, 8), (0, n // 2)


class EditorDriver(Linked):
    def __init__(self, folder, archive):
        missing = {'dovranis_propose', 'dovranis_commit'} - functions_of(archive)
        if missing:
            sys.exit('the archive has no %s' % ' and no '.join(sorted(missing)))
        super().__init__(folder, archive, EDITOR_DRIVER, [])

    def instructions(self, name, words, cable, call):
        """Of ours and of the baseline, whose answers are compared."""
        def asked(which):
            return [self.keep(words), call, which, *map(str, cable), str(words[0] & 0xffff)]

        got = subprocess.run([self.program, *asked('both')], check=True, stdout=subprocess.PIPE, text=True).stdout.split()
        if got != ['1', name.split()[-1] if 'refused' in name else '0']:
            sys.exit('%s, %s: the answers differ, or the result is %s' % (name, call, got[1]))
        return [self.traced(prefix + call, asked(which))[1] for prefix, which in (('dovranis_', 'ours'), ('baseline_', 'baseline'))]


def editor(driver, asked):
    print('| row | propose | baseline | ratio | commit | baseline | ratio |\n|---|' + '---:|' * 6)
    for name, words, cable in chosen(rows(), asked):
        row = []
        for call in ('propose', 'commit'):
            i, j = driver.instructions(name, words, cable, call)
            row += ['{:,}'.format(i), '{:,}'.format(j), '%.1f' % (i / j)]
        print('| %s | %s |' % (name, ' | '.join(row)), flush=True)


# The canonical form. The lists, as (name, words, length of output).

ARRANGED = (('ladder', lists.ladder), ('ring', lists.ring), ('four-regular', lambda n: lists.four_regular(random.Random(n), n)),
            ('doubled ring', lambda n: lists.doubled(*lists.ring(n))))


def arranged():
    """Stations with their lines in canonical order; reversed, and their cables turned round; and both by chance. Then the longest
    lists that 5 and 8 refuse, and one of 1,024 cables that 11 does."""
    for n in (16, 64, 256, 512):
        for kind, make in ARRANGED:
            words = lists.build(n, 0, n - 1, sorted(make(n)[1]))
            back = words[:2] + [lists.turned(w) for w in words[:1:-1]]
            for how, its in zip(NUMBERS, (words, back, lists.rearranged(random.Random(n), words))):
                yield '%s of %d, %s' % (kind, n, how), its, ROOM
    for name, words, room in refusals():
        if check_of(name) in (5, 8):
            yield name, words, room
    yield 'refused 11', lists.rearranged(random.Random(11), lists.full_list(512)), 1025


class CanonicalDriver(Linked):
    def __init__(self, folder, archive):
        if 'dovranis_canonicalize' not in functions_of(archive):
            sys.exit('the archive has no dovranis_canonicalize')
        super().__init__(folder, archive, CANONICAL_DRIVER, [])

    def instructions(self, name, words, room):
        """Of ours and of the baseline, whose answers are compared."""
        path = self.keep(words)
        got = subprocess.run([self.program, path, str(room), 'both'], check=True, stdout=subprocess.PIPE, text=True).stdout.split()
        if got != ['1', str(check_of(name)) if name.startswith('refused') else '0']:
            sys.exit('%s: the answers differ, or the result is %s' % (name, got[1]))
        return [self.traced(call, [path, str(room), which])[1]
                for call, which in (('dovranis_canonicalize', 'ours'), ('baseline_canonicalize', 'baseline'))]


def canonical(driver, asked):
    print('| list | words | instructions | a word | baseline | a word | ratio |\n|---|' + '---:|' * 6)
    for name, words, room in chosen(arranged(), asked):
        i, j = driver.instructions(name, words, room)
        count = len(words)
        print('| %s | %s |' % (name, ' | '.join(['{:,}'.format(count), '{:,}'.format(i), '%.1f' % (i / count), '{:,}'.format(j), '%.1f' % (j / count),
                                                 '%.1f' % (i / j)])), flush=True)


# The levels. The lists, as (name, words, sorts, length of output).

def sorts_of(name, words):
    """Joints, pads and amplifiers by chance, for each part."""
    rng = random.Random(name)
    return lists.of_gains(*(rng.choice((-1, 0, 1)) * rng.randint(0, lists.MOST_NUMBER) for _ in range(reference.list_head(words[0])[0])))


def levelled():
    """All stations with their sorts. Then one of 1,024 cables with sorts that 17 and 18 refuse, the fault as far behind as it can be, and with an output that
    11 does. There is no longest row for 17: a million, the last of no sort, or each one good."""
    for name, words, room in stations():
        yield name, words, sorts_of(name, words), room
    words = lists.build(512, 0, 511, sorted(lists.four_regular(random.Random(17), 512)[1]))
    sorts = sorts_of('refused', words)
    many = (1000000 // len(sorts) + 1) * sorts
    yield 'refused 17', words, many[:999999] + [lists.sort_word(3)], ROOM
    yield 'refused 17, count', words, many[:1000000], ROOM
    yield 'refused 18', words, sorts[:-1] + [lists.sort_word(lists.PAD, lists.MOST_NUMBER + 1)], ROOM
    yield 'refused 11', words, sorts, 1023


class LevelsDriver(Linked):
    def __init__(self, folder, archive):
        if 'dovranis_levels' not in functions_of(archive):
            sys.exit('the archive has no dovranis_levels')
        super().__init__(folder, archive, LEVELS_DRIVER, [])
        self.staged = Linked(os.path.join(folder, 'stages'), archive, LEVELS_DRIVER, ['-DBASELINE_STAGES'])

    def instructions(self, name, words, sorts, room):
        """Of ours and of the baseline, whose answers are compared. Of each also without checks 1 to 10 and the order: ours makes them before it looks at the
        sorts, so that a call without any, which 17 refuses, takes nothing else; the baseline has functions of its own for the rest."""
        def asked(which, sorts):
            return [self.keep(words + sorts), str(len(words)), str(room), which]

        got = subprocess.run([self.program, *asked('both', sorts)], check=True, stdout=subprocess.PIPE, text=True).stdout.split()
        if got != ['1', str(check_of(name)) if name.startswith('refused') else '0']:
            sys.exit('%s: the answers differ, or the result is %s' % (name, got[1]))
        ours, empty = (self.traced('dovranis_levels', asked('ours', row))[1] for row in (sorts, []))
        theirs = self.traced('baseline_levels', asked('baseline', sorts))[1]
        rest = self.staged.traced('check_sorts*', asked('baseline', sorts), ['--toggle-collect=write_levels*'])[1]
        return ours, theirs, ours - empty, rest


def levels(driver, asked):
    print('| list | sorts | instructions | baseline | ratio | beyond the order | a sort | baseline | a sort |\n|---|' + '---:|' * 8)
    for name, words, sorts, room in chosen(levelled(), asked):
        i, j, more, rest = driver.instructions(name, words, sorts, room)
        count = len(sorts)
        print('| %s | %s |' % (name, ' | '.join(['{:,}'.format(count), '{:,}'.format(i), '{:,}'.format(j), '%.1f' % (i / j), '{:,}'.format(more),
                                                 '%.1f' % (more / count), '{:,}'.format(rest), '%.1f' % (rest / count)])), flush=True)


# Sheets that are held against their lists, as (name, list, sheet).

def pitch_of(words):
    """The widest pitch of up to 8 for which the sheet's numbers fit, without a margin."""
    n, m, de = lists.counts(words)
    return min(MOST_PITCH, 4095 // max(m - n + 1, n - 1 + de))


def own_sheets(driver):
    """Our own sheets with their run lengths, on the grid and spaced by 8, or by as much as fits."""
    for n in (16, 64, 256, 512):
        for kind, make in (*ARRANGED, ('chain', lists.chain)):
            name = '%s of %d' % (kind, n)
            words = numbered(random.Random(name), n, make(n)[1], 'shuffled')
            yield name + ', on the grid', words, driver.drawn(words, 1)
            yield '%s, spaced by %d' % (name, pitch_of(words)), words, driver.drawn(words, pitch_of(words))


def last_cable(words, sheet):
    """Where the words of the last cable begin in a sheet."""
    place = 1 + (words[0] >> 16 & 0xfff)
    for _ in range(len(words) - 3):
        place += 1 + (sheet[place] & 0xfff)
    return place


def wrong_sheets(driver):
    """Refused sheets, with the fault as far behind as it can be: the last word of two million missing; of 1,024 cables the last one with a corner on part 0;
    of 511 the last two meeting in a corner."""
    _, words, sheet = stairs()
    yield 'refused 19', words, sheet[:-1]
    words = lists.full_list(512)
    sheet = driver.drawn(words, pitch_of(words))
    yield 'refused 20, by itself', words, sheet[:last_cable(words, sheet)] + [sheets.line_word(1023, 1), 0x70000000 | sheet[1] & 0xffffff]
    d = sheets.Drawn(lists.chain_list(512), 16, 8 * 511, [(8, 8 * p) for p in range(512)], [[] for _ in range(511)])
    d.corners[509], d.corners[510] = [(12, 8 * 509), (12, 8 * 510)], [(16, 8 * 510), (16, 8 * 511)]
    yield 'refused 20, a pair', d.words, d.sheet()


def stairs():
    """A chain of 512 parts, those of even number on the left and the others on the right, which 511 stairs of 4,095 corners join, of one step each but for
    the last run."""
    parts = [(0, 4 * p) if p % 2 == 0 else (2048, 4 * p + 2048) for p in range(512)]
    corners = []
    for line in range(511):
        (x, y), way, its = parts[line], 1 - line % 2 * 2, []
        for _ in range(2047):
            its += [(x + way, y), (x + way, y + way)]
            x, y = its[-1]
        corners.append(its + [(x + way, y)])
    d = sheets.Drawn(lists.chain_list(512), 2048, 4 * 511 + 2048, parts, corners)
    return 'stairs', d.words, d.sheet()


def across():
    """A chain of 512 parts, whose cables all go to and fro over the same half of the largest head, row by row: right by themselves, and refused for the
    first of them."""
    d = sheets.filled(512, 511)
    d.height = 4095
    return 'refused 20, across', d.words, d.sheet()


class SheetDriver(Linked):
    def __init__(self, folder, archive):
        if 'dovranis_check_sheet' not in functions_of(archive):
            sys.exit('the archive has no dovranis_check_sheet')
        super().__init__(folder, archive, SHEET_DRIVER, [])

    def asked(self, words, sheet, *more):
        return [self.keep(words + sheet), str(len(words)), *more]

    def drawn(self, words, pitch):
        """Our own sheet with this pitch of columns and rows."""
        got = subprocess.run([self.program, *self.asked(words, [], 'draw', str(pitch))], check=True, stdout=subprocess.PIPE, text=True).stdout
        return list(map(int, got.split()))

    def times(self, name, words, sheet, seconds):
        """Seconds of ours and of the baseline, whose answers are compared: the best of the calls that take so long together, or of one."""
        same, result, place, ours, theirs = subprocess.run([self.program, *self.asked(words, sheet, str(seconds))], check=True, stdout=subprocess.PIPE,
                                                           text=True).stdout.split()
        if same != '1':
            sys.exit('%s: the answers differ' % name)
        if int(result) != (check_of(name) if name.startswith('refused') else 0):
            sys.exit('%s: the result is %s %s' % (name, result, place))
        return float(ours), float(theirs)

    def instructions(self, words, sheet):
        """Of ours and of the baseline."""
        return [self.traced(call, self.asked(words, sheet, which))[1]
                for call, which in (('dovranis_check_sheet', 'ours'), ('baseline_check_sheet', 'baseline'))]


def milliseconds(t):
    return microseconds(t / 1000)


def check_sheets(driver, asked):
    """What checks 1 to 10 take, with the order where a call finds it along with them, is told by the list with no sheet, which 19 refuses."""
    print('| sheet | rows | words | instructions | baseline | ratio | beyond checks 1 to 10 | baseline | ratio | ms | baseline |\n|---|' + '---:|' * 10)
    for name, words, sheet in chosen([*own_sheets(driver), *wrong_sheets(driver)], asked):
        a, b = driver.times(name, words, sheet, SECONDS)
        (i, j), (k, l) = driver.instructions(words, sheet), driver.instructions(words, [])
        print('| %s | %s |' % (name, ' | '.join(['{:,}'.format((sheet[0] & 0xfff) + 1), '{:,}'.format(len(sheet)), '{:,}'.format(i), '{:,}'.format(j), '%.1f' % (i / j),
                                                 '{:,}'.format(i - k), '{:,}'.format(j - l), '%.1f' % ((i - k) / (j - l)), milliseconds(a), milliseconds(b)])),
              flush=True)


def long_sheets(driver, asked):
    print('| sheet | columns | rows | words | seconds | baseline | ratio |\n|---|' + '---:|' * 6)
    for name, words, sheet in chosen([stairs(), across()], asked):
        a, b = driver.times(name, words, sheet, 0)
        print('| %s | %s |' % (name, ' | '.join(['{:,}'.format((sheet[0] >> 12 & 0xfff) + 1), '{:,}'.format((sheet[0] & 0xfff) + 1), '{:,}'.format(len(sheet)),
                                                 '%.2f' % a, '%.2f' % b, '%.1f' % (a / b)])), flush=True)


# The screen.

def has_spot(p, q, spot):
    """Whether the spot is on the run from p to q."""
    return sheets.steps(p, spot) + sheets.steps(spot, q) == sheets.steps(p, q)


def some_marks(name, words, sheet):
    """64 by chance: on parts, on lines, on crossings and on blank spots in turn; on lines also where none cross. A spot
    beside the head may be among the blank ones."""
    rng = random.Random(name)
    d = marks.upright_or_level(sheets.read(words, sheet))
    runs, crossings = [run[2:] for run in d.runs()], [spot for spot, _, _ in sheets.crossing_spots(d)]

    def on_line():
        p, q = rng.choice(runs)
        return sheets.along(p, q, rng.randint(0, sheets.steps(p, q)), 0)

    def blank():
        while True:
            spot = rng.randint(0, d.width + 1), rng.randint(0, d.height)
            if not any(has_spot(p, q, spot) for p, q in runs):
                return spot

    out = []
    for _ in range(marks.MOST_MARKS // 4):
        out += [rng.choice(d.parts), on_line(), rng.choice(crossings) if crossings else on_line(), blank()]
    return [marks.mark(*spot) for spot in out]


def questions(name, words, sheet):
    """(what is asked for, call, marks, line). The one mark is blank and the cable is the last, which takes longest."""
    some, last = some_marks(name, words, sheet), len(words) - 3
    return (('64 marks', 'locate', some, 0), ('one mark', 'locate', some[-1:], 0),
            ('own words', 'cable_words', [], last), ('box', 'cable_bounds', [], last))


class MarksDriver(Linked):
    def __init__(self, folder, archive):
        missing = {'dovranis_locate', 'dovranis_cable_words', 'dovranis_cable_bounds'} - functions_of(archive)
        if missing:
            sys.exit('the archive has no %s' % ' and no '.join(sorted(missing)))
        super().__init__(folder, archive, MARKS_DRIVER, [])
        self.sheets = SheetDriver(os.path.join(folder, 'sheets'), archive)

    def instructions(self, name, words, sheet, call, some=(), line=0):
        """Of ours and of the baseline, whose answers are compared."""
        def asked(which):
            return [self.keep([*words, *sheet, *some]), str(len(words)), str(len(sheet)), call, str(line), which]

        got = subprocess.run([self.program, *asked('both')], check=True, stdout=subprocess.PIPE, text=True).stdout
        if got.split() != ['1', '0']:
            sys.exit('%s, %s: the answers differ, or the result is not 0: %s' % (name, call, got))
        return [self.traced(prefix + call, asked(which))[1]
                for prefix, which in (('dovranis_', 'ours'), ('baseline_', 'baseline'))]


def point(driver, asked):
    """On our own sheets with the most cables and with the fewest. The judging is what `dovranis_check_sheet`, and its
    like, take with the same list and sheet."""
    print('| sheet | asked for | instructions | baseline | ratio | judging, % | beyond it | baseline |\n|---|---|'
          + '---:|' * 6)
    for name, words, sheet in chosen(own_sheets(driver.sheets), asked):
        if not name.startswith(('four-regular', 'chain')):
            continue
        k, l = driver.instructions(name, words, sheet, 'check_sheet')
        for what, *question in questions(name, words, sheet):
            i, j = driver.instructions(name, words, sheet, *question)
            print('| %s | %s | %s |' % (name, what, ' | '.join(['{:,}'.format(i), '{:,}'.format(j), '%.1f' % (i / j),
                                                                '%.2f' % (100 * k / i), '{:,}'.format(i - k),
                                                                '{:,}'.format(j - l)])), flush=True)


# The stack.

CALLS = ('draw', 'draw_quoted', 'draw_spaced', 'draw_quoted_spaced', 'propose', 'commit', 'canonicalize', 'levels',
         'check_sheet', 'locate', 'cable_words', 'cable_bounds', 'most_words', 'most_quoted_words')


def stack_calls():
    """(name, call, its four numbers, words) on the largest stations, drawn and refused, on the rows of named runs, on the largest
    lists that have a canonical form by name, on the largest that have levels by name, with outputs that are too short too, and on all
    sheets by name, with 64 marks and the last line too."""
    fits, wide = (DISCOUNT, *SPACING), (DISCOUNT, 64, 64, 255)
    for name, words in lists.boundaries():
        if lists.is_large(words):
            for call in range(4):
                yield name, call, fits, words
            yield name + ', 14', 3, wide, words
            yield name, 6, 4 * (0,), words
            sorts = sorts_of(name, words)
            yield name, 7, (len(sorts), ROOM, 0, 0), words + sorts
            for call in range(8, 12):
                yield name + ', no sheet', call, 4 * (0,), words
    for name, row, operations in lists.edits():
        if lists.is_large(row):
            for _, (what, one, other, version) in operations:
                yield name, 4 + what, (one, other, version, 0), row
    for name, words, _ in lists.canonicals():
        if lists.is_large(words):
            yield name, 6, 4 * (0,), words
    for name, words, sorts, _ in lists.levels():
        if lists.is_large(words):
            for room in (0, ROOM):
                yield name, 7, (len(sorts), room, 0, 0), words + sorts
    for name, words, sheet in sheets.named():
        yield name, 8, (len(sheet), 0, 0, 0), words + sheet
        some = [word for _, word in marks.some_marks(random.Random(name), words, sheet, marks.MOST_MARKS)]
        yield name, 9, (len(sheet), len(some), 0, 0), words + sheet + some
        for call in (10, 11):
            yield name, call, (len(sheet), 0, max(3, len(words)) - 3, 0), words + sheet
    for call in (12, 13):
        yield '', call, 4 * (0,), []


def stack(linked):
    """Results are compared on each call too."""
    calls, words = list(stack_calls()), []
    for _, call, numbers, its in calls:
        words += [call, len(its), *numbers, *its]
    got = subprocess.run([linked.program, linked.keep(words)], check=True, stdout=subprocess.PIPE, text=True).stdout.splitlines()
    most = {}
    for (name, call, _, _), line in zip(calls, got, strict=True):
        ours, result, theirs, other = map(int, line.split())
        if result != other:
            sys.exit('%s, %s: the results are %d and %d' % (name, CALLS[call], result, other))
        before = most.get(call, (0, '', 0))
        most[call] = (*max(before[:2], (ours, name)), max(before[2], theirs))
    print('The header asks for {:,} bytes, and for {:,} where a sheet is checked.\n'.format(door.STACK, door.SHEET_STACK))
    print('| call | bytes | on | baseline |\n|---|---:|---|---:|')
    for call, (ours, name, theirs) in sorted(most.items()):
        print('| `dovranis_%s` | %s | %s | %s |' % (CALLS[call], '{:,}'.format(ours), name, '{:,}'.format(theirs) if call < 12 else ''))


# Where the instructions go. The archive has two large functions with most others inside: checks with the order, and the drawing. So each of their
# instructions is given to the first stage that runs it, told by lists that are refused there, and below that to its loops, told by their backward jumps.

STAGES = (('checks 1 to 8', [1, 2, 3, 4, 5, 6, 8]), ('check 9', [9]), ('check 10', [10]), ('order, columns, courses', [11]))
LAST = 'words, crossings'


def costs(path):
    """Instructions by function name, and for each name by address."""
    by_name, by_address, names = {}, {}, {}
    inside, address, called = None, 0, False
    with open(path) as f:
        for line in f:
            m = re.match(r'(c?fn)=\((\d+)\)(?: (.*))?$', line)
            if m:
                names.setdefault(m.group(2), m.group(3))
                if m.group(1) == 'fn':
                    inside = names[m.group(2)].split("'")[0]      # a function inside itself has a name of its own
                continue
            if line.startswith('calls='):
                called = True
                continue
            m = re.match(r'(0x[0-9a-f]+|\+\d+|-\d+|\*) \S+ (\d+)$', line)
            if not m:
                continue
            at = m.group(1)
            address = int(at, 16) if at.startswith('0x') else address if at == '*' else address + int(at)
            if not called:
                by_name[inside] = by_name.get(inside, 0) + int(m.group(2))
                own = by_address.setdefault(inside, {})
                own[address] = own.get(address, 0) + int(m.group(2))
            called = False
    return by_name, by_address


def backward_jumps(program, large):
    """(first, last) address of what each backward jump in the large function repeats; of those to one place the longest."""
    text = subprocess.run(['objdump', '-d', '--no-show-raw-insn', '--disassemble=' + large, program], check=True, stdout=subprocess.PIPE, text=True).stdout
    spans = {}
    for m in re.finditer(r'^ *([0-9a-f]+):\tj\w+ +([0-9a-f]+) <%s' % re.escape(large), text, re.M):
        at, to = int(m.group(1), 16), int(m.group(2), 16)
        if to <= at:
            spans[to] = max(at, spans.get(to, at))
    return sorted(spans.items(), key=lambda span: (span[0], -span[1]))


def formula(rounds, n, m):
    for text, value in (('n m', n * m), ('m (m - 1) / 2', m * (m - 1) // 2), ('n n', n * n), ('m', m), ('n', n)):
        if rounds == value:
            return ' = ' + text
    return ''


def regions(spans, cost):
    """Loops that overlap, as one: (first, last, the loops)."""
    out = []
    for span in spans:
        if cost.get(span[0], 0) > 1:
            if out and span[0] <= out[-1][1]:
                first, last, inner = out.pop()
                out.append((first, max(last, span[1]), inner + [span]))
            else:
                out.append((span[0], span[1], [span]))
    return out


def say_loops(spans, cost, total, start, n, m, deep=2):
    """The loops among these instructions that have a share of 1 % or more, and how often the one in them that turns most goes round."""
    for first, last, inner in regions(spans, cost):
        share = sum(c for a, c in cost.items() if first <= a <= last)
        if share * 100 < total:
            continue
        rounds = max(cost[span[0]] for span in inner)
        print('%s%5.1f %%  loop at +%x to +%x, %s rounds%s' % ('    ' * deep, 100 * share / total, first - start, last - start, '{:,}'.format(rounds), formula(rounds, n, m)))
        if deep == 2:
            smaller = [span for span in inner if sum(c for a, c in cost.items() if span[0] <= a <= span[1]) < 0.9 * share]
            say_loops(smaller, cost, total, start, n, m, deep + 1)


def say_functions(by_name, total):
    for function, cost in sorted(by_name.items(), key=lambda item: -item[1]):
        if cost * 200 >= total:
            print('%5.1f %%  in %s' % (100 * cost / total, function))


def functions(driver, staged, asked, parts):
    known, stage_of = {check_of(name): (words, room) for name, words, room in refusals()}, {}
    drawn = costs(driver.trace('ours', *known[11], ['--dump-instr=yes'])[0])[1]
    large = sorted(drawn, key=lambda function: -len(drawn[function]))[:2]
    for stage, checks in STAGES:
        for check in checks:
            words, room = known[check]
            by_address = costs(driver.trace('ours', words, room, ['--dump-instr=yes'])[0])[1]
            for function in large:
                for address in by_address.get(function, ()):
                    stage_of.setdefault(address, stage)
    spans = {function: backward_jumps(driver.program, function) for function in large}
    for name, words, room in chosen(stations((parts,)), asked):
        n, m = reference.list_head(words[0])
        by_name, by_address = costs(driver.trace('ours', words, room, ['--dump-instr=yes'])[0])
        total = sum(by_name.values())
        print('%s: %s instructions, n = %d, m = %d' % (name, '{:,}'.format(total), n, m))
        say_functions(by_name, total)
        for function in large:
            print('  of %s:' % function)
            for stage in [stage for stage, _ in STAGES] + [LAST]:
                cost = {a: c for a, c in by_address[function].items() if stage_of.get(a, LAST) == stage}
                if cost:
                    print('    %5.1f %%  %s' % (100 * sum(cost.values()) / total, stage))
                    say_loops(spans[function], cost, total, min(by_address[function]), n, m)
        path, total = staged.trace('baseline', words, room, ['--dump-instr=yes'])
        print('  baseline: %s instructions' % '{:,}'.format(total))
        say_functions(costs(path)[0], total)
        print(flush=True)


def passes(driver, other, asked, parts):
    print('| list | instructions | a pass at each rank | baseline |\n|---|---:|---:|---:|')
    for name, words, room in chosen(stations((parts,)), asked):
        print('| %s | %s |' % (name, ' | '.join('{:,}'.format(d.instructions(which, words, room)) for d, which in ((driver, 'ours'), (other, 'baseline'), (driver, 'baseline')))), flush=True)


# The program, from its start to its end.

def program_stations():
    rng = random.Random(1)
    for n in (256, 512):
        for name, (_, cables) in (('ladder', lists.ladder(n)), ('grid', lists.near_square(n)), ('ring', lists.ring(n)),
                                  ('random, %d cables' % (2 * n), lists.four_regular(rng, n))):
            for numbers in NUMBERS:
                yield '%s of %d, %s' % (name, n, numbers), numbered(rng, n, cables, numbers)


def program_instructions(program, data, folder):
    out = os.path.join(folder, 'callgrind')
    r = subprocess.run(['valgrind', '--tool=callgrind', '--callgrind-out-file=' + out, program], input=data,
                       stdout=subprocess.PIPE, stderr=subprocess.PIPE)
    return int(re.search(rb'Collected : (\d+)', r.stderr).group(1)), r.stdout


def compare_program(folder):
    baseline = os.path.join(folder, 'baseline')
    subprocess.run(['cc', '-O3', '-DBASELINE_MAIN', '-o', baseline, os.path.join(HERE, 'baseline.c')], check=True)
    empty = [program_instructions(p, b'', folder)[0] for p in (PROGRAM, baseline)]
    print('%-42s %14s %14s %7s' % ('station', 'sheet', 'baseline', 'ratio'))
    for name, words in program_stations():
        data = reference.file_of(words)
        (a, x), (b, y) = (program_instructions(p, data, folder) for p in (PROGRAM, baseline))
        a, b = a - empty[0], b - empty[1]
        print('%-42s %14d %14d %7.2f%s' % (name, a, b, a / b, '' if x == y else '  OUTPUTS DIFFER'))


def given(args, option):
    """What stands behind an option, or None, and the other arguments."""
    if option not in args:
        return None, args
    at = args.index(option)
    return args[at + 1], args[:at] + args[at + 2:]


def main(args):
    archive, args = given(args, '--archive')
    parts, args = given(args, '--parts')
    parts = int(parts or 512)
    asked = [word for word in args if not word.startswith('--')]
    with tempfile.TemporaryDirectory() as folder:
        if '--program' in args:
            return compare_program(folder)
        if archive is None:
            door.build()
            archive = door.ARCHIVE
        if '--editor' in args:
            return editor(EditorDriver(os.path.join(folder, 'editor'), archive), asked)
        if '--canonical' in args:
            return canonical(CanonicalDriver(os.path.join(folder, 'canonical'), archive), asked)
        if '--levels' in args:
            return levels(LevelsDriver(os.path.join(folder, 'levels'), archive), asked)
        if '--sheets' in args:
            return check_sheets(SheetDriver(os.path.join(folder, 'sheets'), archive), asked)
        if '--long-sheets' in args:
            return long_sheets(SheetDriver(os.path.join(folder, 'sheets'), archive), asked)
        if '--marks' in args:
            return point(MarksDriver(os.path.join(folder, 'marks'), archive), asked)
        if '--stack' in args:
            return stack(Linked(os.path.join(folder, 'stack'), archive, STACK_DRIVER, []))
        driver = Driver(os.path.join(folder, 'plain'), archive)
        if '--functions' in args:
            return functions(driver, Driver(os.path.join(folder, 'stages'), archive, ['-DBASELINE_STAGES']), asked, parts)
        if '--quoted' in args:
            return quoted(driver, asked)
        if '--spaced' in args:
            return spaced(driver, asked)
        if '--passes' in args:
            return passes(driver, Driver(os.path.join(folder, 'passes'), archive, ['-DBASELINE_PASS_PER_RANK=1']), asked, parts)
        return compare(driver, asked, '--markdown' in args)


if __name__ == '__main__':
    main(sys.argv[1:])
