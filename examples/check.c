/* Holds a sheet from another drawing tool against its list and says in words what is wrong with it: examples/check
   builds and runs it.

   The list comes from standard input, as examples/encode writes it. The sheet is a file of words in hexadecimal digits,
   as the sheet program prints them; '#' starts a comment. What is printed begins with `accepted`, or with `refused`,
   the check and the place. The exit code is 0 for a sheet that is accepted, 1 for a refusal, 2 for input that is no
   list or no sheet at all.

   Whether the sheet is accepted, and which check refuses it at which place, is the library's answer, and proved. Why it
   is refused there is found here, by a look at that place. */
#include <errno.h>
#include <stdio.h>
#include <stdlib.h>
#include <string.h>
#include "dovranis.h"

enum { HEAD = 4, PART, CABLE, CORNER };                         /* kinds of a sheet's words */
enum { MOST_CABLES = 1024, MOST_CORNERS = 4095 };

struct row {
    uint32_t *words;
    size_t count, room;
};

static struct row list, sheet;
static size_t parts, cables;                                    /* as the list's head says */
static size_t cable_at[MOST_CABLES];                            /* the word of each cable, once 19 has passed */

static void add(struct row *row, uint32_t word)
{
    if (row->count == row->room) {
        row->room = 2 * row->room + 64;
        row->words = realloc(row->words, row->room * sizeof *row->words);
        if (row->words == NULL) {
            fputs("check: no memory\n", stderr);
            exit(2);
        }
    }
    row->words[row->count++] = word;
}

static void read_list(void)
{
    uint32_t word = 0;
    int c, bytes = 0;
    while ((c = getchar()) != EOF) {
        word = word << 8 | (uint32_t)c;
        if (++bytes % 4 == 0) add(&list, word);
    }
    if (bytes % 4 != 0) {
        fputs("check: the list ends inside a word\n", stderr);
        exit(2);
    }
}

static int digit(int c)
{
    static const char digits[] = "0123456789abcdefABCDEF";
    const char *found = c > 0 ? strchr(digits, c) : NULL;
    int value = found == NULL ? -1 : (int)(found - digits);
    return value < 16 ? value : value - 6;
}

static void read_sheet(const char *path)
{
    FILE *file = fopen(path, "r");
    unsigned line = 1, digits = 0;
    uint32_t word = 0;
    int c;
    if (file == NULL) {
        fprintf(stderr, "check: %s: %s\n", path, strerror(errno));
        exit(2);
    }
    do {
        c = getc(file);
        if (c == '#')
            while (c != '\n' && c != EOF) c = getc(file);
        if (digit(c) >= 0 && digits < 8) {
            word = word << 4 | (uint32_t)digit(c);
            digits++;
        } else if (c == EOF || (c > 0 && strchr(" \t\r\n", c) != NULL)) {
            if (digits > 0) add(&sheet, word);
            word = digits = 0;
        } else {
            fprintf(stderr, "check: %s: line %u is no word of eight hexadecimal digits\n", path, line);
            exit(2);
        }
        if (c == '\n') line++;
    } while (c != EOF);
    fclose(file);
}

/* Words. */

static unsigned kind(uint32_t word) { return word >> 28; }
static unsigned spare(uint32_t word) { return word >> 24 & 15; }
static unsigned first(uint32_t word) { return word >> 12 & 0xfff; }
static unsigned second(uint32_t word) { return word & 0xfff; }
static unsigned line_in(uint32_t word) { return word >> 12 & 0xffff; }

/* 1 to 10: the list. */

static void say_list(uint32_t check, size_t place)
{
    switch (check) {
    case 1: printf("the list has too few words, %zu\n", place); break;
    case 2: printf("word %zu of the list is of a wrong kind or has a bit set that must be zero\n", place); break;
    case 3: printf("the list does not have the %zu words that it should have\n", place); break;
    case 4: printf("a station has 3 to 512 parts, not %zu\n", place); break;
    case 5:
    case 6:
        if (place == 1) printf("the ends");
        else printf("cable %zu of the list", place - 2);
        puts(check == 5 ? ": a part that is not there" : ": one part twice");
        break;
    case 8: printf("part %zu has more than four cables\n", place); break;
    case 9: printf("part 0 does not reach part %zu\n", place); break;
    case 10: printf("without part %zu some other part reaches neither source nor analyser\n", place); break;
    default: puts("the list is sent back");
    }
}

/* 19: the layout. */

/* What is due at a place up to which all words are right, with its kind and its line. */
static unsigned due_at(size_t place, char *text, size_t *line)
{
    size_t at = 1 + parts, corners;
    if (place == 0) {
        strcpy(text, "the head");
        return HEAD;
    }
    if (place <= parts) {
        sprintf(text, "part %zu", place - 1);
        return PART;
    }
    for (*line = 0; at != place; ++*line, at += corners + 1) {
        corners = second(sheet.words[at]);
        if (place <= at + corners) {
            sprintf(text, "corner %zu of %zu of cable %zu", place - at, corners, *line);
            return CORNER;
        }
    }
    sprintf(text, "cable %zu", *line);
    return CABLE;
}

static void say_word(size_t place)
{
    char due[100];
    size_t line = 0;
    unsigned kind_due = due_at(place, due, &line);
    uint32_t word;
    if (place == sheet.count) {
        printf("word %zu is missing, where %s is due\n", place, due);
        return;
    }
    word = sheet.words[place];
    printf("word %zu, %08lx, where %s is due: ", place, (unsigned long)word, due);
    if (kind(word) != kind_due) printf("of kind %u, not %u\n", kind(word), kind_due);
    else if (kind_due == CABLE) printf("not the cable of line %zu, but of line %u\n", line, line_in(word));
    else if (spare(word) != 0) puts("one of its bits 27 to 24 is set");
    else
        printf("a point beyond the head: (%u,%u), where the width is %u and the height %u\n", first(word), second(word),
               first(sheet.words[0]), second(sheet.words[0]));
}

/* 20: the lines. */

struct spot {
    unsigned x, y;
};

/* A cable's line: its points from one of its parts to the other, and the numbers of these parts. */
struct line {
    size_t count, from, to;
    struct spot points[MOST_CORNERS + 2];
};

static struct spot spot_in(uint32_t word)
{
    struct spot s;
    s.x = first(word);
    s.y = second(word);
    return s;
}

static struct spot part_spot(size_t part) { return spot_in(sheet.words[1 + part]); }

static int same(struct spot p, struct spot q) { return p.x == q.x && p.y == q.y; }

/* Where the words of the cables begin; the words that are read. */
static size_t find_cables(void)
{
    size_t at = 1 + parts, line;
    for (line = 0; line < cables; line++) {
        cable_at[line] = at;
        at += 1 + second(sheet.words[at]);
    }
    return at;
}

static void take_line(struct line *l, size_t cable, int turned)
{
    uint32_t joins = list.words[2 + cable];
    const uint32_t *words = sheet.words + cable_at[cable];
    size_t corners = second(words[0]), k;
    l->from = turned ? second(joins) : first(joins);
    l->to = turned ? first(joins) : second(joins);
    l->count = corners + 2;
    l->points[0] = part_spot(l->from);
    for (k = 1; k <= corners; k++) l->points[k] = spot_in(words[k]);
    l->points[corners + 1] = part_spot(l->to);
}

static unsigned low(unsigned a, unsigned b) { return a < b ? a : b; }
static unsigned high(unsigned a, unsigned b) { return a < b ? b : a; }

static int is_level(struct spot p, struct spot q) { return p.y == q.y; }

/* Whether two straight runs share a spot; their common spots are then those from `from` straight to `to`. */
static int share(struct spot p, struct spot q, struct spot r, struct spot t, struct spot *from, struct spot *to)
{
    from->x = high(low(p.x, q.x), low(r.x, t.x));
    from->y = high(low(p.y, q.y), low(r.y, t.y));
    to->x = low(high(p.x, q.x), high(r.x, t.x));
    to->y = low(high(p.y, q.y), high(r.y, t.y));
    return from->x <= to->x && from->y <= to->y;
}

/* What is wrong with a cable by itself, in words; whether something is. */
static int is_wrong_alone(const struct line *l, char *text)
{
    const struct spot *p = l->points;
    size_t runs = l->count - 1, k, j, part;
    struct spot from, to;
    for (k = 0; k < runs; k++) {
        if (same(p[k], p[k + 1])) {
            sprintf(text, "it has a run of no length, at (%u,%u)", p[k].x, p[k].y);
            return 1;
        }
        if (p[k].x != p[k + 1].x && p[k].y != p[k + 1].y) {
            sprintf(text, "its run from (%u,%u) to (%u,%u) is neither level nor upright", p[k].x, p[k].y, p[k + 1].x,
                    p[k + 1].y);
            return 1;
        }
    }
    for (k = 1; k < runs; k++)
        if (is_level(p[k - 1], p[k]) == is_level(p[k], p[k + 1])) {
            sprintf(text, "at its corner (%u,%u) two %s runs meet", p[k].x, p[k].y,
                    is_level(p[k - 1], p[k]) ? "level" : "upright");
            return 1;
        }
    for (part = 0; part < parts; part++)
        for (k = 0; k < runs; k++) {
            struct spot s = part_spot(part);
            if (!share(s, s, p[k], p[k + 1], &from, &to)) continue;
            if (part != l->from && part != l->to) {
                sprintf(text, "it touches part %zu at (%u,%u), which it does not join", part, s.x, s.y);
                return 1;
            }
            if (k != (part == l->from ? 0 : runs - 1)) {
                sprintf(text, "it touches its own part %zu at (%u,%u) not only with its end", part, s.x, s.y);
                return 1;
            }
        }
    for (k = 2; k < runs; k++)
        for (j = 0; j + 1 < k; j++)
            if (share(p[j], p[j + 1], p[k], p[k + 1], &from, &to)) {
                sprintf(text, "it touches itself at (%u,%u)", from.x, from.y);
                return 1;
            }
    return 0;
}

/* The line of a cable in a direction in which it is right by itself. If there is none, what is wrong is said, unless
   `say` is 0; whether there is one. */
static int take_right_line(struct line *l, size_t cable, int say)
{
    char forward[100], backward[100];
    take_line(l, cable, 0);
    if (!is_wrong_alone(l, forward)) return 1;
    take_line(l, cable, 1);
    if (!is_wrong_alone(l, backward)) return 1;
    if (!say) return 0;
    printf("cable %zu is wrong by itself\n", cable);
    if (l->count > 3) {         /* with fewer corners it is the same line either way */
        printf("  read from part %zu: %s\n", l->to, forward);
        printf("  read from part %zu: %s\n", l->from, backward);
    } else {
        printf("  %s\n", forward);
    }
    return 0;
}

static int has_point(const struct line *l, struct spot s)
{
    size_t k;
    for (k = 0; k < l->count; k++)
        if (same(l->points[k], s)) return 1;
    return 0;
}

static int joins_at(const struct line *l, size_t part, struct spot s)
{
    return (part == l->from || part == l->to) && same(part_spot(part), s);
}

/* Whether the spot is that of a part that both cables join. */
static int is_common(const struct line *a, const struct line *b, struct spot s)
{
    return joins_at(b, a->from, s) || joins_at(b, a->to, s);
}

/* What is wrong between two cables that are right by themselves, in words; whether something is. */
static int is_wrong_pair(const struct line *a, const struct line *b, char *text)
{
    struct spot from, to, crossing = {0, 0};
    int crossed = 0;
    size_t k, j;
    for (k = 0; k + 1 < a->count; k++)
        for (j = 0; j + 1 < b->count; j++) {
            const struct spot *p = a->points + k, *q = b->points + j;
            if (!share(p[0], p[1], q[0], q[1], &from, &to)) continue;
            if (is_level(p[0], p[1]) != is_level(q[0], q[1]) && !has_point(a, from) && !has_point(b, from)) {
                if (crossed) {
                    sprintf(text, "they cross at (%u,%u) and at (%u,%u)", crossing.x, crossing.y, from.x, from.y);
                    return 1;
                }
                crossed = 1;
                crossing = from;
                continue;
            }
            while (is_common(a, b, from) && !same(from, to)) {
                from.x += from.x < to.x;
                from.y += from.y < to.y;
            }
            if (is_common(a, b, from)) continue;
            sprintf(text, "they share (%u,%u), which is no crossing and no part that both join", from.x, from.y);
            return 1;
        }
    return 0;
}

static void say_cable(size_t cable)
{
    static struct line one, other;
    char text[100];
    size_t next;
    if (!take_right_line(&one, cable, 1)) return;
    for (next = cable + 1; next < cables; next++)
        if (take_right_line(&other, next, 0) && is_wrong_pair(&one, &other, text)) {
            printf("cables %zu and %zu, each right by itself, meet wrongly\n  %s\n", cable, next, text);
            return;
        }
    printf("cable %zu breaks the rules\n", cable);      /* never: one of the two above is so */
}

int main(int argc, char **argv)
{
    size_t place = 0;
    uint32_t result;
    if (argc != 2) {
        fputs("usage: check SHEET, with a list's words at standard input\n", stderr);
        return 2;
    }
    read_list();
    read_sheet(argv[1]);
    result = dovranis_check_sheet(list.words, list.count, sheet.words, sheet.count, &place);
    if (list.count > 0) {
        parts = list.words[0] >> 16 & 0xfff;
        cables = list.words[0] & 0xffff;
    }
    if (result == 0) {
        size_t read = find_cables();
        printf("accepted: %zu parts, %zu cables", parts, cables);
        if (read < sheet.count) printf("; the words from %zu on, behind the last corner, are not read", read);
        putchar('\n');
    } else {
        printf("refused %u %zu: ", (unsigned)result, place);
        if (result == 19) {
            say_word(place);
        } else if (result == 20) {
            find_cables();
            say_cable(place);
        } else {
            say_list(result, place);
        }
    }
    free(list.words);
    free(sheet.words);
    return result != 0;
}
