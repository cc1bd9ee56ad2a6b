/* The levels at every part of a station, and a reference level for its analyser: examples/levels builds and runs it.

   The file is a list as examples/encode takes it, with lines 'pad P DB' and 'amplifier P DB' for the parts that have a
   loss or a gain: P is the part, DB a decimal number of dB that is a multiple of 1/64. All other parts are joints.

   The reference level is the level at the top of the analyser's screen. Proposed is the smallest whole dB that is not
   below the greatest level at the analyser, where 0 dB go into the source: no route's signal is above the screen, and
   one is less than a dB below its top. The spread is the greatest level at the analyser minus the least. */
#include <errno.h>
#include <stdio.h>
#include <stdlib.h>
#include <string.h>
#include "dovranis.h"

enum { MOST_FIELD = 4095, MOST_CABLES = 65535, MOST_NUMBER = 65535 }; /* that a word has room for */
enum { JOINT, PAD, AMPLIFIER };

static const char *const names[] = {"joint", "pad", "amplifier"};

static uint32_t list[MOST_CABLES + 2], sorts[MOST_FIELD + 1];
static unsigned line;                            /* that is read, from 1 */
static unsigned line_of[MOST_FIELD + 1];         /* that gives the part its sort; 0 for a joint */
static unsigned parts_line, ends_line;           /* 0 while there is none */
static size_t parts, cables, analyser;

static void unusable(unsigned at, const char *what)
{
    fprintf(stderr, "levels: line %u: %s\n", at, what);
    exit(1);
}

static int is_digit(char c) { return c >= '0' && c <= '9'; }

/* The whole number that a text begins with, and the text behind it; a number of a million or more is told as one. */
static uint32_t whole(const char **text)
{
    uint32_t found = 0;
    for (; is_digit(**text); ++*text)
        if (found < 1000000) found = 10 * found + (uint32_t)(**text - '0');
    return found < 1000000 ? found : 1000000;
}

static uint32_t number(const char *text)
{
    int is_number = is_digit(*text);
    uint32_t found = whole(&text);
    if (!is_number || *text != '\0' || found > MOST_FIELD) unusable(line, "a part is a number from 0 to 4,095");
    return found;
}

/* The 1/64 dB in a decimal number. Each is 15,625 millionths of a dB, so that nothing is rounded. */
static uint32_t sixty_fourths(const char *text)
{
    int is_multiple = is_digit(*text);
    uint32_t unit = 1000000;
    uint64_t millionths = (uint64_t)whole(&text) * unit;
    if (*text == '.')
        while (is_digit(*++text)) {
            unit /= 10;
            millionths += (uint64_t)(*text - '0') * unit;
            is_multiple = is_multiple && (unit > 0 || *text == '0');
        }
    if (!is_multiple || *text != '\0' || millionths % 15625 != 0)
        unusable(line, "a loss or a gain is a decimal number and a multiple of 1/64");
    if (millionths / 15625 > MOST_NUMBER) unusable(line, "a loss or a gain is at most 100 dB");
    return (uint32_t)(millionths / 15625);
}

static uint32_t two_fields(uint32_t kind, char **text) { return kind << 28 | number(text[0]) << 12 | number(text[1]); }

static void read_sort(uint32_t sort, char **text)
{
    uint32_t part = number(text[0]);
    if (line_of[part] != 0) unusable(line, "the part is a pad or an amplifier already");
    line_of[part] = line;
    sorts[part] = 9u << 28 | sort << 24 | sixty_fourths(text[1]);
}

static void read_line(char *text)
{
    static const char blanks[] = " \t\r\n";
    char *words[4];
    size_t count = 0;
    text[strcspn(text, "#")] = '\0';
    for (text = strtok(text, blanks); text != NULL && count < 4; text = strtok(NULL, blanks)) words[count++] = text;
    if (count == 0) return;
    if (count == 2 && strcmp(words[0], "parts") == 0 && parts_line == 0) {
        parts_line = line;
        parts = number(words[1]);
    } else if (count == 3 && strcmp(words[0], "ends") == 0 && ends_line == 0) {
        ends_line = line;
        list[1] = two_fields(2, words + 1);
        analyser = list[1] & MOST_FIELD;
    } else if (count == 3 && strcmp(words[0], "cable") == 0) {
        if (cables == MOST_CABLES) unusable(line, "a list has at most 65,535 cables");
        list[2 + cables++] = two_fields(3, words + 1);
    } else if (count == 3 && strcmp(words[0], names[PAD]) == 0) {
        read_sort(PAD, words + 1);
    } else if (count == 3 && strcmp(words[0], names[AMPLIFIER]) == 0) {
        read_sort(AMPLIFIER, words + 1);
    } else {
        unusable(line, "none of: parts N (once), ends S T (once), cable A B, pad P DB, amplifier P DB");
    }
}

static void read_file(const char *path)
{
    char text[1000];
    size_t part;
    FILE *file = fopen(path, "r");
    if (file == NULL) {
        fprintf(stderr, "levels: %s: %s\n", path, strerror(errno));
        exit(1);
    }
    for (part = 0; part <= MOST_FIELD; part++) sorts[part] = 9u << 28;
    while (fgets(text, sizeof text, file) != NULL) {
        line++;
        if (strlen(text) == sizeof text - 1) unusable(line, "too long");
        read_line(text);
    }
    fclose(file);
    if (parts_line == 0 || ends_line == 0) unusable(line, "the file ends without a line `parts N` or `ends S T`");
    for (part = parts; part <= MOST_FIELD; part++)
        if (line_of[part] != 0) unusable(line_of[part], "there is no such part");
    list[0] = 1u << 28 | (uint32_t)parts << 16 | (uint32_t)cables;
}

/* No other check refuses what is made of a file here. */
static const char *refusal(uint32_t check)
{
    switch (check) {
    case 4: return "a station has 3 to 512 parts";
    case 5: return "a word names a part that is not there; the ends are word 1, the first cable is word 2";
    case 6: return "a word names one part twice; the ends are word 1, the first cable is word 2";
    case 8: return "the part has more than four cables";
    case 9: return "part 0 does not reach the part";
    case 10: return "without the part some other part reaches neither source nor analyser";
    case 18: return "the part's loss or gain is above 100 dB";
    default: return "no list, or no sorts";
    }
}

/* Levels have at most eleven digits, six of them behind the point, and so are printed as they are. */
static void show(const float *levels)
{
    float least = levels[2 * analyser], greatest = levels[2 * analyser + 1];
    long reference = (long)greatest;
    size_t part;
    if ((float)reference < greatest) reference++;
    puts("part  sort              dB      least dB   greatest dB");
    for (part = 0; part < parts; part++) {
        uint32_t sort = sorts[part] >> 24 & 15;
        printf("%4zu  %-9s", part, names[sort]);
        if (sort == JOINT) printf("%11s", "");
        else printf("%11.11g", (sorts[part] & 0xffff) / 64.0);
        printf("%14.11g%14.11g\n", levels[2 * part], levels[2 * part + 1]);
    }
    printf("\nat the analyser, part %zu: %.11g to %.11g dB", analyser, least, greatest);
    printf(", a spread of %.11g dB\nproposed reference level: %ld dB\n", greatest - least, reference);
}

int main(int argc, char **argv)
{
    static float levels[DOVRANIS_MOST_LEVELS];
    size_t floats = 0, place = 0;
    uint32_t result;
    if (argc != 2) {
        fputs("usage: examples/levels FILE\n", stderr);
        return 1;
    }
    read_file(argv[1]);
    result = dovranis_levels(list, cables + 2, sorts, parts, levels, DOVRANIS_MOST_LEVELS, &floats, &place);
    if (result != 0) printf("refused by check %u, place %zu: %s\n", (unsigned)result, place, refusal(result));
    else show(levels);
    return result != 0;
}
