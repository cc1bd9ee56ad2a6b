/* A list as an array, one call with a discount and one for print, and each sheet or its refusal in words:
   examples/link builds and runs it. */
#include <stdio.h>
#include "dovranis.h"

static const char *const refusals[] = {
    "", "the list has fewer than two words", "a word's kind or spare bits are wrong, word",
    "the list should have another count of words, namely", "the count of parts is not 3 to 512, but",
    "a part number is too large, word", "two ends are the same part, word",
    "" /* 7 is empty */, "a part has more than four cables, part",
    "part 0 doesn't reach a part, part", "a part's removal cuts the station, part",
    "the output is too short, words of the sheet", "the discount is above 10,000, namely",
    "the column pitch (0), the row pitch (1) or the margin (2) is out of range, namely",
    "a number on the sheet is above 4,095, namely"};

static uint32_t sheet[DOVRANIS_MOST_QUOTED_WORDS];
static size_t words, crossings, place;

/* What the last call left, in words; whether it drew a sheet. */
static int show(uint32_t result, size_t cables)
{
    size_t i;
    if (result != 0) {
        printf("refused by check %u: %s %zu\n", (unsigned)result, refusals[result], place);
        return 0;
    }
    printf("%zu words, %zu crossings\n", words, crossings);
    for (i = 0; i < words; i++) {
        unsigned first = sheet[i] >> 12 & 0xfff, second = sheet[i] & 0xfff, whole = sheet[i] & 0xfffffff;
        switch (sheet[i] >> 28) {
        case 4: printf("width %u, height %u\n", first, second); break;
        case 5: printf("part %zu at (%u,%u)\n", i - 1, first, second); break;
        case 6: printf("cable %u, %u corners\n", (unsigned)(sheet[i] >> 12 & 0xffff), second); break;
        case 8: printf("cable %u, %u steps\n", (unsigned)(sheet[i] >> 12 & 0xffff), second); break;
        case 10: printf("%u steps in all\n", whole); break;
        case 0:
            if (i + 1 < words) printf("cable %zu, %u cents\n", i + cables + 1 - words, whole);
            else printf("%u cents in all\n", whole);
            break;
        default: printf("  corner (%u,%u)\n", first, second);
        }
    }
    return 1;
}

int main(void)
{
    /* Three parts, source 0 and analyser 2; cables 0-1, 1-2 and 0-2. */
    const uint32_t list[] = {0x10030003, 0x20000002, 0x30000001, 0x30001002, 0x30000002};
    const size_t count = sizeof list / sizeof *list, cables = count - 2;
    const uint32_t discount = 1250; /* 12.5 percent; dovranis_draw takes none and writes no bill */
    const uint32_t column_pitch = 8, row_pitch = 6, margin = 20; /* steps and prices stay the same */
    int drawn = show(dovranis_draw_quoted(list, count, sheet, DOVRANIS_MOST_QUOTED_WORDS, discount,
                                          &words, &crossings, &place), cables);
    puts("\nfor print");
    return !(show(dovranis_draw_spaced(list, count, sheet, DOVRANIS_MOST_WORDS, column_pitch, row_pitch,
                                       margin, &words, &crossings, &place), cables) && drawn);
}
