/* Two lists of one station, in another sequence and with cables turned round, told to be the same by their canonical
   form: examples/link builds and runs it. */
#include <stdio.h>
#include <string.h>
#include "dovranis.h"

enum { COUNT = 6 };

/* Three parts, source 0 and analyser 2; two cables join 0 and 1. */
static const uint32_t one[COUNT] = {0x10030004, 0x20000002, 0x30000001, 0x30001002, 0x30000002, 0x30001000};
static const uint32_t other[COUNT] = {0x10030004, 0x20000002, 0x30002000, 0x30001000, 0x30001000, 0x30002001};

/* An output as long as the list is long enough. Returns whether the list is refused. */
static int canonicalize(const uint32_t *list, uint32_t *canonical)
{
    size_t words = 0, place = 0, i;
    uint32_t result = dovranis_canonicalize(list, COUNT, canonical, COUNT, &words, &place);
    if (result != 0) printf("refused by check %u, place %zu", (unsigned)result, place);
    else printf("canonical");
    for (i = 0; i < words; i++) printf(" %08x", (unsigned)canonical[i]);
    putchar('\n');
    return result != 0;
}

int main(void)
{
    uint32_t first[COUNT], second[COUNT];
    int wrong = canonicalize(one, first) || canonicalize(other, second);
    wrong = wrong || memcmp(first, second, sizeof first) != 0;
    puts(wrong ? "two stations" : "one station");
    return wrong;
}
