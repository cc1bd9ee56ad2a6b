/* A list that grows cable by cable in a row, with a cable that is refused and a proposal that comes too late, and
   its sheet: examples/link builds and runs it. */
#include <stdio.h>
#include "dovranis.h"

/* Three parts, source 0 and analyser 2, no cable yet; behind that room for three cables. */
static uint32_t row[5] = {0x10030000, 0x20000002};
static const size_t count = sizeof row / sizeof *row;

/* Each says the answer in words and returns whether it is a refusal. */
static int propose(struct dovranis_proposal *p, uint32_t one, uint32_t other)
{
    size_t place = 0;
    uint32_t result = dovranis_propose(row, count, one, other, &p->version, &place);
    p->one = one;
    p->other = other;
    printf("propose %u-%u: ", (unsigned)one, (unsigned)other);
    if (result != 0) printf("refused by check %u, place %zu\n", (unsigned)result, place);
    else printf("version %u\n", (unsigned)p->version);
    return result != 0;
}

static int commit(struct dovranis_proposal p)
{
    size_t place = 0;
    uint32_t result = dovranis_commit(row, count, p, &place);
    printf("commit %u-%u, version %u: ", (unsigned)p.one, (unsigned)p.other, (unsigned)p.version);
    if (result != 0) printf("refused by check %u, place %zu\n", (unsigned)result, place);
    else puts("added");
    return result != 0;
}

int main(void)
{
    static uint32_t sheet[DOVRANIS_MOST_WORDS];
    size_t words = 0, crossings = 0, place = 0, i;
    struct dovranis_proposal first = {0, 0, 0}, second = {0, 0, 0};
    int wrong = propose(&first, 0, 1) || commit(first);
    wrong |= !propose(&second, 1, 1);                   /* a part and itself: 6 */
    wrong |= propose(&second, 1, 2) || commit(second);
    wrong |= !commit(first);                            /* there are two cables now: 15 */
    wrong |= propose(&second, 0, 2) || commit(second);
    wrong |= dovranis_draw(row, (row[0] & 0xffff) + 2, sheet, DOVRANIS_MOST_WORDS, &words, &crossings, &place) != 0;
    printf("list");
    for (i = 0; i < count; i++) printf(" %08x", (unsigned)row[i]);
    printf("\nits sheet has %zu words\n", words);
    return wrong;
}
