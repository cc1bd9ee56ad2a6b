#!/usr/bin/env python3
"""Writes the stored calls of the program `cases` (crates/cases/stdin) and, from reference.py, what it must print (crates/cases/stdout).

  make_cases.py [SEED]

stdin: for each call the count of its list's words, 1 if a discount is given and else 0, the discount or 0, the column pitch, the row pitch, the margin, and
the list's words; all of these are words of 32 bits, each most significant byte first. stdout: see `expected`."""
import os
import random
import struct
import sys

import lists
import reference

HERE = os.path.dirname(os.path.abspath(__file__))
CRATE = os.path.join(os.path.dirname(HERE), 'crates', 'cases')

# of the stations of 256 parts four are kept: a ladder, one with 512 cables, one with a long cable, and one with pairs alone
LARGE = ('sheet, 256 parts: ladder shuffled', 'sheet, 256 parts: 512 cables shuffled',
         'sheet, 256 parts: a cable of 763 steps', 'sheet, 256 parts: doubled ring shuffled')

WORKED = (
    '10030003 20000002 30000001 30001002 30000002',
    '10040004 20000002 30000001 30001002 30002003 30003000',
    '10040005 20000002 30000001 30000003 30001003 30001002 30000002',
    '1005000a 20000004 30000001 30000002 30000003 30000004 30001002 30001003 30001004 30002003 30002004 30003004')

DISCOUNTS = (0, 5, 500, 1250, 10000, 10001, 4294967295)

SPACINGS = ((2, 3, 10), (64, 64, 255), (1, 64, 0), (64, 1, 1))

# of those of 257, 511 and 512 parts all ladders, grids, rings, four-regular and random ones, of 512 all chains, and of the others one with
# pairs alone, one whose parts wait long for their ranks, and one of each kind with cut parts
WAYS = 'in order', 'reversed', 'shuffled'
LARGER = {'sheet, %d parts: %s %s' % (n, kind, how) for n in (257, 511, 512) for kind, _ in lists.KINDS for how in WAYS} | {
    'sheet, 512 parts: ' + what for what in (
        *('chain ' + how for how in WAYS), 'doubled ring shuffled', 'rails', 'ladder with chains shuffled', 'triangles in a row shuffled',
        'rings of 16 in a row', 'triple chain shuffled', 'two blocks on part 511', 'random blocks in a row, 0')} | {
    'sheet, 257 parts: chain shuffled', 'sheet, 511 parts: chain shuffled', 'sheet, part 511 of 512 on one cable, which is t'}

# of the lists of 256 parts and more that 10 refuses, what their names say behind the refusal
SEPARATED = ('chain of 256, t is 254', 'chain of 512, t is 510', 'chain of 512, s is 510', 'chain of 512 shuffled, s and t in places 100 and 400',
             '512 parts: part 510 hangs on 511', '512 parts: part 511 hangs on 0, which is s',
             '512 parts: ladder with chains, s is 0 and t is 383, where the second begins',
             '512 parts: two blocks on part 511, s is 0 and t is 255')

# of stations of 255 parts and more some calls that 14 lets pass, by the width and by the height, and some that it refuses; of others all
EDGES = {'chain of 256': ((64, 16, 7), (64, 16, 8)), 'ring of 256': ((1, 15, 135), (1, 16, 7), (1, 16, 8), (64, 64, 255)), '255 parts, 510 cables': ((15, 1, 128), (1, 16, 0)),
         '256 parts, 511 cables': ((15, 16, 7), (16, 16, 0)), '256 parts, 512 cables': ((15, 15, 120), (16, 20, 0))}
LARGER_EDGES = {'ring of 257': ((1, 15, 128), (1, 16, 0)), 'ring of 511': ((1, 8, 8), (1, 9, 0)),
                'ring of 512': ((1, 8, 3), (1, 8, 4), (1, 9, 0), (64, 64, 255)),
                'chain of 257': ((64, 16, 0),), 'chain of 511': ((64, 8, 8),),
                'chain of 512': ((64, 8, 3), (64, 8, 4), (1, 9, 0)), 'doubled chain of 512': ((8, 1, 4),),
                '257 parts, 514 cables': ((16, 1, 0), (1, 16, 0)), '510 parts, 1020 cables': ((8, 1, 4), (1, 8, 4), (9, 1, 0)),
                '511 parts, 1022 cables': ((8, 1, 0), (1, 8, 0)), '512 parts, 1023 cables': ((7, 8, 4), (8, 1, 0), (8, 9, 0)),
                '512 parts, 1024 cables': ((7, 7, 253), (8, 1, 0), (1, 8, 0), (10, 8, 0), (64, 64, 255))}

# the program takes 524,288 bytes
MOST_BYTES = 500000


def shape(words):
    """How many cables s and t have."""
    n, s, t, cables = reference.station(words)
    return sum(s in c for c in cables), sum(t in c for c in cables)


def worked():
    return [reference.hexes(row) for row in WORKED]


def with_repeats():
    return [reference.hexes(row) for row, *_ in reference.REPEATS.values()]


def with_cut_parts():
    return [reference.hexes(row) for row, *_ in reference.CHAINS.values()]


def examples():
    """The examples of checks 1 to 10."""
    return [reference.hexes(text) for text, _, (check, _) in reference.REFUSALS if check <= 10]


def is_stored(name, words):
    """Of the boundaries all but most of the largest stations, of which the rings in order stand there once, most of the
    largest lists that 10 refuses, and, with repeated cables, most that differ from others in the sequence of lines alone."""
    left_out = (name.startswith(('sheet, 256 parts', 'sheet, 257 parts', 'sheet, 512 parts', 'sheet, 511 parts', 'sheet, part'))
                or name in ('sheet, ring of 257', 'sheet, ring of 511', 'sheet, ring of 512', 'sheet, s is 511 and t is 255 of 512')
                or name.endswith('lines reversed, some turned round')
                or 'behind others, some turned round' in name or 'the others turned round' in name
                or name.startswith('refused 10') and lists.is_large(words) and name.split(', ', 1)[1] not in SEPARATED)
    return name in LARGE or name in LARGER or not left_out


def without_discount(rng):
    out = worked() + with_repeats() + with_cut_parts() + examples()
    out += [words for name, words in lists.boundaries() if is_stored(name, words)]
    wanted = {(a, b): 6 if min(a, b) > 1 else 3 for a in (1, 2, 3, 4) for b in (1, 2, 3, 4)}
    while any(wanted.values()):
        words = lists.drawn(rng, 3, 40)
        if wanted[shape(words)]:
            wanted[shape(words)] -= 1
            out.append(words)
    out += [lists.refused(rng) for _ in range(40)]
    out += [lists.paired(rng, 3, 16) for _ in range(20)]
    return [(words, None, reference.GRID) for words in out]


def with_discount(rng):
    """The worked stations; a cable as long as each ready length up to 512, and one a step longer; an example of each
    check; three stations of 256 parts; random ones."""
    out = [(words, d) for words in worked() for d in DISCOUNTS]
    out += [(words, d) for words in with_repeats() + with_cut_parts() for d in (0, 1250)]
    for ready, longer in zip(lists.READY, lists.READY[1:]):
        if ready <= 512:
            out += [(lists.with_run(ready), 0), (lists.with_run(ready + 1), rng.choice(lists.HALVES[longer] or [1250]))]
    for words in examples():
        out += [(words, lists.good_discount(rng)), (words, lists.bad_discount(rng))]
    large = dict(lists.boundaries())
    out += [(large[name], d) for name, d in zip(LARGE, (1250, 5, 0))]
    out += [(lists.drawn(rng, 3, 40), lists.good_discount(rng)) for _ in range(40)]
    return [(words, d, reference.GRID) for words, d in out]


def with_spacing(rng):
    """The worked stations, without a discount and with one; each fault of a spacing, two at once, and 12 before it; a bad and a good spacing with an example
    of each check; stations at the edge of 4,095, with a discount now and then; random ones."""
    out = [(words, d, spacing) for words in worked() for k, spacing in enumerate(SPACINGS) for d in ((None, 1250) if k < 2 else (None,))]
    out += [(words, d, SPACINGS[0]) for words in with_repeats() + with_cut_parts() for d in (None, 1250)]
    triangle = worked()[0]
    for place in range(3):
        for k in (0, 64, 65, 65537, 4294967295) if place < 2 else (255, 256, 65536, 4294967295):
            given = [2, 3, 10]
            given[place] = k
            out.append((triangle, None, tuple(given)))
    out += [(triangle, None, spacing) for spacing in ((0, 0, 0), (65, 1, 256), (0, 65, 256), (1, 65, 256), (64, 0, 4294967295))]
    out += [(triangle, d, (0, 65, 256)) for d in (0, 10000, 10001, 4294967295)] + [([], 10001, (1, 1, 256))]
    for k, words in enumerate(examples()):
        out += [(words, None if k % 2 else lists.good_discount(rng), lists.bad_spacing(rng)),
                (words, lists.good_discount(rng) if k % 2 else None, lists.good_spacing(rng))]
    for what, words, rows in lists.EDGES:
        if what not in LARGER_EDGES:
            chosen = EDGES.get(what) or [spacing for spacing, _ in rows]
            out += [(words, 1250 if k % 3 == 2 else None, spacing) for k, spacing in enumerate(chosen)]
    large = dict(lists.boundaries())
    out += [(large['refused 10 254, chain of 256, t is 254'], None, (64, 64, 255)), (lists.full_list(256), 1250, (15, 15, 120))]
    return out + [(lists.drawn(rng, 3, 24), lists.good_discount(rng) if k % 3 == 2 else None, lists.good_spacing(rng)) for k in range(30)]


def with_512_parts(rng):
    """The examples of check 4 at its limit, also with a discount and in a spacing; the longest sheets, with a bill on the grid
    and in a spacing; cables that take the ready lengths of 1,024 and 1,536 steps; stations at the edge of 4,095; random
    lists around the limit."""
    grid, longest = reference.GRID, lists.full_list(512)
    out = [(reference.hexes(text), discount, spacing) for text, _, _ in reference.PARTS_512
           for discount, spacing in ((None, grid), (1250, grid), (None, (8, 8, 3)), (10001, (8, 8, 3)), (1250, (0, 8, 3)))]
    out += [(longest, 1250, grid), (longest, 1250, (7, 7, 252))]
    out += [(lists.with_run(1024), 0, grid), (lists.with_run(1025), rng.choice(lists.HALVES[1536] or [1250]), grid)]
    for what, words, rows in lists.EDGES:
        chosen = LARGER_EDGES.get(what, ())
        if not set(chosen) <= {spacing for spacing, _ in rows}:
            sys.exit('%s: a spacing without its largest number' % what)
        out += [(words, 1250 if k % 3 == 2 else None, spacing) for k, spacing in enumerate(chosen)]
    out += [(lists.about_limit(rng), None, grid) for _ in range(20)]
    large = dict(lists.boundaries())
    return out + [(large[name], 1250, (64, 64, 255)) for name in (
        'refused 10 510, chain of 512, t is 510', 'refused 9 511, part 511 of 512 alone', 'refused 4 513, ring of 513')]


def line(answer):
    if answer[0] == 'sheet':
        return 'sheet %d %d' % (len(answer[1]), answer[2])
    return 'refused %d %d' % answer[1:]


def expected(words, *given):
    """With room to spare: the answer, the sheet's words, and that what lies behind is as it was. Of a sheet also: the answer and the words with the
    exact room, and the answer with one word less. Of a refusal also: the answer with no room."""
    spare = reference.answer(words, None, *given)
    if spare[0] != 'sheet':
        return [line(spare), 'kept', line(reference.answer(words, 0, *given)), 'kept']
    k = len(spare[1])
    return ([line(spare)] + ['%08x' % w for w in spare[1]] + ['kept']
            + [line(reference.answer(words, k, *given)), 'same']
            + [line(reference.answer(words, k - 1, *given)), 'kept'])


def say(what, calls):
    sheets = [got for got in (reference.answer(words, None, *given) for words, *given in calls) if got[0] == 'sheet']
    most = max(len(got[1]) for got in sheets)
    print('%s: %d calls, %d drawn, the longest sheet has %d words' % (what, len(calls), len(sheets), most))
    return most


def main(a):
    rng = random.Random(int(a[0]) if a else 1)
    plain, quoted, spaced, larger = without_discount(rng), with_discount(rng), with_spacing(rng), with_512_parts(rng)
    most = say('without a discount', plain), say('with one', quoted), say('with a spacing', spaced), say('with 512 parts', larger)
    if most != (3590, 2311, 2311, 4615):
        sys.exit('the longest sheets should have 3590, 2311, 2311 and 4615 words')
    calls = plain + quoted + spaced + larger
    data, text = b'', []
    for words, d, spacing in calls:
        data += struct.pack('>%dI' % (len(words) + 6), len(words), d is not None, d or 0, *spacing, *words)
        text += expected(words, d, spacing)
    if len(data) > MOST_BYTES:
        sys.exit('%d bytes are too many' % len(data))
    with open(os.path.join(CRATE, 'stdin'), 'wb') as f:
        f.write(data)
    with open(os.path.join(CRATE, 'stdout'), 'w') as f:
        f.write('\n'.join(text) + '\n')
    print('%d calls, %d bytes' % (len(calls), len(data)))


if __name__ == '__main__':
    main(sys.argv[1:])
