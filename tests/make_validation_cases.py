#!/usr/bin/env python3
"""Writes the stored calls of the program `validation_cases` (crates/validation_cases/stdin) and, from reference.py,
what it must print (crates/validation_cases/stdout).

  make_validation_cases.py [SEED]

stdin: for each call the count of its list's words, the list's words, the count of the sheet's words, and the sheet's
words; all of these are words of 32 bits, each most significant byte first. stdout: for each call a line, `accepted` or
the refusal."""
import os
import random
import struct
import sys

import lists
import reference
import sheets

HERE = os.path.dirname(os.path.abspath(__file__))
CRATE = os.path.join(os.path.dirname(HERE), 'crates', 'validation_cases')

MOST_BYTES = 500000
EACH = 3            # random sheets of each kind
MOST_SHEET = 400    # words of these


def worked():
    """By hand, and the examples of the checks of a list with the triangle's sheet."""
    out = [(reference.hexes(text), reference.hexes(sheet)) for _, text, sheet, _ in reference.SHEETS]
    refused = reference.REFUSALS + reference.PARTS_512
    return out + [(reference.hexes(text), reference.TRIANGLE_SHEET) for text, _, _ in refused]


def by_name():
    return [(words, sheet) for _, words, sheet in sheets.named()]


def by_chance(rng):
    """Of each kind, and our own of up to 60 parts."""
    out = []
    for kind in sheets.KINDS:
        found = 0
        while found < EACH:
            _, words, sheet, due = sheets.foreign(rng, None, found == 0, kind)
            assert sheets.agrees(due, reference.check_sheet(words, sheet)), kind
            if len(sheet) <= MOST_SHEET:
                out.append((words, sheet))
                found += 1
    for _ in range(8):
        words = lists.drawn(rng, 13, 60)
        out.append((words, reference.answer(words, None, lists.good_discount(rng))[1]))
    return out


def line(words, sheet):
    refusal = reference.check_sheet(words, sheet)
    return 'refused %d %d' % refusal if refusal else 'accepted'


def main(a):
    rng = random.Random(int(a[0]) if a else 1)
    data, text, count = [], [], 0
    for what, calls in (('worked', worked()), ('by name', by_name()), ('by chance', by_chance(rng))):
        tally = {}
        for words, sheet in calls:
            for row in (words, sheet):
                data.append(struct.pack('>%dI' % (len(row) + 1), len(row), *row))
            text.append(line(words, sheet))
            key = text[-1].rpartition(' ')[0] or text[-1]
            tally[key] = tally.get(key, 0) + 1
        count += len(calls)
        print('%s: %d calls; %s' % (what, len(calls), ', '.join('%d %s' % (tally[key], key) for key in sorted(tally))))
    data = b''.join(data)
    if len(data) > MOST_BYTES:
        sys.exit('%d bytes are too many' % len(data))
    os.makedirs(CRATE, exist_ok=True)
    with open(os.path.join(CRATE, 'stdin'), 'wb') as f:
        f.write(data)
    with open(os.path.join(CRATE, 'stdout'), 'w') as f:
        f.write('\n'.join(text) + '\n')
    print('%d calls, %d bytes' % (count, len(data)))


if __name__ == '__main__':
    main(sys.argv[1:])
