#!/usr/bin/env python3
"""Writes the stored sequences of the program `sequences` (crates/sequences/stdin) and, from reference.py, what it must print (crates/sequences/stdout).

  make_sequences.py [SEED]

stdin: for each sequence the count of its row's words, the count of its operations, the row's words, and the operations: 0 for a proposal or 1 for a commit, the
two part numbers, and the version (0 at a proposal); all of these are words of 32 bits, each most significant byte first. stdout: see `expected`."""
import os
import random
import struct
import sys

import lists
import reference

HERE = os.path.dirname(os.path.abspath(__file__))
CRATE = os.path.join(os.path.dirname(HERE), 'crates', 'sequences')

# the program takes 524,288 bytes, and 2,048 words in a row
MOST_BYTES, MOST_WORDS = 500000, 2048


def worked():
    return [(reference.hexes(text), [operation for operation, _ in operations]) for text, operations, _ in reference.EDITS]


def by_name():
    return [(row, [operation for _, operation in operations]) for _, row, operations in lists.edits()]


def by_chance(rng, count, most_parts, most_words):
    """Each on a row as `lists.start` makes it for so many parts; none with hundreds of operations, which `grown` has."""
    out = []
    while len(out) < count:
        row, done = lists.sequence(rng, reference.edit, most_parts(len(out)))
        if len(row) <= most_words and len(done) <= 40:
            out.append((row, [operation for operation, _, _ in done]))
    return out


def grown(rng, n):
    """A station of n parts from no cable to 2n, most of them laid without a try and some tried first, with refused operations between; and
    then some on it."""
    _, cables = lists.four_regular(rng, n)
    cables, last = sorted(cables), n - 1
    rng.shuffle(cables)
    operations = []
    for m, c in enumerate(cables):
        one, other = c if rng.random() < 0.5 else c[::-1]
        if m % 16 == 0:
            operations.append((lists.PROPOSE, one, other, 0))
        operations.append((lists.COMMIT, one, other, m))
        if m % 16 == 8:
            operations.append((lists.COMMIT, one, other, m))
        if m % 16 == 12:
            operations.append((lists.PROPOSE, other, one, 0))
    for one, other in ((0, 0), (last, last), (0, n), (n, 4096), cables[0], cables[-1], cables[-1][::-1], (0, n // 2), (n // 2, last),
                       (n - 2, 1)):
        operations += [(lists.PROPOSE, one, other, 0), (lists.COMMIT, one, other, 2 * n), (lists.COMMIT, one, other, 2 * n - 1)]
    return lists.slots(lists.build(n, 0, last, []), 2 * n + 8), operations


def expected(row, operations):
    """A line for each operation: `proposal ONE OTHER VERSION`, `committed` or `refused NUMBER PLACE`; then the row's words as they are after the last, a word a
    line in eight hexadecimal digits."""
    lines = []
    for operation in operations:
        answer, row = reference.edit(row, operation)
        lines.append(reference.edit_line(answer))
    return lines + ['%08x' % w for w in row]


def say(what, sequences):
    tally = {}
    for row, operations in sequences:
        for line in expected(row, operations)[:len(operations)]:
            key = line.split()[1] if line.startswith('refused') else '0'
            tally[key] = tally.get(key, 0) + 1
    print('%s: %d sequences, %d operations; by result %s' % (
        what, len(sequences), sum(tally.values()), ', '.join('%s: %d' % (key, tally[key]) for key in sorted(tally, key=int))))


def main(a):
    rng = random.Random(int(a[0]) if a else 1)
    sequences = []
    for what, some in (('worked', worked()), ('by name', by_name()), ('grown', [grown(rng, 256)]),
                       ('by chance', by_chance(rng, 90, lambda k: 256 if k % 40 == 39 else 8, 1024)),
                       ('grown, 512 parts', [grown(rng, 512)]),
                       ('by chance, 257 to 512 parts', by_chance(rng, 8, lambda k: 512, MOST_WORDS))):
        say(what, some)
        sequences += some
    data, text = b'', []
    for row, operations in sequences:
        if len(row) > MOST_WORDS:
            sys.exit('a row of %d words is too long' % len(row))
        data += struct.pack('>%dI' % (2 + len(row) + 4 * len(operations)), len(row), len(operations), *row, *(k for operation in operations for k in operation))
        text += expected(row, operations)
    if len(data) > MOST_BYTES:
        sys.exit('%d bytes are too many' % len(data))
    os.makedirs(CRATE, exist_ok=True)
    with open(os.path.join(CRATE, 'stdin'), 'wb') as f:
        f.write(data)
    with open(os.path.join(CRATE, 'stdout'), 'w') as f:
        f.write('\n'.join(text) + '\n')
    print('%d sequences, %d operations, %d bytes' % (len(sequences), sum(len(operations) for _, operations in sequences), len(data)))


if __name__ == '__main__':
    main(sys.argv[1:])
