#!/usr/bin/env python3
"""Writes the stored calls of the program `canonical_cases` (crates/canonical_cases/stdin) and, from reference.py, what it must print
(crates/canonical_cases/stdout).

  make_canonical_cases.py [SEED]

stdin: for each call the count of its list's words, and the list's words; all of these are words of 32 bits, each most significant byte
first. stdout: see `expected`."""
import os
import random
import struct
import sys

import lists
import reference

HERE = os.path.dirname(os.path.abspath(__file__))
CRATE = os.path.join(os.path.dirname(HERE), 'crates', 'canonical_cases')

# the program takes 524,288 bytes
MOST_BYTES = 500000


def worked():
    """By hand, and the examples of the checks, of which 9 and 10 refuse none here."""
    return [reference.hexes(text) for text, *_ in (*reference.CANONICAL.values(), *reference.REFUSALS, *reference.PARTS_512,
                                                   *reference.SEPARATED.values())]


def by_name():
    return [words for _, words, _ in lists.canonicals()]


def by_check():
    """Of the boundaries all that checks 1 to 8 refuse."""
    return [words for _, words in lists.boundaries() if reference.list_fault(words)]


def by_chance(rng):
    out = [lists.unsorted(rng, 3, 40) for _ in range(120)] + [lists.unsorted(rng, 41, lists.MOST_PARTS) for _ in range(8)]
    for k in range(60):
        words = lists.unsorted(rng, 3, 12)
        for _ in range(1 + k % 2):
            words = rng.choice(lists.FAULTS)(rng, words)
        out.append(words)
    return out


def line(answer):
    if answer[0] == 'list':
        return 'list %d' % len(answer[1])
    return 'refused %d %d' % answer[1:]


def expected(words):
    """With room to spare: the answer, the words of the canonical form, and that what lies behind is as it was. Of a canonical form also: the answer
    and the words with the exact room, and the answer with one word less. Of a refusal also: the answer with no room."""
    spare = reference.canonicalize(words)
    if spare[0] != 'list':
        return [line(spare), 'kept', line(reference.canonicalize(words, 0)), 'kept']
    k = len(spare[1])
    return ([line(spare)] + ['%08x' % w for w in spare[1]] + ['kept']
            + [line(reference.canonicalize(words, k)), 'same']
            + [line(reference.canonicalize(words, k - 1)), 'kept'])


def say(what, calls):
    tally = {}
    for words in calls:
        answer = reference.canonicalize(words)
        key = answer[1] if answer[0] == 'refused' else 0
        tally[key] = tally.get(key, 0) + 1
    print('%s: %d lists; by result %s' % (what, len(calls), ', '.join('%d: %d' % item for item in sorted(tally.items()))))


def main(a):
    rng = random.Random(int(a[0]) if a else 1)
    calls = []
    for what, some in (('worked', worked()), ('by name', by_name()), ('by check', by_check()), ('by chance', by_chance(rng))):
        say(what, some)
        calls += some
    data, text = b'', []
    for words in calls:
        data += struct.pack('>%dI' % (len(words) + 1), len(words), *words)
        text += expected(words)
    if len(data) > MOST_BYTES:
        sys.exit('%d bytes are too many' % len(data))
    os.makedirs(CRATE, exist_ok=True)
    with open(os.path.join(CRATE, 'stdin'), 'wb') as f:
        f.write(data)
    with open(os.path.join(CRATE, 'stdout'), 'w') as f:
        f.write('\n'.join(text) + '\n')
    print('%d lists, %d bytes' % (len(calls), len(data)))


if __name__ == '__main__':
    main(sys.argv[1:])
