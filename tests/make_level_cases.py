#!/usr/bin/env python3
"""Writes the stored calls of the program `level_cases` (crates/level_cases/stdin) and, from reference.py, what it must print
(crates/level_cases/stdout).

  make_level_cases.py [SEED]

stdin: for each call the count of its list's words, the list's words, the count of the second row's words, and the second row's words; all of these
are words of 32 bits, each most significant byte first. stdout: see `expected`."""
import os
import random
import struct
import sys

import lists
import reference

HERE = os.path.dirname(os.path.abspath(__file__))
CRATE = os.path.join(os.path.dirname(HERE), 'crates', 'level_cases')

MOST_BYTES = 250000

# of the named stations of 256 parts and more those that are stored
LARGE = ('chain of 256 amplifiers of 6400', 'chain of 257 pads of 6400', 'chain of 512 amplifiers of 6400', 'chain of 512 pads of 6400',
         'chain of 512 amplifiers, one of 6399', 'chain of 256 amplifiers and 256 pads of 6400', 'chain of 512 shuffled, amplifiers of 6400',
         'ring of 512, amplifiers of 6400', '512 parts: grid shuffled, any', '512 parts: next and next but one, any',
         '512 parts: pair ladder, pads of 6400 at odd parts', '512 parts: four-regular shuffled, any',
         '512 parts: random, with repeated cables shuffled, any')


def worked():
    """By hand, and the examples of the checks with a good second row."""
    out = [(reference.hexes(text), reference.hexes(sorts)) for text, sorts, *_ in (*reference.LEVELS.values(), *reference.LEVEL_REFUSALS)]
    for text, _, _ in reference.REFUSALS + reference.PARTS_512:
        words = reference.hexes(text)
        out.append((words, lists.some_sorts(random.Random(len(words)), min(lists.MOST_PARTS, words[0] >> 16 & 0xfff) if words else 0)))
    return out


def by_name():
    named, stored = lists.levels(), ['levels, ' + what for what in LARGE]
    assert set(stored) <= {name for name, *_ in named}
    return [(words, sorts) for name, words, sorts, _ in named if name in stored or name.startswith('refused') or not lists.is_large(words)]


def by_chance(rng):
    out = []
    for k in range(80):
        words = lists.drawn(rng, 3, 12) if k % 8 else lists.drawn(rng, 13, 60)
        out.append((words, lists.some_sorts(rng, words[0] >> 16 & 0xfff)))
    for _ in range(40):
        words = lists.drawn(rng, 3, 8)
        out.append((words, lists.wrong_sorts(rng, words[0] >> 16 & 0xfff)))
    for k in range(30):
        words = lists.drawn(rng, 3, 8)
        n = words[0] >> 16 & 0xfff
        for _ in range(1 + k % 2):
            words = rng.choice(lists.FAULTS)(rng, words)
        out.append((words, lists.wrong_sorts(rng, n) if k % 3 == 0 else lists.some_sorts(rng, n)))
    return out


def line(answer):
    if answer[0] == 'levels':
        return 'levels %d' % len(answer[1])
    return 'refused %d %d' % answer[1:]


def expected(words, sorts):
    """With room to spare: the answer, the bit patterns of the floats, and that what lies behind is as it was. Of levels also: the answer and the
    floats with the exact room, and the answer with one float less. Of a refusal also: the answer with no room."""
    spare = reference.levels(words, sorts)
    if spare[0] != 'levels':
        return [line(spare), 'kept', line(reference.levels(words, sorts, 0)), 'kept']
    k = len(spare[1])
    return ([line(spare)] + ['%08x' % bits for bits in spare[1]] + ['kept']
            + [line(reference.levels(words, sorts, k)), 'same']
            + [line(reference.levels(words, sorts, k - 1)), 'kept'])


def say(what, calls):
    tally = {}
    for call in calls:
        answer = reference.levels(*call)
        key = answer[1] if answer[0] == 'refused' else 0
        tally[key] = tally.get(key, 0) + 1
    print('%s: %d calls; by result %s' % (what, len(calls), ', '.join('%d: %d' % item for item in sorted(tally.items()))))


def main(a):
    rng = random.Random(int(a[0]) if a else 1)
    calls = []
    for what, some in (('worked', worked()), ('by name', by_name()), ('by chance', by_chance(rng))):
        say(what, some)
        calls += some
    data, text = b'', []
    for words, sorts in calls:
        data += struct.pack('>%dI' % (len(words) + 1), len(words), *words) + struct.pack('>%dI' % (len(sorts) + 1), len(sorts), *sorts)
        text += expected(words, sorts)
    if len(data) > MOST_BYTES:
        sys.exit('%d bytes are too many' % len(data))
    os.makedirs(CRATE, exist_ok=True)
    with open(os.path.join(CRATE, 'stdin'), 'wb') as f:
        f.write(data)
    with open(os.path.join(CRATE, 'stdout'), 'w') as f:
        f.write('\n'.join(text) + '\n')
    print('%d calls, %d bytes' % (len(calls), len(data)))


if __name__ == '__main__':
    main(sys.argv[1:])
