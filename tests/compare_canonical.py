#!/usr/bin/env python3
"""Calls the library's `dovranis_canonicalize` through its C form, beside reference.py, and compares the result, the numbers, the words written and every word
around them.

  compare_canonical.py [COUNT [SEED]]     the named lists; COUNT random lists (default 30000), each with several lengths of output, in another sequence
                                          of its lines, damaged, and its canonical form once more; then lists of a million words and null pointers
  compare_canonical.py --baseline ..      the same calls of baseline.c in place of the library

A list of up to 30 words is given every length of output from 0 to its own and two words more; a longer one 0, 1, two words less to one more, and far more.
List, output and numbers lie in one block of random bytes, with spare words between them; the whole block is compared after each call.
It is no part of the gate."""
import ctypes
import random
import sys
import tempfile
import time

import compare_door
import door
import lists
import reference

# where the numbers and the list lie in the block, in bytes
WORDS, PLACE, LIST, SPARE = 8, 24, 48, 16

SHORT = 30      # words of a list that is given every length of output


def packed(words):
    return b''.join(w.to_bytes(4, 'little') for w in words)


class Comparison:
    def __init__(self, lib, rng):
        self.lib, self.rng = lib, rng
        self.tally, self.calls, self.wrong, self.longest = {}, 0, 0, 0

    def call(self, words, data, room, full, null_list=False, null_output=False):
        """One call; full is the answer for an output that is long enough. The words that it left in the output."""
        due = ('refused', 11, len(full[1])) if full[0] == 'list' and room < len(full[1]) else full
        output = LIST + len(data) + SPARE
        before = self.rng.randbytes(LIST) + data + self.rng.randbytes(SPARE + 4 * room + SPARE)
        block = bytearray(before)
        at = ctypes.addressof(ctypes.c_char.from_buffer(block))
        assert at % 8 == 0
        rows = None if null_list else at + LIST, len(words), None if null_output else at + output, room
        result = self.lib.canonical(*rows, at + WORDS, at + PLACE)
        after = bytearray(before)
        if due[0] == 'list':
            number, written = 0, packed(due[1])
            after[output:output + len(written)] = written
            after[WORDS:WORDS + 8] = len(due[1]).to_bytes(8, 'little')
        else:
            number = due[1]
            after[PLACE:PLACE + 8] = due[2].to_bytes(8, 'little')
        name = 'refused %2d' % number if number else 'list'
        self.tally[name] = self.tally.get(name, 0) + 1
        self.calls += 1
        if result != number or block != after:
            self.wrong += 1
            if self.wrong <= 3:
                print('differs: result %d, due %s; output of %d; list of %d words %s' % (
                    result, due[:1] + due[-1:] if number else 'list', room, len(words), ' '.join('%08x' % w for w in words[:40])))
        return block[output:output + 4 * room]

    def far(self):
        return self.rng.choice([1026, 1027, 2052, self.rng.randint(1026, 4000)])

    def rooms(self, words, full):
        """Lengths of output to try."""
        size = len(words)
        if full[0] != 'list':
            return [0, 1, self.rng.randint(2, 40), self.far()]
        if size <= SHORT:
            return [*range(size + 3), self.far()]
        return [0, 1, size - 2, size - 1, size, size + 1, size + self.far()]

    def compare(self, words):
        """The list with several lengths of output; what the exact one holds then, or None where the list is refused."""
        data, full = packed(words), reference.canonicalize(words)
        for room in self.rooms(words, full):
            self.call(words, data, room, full)
        if full[0] != 'list':
            return None
        self.longest = max(self.longest, len(words))
        return self.call(words, data, len(words), full)

    def compare_lines(self, words):
        """The list, which is not refused, the list in another sequence of its lines and with cables turned round, and what the call left as its
        canonical form: all three leave the same words, whatever reference.py says."""
        first = self.compare(words)
        other = self.compare(lists.rearranged(self.rng, words))
        again = self.compare([int.from_bytes(first[k:k + 4], 'little') for k in range(0, len(first), 4)])
        if not first == other == again:
            self.wrong += 1
            if self.wrong <= 3:
                print('differs: in other lines: list of %d words %s' % (len(words), ' '.join('%08x' % w for w in words[:40])))


def million(rng):
    """Lists of 65,537 words and of a million; the longest that is not refused, with a word less and with a word more, and with a million."""
    yield from compare_door.million(rng)
    longest = lists.rearranged(rng, lists.full_list(512))
    yield longest
    yield longest[:-1]
    yield longest + longest[-1:]
    yield lists.grown(longest, longest[-1:])
    yield longest + 998974 * longest[-1:]


def main(a):
    if a[:1] == ['--baseline']:
        with tempfile.TemporaryDirectory() as folder:
            return compare_all(a[1:], door.baseline(folder), True)
    lib = door.load(door.build())
    return compare_all(a, lib, door.agree(lib))


def compare_all(a, lib, good):
    count = int(a[0]) if a else 30000
    rng = random.Random(int(a[1]) if len(a) > 1 else 1)
    began = time.time()
    c = Comparison(lib, rng)

    named = lists.canonicals()
    for name, words, due in named:
        assert reference.canonicalize(words) == (('list', due) if due else ('refused', *map(int, name.split(',')[0].split()[1:]))), name
        (c.compare_lines if due else c.compare)(words)
    drawn = lists.boundaries() + [('a cable of %d steps' % steps, words) for steps, words in lists.runs()]
    for _, words in drawn:
        c.compare(words)
    print('%d lists with a name: %d calls, %.0f s' % (len(named) + len(drawn), c.calls, time.time() - began))

    began, calls = time.time(), c.calls
    for k in range(count):
        words = lists.unsorted(rng, 3, 12) if k % 20 else lists.unsorted(rng, 13, 60) if k % 200 else lists.unsorted(rng, 61, lists.MOST_PARTS)
        c.compare_lines(words)
        c.compare(compare_door.damaged(rng, words))
        c.compare(compare_door.any_list(rng))
    print('%d random lists, in other lines, damaged and others: %d calls; the longest canonical form has %d words; %.0f s' % (
        count, c.calls - calls, c.longest, time.time() - began))

    began, calls = time.time(), c.calls
    for words in million(rng):
        c.compare(words)
    triangle = lists.build(3, 0, 2, [(0, 1), (1, 2), (0, 2)])
    c.call(triangle, packed(triangle), 10000000, reference.canonicalize(triangle))
    print('lists of 65,537 and of a million words, and an output of ten million: %d calls, %.0f s' % (c.calls - calls, time.time() - began))

    # a count of 0 with a null pointer
    calls = c.calls
    for room in (0, 1, 2, 100):
        c.call([], b'', room, reference.canonicalize([]), null_list=True)
    c.call([], b'', 0, reference.canonicalize([]), null_list=True, null_output=True)
    for words in (triangle, triangle[:-1], [0, 0], lists.build(3, 0, 2, []), lists.full_list(512)):
        c.call(words, packed(words), 0, reference.canonicalize(words), null_output=True)
    print('null pointers with a count of 0: %d calls' % (c.calls - calls))

    # the largest stations, on the stack that the header asks for
    calls = c.calls
    large = [(words, reference.canonicalize(words)) for words in [words for _, words, _ in named] + [words for _, words in drawn] if lists.is_large(words)]

    def small():
        for words, full in large:
            c.call(words, packed(words), 1026, full)

    door.on_small_stack(small)
    print('on a stack of %d bytes: %d calls' % (door.STACK, c.calls - calls))
    good = good and c.calls - calls == len(large)

    for name in sorted(c.tally):
        print('%8d %s' % (c.tally[name], name))
    print('%d calls, %d differ' % (c.calls, c.wrong))
    return c.wrong > 0 or not good or c.longest != 1026


if __name__ == '__main__':
    sys.exit(main(sys.argv[1:]))
