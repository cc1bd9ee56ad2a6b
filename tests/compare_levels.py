#!/usr/bin/env python3
"""Calls the library's `dovranis_levels` through its C form, beside reference.py, and compares the result, the numbers, the floats written and every byte
around them.

  compare_levels.py [COUNT [SEED]]     the named calls; COUNT random lists (default 9000), each with good and with wrong second rows, damaged, and in another
                                       sequence of its lines; then lists and second rows of a million words and null pointers
  compare_levels.py --baseline ..      the same calls of baseline.c in place of the library

Each call is made with outputs of 0, 1, 2n - 1, 2n, 2n + 1 and far more floats, or of 0, some and far more where it is refused. List, second row, output and
numbers lie in one block of random bytes, with spare words between them; the whole block is compared after each call. What the output holds before is any
pattern, NaNs and negative zeros too. It is no part of the gate."""
import ctypes
import random
import sys
import tempfile
import time

import compare_door
import door
import lists
import reference

# where the numbers and the list lie in the block, in bytes
FLOATS, PLACE, LIST, SPARE = 8, 24, 48, 16

# the greatest level and the least, 51,200 dB either way, and 1/64 dB less than the greatest
EXTREMES = {0x47480000, 0xc7480000, 0x4747fffc}

# what an output may hold before a call: random bytes, or one of these in every float: zeros, NaNs that signal and that do not, infinities
BEFORE = 0x00000000, 0x80000000, 0x7f800001, 0xffa00000, 0x7fc00000, 0xffffffff, 0x7f800000, 0xff800000, 0x00000001


def packed(words):
    return b''.join(w.to_bytes(4, 'little') for w in words)


class Comparison:
    def __init__(self, lib, rng):
        self.lib, self.rng = lib, rng
        self.most, = door.constants('DOVRANIS_MOST_LEVELS')
        self.tally, self.calls, self.wrong, self.longest, self.extremes = {}, 0, 0, 0, set()

    def lent(self, room):
        """The bytes of an output before a call."""
        if self.rng.random() < 0.8:
            return self.rng.randbytes(4 * room)
        return room * self.rng.choice(BEFORE).to_bytes(4, 'little')

    def call(self, words, data, sorts, row, room, full, null_list=False, null_sorts=False, null_output=False):
        """One call; full is the answer for an output that is long enough, data and row are the bytes of the list and of the second row. The bytes
        that it left in the output."""
        due = ('refused', 11, len(full[1])) if full[0] == 'levels' and room < len(full[1]) else full
        second = LIST + len(data) + SPARE
        output = second + len(row) + SPARE
        before = b''.join((self.rng.randbytes(LIST), data, self.rng.randbytes(SPARE), row, self.rng.randbytes(SPARE), self.lent(room), self.rng.randbytes(SPARE)))
        block = bytearray(before)
        at = ctypes.addressof(ctypes.c_char.from_buffer(block))
        assert at % 8 == 0
        rows = (None if null_list else at + LIST, len(words), None if null_sorts else at + second, len(sorts),
                None if null_output else at + output, room)
        result = self.lib.leveled(*rows, at + FLOATS, at + PLACE)
        after = bytearray(before)
        if due[0] == 'levels':
            number, written = 0, packed(due[1])
            after[output:output + len(written)] = written
            after[FLOATS:FLOATS + 8] = len(due[1]).to_bytes(8, 'little')
        else:
            number = due[1]
            after[PLACE:PLACE + 8] = due[2].to_bytes(8, 'little')
        name = 'refused %2d' % number if number else 'levels'
        self.tally[name] = self.tally.get(name, 0) + 1
        self.calls += 1
        if result != number or block != after:
            self.wrong += 1
            if self.wrong <= 3:
                print('differs: result %d, due %s; output of %d; second row of %d words %s; list of %d words %s' % (
                    result, due[:1] + due[-1:] if number else 'levels', room, len(sorts), ' '.join('%08x' % w for w in sorts[:20]),
                    len(words), ' '.join('%08x' % w for w in words[:40])))
        return block[output:output + 4 * room]

    def far(self):
        return self.rng.choice([self.most, self.most + 1, 2 * self.most, self.rng.randint(self.most, self.most + 3000)])

    def compare(self, words, sorts):
        """The call with several lengths of output; what the exact one holds then, or None where it is refused."""
        data, row, full = packed(words), packed(sorts), reference.levels(words, sorts)
        size = len(full[1]) if full[0] == 'levels' else 0
        for room in ([0, 1, size - 1, size + 1, self.far()] if size else [0, self.rng.choice([1, self.rng.randint(2, 40), self.far()])]):
            self.call(words, data, sorts, row, room, full)
        if not size:
            return None
        self.longest = max(self.longest, size)
        self.extremes |= set(full[1]) & EXTREMES
        return self.call(words, data, sorts, row, size, full)

    def compare_lines(self, words, sorts):
        """The call, which is not refused, and with the list in another sequence of its lines and with cables turned round: both leave the same floats,
        whatever reference.py says. With pads and amplifiers exchanged each part's two levels are exchanged and negated, but for zeros."""
        first = self.compare(words, sorts)
        other = self.compare(lists.rearranged(self.rng, words), sorts)
        turned = self.compare(words, lists.negated(sorts))
        bits = [int.from_bytes(turned[k:k + 4], 'little') for k in range(0, len(turned), 4)]
        bits = [k ^ 1 << 31 if k else 0 for two in zip(bits[1::2], bits[::2]) for k in two]
        if not first == other == packed(bits):
            self.wrong += 1
            if self.wrong <= 3:
                print('differs: in other lines or negated: second row %s, list %s' % tuple(' '.join('%08x' % w for w in row[:40]) for row in (sorts, words)))


def parts(words):
    """How many parts a list says, as far as there may be; at least 3."""
    return max(3, min(lists.MOST_PARTS, words[0] >> 16 & 0xfff)) if words else 3


def any_sorts(rng, n):
    """A second row for n parts: mostly good, else with faults, or any words."""
    way = rng.random()
    if way < 0.5:
        return lists.some_sorts(rng, n)
    if way < 0.9:
        return lists.wrong_sorts(rng, n)
    return [rng.getrandbits(32) for _ in range(rng.choice([0, n, n, rng.randrange(30)]))]


def million(rng):
    """Second rows of 65,537 words and of a million with good lists, and lists of as many with second rows of any kind."""
    triangle, large = lists.build(3, 0, 2, [(0, 1), (1, 2), (0, 2)]), lists.full_list(512)
    good = 1000000 * [lists.sort_word(lists.AMPLIFIER, 6400)]
    for words in (triangle, large):
        n = parts(words)
        yield words, good
        for i in (0, n - 1, n, 65535, 65536, rng.randrange(1000000), 999999):
            row = list(good)
            row[i] = lists.wrong_sort_word(rng, row[i])
            yield words, row
        yield words, [lists.sort_word(lists.PAD, 6401)] + good[1:]
        yield words, good[:65536 + n]       # n in its low 16 bits
        yield words, good[:65537]
        yield words, [rng.getrandbits(32) for _ in range(1000000)]
        yield words, 1000000 * [0]
    for words in compare_door.million(rng):
        yield words, rng.choice([[], good[:3], good[:512], lists.wrong_sorts(rng, 512)])
    yield [lists.head(3, 65535), lists.ends(0, 2)] + 999998 * [lists.cable(0, 1)], good


def main(a):
    if a[:1] == ['--baseline']:
        with tempfile.TemporaryDirectory() as folder:
            return compare_all(a[1:], door.baseline(folder), True)
    lib = door.load(door.build())
    return compare_all(a, lib, door.agree(lib))


def compare_all(a, lib, good):
    count = int(a[0]) if a else 9000
    rng = random.Random(int(a[1]) if len(a) > 1 else 1)
    began = time.time()
    c = Comparison(lib, rng)

    named, large = lists.levels(), []
    for name, words, sorts, due in named:
        full = reference.levels(words, sorts)
        assert name.split(',')[0] == ('levels' if full[0] == 'levels' else 'refused %d %d' % full[1:]), name
        assert due is None or full[1] == [reference.float_bits(level) for level in due], name
        c.compare(words, sorts)
        if lists.is_large(words):
            large.append((words, sorts, full))
    # the boundaries of the calls that draw, but for most of the largest, which take long to rank
    drawn = [words for k, (_, words) in enumerate(lists.boundaries()) if len(words) < 300 or k % 8 == 0]
    for words in drawn:
        for _ in range(2):
            c.compare(words, any_sorts(rng, parts(words)))
        c.compare(words, lists.some_sorts(rng, parts(words)))
    print('%d named calls and %d named lists: %d calls, %.0f s' % (len(named), len(drawn), c.calls, time.time() - began))

    began, calls = time.time(), c.calls
    for k in range(count):
        words = lists.drawn(rng, 3, 12) if k % 20 else lists.drawn(rng, 13, 60) if k % 400 else lists.large(rng)
        n = parts(words)
        c.compare_lines(words, lists.some_sorts(rng, n))
        for _ in range(3):
            c.compare(words, lists.wrong_sorts(rng, n))
        c.compare(words, compare_door.damaged(rng, lists.some_sorts(rng, n)))
        c.compare(compare_door.damaged(rng, words), any_sorts(rng, n))
        other = compare_door.any_list(rng) if k % 20 == 0 else lists.any_list(rng, 3, 12)
        c.compare(other, any_sorts(rng, parts(other)))
    print('%d random lists, with wrong second rows, damaged and others: %d calls; the longest output has %d floats; %.0f s' % (
        count, c.calls - calls, c.longest, time.time() - began))

    began, calls = time.time(), c.calls
    for words, sorts in million(rng):
        c.compare(words, sorts)
    triangle, sorts = lists.build(3, 0, 2, [(0, 1), (1, 2), (0, 2)]), lists.of_gains(0, -640, 1280)
    c.call(triangle, packed(triangle), sorts, packed(sorts), 10000000, reference.levels(triangle, sorts))
    print('lists and second rows of 65,537 and of a million words, and an output of ten million: %d calls, %.0f s' % (c.calls - calls, time.time() - began))

    # a count of 0 with a null pointer
    calls = c.calls
    for words in ([], triangle, triangle[:-1], lists.build(3, 0, 1, [(0, 1), (1, 2)]), lists.full_list(512)):
        for row in ([], sorts, sorts[:2], 512 * sorts[:1]):
            full = reference.levels(words, row)
            for room in (0, 1, 6, c.most):
                c.call(words, packed(words), row, packed(row), room, full, not words, not row, not room)
    print('null pointers with a count of 0: %d calls' % (c.calls - calls))

    # the largest stations, on the stack that the header asks for
    calls = c.calls

    def small():
        for words, sorts, full in large:
            for room in (0, c.most):
                c.call(words, packed(words), sorts, packed(sorts), room, full)

    door.on_small_stack(small)
    print('on a stack of %d bytes: %d calls' % (door.STACK, c.calls - calls))
    good = good and c.calls - calls == 2 * len(large)

    for name in sorted(c.tally):
        print('%8d %s' % (c.tally[name], name))
    print('%d calls, %d differ' % (c.calls, c.wrong))
    return c.wrong > 0 or not good or c.longest != c.most or c.extremes != EXTREMES


if __name__ == '__main__':
    sys.exit(main(sys.argv[1:]))
