#!/usr/bin/env python3
"""Calls the library through its C form, beside reference.py, and compares the result, the numbers, the words written and every word around them.

  compare_door.py [COUNT [SEED]]     COUNT lists (default 100000), each with several lengths of output, without a discount and with one, on the grid and in
                                     a spacing, and with a discount and a spacing that are turned away; then lists of a million words and null pointers
  compare_door.py --baseline ..      the same calls of baseline.c in place of the library

List, output and numbers lie in one block of random bytes, with spare words between them; the whole block is compared after each call.
It is no part of the gate."""
import ctypes
import random
import sys
import tempfile
import time

import door
import lists
import reference

# where the numbers and the list lie in the block, in bytes
WORDS, CROSSINGS, PLACE, LIST, SPARE = 8, 24, 40, 64, 16

# of the largest stations: one that all have room for, one that those of 256 parts have, and one that none has
LARGE_SPACINGS = (7, 7, 252), (15, 15, 120), (64, 64, 255)


def packed(words):
    return b''.join(w.to_bytes(4, 'little') for w in words)


class Comparison:
    def __init__(self, lib, rng):
        self.lib, self.rng = lib, rng
        self.most, self.most_quoted = door.header()
        self.tally, self.calls, self.wrong, self.longest, self.longest_quoted, self.largest = {}, 0, 0, 0, 0, 0

    def call(self, words, data, room, full, discount=None, spacing=None, null_list=False, null_output=False):
        """One call; full is the answer for an output that is long enough."""
        due = ('refused', 11, len(full[1])) if full[0] == 'sheet' and room < len(full[1]) else full
        sheet = LIST + len(data) + SPARE
        before = self.rng.randbytes(LIST) + data + self.rng.randbytes(SPARE + 4 * room + SPARE)
        block = bytearray(before)
        at = ctypes.addressof(ctypes.c_char.from_buffer(block))
        assert at % 8 == 0
        rows = None if null_list else at + LIST, len(words), None if null_output else at + sheet, room
        numbers = at + WORDS, at + CROSSINGS, at + PLACE
        if spacing is None:
            result = self.lib.call(*rows, *numbers) if discount is None else self.lib.quoted(*rows, discount, *numbers)
        elif discount is None:
            result = self.lib.spaced(*rows, *spacing, *numbers)
        else:
            result = self.lib.quoted_spaced(*rows, discount, *spacing, *numbers)
        after = bytearray(before)
        if due[0] == 'sheet':
            number, written = 0, packed(due[1])
            after[sheet:sheet + len(written)] = written
            after[WORDS:WORDS + 8] = len(due[1]).to_bytes(8, 'little')
            after[CROSSINGS:CROSSINGS + 8] = due[2].to_bytes(8, 'little')
        else:
            number = due[1]
            after[PLACE:PLACE + 8] = due[2].to_bytes(8, 'little')
        name = ('refused %2d' % number if number else 'sheet') + ('' if discount is None else ', with a discount') + ('' if spacing is None else ', with a spacing')
        self.tally[name] = self.tally.get(name, 0) + 1
        self.calls += 1
        if result != number or block != after:
            self.wrong += 1
            if self.wrong <= 3:
                print('differs: result %d, due %s; output of %d; discount %s; spacing %s; list of %d words %s' % (
                    result, due[:1] + due[-1:], room, discount, spacing, len(words), ' '.join('%08x' % w for w in words[:40])))

    def far(self, most):
        return self.rng.choice([most, most + 1, self.rng.randint(most, most + 1200)])

    def compare(self, words, discount):
        """The list with output lengths of 0, one less, exact, one more and far more; where there is no sheet, with 0, a few and far more. The same with
        this discount, and also with room for no bill; and once with a discount that is too large."""
        data, full = packed(words), reference.answer(words)
        size = 0
        if full[0] == 'sheet':
            size = len(full[1])
            self.longest = max(self.longest, size)
            rooms = [0, size - 1, size, size + 1, self.far(self.most)]
        else:
            rooms = [0, self.rng.randint(1, 40), self.far(self.most)]
        for room in rooms:
            self.call(words, data, room, full)

        quoted = reference.answer(words, None, discount)
        if quoted[0] == 'sheet':
            with_bill = len(quoted[1])
            self.longest_quoted = max(self.longest_quoted, with_bill)
            rooms = [0, size, with_bill - 1, with_bill, with_bill + 1, self.far(self.most_quoted)]
        else:
            rooms = [self.rng.randint(0, 40), self.far(self.most_quoted)]
        for room in rooms:
            self.call(words, data, room, quoted, discount)
        bad = lists.bad_discount(self.rng)
        self.call(words, data, self.rng.choice([0, size, self.far(self.most_quoted)]), reference.answer(words, None, bad), bad)

    def compare_spaced(self, words, discount, spacing):
        """The list in a spacing, without a discount and with this one; where there is a sheet, with output lengths of 0, one less, exact, and far more."""
        data = packed(words)
        for d, most in ((None, self.most), (discount, self.most_quoted)):
            full = reference.answer(words, None, d, spacing)
            rooms = [0, self.far(most)]
            if full[0] == 'sheet':
                size = len(full[1])
                rooms += [size - 1, size]
                self.largest = max(self.largest, *reference.two(full[1][0]))
            for room in rooms:
                self.call(words, data, room, full, d, spacing)

    def compare_turned_away(self, words):
        """The list with a spacing that is turned away, without a discount and with one, and with a discount that is turned away before it."""
        data, bad = packed(words), lists.bad_spacing(self.rng)
        for d in (None, lists.good_discount(self.rng), lists.bad_discount(self.rng)):
            self.call(words, data, self.rng.choice([0, self.rng.randint(1, 40), self.far(self.most_quoted)]), reference.answer(words, None, d, bad), d, bad)


# Lists

def damaged(rng, words):
    """Bits turned over, words cut out, put in or exchanged."""
    out = list(words)
    for _ in range(rng.choice([1, 1, 1, 2, 3])):
        way = rng.randrange(5)
        i = rng.randrange(len(out)) if out else 0
        if way == 0 and out:
            out[i] ^= 1 << rng.randrange(32)
        elif way == 1 and out:
            out[i] ^= rng.getrandbits(32) & rng.getrandbits(32) & rng.getrandbits(32)
        elif way == 2:
            del out[i:i + rng.choice([1, 1, 2, len(out)])]
        elif way == 3:
            out[i:i] = [rng.choice([rng.getrandbits(32), lists.cable(rng.randrange(16), rng.randrange(16))] + out) for _ in range(rng.choice([1, 1, 2, 9]))]
        elif out:
            j = rng.randrange(len(out))
            out[i], out[j] = out[j], out[i]
    return out


def long_list(rng):
    """Hundreds or thousands of cables, right in kind and count, among a few or many parts."""
    n, m = rng.choice([3, 40, 256, 512, rng.randint(3, 300), rng.randint(256, 560)]), rng.randint(300, 4000)
    rows = [(rng.randrange(n), rng.randrange(n)) for _ in range(m)]
    if rng.random() < 0.8:
        rows = [(a, b if a != b else (a + 1) % n) for a, b in rows]
    if rng.random() < 0.5:
        rows = list({lists.pair(a, b) for a, b in rows})
        rng.shuffle(rows)
    return lists.build(n, 0, n - 1, rows)


def any_list(rng):
    way = rng.random()
    if way < 0.30:
        return lists.drawn(rng, 3, 12)
    if way < 0.42:
        return lists.drawn(rng, 3, 40)
    if way < 0.68:
        return damaged(rng, lists.drawn(rng, 3, rng.choice([4, 8, 16])))
    if way < 0.84:
        return lists.refused(rng)
    if way < 0.86:
        return lists.about_limit(rng)
    if way < 0.96:
        return lists.noise(rng)
    if way < 0.99:
        return [rng.getrandbits(32) for _ in range(rng.randrange(30))]
    if way < 0.999:
        return long_list(rng)
    return lists.large(rng) if rng.random() < 0.6 else damaged(rng, lists.large(rng))


def million(rng):
    """Lists of a million words, and the longest that pass check 3."""
    count = 1000000
    right = [lists.head(3, 65535), lists.ends(0, 2)] + [lists.cable(0, 1), lists.cable(1, 2)] * (count // 2 - 1)
    yield right
    for i in (0, 1, 2, 65537, rng.randrange(count), count - 1):
        out = list(right)
        out[i] ^= 1 << rng.randint(28, 31)
        yield out
    yield [0] * count
    yield [rng.getrandbits(32) for _ in range(count)]
    # 65,537 words of 256 and of 512 parts: a part number that is too large, and a cable from a part to itself, in the last word;
    # then all pairs of parts and each once more, as far as there are lines, and all cables between the last two parts
    for n in (256, 512):
        full = [lists.head(n, 65535)] + right[1:65537]
        yield full[:-1] + [lists.cable(0, n)]
        yield full[:-1] + [lists.cable(n - 1, n - 1)]
        pairs = sorted(lists.complete(n)[1])
        yield lists.build(n, 0, 1, (pairs + pairs + pairs)[:65535])
        yield lists.build(n, 0, 1, 65535 * [(n - 2, n - 1)])
    yield [lists.head(513, 65535)] + right[1:65537]


def main(a):
    if a[:1] == ['--baseline']:
        with tempfile.TemporaryDirectory() as folder:
            return compare_all(a[1:], door.baseline(folder), True)
    lib = door.load(door.build())
    return compare_all(a, lib, door.agree(lib))


def compare_all(a, lib, good):
    count = int(a[0]) if a else 100000
    rng = random.Random(int(a[1]) if len(a) > 1 else 1)
    began = time.time()
    c = Comparison(lib, rng)

    named = lists.boundaries() + [('a cable of %d steps' % steps, words) for steps, words in lists.runs()]
    large = []
    for k, (_, words) in enumerate(named):
        c.compare(words, lists.GOOD[k % len(lists.GOOD)])
        c.compare_spaced(words, lists.good_discount(rng), lists.GRID if k % 4 == 0 else lists.good_spacing(rng))
        if lists.is_large(words):
            large += [(words, room, reference.answer(words, None, discount, spacing or reference.GRID), discount, spacing)
                      for room, discount in ((c.most, None), (c.most_quoted, 1250)) for spacing in (None, *LARGE_SPACINGS)]
    for discount in lists.DISCOUNTS:
        for _, words in named:
            if len(words) < 20:
                c.compare(words, discount)
    for _, words, discount, spacing in lists.spaced():
        c.compare_spaced(words, lists.good_discount(rng) if discount is None else discount, spacing)
    print('%d lists with a name: %d calls, %.0f s' % (len(named), c.calls, time.time() - began))

    began = time.time()
    for k in range(count):
        words = any_list(rng)
        c.compare(words, lists.good_discount(rng))
        c.compare_spaced(words, lists.good_discount(rng), lists.good_spacing(rng))
        c.compare_turned_away(words)
        # stations that can reach 4,095, which takes 56 parts
        if k % 100 == 0:
            words = lists.drawn(rng, 56, 130) if k % 1000 else lists.large(rng)
            for _ in range(4):
                c.compare_spaced(words, lists.good_discount(rng), lists.edge_spacing(rng, words))
    print('%d lists; the longest sheet has %d words, with a bill %d; the largest head field is %d; %.0f s' % (
        count, c.longest, c.longest_quoted, c.largest, time.time() - began))

    began, calls = time.time(), c.calls
    for words in million(rng):
        c.compare(words, lists.good_discount(rng))
        c.compare_spaced(words, lists.good_discount(rng), lists.good_spacing(rng))
        c.compare_turned_away(words)
    triangle = lists.build(3, 0, 2, [(0, 1), (1, 2), (0, 2)])
    c.call(triangle, packed(triangle), 10000000, reference.answer(triangle))
    c.call(triangle, packed(triangle), 10000000, reference.answer(triangle, None, 500), 500)
    for discount in (None, 500):
        c.call(triangle, packed(triangle), 10000000, reference.answer(triangle, None, discount, (64, 64, 255)), discount, (64, 64, 255))
    print('lists of 65,537 and of a million words, and an output of ten million: %d calls, %.0f s' % (c.calls - calls, time.time() - began))

    # a count of 0 with a null pointer
    calls = c.calls
    for discount in [None] + lists.DISCOUNTS:
        for spacing in (None, (2, 3, 10), (64, 64, 255), (0, 65, 256), (1, 65, 256), (1, 1, 256)):
            def due(words):
                return reference.answer(words, None, discount, spacing or reference.GRID)

            for room in (0, 1, 100):
                c.call([], b'', room, due([]), discount, spacing, null_list=True)
            c.call([], b'', 0, due([]), discount, spacing, null_list=True, null_output=True)
            for words in (triangle, triangle[:-1], [0, 0]):
                c.call(words, packed(words), 0, due(words), discount, spacing, null_output=True)
    print('null pointers with a count of 0: %d calls' % (c.calls - calls))

    # the largest stations, on the stack that the header asks for
    calls = c.calls

    def small():
        for words, room, full, discount, spacing in large:
            c.call(words, packed(words), room, full, discount, spacing)

    door.on_small_stack(small)
    print('on a stack of %d bytes: %d calls' % (door.STACK, c.calls - calls))
    good = good and c.calls - calls == len(large)

    for name in sorted(c.tally):
        print('%8d %s' % (c.tally[name], name))
    print('%d calls, %d differ' % (c.calls, c.wrong))
    return c.wrong > 0 or not good or (c.longest, c.longest_quoted, c.largest) != (c.most, c.most_quoted, 4095)


if __name__ == '__main__':
    sys.exit(main(sys.argv[1:]))
