#!/usr/bin/env python3
"""Calls the library's `dovranis_propose` and `dovranis_commit` through their C form, beside reference.py, and compares the result, the numbers, every word of the
row and what lies around it, after each call.

  compare_editor.py [COUNT [SEED]]     the named runs; COUNT random runs of operations (default 20000), each on one row; rows of a million words and null pointers
  compare_editor.py --baseline ..      the same calls of baseline.c in place of the library

Row and numbers lie in one block of random bytes, with spare words between them; a run goes on in the same block.
It is no part of the gate."""
import ctypes
import random
import sys
import tempfile
import time

import door
import lists
import reference

# where the numbers and the row lie in the block, in bytes
VERSION, PLACE, ROW, SPARE = 8, 24, 48, 16


def packed(words):
    return b''.join(w.to_bytes(4, 'little') for w in words)


class Comparison:
    def __init__(self, lib, rng):
        self.lib, self.rng = lib, rng
        self.tally, self.calls, self.wrong = {}, 0, 0

    def run(self, name, row, done, null=False):
        """The operations of a run, each with the answer that is due and the row then."""
        block = bytearray(self.rng.randbytes(ROW) + packed(row) + self.rng.randbytes(SPARE))
        at = ctypes.addressof(ctypes.c_char.from_buffer(block))
        assert at % 8 == 0
        given = None if null else at + ROW, len(row)
        for (what, one, other, version), due, after in done:
            block[:ROW] = self.rng.randbytes(ROW)
            expected = bytearray(block)
            if due[0] == 'refused':
                number = due[1]
                expected[PLACE:PLACE + 8] = due[2].to_bytes(8, 'little')
            else:
                number = 0
            if due[0] == 'proposal':
                expected[VERSION:VERSION + 4] = due[3].to_bytes(4, 'little')
            elif due[0] == 'committed':
                # all of the row, so that a reference which changes another word is seen too
                expected[ROW:ROW + 4 * len(after)] = packed(after)
            if what == lists.PROPOSE:
                result = self.lib.proposed(*given, one, other, at + VERSION, at + PLACE)
            else:
                result = self.lib.committed(*given, door.Proposal(one, other, version), at + PLACE)
            call = ('propose', 'commit')[what]
            key = '%s: %s' % (call, 'refused %2d' % number if number else due[0])
            self.tally[key] = self.tally.get(key, 0) + 1
            self.calls += 1
            if result != number or block != expected:
                self.wrong += 1
                if self.wrong <= 5:
                    print('differs: %s: %s %d %d%s: result %d, due %s; row of %d words %s' % (
                        name, call, one, other, '' if what == lists.PROPOSE else ' %d' % version, result, due, len(row),
                        ' '.join('%08x' % int.from_bytes(expected[k:k + 4], 'little') for k in range(ROW, min(ROW + 120, len(expected) - SPARE), 4))))
                return      # what follows rests on this row

    def named(self, name, row, operations, null=False):
        """The run of these operations, with the answers of reference.py, which are those due by name."""
        done, now = [], row
        for due, operation in operations:
            answer, now = reference.edit(now, operation)
            assert reference.edit_line(answer) == due, (name, operation, answer)
            done.append((operation, answer, now))
        self.run(name, row, done, null)


def main(a):
    if '--baseline' in a:
        with tempfile.TemporaryDirectory() as folder:
            return compare_all([k for k in a if k != '--baseline'], door.baseline(folder))
    return compare_all(a, door.load(door.build()))


def compare_all(a, lib):
    count = int(a[0]) if a else 20000
    rng = random.Random(int(a[1]) if len(a) > 1 else 1)
    began = time.time()
    c = Comparison(lib, rng)

    named = lists.edits()
    for name, row, operations in named:
        c.named(name, row, operations)
    for name, words in lists.boundaries():
        for spare in (0, 1, 5):
            row = lists.slots(words, spare)
            c.run(name, row, lists.run_on(rng, row, reference.edit, 6))
    print('runs with a name: %d calls, %.0f s' % (c.calls, time.time() - began))

    began, calls = time.time(), c.calls
    for k in range(count):
        c.run('run %d' % k, *lists.sequence(rng, reference.edit, 8 if k % 100 != 99 else 256 if k % 200 == 99 else 512))
    print('%d random runs: %d calls, %.0f s' % (count, c.calls - calls, time.time() - began))

    began, calls = time.time(), c.calls
    for name, row, operations in lists.long_edits():
        c.named(name, row, operations)
    print('rows of 65,536 words and of a million: %d calls, %.0f s' % (c.calls - calls, time.time() - began))

    # a count of 0 with a null pointer
    calls = c.calls
    for name, row, operations in named:
        if not row:
            c.named(name + ', null', row, operations, True)
    for _ in range(100):
        c.run('null', [], lists.run_on(rng, [], reference.edit, 6), True)
    print('null pointers with a count of 0: %d calls' % (c.calls - calls))

    # the largest stations, on the stack that the header asks for
    calls = c.calls
    large = [run for run in named if len(run[1]) > 250]

    def small():
        for run in large:
            c.named(*run)

    door.on_small_stack(small)
    print('on a stack of %d bytes: %d calls' % (door.STACK, c.calls - calls))
    good = c.calls - calls == sum(len(operations) for _, _, operations in large)

    for name in sorted(c.tally):
        print('%8d %s' % (c.tally[name], name))
    print('%d calls, %d differ' % (c.calls, c.wrong))
    return c.wrong > 0 or not good


if __name__ == '__main__':
    sys.exit(main(sys.argv[1:]))
