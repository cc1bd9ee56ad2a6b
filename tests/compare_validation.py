#!/usr/bin/env python3
"""Calls the library's `dovranis_check_sheet` through its C form, beside reference.py, and compares the result, the
place and every byte around them.

  compare_validation.py [COUNT [SEED]]    the named sheets; COUNT random sheets of every kind (default 60000), every
                                          length of some of them, and sheets of 256 to 512 parts; then lists and sheets
                                          of a million words, null pointers, and the largest on the stack that the
                                          header asks for
  compare_validation.py --long [WORD..]   sheets of millions of words, and of long runs, those whose names have all the
                                          WORDs, with the seconds that each takes; with --worst in place of --long also
                                          two that take longest
  compare_validation.py --baseline ..     the same calls of baseline.c in place of the library

List, sheet and place lie in one block of random bytes, with spare words between them; the whole block is compared after
each call: a refusal stores its place, and nothing else is written. It is no part of the gate."""
import ctypes
import random
import struct
import sys
import tempfile
import time

import compare_door
import door
import lists
import reference
import sheets

# where the place and the list lie in the block, in bytes
PLACE, LIST, SPARE = 8, 32, 16

SHEETS_OF_EACH = 6      # random sheets that are made from one drawing


def packed(words):
    return struct.pack('<%dI' % len(words), *words)


class Comparison:
    def __init__(self, lib, rng):
        self.lib, self.rng = lib, rng
        self.answers, self.calls, self.wrong = [], 0, 0

    def call(self, kind, words, sheet, due, null_list=False, null_sheet=False):
        """One call; due is None or a refusal. The seconds that it took."""
        data, row = packed(words), packed(sheet)
        at_sheet = LIST + len(data) + SPARE
        before = b''.join((self.rng.randbytes(LIST), data, self.rng.randbytes(SPARE), row, self.rng.randbytes(SPARE)))
        block = bytearray(before)
        at = ctypes.addressof(ctypes.c_char.from_buffer(block))
        assert at % 8 == 0
        rows = None if null_list else at + LIST, len(words), None if null_sheet else at + at_sheet, len(sheet)
        began = time.perf_counter()
        result = self.lib.checked(*rows, at + PLACE)
        took = time.perf_counter() - began
        after = bytearray(before)
        if due:
            after[PLACE:PLACE + 8] = due[1].to_bytes(8, 'little')
        self.calls += 1
        self.answers.append((kind, due))
        if result != (due[0] if due else 0) or block != after:
            self.say(kind, words, sheet, 'result %d, place %d, due %s' % (
                result, int.from_bytes(block[PLACE:PLACE + 8], 'little'), due))
        return took

    def say(self, kind, words, sheet, what):
        self.wrong += 1
        if self.wrong <= 3:
            print('differs: %s: %s; sheet of %d words %s; list of %d words %s' % (
                kind, what, len(sheet), ' '.join('%08x' % w for w in sheet[:60]),
                len(words), ' '.join('%08x' % w for w in words[:40])))

    def compare(self, kind, words, sheet, due=sheets.OPEN):
        """A call, whose answer by reference.py must also be what is known from the way the sheet is made."""
        answer = reference.check_sheet(words, sheet)
        if not sheets.agrees(due, answer):
            self.say(kind, words, sheet, 'reference.py has %s, made for %s' % (answer, due))
        self.call(kind, words, sheet, answer)


def compare_named(c):
    """Sheets by hand and by name; those that are large, with what is due."""
    large = []
    for what, text, sheet, due in reference.SHEETS:
        c.compare('by hand', reference.hexes(text), reference.hexes(sheet), due)
    for text, _, _ in reference.REFUSALS + reference.PARTS_512:
        for sheet in ([], reference.TRIANGLE_SHEET):
            c.compare('by hand', reference.hexes(text), sheet)
    for name, words, sheet in sheets.named():
        first = name.split(',')[0].split()
        due = tuple(map(int, first[1:])) or None
        c.compare('by name', words, sheet, due)
        if len(words) + len(sheet) > 1000:
            large.append((words, sheet, due))
    for name, words in lists.boundaries():
        if len(words) < 300:
            result = reference.answer(words)
            c.compare('by name', words, result[1] if result[0] == 'sheet' else reference.TRIANGLE_SHEET)
    return large


def compare_random(c, count):
    rng = c.rng
    for k in range(count):
        if k % SHEETS_OF_EACH == 0:
            d = sheets.base(rng, k % (4 * SHEETS_OF_EACH) == 0)
        kind, words, sheet, due = sheets.foreign(rng, d)
        c.compare(kind, words, sheet, due)
        if k % 400 == 0:
            for size in range(min(60, len(sheet) + 1)):
                c.compare('every length', words, sheet[:size])


def compare_large(c, count):
    """Our own sheets of 256 to 512 parts, and with one fault or more."""
    rng = c.rng
    for k in range(count):
        words = lists.large(rng)
        spacing = (1, 1, 0) if k % 4 else (rng.randint(1, 3), rng.randint(1, 3), rng.randint(0, 255))
        d = sheets.our_drawing(words, spacing)
        c.compare('256 to 512 parts', words, d.sheet(), None)
        for _ in range(4):
            group, what = rng.choice([(sheets.BAD_LAYOUT, 'layout'), (sheets.BAD_CABLE, 'cable'),
                                      (sheets.BAD_CABLE, 'cable'), ({'': sheets.run_shifted}, 'cable')])
            made = group[rng.choice(list(group))](rng, d)
            # on larger heads reference.py has too many spots to go over
            if made and made[1] and max(reference.two(made[1][0])) < 1200:
                c.compare('256 to 512 parts, wrong ' + what, *made)


def million(rng):
    """Lists of a million words with any sheet, and sheets of a million words."""
    triangle, sheet, count = sheets.TRIANGLE, reference.TRIANGLE_SHEET, 1000000
    for words in compare_door.million(rng):
        yield words, rng.choice([[], sheet, count * [0]])
    for row in (count * [0], count * [sheets.corner(0, 0)], [rng.getrandbits(32) for _ in range(count)],
                sheet + count * [sheets.corner(1, 1)], sheet[:-6] + count * [sheets.corner(0, 0)],
                sheet[:6] + [sheets.line_word(2, 4095)] + count * [sheets.corner(0, 1)]):
        yield triangle, row


def compare_all(a, lib, good):
    count = int(a[0]) if a else 60000
    rng = random.Random(int(a[1]) if len(a) > 1 else 1)
    c = Comparison(lib, rng)

    def part(what, work):
        began, calls = time.time(), c.calls
        found = work()
        print('%s: %d calls, %.0f s' % (what, c.calls - calls, time.time() - began))
        return found

    large = part('by hand and by name', lambda: compare_named(c))
    part('random sheets', lambda: compare_random(c, count))
    part('256 to 512 parts', lambda: compare_large(c, max(2, count // 2000)))
    part('lists and sheets of a million words', lambda: [c.compare('a million words', *both) for both in million(rng)])

    def nulls():
        for words in ([], sheets.TRIANGLE, sheets.TRIANGLE[:-1], lists.full_list(512)):
            for sheet in ([], reference.TRIANGLE_SHEET):
                c.call('null pointers', words, sheet, reference.check_sheet(words, sheet), not words, not sheet)

    part('null pointers with a count of 0', nulls)
    calls = c.calls
    part('on a stack of %d bytes' % door.SHEET_STACK,
         lambda: door.on_small_stack(lambda: [c.call('small stack', *call) for call in large], door.SHEET_STACK))
    good = good and c.calls - calls == len(large)

    print('\n'.join(sheets.table(c.answers)))
    accepted = sum(answer is None for kind, answer in c.answers if kind in sheets.KINDS)
    random_calls = sum(kind in sheets.KINDS for kind, _ in c.answers)
    print('%d calls, %d of %d random ones accepted; %d differ' % (c.calls, accepted, random_calls, c.wrong))
    missing = set(sheets.KINDS) - {kind for kind, _ in c.answers}
    if missing:
        print('no sheet of these kinds: %s' % ', '.join(sorted(missing)))
    return c.wrong > 0 or not good or bool(missing) or not 0.4 < accepted / random_calls < 0.6


def compare_long(names, lib, worst):
    """Each sheet once, on the stack that the header asks for."""
    c, before = Comparison(lib, random.Random(1)), ''
    for name, words, sheet, due in sheets.long_sheets(worst):
        before = name if not name.startswith('the same') else before
        what = name if name == before else before + ': ' + name
        if all(word in what for word in names):
            took = []
            door.on_small_stack(lambda: took.append(c.call('long', words, sheet, due)), door.SHEET_STACK)
            print('%9d words, %-13s %7.2f s  %s' % (
                len(sheet), 'refused %d %d' % due if due else 'accepted', took[0], what), flush=True)
    print('%d calls, %d differ' % (c.calls, c.wrong))
    return c.wrong > 0


def compare(a, lib, agrees):
    if a[:1] in (['--long'], ['--worst']):
        return compare_long(a[1:], lib, a[0] == '--worst')
    return compare_all(a, lib, agrees())


def main(a):
    if a[:1] == ['--baseline']:
        with tempfile.TemporaryDirectory() as folder:
            return compare(a[1:], door.baseline(folder), lambda: True)
    lib = door.load(door.build())
    return compare(a, lib, lambda: door.agree(lib))


if __name__ == '__main__':
    sys.exit(main(sys.argv[1:]))
