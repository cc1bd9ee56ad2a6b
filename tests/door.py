#!/usr/bin/env python3
"""The library as programs in C see it: the archive of the crate `exports`, linked as a shared object and called by ctypes.

  door.py       proves and builds the archive, compiles the header as C99 and as C++, compares its constants with the library's, and draws one sheet,
                without a discount and with one, on the grid and in a spacing; then makes its list by proposals and commits, writes
                the list's canonical form, gives levels, validates sheets, and answers marks and chosen cables on one

  import door; lib = door.load(door.build())
  lib.draw(list_words, output_words) -> (result, words, crossings, place, output after)
  lib.draw_quoted(list_words, output_words, discount) -> the same
  lib.draw_spaced(list_words, output_words, spacing), lib.draw_quoted_spaced(list_words, output_words, discount, spacing) -> the same; a spacing is a column
      pitch, a row pitch and a margin
  lib.propose(row_words, one, other) -> (result, version, place, row after)
  lib.commit(row_words, proposal) -> (result, place, row after); a proposal is one, other and a version
  lib.canonicalize(list_words, output_words) -> (result, words, place, output after)
  lib.levels(list_words, sort_words, output_bits) -> (result, floats, place, output after); floats are bit patterns
  lib.check_sheet(list_words, sheet_words) -> (result, place)
  lib.locate(list_words, sheet_words, marks, output_words) -> (result, place, output after)
  lib.cable_words(list_words, sheet_words, line) -> (result, start, count, place)
  lib.cable_bounds(list_words, sheet_words, line) -> (result, place, bounds after); bounds are left, bottom, right, top

It is no part of the gate."""
import array
import ctypes
import os
import struct
import subprocess
import sys
import threading

TOP = os.path.dirname(os.path.dirname(os.path.abspath(__file__)))
EXPORTS = os.path.join(TOP, 'crates', 'exports')
ARCHIVE = os.path.join(EXPORTS, 'out', 'libexports.a')
SHARED = os.path.join(EXPORTS, 'out', 'libexports.so')
INCLUDE = os.path.join(TOP, 'include')
HEADER = '#include "dovranis.h"\n'

POINTER, SIZE, NUMBER = ctypes.c_void_p, ctypes.c_size_t, ctypes.c_uint32
GUARD = 0x5a5a5a5a      # around a row
STACK = 128 * 1024      # bytes that the header asks for
SHEET_STACK = 256 * 1024        # the same for the calls that are given a sheet
WARNED = ['-Wall', '-Wextra', '-Wpedantic', '-Werror']
COMPILERS = (['cc', '-std=c99', '-x', 'c'], ['g++', '-std=c++98', '-x', 'c++'], ['g++', '-std=c++17', '-x', 'c++'])


def run(words, where=TOP, **more):
    got = subprocess.run(words, cwd=where, stdout=subprocess.PIPE, stderr=subprocess.STDOUT, text=True, **more)
    if got.returncode:
        sys.exit('%s failed:\n%s' % (' '.join(words[:3]), got.stdout[-2000:]))
    return got.stdout


def build():
    """Proves what has changed, writes the archive and links all of it as a shared object; the path of that."""
    run(['rt', 'lib'], where=EXPORTS)
    run(['cc', '-shared', '-o', SHARED, '-Wl,--whole-archive', ARCHIVE, '-Wl,--no-whole-archive', '-Wl,-z,defs'])
    return SHARED


def constants(*names):
    """The values of constants of the header."""
    shown = run(['cc', '-E', '-P', '-I', INCLUDE, '-'], input=HEADER + ' '.join(names) + '\n')
    return tuple(map(int, shown.split()[-len(names):]))


def header():
    """Compiles the header alone, warnings as errors; the values of those of its constants that the library has too."""
    for compiler in COMPILERS:
        run(compiler + WARNED + ['-I', INCLUDE, '-c', '-o', os.devnull, '-'], input=HEADER)
    return constants('DOVRANIS_MOST_WORDS', 'DOVRANIS_MOST_QUOTED_WORDS')


class Proposal(ctypes.Structure):
    _fields_ = [('one', NUMBER), ('other', NUMBER), ('version', NUMBER)]


class Bounds(ctypes.Structure):
    _fields_ = [(side, ctypes.c_uint16) for side in ('left', 'bottom', 'right', 'top')]


class Door:
    def __init__(self, path, name='dovranis'):
        lib = ctypes.CDLL(path)

        def function(what, result, *arguments):
            found = getattr(lib, name + what)
            found.restype, found.argtypes = result, arguments
            return found

        self.call = function('_draw', NUMBER, POINTER, SIZE, POINTER, SIZE, POINTER, POINTER, POINTER)
        self.quoted = function('_draw_quoted', NUMBER, POINTER, SIZE, POINTER, SIZE, NUMBER, POINTER, POINTER, POINTER)
        self.spaced = function('_draw_spaced', NUMBER, POINTER, SIZE, POINTER, SIZE, NUMBER, NUMBER, NUMBER, POINTER, POINTER, POINTER)
        self.quoted_spaced = function('_draw_quoted_spaced', NUMBER, POINTER, SIZE, POINTER, SIZE, NUMBER, NUMBER, NUMBER, NUMBER, POINTER, POINTER, POINTER)
        self.proposed = function('_propose', NUMBER, POINTER, SIZE, NUMBER, NUMBER, POINTER, POINTER)
        self.committed = function('_commit', NUMBER, POINTER, SIZE, Proposal, POINTER)
        self.canonical = function('_canonicalize', NUMBER, POINTER, SIZE, POINTER, SIZE, POINTER, POINTER)
        self.leveled = function('_levels', NUMBER, POINTER, SIZE, POINTER, SIZE, POINTER, SIZE, POINTER, POINTER)
        self.checked = function('_check_sheet', NUMBER, POINTER, SIZE, POINTER, SIZE, POINTER)
        self.located = function('_locate', NUMBER, *4 * (POINTER, SIZE), POINTER)
        self.selected = function('_cable_words', NUMBER, *2 * (POINTER, SIZE), SIZE, POINTER, POINTER, POINTER)
        self.bounded = function('_cable_bounds', NUMBER, *2 * (POINTER, SIZE), SIZE, POINTER, POINTER)
        if name == 'dovranis':
            self.most_words = function('_most_words', SIZE)
            self.most_quoted_words = function('_most_quoted_words', SIZE)

    def asked(self, call, list_words, output_words, more, lent):
        given, output = array.array('I', list_words), array.array('I', output_words)
        numbers = [SIZE(k) for k in lent]
        result = call(given.buffer_info()[0], len(given), output.buffer_info()[0], len(output), *more, *map(ctypes.addressof, numbers))
        return result, *(k.value for k in numbers), list(output)

    def draw(self, list_words, output_words, lent=(0, 0, 0)):
        """The call on copies of these words, with numbers lent that hold these values."""
        return self.asked(self.call, list_words, output_words, (), lent)

    def draw_quoted(self, list_words, output_words, discount, lent=(0, 0, 0)):
        """The call that is given a discount, as `draw`."""
        return self.asked(self.quoted, list_words, output_words, (discount,), lent)

    def draw_spaced(self, list_words, output_words, spacing, lent=(0, 0, 0)):
        """The call that is given a spacing, as `draw`."""
        return self.asked(self.spaced, list_words, output_words, spacing, lent)

    def draw_quoted_spaced(self, list_words, output_words, discount, spacing, lent=(0, 0, 0)):
        """The call that is given both, as `draw`."""
        return self.asked(self.quoted_spaced, list_words, output_words, (discount, *spacing), lent)

    def canonicalize(self, list_words, output_words, lent=(0, 0)):
        """The call on copies of these words, with a count of words and a place lent that hold these values."""
        return self.asked(self.canonical, list_words, output_words, (), lent)

    def levels(self, list_words, sort_words, output_bits, lent=(0, 0)):
        """The call on copies of these rows, with a count of floats and a place lent that hold these values."""
        rows, numbers = [array.array('I', row) for row in (list_words, sort_words, output_bits)], [SIZE(k) for k in lent]
        given = [k for row in rows for k in (row.buffer_info()[0], len(row))]
        result = self.leveled(*given, *map(ctypes.addressof, numbers))
        return result, *(k.value for k in numbers), list(rows[2])

    def check_sheet(self, list_words, sheet_words, lent=0):
        """The call on copies of these rows, with a place lent that holds this value; no word of either may change."""
        rows, place = [array.array('I', row) for row in (list_words, sheet_words)], SIZE(lent)
        given = [k for row in rows for k in (row.buffer_info()[0], len(row))]
        result = self.checked(*given, ctypes.addressof(place))
        if [list(row) for row in rows] != [list(list_words), list(sheet_words)]:
            sys.exit('a word of the list or of the sheet was written')
        return result, place.value

    def on_sheet(self, call, rows, more):
        """The result of a call on copies of these rows, the first two of which are a list and a sheet, and the rows
        after; no word may change but of the fourth."""
        copies = [array.array('I', row) for row in rows]
        given = [k for row in copies for k in (row.buffer_info()[0], len(row))]
        result = call(*given, *more)
        after = [list(row) for row in copies]
        if after[:3] != [list(row) for row in rows[:3]]:
            sys.exit('a word of the list, of the sheet or of the marks was written')
        return result, after

    def locate(self, list_words, sheet_words, marks, output_words, lent=0):
        """The call on copies of these rows, with a place lent that holds this value."""
        place = SIZE(lent)
        rows = list_words, sheet_words, marks, output_words
        result, after = self.on_sheet(self.located, rows, (ctypes.addressof(place),))
        return result, place.value, after[3]

    def cable_words(self, list_words, sheet_words, line, lent=(0, 0, 0)):
        """The call on copies of these rows, with a start, a count and a place lent that hold these values."""
        numbers = [SIZE(k) for k in lent]
        more = line, *map(ctypes.addressof, numbers)
        return self.on_sheet(self.selected, (list_words, sheet_words), more)[0], *(k.value for k in numbers)

    def cable_bounds(self, list_words, sheet_words, line, bounds=(0, 0, 0, 0), lent=0):
        """The call on copies of these rows, with bounds and a place lent that hold these values."""
        box, place = Bounds(*bounds), SIZE(lent)
        more = line, ctypes.addressof(box), ctypes.addressof(place)
        result = self.on_sheet(self.bounded, (list_words, sheet_words), more)[0]
        return result, place.value, (box.left, box.bottom, box.right, box.top)

    def edited(self, call, row_words, more, numbers):
        """The result of a call on a copy of this row, and the row after; no word beside it may change."""
        block = array.array('I', [GUARD, GUARD, *row_words, GUARD, GUARD])
        result = call(block.buffer_info()[0] + 2 * block.itemsize, len(row_words), *more, *map(ctypes.addressof, numbers))
        if block[:2] != block[-2:] or set(block[:2]) != {GUARD}:
            sys.exit('a word beside the row was written')
        return result, list(block[2:-2])

    def propose(self, row_words, one, other, lent=(0, 0)):
        """The call on a copy of this row, with a version and a place lent that hold these values."""
        version, place = NUMBER(lent[0]), SIZE(lent[1])
        result, row = self.edited(self.proposed, row_words, (one, other), (version, place))
        return result, version.value, place.value, row

    def commit(self, row_words, proposal, lent=0):
        """The call on a copy of this row, with a place lent that holds this value."""
        place = SIZE(lent)
        result, row = self.edited(self.committed, row_words, (Proposal(*proposal),), (place,))
        return result, place.value, row


def load(path):
    return Door(path)


def baseline(folder):
    """baseline.c as a shared object in this folder, called in the same way."""
    path = os.path.join(folder, 'baseline.so')
    run(['cc', '-O3', '-shared', '-fPIC', '-o', path, os.path.join(TOP, 'tests', 'baseline.c')])
    return Door(path, 'baseline')


def agree(lib):
    """Whether the header compiles and has the library's constants."""
    said, has = header(), (lib.most_words(), lib.most_quoted_words())
    print('the header compiles as C99 and as C++; its constants are %d and %d, the library\'s %d and %d' % (said + has))
    return said == has


def on_small_stack(work, size=STACK):
    """Runs this work on the stack that the header asks for, part of which ctypes takes."""
    before = threading.stack_size(size)
    thread = threading.Thread(target=work)
    thread.start()
    thread.join()
    threading.stack_size(before)


def made(lib, words):
    """Whether the list comes about in a row, cable by cable, and each try leaves the row as it is."""
    row, good = [words[0] & ~0xffff, words[1]] + (len(words) - 2) * [GUARD], True
    for word in words[2:]:
        one, other, before = word >> 12 & 0xfff, word & 0xfff, row
        result, version, _, row = lib.propose(row, one, other)
        good &= (result, row) == (0, before)
        result, _, row = lib.commit(row, (one, other, version))
        good &= result == 0
        print('cable %d-%d: version %d, then %s' % (one, other, version, ' '.join('%08x' % w for w in row)))
    return good and row == words


def main():
    lib = load(build())
    triangle = [0x10030003, 0x20000002, 0x30000001, 0x30001002, 0x30000002]
    row, spacing = 18 * [0xa5a5a5a5], (2, 3, 10)
    for what, (*numbers, output) in (('triangle', lib.draw(triangle, row)),
                                     ('with a discount of 1,250', lib.draw_quoted(triangle, row, 1250)),
                                     ('with pitches of 2 and 3 and a margin of 10', lib.draw_spaced(triangle, row, spacing)),
                                     ('with both', lib.draw_quoted_spaced(triangle, row, 1250, spacing))):
        print('%s: result %d, words %d, crossings %d, place %d' % (what, *numbers))
        print(' '.join('%08x' % w for w in output))
    good = made(lib, triangle)
    *numbers, output = lib.canonicalize(triangle, row[:6])
    print('canonical form: result %d, words %d, place %d' % tuple(numbers))
    print(' '.join('%08x' % w for w in output))
    # a joint, a pad of 10 dB and an amplifier of 20 dB
    *numbers, output = lib.levels(triangle, [0x90000000, 0x91000280, 0x92000500], row[:7])
    print('levels: result %d, floats %d, place %d' % tuple(numbers))
    print(' '.join('%08x' % bits for bits in output))
    print(' '.join('%g' % k for k in struct.unpack('<6f', struct.pack('<6I', *output[:6]))))
    # its own sheet, without the last corner, and with cable 2 straight across part 1
    sheet = lib.draw(triangle, row)[-1]
    for what, words, due in (('its sheet', sheet, (0, 77)), ('without a corner', sheet[:8], (19, 8)),
                             ('across a part', sheet[:6] + [0x60002000], (20, 2))):
        answer = lib.check_sheet(triangle, words, 77)
        print('%s: result %d, place %d' % (what, *answer))
        good &= answer == due
    # parts 0 and 1, cable 2 at (1,0) and (1,1), nothing at (2,0), and a row with one word more; then 65 marks
    marks, kept = [0, 0x10000, 1, 0x10001, 0x20000], 6 * [GUARD]
    hits = [0xb1000000, 0xb2002000, 0xb1001000, 0xb2002000, 0xb0000000, GUARD]
    for what, some, due in (('five marks', marks, (0, 77, hits)), ('65 marks', 13 * marks, (21, 65, kept))):
        result, place, output = lib.locate(triangle, sheet, some, kept, 77)
        print('%s: result %d, place %d, %s' % (what, result, place, ' '.join('%08x' % word for word in output)))
        good &= (result, place, output) == due
    for line, words_due, bounds_due in ((2, (0, 6, 3, 77), (0, 77, (0, 0, 1, 2))),
                                        (3, (23, 0, 0, 3), (23, 3, (7, 7, 7, 7)))):
        words = lib.cable_words(triangle, sheet, line, (77, 77, 77))
        bounds = lib.cable_bounds(triangle, sheet, line, (7, 7, 7, 7), 77)
        print('line %d: result %d, start %d, count %d, place %d' % (line, *words))
        print('line %d: result %d, place %d, bounds %s' % (line, *bounds))
        good &= (words, bounds) == (words_due, bounds_due)
    return not (good and agree(lib))


if __name__ == '__main__':
    sys.exit(main())
