#!/usr/bin/env python3
"""Calls the library's `dovranis_locate`, `dovranis_cable_words` and `dovranis_cable_bounds` through their C forms,
beside reference.py, and compares the results, the numbers, the answers and every byte around them.

  compare_location.py [COUNT [SEED]]     calls by hand; COUNT random ones (default 20000) of every kind of sheet and of
                                         mark; on the named sheets and on sheets of 256 to 512 parts; then rows of a
                                         million words, null pointers, and the largest sheets on the stack that the
                                         header asks for
  compare_location.py --long [WORD..]    sheets of millions of words, and of long runs, those whose names have all the
                                         WORDs, with the seconds that each call takes; with --worst in place of --long
                                         also two that take longest
  compare_location.py --baseline ..      the same calls of baseline.c in place of the library
  compare_location.py --dry ..           the same calls answered by reference.py itself, which tries this script

Each of the random calls is all three. List, sheet, marks, answers and numbers lie in one block of random bytes, with
spare words between them; the whole block is compared after each call: a refusal stores its place, and of the words of a
cable also 0 and 0; answers are stored for the marks and not behind them; nothing else is written. It is no part of the
gate."""
import ctypes
import random
import struct
import sys
import tempfile
import time

import compare_door
import door
import lists
import marks
import reference
import sheets

# where place, start, count and bounds lie in the block, in bytes, and where the rows begin
PLACE, START, COUNT, BOUNDS, ROWS, SPARE = 8, 24, 40, 56, 72, 16

LARGE = 1000            # words of a sheet that is called for again on the small stack
MOST_SPOTS = 1200       # of a head up to which reference.py goes over damaged large sheets


def packed(words):
    return struct.pack('<%dI' % len(words), *words)


def stored(at, number):
    return at, number.to_bytes(8, 'little')


class Comparison:
    def __init__(self, lib, rng):
        self.lib, self.rng = lib, rng
        self.calls, self.wrong = 0, 0
        self.sheets, self.located, self.selected, self.hits = [], [], [], []

    def call(self, name, rows, more, due, changes):
        """One call with these rows, None for a null pointer with a count of 0, and what is given behind them: numbers,
        and places in the block for pointers, as ('at', place). Due are its result, and for each change where it is in
        the block, or in which row, and the bytes there. The seconds that it took."""
        places, parts = [], [self.rng.randbytes(ROWS)]
        size = ROWS
        for row in rows:
            places.append(size)
            parts += [packed(row or []), self.rng.randbytes(SPARE)]
            size += 4 * len(row or []) + SPARE
        before = b''.join(parts)
        block = bytearray(before)
        at = ctypes.addressof(ctypes.c_char.from_buffer(block))
        assert at % 8 == 0
        given = []
        for row, place in zip(rows, places):
            given += [None if row is None else at + place, len(row or [])]
        given += [at + k[1] if isinstance(k, tuple) else k for k in more]
        began = time.perf_counter()
        result = getattr(self.lib, name)(*given)
        took = time.perf_counter() - began
        after = bytearray(before)
        for where, content in changes:
            place = places[where[1]] if isinstance(where, tuple) else where
            after[place:place + len(content)] = content
        self.calls += 1
        if result != due or block != after:
            first = next((k for k, two in enumerate(zip(block, after)) if two[0] != two[1]), None)
            numbers = [int.from_bytes(block[k:k + 8], 'little') for k in (PLACE, START, COUNT, BOUNDS)]
            what = 'result %d, due %d; first other byte %s, rows at %s; place, start, count and bounds %s'
            self.say(name, rows, more, what % (result, due, first, places, numbers))
        return took

    def say(self, name, rows, more, what):
        self.wrong += 1
        if self.wrong <= 3:
            print('differs: %s %s: %s' % (name, more, what))
            for words in rows:
                if words is not None:
                    print('  %d words %s' % (len(words), ' '.join('%08x' % w for w in words[:60])))

    def locate(self, words, sheet, some, room, answer, null=False):
        """The call for marks, with the answer that is due. With null, rows without words are null pointers."""
        row = [self.rng.getrandbits(32) for _ in range(room)] if room < 5000 else room * [self.rng.getrandbits(32)]
        rows = [None if null and not one else one for one in (words, sheet, some, row)]
        if answer[0] == 'hits':
            return self.call('located', rows, [('at', PLACE)], 0, [(('row', 3), packed(answer[1]))])
        return self.call('located', rows, [('at', PLACE)], answer[1], [stored(PLACE, answer[2])])

    def select(self, words, sheet, line, answer, null=False):
        """The call for a cable's words."""
        rows = [None if null and not one else one for one in (words, sheet)]
        more = [line, ('at', START), ('at', COUNT), ('at', PLACE)]
        if answer[0] == 'words':
            return self.call('selected', rows, more, 0, [stored(START, answer[1]), stored(COUNT, answer[2])])
        changes = [stored(START, 0), stored(COUNT, 0), stored(PLACE, answer[2])]
        return self.call('selected', rows, more, answer[1], changes)

    def bound(self, words, sheet, line, answer, null=False):
        """The call for a cable's box."""
        rows = [None if null and not one else one for one in (words, sheet)]
        more = [line, ('at', BOUNDS), ('at', PLACE)]
        if answer[0] == 'bounds':
            return self.call('bounded', rows, more, 0, [(BOUNDS, struct.pack('<4H', *answer[1:]))])
        return self.call('bounded', rows, more, answer[1], [stored(PLACE, answer[2])])

    def all_three(self, words, sheet, some, room, line, answers, null=False):
        """The three calls with these answers; the seconds that each took."""
        located, chosen, box = answers
        return (self.locate(words, sheet, some, room, located, null), self.select(words, sheet, line, chosen, null),
                self.bound(words, sheet, line, box, null))

    def compare(self, words, sheet, some, room, line, kinds=None, null=False):
        """The three calls with the answers of reference.py."""
        located, chosen, box = due(words, sheet, some, room, line)
        self.located.append(marks.name_of(located))
        self.selected.append(marks.name_of(chosen))
        if located[0] == 'hits' and kinds:
            self.hits += zip(kinds, located[1])
        self.all_three(words, sheet, some, room, line, (located, chosen, box), null)


def due(words, sheet, some, room, line):
    return (reference.locate(words, sheet, some, room), reference.select_cable(words, sheet, line),
            reference.cable_bounds(words, sheet, line))


class Dry:
    """The three calls, answered by reference.py in the memory that is lent."""

    @staticmethod
    def row(at, count):
        return list((ctypes.c_uint32 * count).from_address(at)) if count else []

    @staticmethod
    def store(kind, at, *numbers):
        (kind * len(numbers)).from_address(at)[:] = numbers

    def located(self, words, word_count, sheet, sheet_count, some, count, hits, room, place):
        rows = self.row(words, word_count), self.row(sheet, sheet_count), self.row(some, count)
        answer = reference.locate(*rows, room)
        if answer[0] == 'hits':
            if answer[1]:
                self.store(ctypes.c_uint32, hits, *answer[1])
            return 0
        self.store(ctypes.c_size_t, place, answer[2])
        return answer[1]

    def selected(self, words, word_count, sheet, sheet_count, line, start, count, place):
        answer = reference.select_cable(self.row(words, word_count), self.row(sheet, sheet_count), line)
        own = answer[1:] if answer[0] == 'words' else (0, 0)
        for at, number in zip((start, count), own):
            self.store(ctypes.c_size_t, at, number)
        if answer[0] == 'words':
            return 0
        self.store(ctypes.c_size_t, place, answer[2])
        return answer[1]

    def bounded(self, words, word_count, sheet, sheet_count, line, bounds, place):
        answer = reference.cable_bounds(self.row(words, word_count), self.row(sheet, sheet_count), line)
        if answer[0] == 'bounds':
            self.store(ctypes.c_uint16, bounds, *answer[1:])
            return 0
        self.store(ctypes.c_size_t, place, answer[2])
        return answer[1]


def compare_hand(c):
    """The triangle and D, and the checks of a list and of a sheet before and behind each other."""
    words, sheet = reference.TRIANGLE, reference.TRIANGLE_SHEET
    every = [marks.mark(x, y) for x in range(4) for y in range(5)]
    for its in (sheet, sheet[:9], sheet[:8], []):
        for count in (0, 1, 2, 20, 63, 64, 65, 66, 200):
            some = (10 * every)[:count]
            for room in sorted({0, max(0, count - 1), count, count + 1, 64, 65, 300}):
                for line in (0, 1, 2, 3, 4, 255, 256, 4096, 65536, 1 << 32, (1 << 32) + 2, 1 << 63, marks.MOST_SIZE):
                    c.compare(words, its, some, room, line)
    text, its, _ = reference.STATION_D
    words, its = reference.hexes(text), reference.hexes(its)
    for k in range(0, 64 * 64, 64):
        some = [marks.mark(x, y) for x in range(64) for y in range(64)][k:k + 64]
        c.compare(words, its, some, 64, k // 64 % 12)
    for _, text, foreign, _ in reference.SHEETS:
        words, foreign = reference.hexes(text), reference.hexes(foreign)
        for line in range((words[0] & 0xffff) + 1):
            c.compare(words, foreign, every, 20, line)
    for text, _, _ in reference.REFUSALS + reference.PARTS_512:
        words = reference.hexes(text)
        for foreign in (sheet, sheet[:8], []):
            for count, room in ((0, 0), (1, 0), (20, 20), (64, 64), (65, 65), (65, 0)):
                for line in (0, 2, 3, marks.MOST_SIZE):
                    c.compare(words, foreign, (4 * every)[:count], room, line)


def compare_random(c, count):
    for kind, words, sheet, some, room, line in marks.calls(c.rng, count):
        c.sheets.append((kind, reference.on_screen(tuple(words), tuple(sheet))[0]))
        c.compare(words, sheet, [word for _, word in some], room, line, [what for what, _ in some])


def compare_every_length(c, count):
    """The sheets of some calls with every length, and with one mark all spots of a small head and around it."""
    for kind, words, sheet, some, room, line in marks.calls(c.rng, count, True):
        for size in range(min(60, len(sheet) + 1)):
            c.compare(words, sheet[:size], [word for _, word in some][:3], 3, line)
        width, height = reference.two(sheet[0]) if sheet else (0, 0)
        spots = [(x, y) for x in range(min(width, 12) + 2) for y in range(min(height, 12) + 2)]
        for spot in c.rng.sample(spots, min(40, len(spots))):
            c.compare(words, sheet, [marks.mark(*spot)], 1, line)


def compare_named(c):
    """The sheets by name; those that are large."""
    large = []
    for name, words, sheet in sheets.named():
        some, m = [word for _, word in marks.some_marks(c.rng, words, sheet, 64)], words[0] & 0xffff
        for line in {0, c.rng.randrange(m), m - 1, m}:
            c.compare(words, sheet, some, 64, line)
        if len(words) + len(sheet) > LARGE:
            large.append((words, sheet, some, 64, m - 1))
    return large


def compare_large(c, count):
    """Our own sheets of 256 to 512 parts, and with a fault."""
    rng = c.rng
    for k in range(count):
        words = lists.large(rng)
        spacing = (1, 1, 0) if k % 4 else (rng.randint(1, 3), rng.randint(1, 3), rng.randint(0, 255))
        d = sheets.our_drawing(words, spacing)
        group = rng.choice([sheets.BAD_LAYOUT, sheets.BAD_CABLE])
        made = group[rng.choice(list(group))](rng, d)
        found = [(words, d.sheet())]
        if made and made[1] and max(reference.two(made[1][0])) < MOST_SPOTS:
            found.append(made[:2])
        for words, sheet in found:
            screen = marks.Screen(words, sheet)
            for _ in range(6):
                some = [word for _, word in marks.some_marks(rng, words, sheet, marks.some_count(rng), screen)]
                c.compare(words, sheet, some, marks.some_room(rng, len(some)), marks.some_line(rng, words))


def compare_million(c):
    """Lists, sheets, marks and rows of a million words."""
    words, sheet, count = reference.TRIANGLE, reference.TRIANGLE_SHEET, 1000000
    for long_list in compare_door.million(c.rng):
        c.compare(long_list, c.rng.choice([[], sheet]), [0, 1], c.rng.choice([0, 2]), c.rng.choice([0, 1 << 63]))
    for row in (count * [0], sheet + count * [sheets.corner(1, 1)],
                sheet[:6] + [sheets.line_word(2, 4095)] + count * [sheets.corner(0, 1)]):
        c.compare(words, row, [0, 1, 0x10000], 3, 2)
    for some, room in ((count * [0], 0), (count * [0], count), ([0, 0x10001], count), (64 * [0x10001], count)):
        c.compare(words, sheet, some, room, 2)


def compare_null(c):
    for words in ([], reference.TRIANGLE, reference.TRIANGLE[:-1]):
        for sheet in ([], reference.TRIANGLE_SHEET):
            for some in ([], [0, 0x10000]):
                for room in (0, 2):
                    for line in (0, 3):
                        c.compare(words, sheet, some, room, line, None, True)


def by_drawing(words, sheet, refusal, some, room, line):
    """The three answers of a long sheet that gets this refusal or none, without reference.py: each run is held against
    the marks in its row or column. The cables are such that one with straight runs is right by itself."""
    if refusal:
        return 3 * (('refused', 22, refusal[1]),)
    d = marks.upright_or_level(sheets.read(words, sheet))
    rows, columns, on, parts = {}, {}, {}, {spot: p for p, spot in enumerate(d.parts)}
    for word in some:
        x, y = word >> 16, word & 0xffff
        rows.setdefault(y, set()).add(x)
        columns.setdefault(x, set()).add(y)
    for k in range(len(d.corners)):
        points = d.points(k)
        for (px, py), (qx, qy) in zip(points, points[1:]):
            if py == qy and py in rows:
                for x in rows[py]:
                    if min(px, qx) <= x <= max(px, qx):
                        on.setdefault((x, py), set()).add(k)
            if px == qx and px in columns:
                for y in columns[px]:
                    if min(py, qy) <= y <= max(py, qy):
                        on.setdefault((px, y), set()).add(k)
    hits = []
    for word in some:
        spot = word >> 16, word & 0xffff
        there = sorted(on.get(spot, ()))
        if spot in parts:
            hits.append(0xb1000000 | parts[spot] << 12)
        else:
            low, high = (there + [0, 0])[:2]
            hits.append(0xb0000000 | (len(there) + 1 if there else 0) << 24 | low << 12 | high)
    xs, ys = zip(*d.points(line))
    located = ('hits', hits) if room >= len(some) else ('refused', 11, len(some))
    own = d.lines_at()[line], 1 + len(d.corners[line])
    return located, ('words', *own), ('bounds', min(xs), min(ys), max(xs), max(ys))


def compare_small_long(c):
    """The long sheets with fewer words: their answers by `by_drawing` too."""
    for n, corners in ((3, 3), (4, 7), (7, 11)):
        for d in (sheets.wave_chain(n, corners), sheets.wave_pairs(n, corners), sheets.filled(n, 1, 9, 15)):
            for e in (d, sheets.turned_over(d)):
                for _ in range(4):
                    e.corners = [some[::-1] for some in e.corners]
                    some = [word for _, word in marks.some_marks(c.rng, e.words, e.sheet(), 64)]
                    line = c.rng.randrange(len(e.corners))
                    answers = by_drawing(e.words, e.sheet(), None, some, 64, line)
                    if answers != due(e.words, e.sheet(), some, 64, line):
                        c.say('by_drawing', (e.words, e.sheet(), some), line, 'other answers than reference.py has')
                    c.compare(e.words, e.sheet(), some, 64, line)


def compare_all(a, lib, good):
    count = int(a[0]) if a else 20000
    rng = random.Random(int(a[1]) if len(a) > 1 else 1)
    c = Comparison(lib, rng)

    def part(what, work):
        began, calls = time.time(), c.calls
        found = work()
        print('%s: %d calls, %.0f s' % (what, c.calls - calls, time.time() - began), flush=True)
        return found

    part('by hand', lambda: compare_hand(c))
    part('random calls', lambda: compare_random(c, count))
    part('every length and every spot', lambda: compare_every_length(c, max(4, count // 200)))
    large = part('by name', lambda: compare_named(c))
    part('256 to 512 parts', lambda: compare_large(c, max(2, count // 1000)))
    part('long sheets with fewer words', lambda: compare_small_long(c))
    part('a million words', lambda: compare_million(c))
    part('null pointers with a count of 0', lambda: compare_null(c))
    answers = [due(*call) for call in large]
    calls = c.calls
    part('on a stack of %d bytes' % door.SHEET_STACK, lambda: door.on_small_stack(
        lambda: [c.all_three(*call, answer) for call, answer in zip(large, answers)], door.SHEET_STACK))
    good = good and c.calls - calls == 3 * len(large)

    print('\n'.join(marks.table(c.hits)))
    print('marks: ' + marks.tally_of(c.located))
    print('cables: ' + marks.tally_of(c.selected))
    accepted = sum(answer is None for _, answer in c.sheets)
    print('%d calls, on accepted sheets %d of %d random ones; %d differ' % (c.calls, accepted, len(c.sheets), c.wrong))
    missing = set(sheets.KINDS) - {kind for kind, _ in c.sheets} if count >= 20000 else set()
    if missing:
        print('no sheet of these kinds: %s' % ', '.join(sorted(missing)))
    return c.wrong > 0 or not good or bool(missing) or not 0.4 < accepted / len(c.sheets) < 0.65


def compare_long(names, lib, worst):
    """Each sheet once for each call, on the stack that the header asks for."""
    rng = random.Random(1)
    c, before = Comparison(lib, rng), ''
    for name, words, sheet, refusal in sheets.long_sheets(worst):
        before = name if not name.startswith('the same') else before
        what = name if name == before else before + ': ' + name
        if not all(word in what for word in names):
            continue
        some, line = [word for _, word in marks.some_marks(rng, words, sheet, 64)], rng.randrange(words[0] & 0xffff)
        took = []
        answers = by_drawing(words, sheet, refusal, some, 64, line)
        door.on_small_stack(lambda: took.extend(c.all_three(words, sheet, some, 64, line, answers)), door.SHEET_STACK)
        crossed = sum(word >> 24 & 0xf == 3 for word in answers[0][1]) if not refusal else 0
        found = '22 at %d' % refusal[1] if refusal else '%d crossings' % crossed
        print('%9d words, %-13s %7.2f s %7.2f s %7.2f s  %s' % (len(sheet), found, *took, what), flush=True)
    print('%d calls, %d differ' % (c.calls, c.wrong))
    return c.wrong > 0


def compare(a, lib, agrees):
    if a[:1] in (['--long'], ['--worst']):
        return compare_long(a[1:], lib, a[0] == '--worst')
    return compare_all(a, lib, agrees())


def main(a):
    if a[:1] == ['--baseline']:
        with tempfile.TemporaryDirectory() as folder:
            return compare(a[1:], door.baseline(folder), lambda: True)
    if a[:1] == ['--dry']:
        return compare(a[1:], Dry(), lambda: True)
    lib = door.load(door.build())
    return compare(a, lib, lambda: door.agree(lib))


if __name__ == '__main__':
    sys.exit(main(sys.argv[1:]))
