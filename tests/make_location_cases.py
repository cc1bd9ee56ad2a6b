#!/usr/bin/env python3
"""Writes the stored calls of the program `location_cases` (crates/location_cases/stdin) and, from reference.py, what it
must print (crates/location_cases/stdout).

  make_location_cases.py [SEED]

stdin: for each call a cable line, how long the row for the answers is, the count of its list's words and these, the
count of its sheet's words and these, and the count of its marks and these; all are words of 32 bits, each most
significant byte first.

stdout: for each call three answers. For the marks `hits` with their number, then the answers, a word a line, or the
refusal; then `kept`: what lies in a row of ROW words behind the answers, or all of it, is as it was. For the cable
`words` with their number, then its own words of the sheet, a word a line, or the refusal, then `words 0`. For its box
`bounds` with left, bottom, right and top, or the refusal."""
import os
import random
import struct
import sys

import lists
import marks
import reference
import sheets

HERE = os.path.dirname(os.path.abspath(__file__))
CRATE = os.path.join(os.path.dirname(HERE), 'crates', 'location_cases')

MOST_BYTES = 300000
ROW = 256           # words that are lent for the answers at most
RANDOM = 150        # random calls with sheets of any kind
MOST_SHEET = 120    # words of these
NAMED = ('4,095 corners from the other end', '403 corners and a crossing', '403 corners and two crossings',
         'along the edge', 'round the edge', 'crossing in the middle', 'a pair of one step in the last column',
         'a chain of 512, cable 509 beside its column', '512 parts with four cables each, up to 4,095',
         '512 parts, the last word missing', '512 parts, the last cable with a corner on part 0')


def spots(width, height):
    """Marks at all spots of a head and of one column and row more, the most that are answered."""
    return [marks.mark(x, y) for y in range(height + 2) for x in range(width + 2)][:marks.MOST_MARKS]


def worked():
    """The triangle, D, the sheets by hand, and the examples of the checks of a list: (list, sheet, marks, room,
    line)."""
    triangle, sheet = reference.TRIANGLE, reference.TRIANGLE_SHEET[:9]
    some = [marks.mark(*spot) for spot in ((0, 0), (1, 0), (0, 1), (1, 1), (2, 0))]
    out = [(triangle, sheet, some, room, line) for room in (5, 6, ROW, 4, 0) for line in range(5)]
    every = spots(1, 2) + [marks.mark(0, 0), marks.MOST_WORD, 0x10000000, 0x1000]
    for count in (0, 1, 2, 63, 64, 65, 66, 128, 200):
        more = (20 * every)[:count]
        out += [(triangle, sheet, more, room, count % 4) for room in sorted({count, count + 1, max(count - 1, 0)})]
    for line in (3, 4, 255, 256, 4096, 65535, 65536, 65538, 1 << 31, marks.MOST_WORD):
        out.append((triangle, sheet, some, 5, line))
    out.append((triangle, reference.TRIANGLE_SHEET, every, len(every), 2))
    d, its, _ = reference.STATION_D
    d, its = reference.hexes(d), reference.hexes(its)
    out += [(d, its, spots(6, 6), 64, line) for line in range(11)]
    out += [(d, its[:-1], spots(6, 6), 64, 9), (d, its, spots(6, 6) + [0], 64, 10)]
    for _, text, sheet_text, _ in reference.SHEETS:
        words, foreign = reference.hexes(text), reference.hexes(sheet_text)
        head = reference.two(foreign[0]) if foreign else (0, 0)
        seen = spots(*(min(7, k) for k in head))
        out.append((words, foreign, seen, len(seen), (words[0] & 0xffff) - 1))
    for k, (text, _, _) in enumerate(reference.REFUSALS + reference.PARTS_512):
        words = reference.hexes(text)
        out.append((words, sheet, some, 5 - k % 2, k % 4))
        out.append((words, sheet[:k % 9], 13 * some, k, 1 << k))
    return out


def by_name(rng):
    """Some of the sheets by name, with marks at many of their spots."""
    out = []
    for name, words, sheet in sheets.named():
        if name.split(', ', 1)[1] in NAMED:
            m = words[0] & 0xffff
            for line in (0, m - 1, m) if len(sheet) < 1000 else (0,) if m == 2 else (m // 2,):
                out.append((words, sheet, [word for _, word in marks.some_marks(rng, words, sheet, 64)], 70, line))
    return out


def by_chance(rng):
    """Of each kind of sheet, random calls, and our own sheets of up to 40 parts."""
    out = []

    def put(words, sheet, count=None):
        count = marks.some_count(rng) if count is None else count
        some = [word for _, word in marks.some_marks(rng, words, sheet, count)]
        out.append((words, sheet, some, marks.some_room(rng, count), min(marks.some_line(rng, words), marks.MOST_WORD)))

    for kind in sheets.KINDS:
        while True:
            _, words, sheet, _ = sheets.foreign(rng, None, True, kind)
            if len(sheet) <= MOST_SHEET:
                break
        put(words, sheet, rng.randint(1, 12))
    for _, words, sheet, some, room, line in marks.calls(rng):
        if len(sheet) <= MOST_SHEET:
            out.append((words, sheet, [word for _, word in some], room, min(line, marks.MOST_WORD)))
        if len(out) == len(sheets.KINDS) + RANDOM:
            break
    for k in range(8):
        words = lists.drawn(rng, 13, 40)
        put(words, reference.answer(words, None, lists.good_discount(rng))[1], 64 if k % 2 else 30)
    return out


def lines(words, sheet, some, room, line):
    """What is printed of a call, and the three answers."""
    located = reference.locate(words, sheet, some, room)
    chosen, box = reference.select_cable(words, sheet, line), reference.cable_bounds(words, sheet, line)
    out = []
    if located[0] == 'hits':
        out += ['hits %d' % len(located[1])] + ['%08x' % word for word in located[1]]
    else:
        out.append('refused %d %d' % located[1:])
    out.append('kept')
    if chosen[0] == 'words':
        start, count = chosen[1:]
        out += ['words %d' % count] + ['%08x' % word for word in sheet[start:start + count]]
    else:
        out += ['refused %d %d' % chosen[1:], 'words 0']
    out.append(('bounds %d %d %d %d' if box[0] == 'bounds' else 'refused %d %d') % box[1:])
    return out, (located, chosen, box)


def main(a):
    rng = random.Random(int(a[0]) if a else 1)
    data, text, count, hits = [], [], 0, []
    for what, calls in (('worked', worked()), ('by name', by_name(rng)), ('by chance', by_chance(rng))):
        located, chosen = [], []
        for words, sheet, some, room, line in calls:
            assert room <= ROW
            data.append(struct.pack('>2I', line, room))
            for row in (words, sheet, some):
                data.append(struct.pack('>%dI' % (len(row) + 1), len(row), *row))
            more, answers = lines(words, sheet, some, room, line)
            text += more
            located.append(marks.name_of(answers[0]))
            chosen.append(marks.name_of(answers[1]))
            if answers[0][0] == 'hits':
                hits += [marks.LYING[word >> 24 & 0xf] for word in answers[0][1]]
        count += len(calls)
        print('%s: %d calls; marks: %s; cables: %s' % (
            what, len(calls), marks.tally_of(located), marks.tally_of(chosen)))
    data = b''.join(data)
    if len(data) > MOST_BYTES:
        sys.exit('%d bytes are too many' % len(data))
    os.makedirs(CRATE, exist_ok=True)
    with open(os.path.join(CRATE, 'stdin'), 'wb') as f:
        f.write(data)
    with open(os.path.join(CRATE, 'stdout'), 'w') as f:
        f.write('\n'.join(text) + '\n')
    print('%d calls, %d bytes, %d lines; at the marks %s' % (count, len(data), len(text), marks.tally_of(hits)))


if __name__ == '__main__':
    main(sys.argv[1:])
