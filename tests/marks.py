#!/usr/bin/env python3
"""Calls of the screen (2026-10): a list, a sheet, marks, how long the row for the answers is, and a cable line.

`marks.py [COUNT [SEED]]` makes COUNT random calls (default 5000, 1) and prints how many get which answer, and which
marks hit what, by reference.py.

The sheets are those of sheets.py, of which about half are accepted. Nothing here uses reference.py, but for the table.
"""

import random
import sys

import lists
import reference
import sheets

MOST_MARKS = 64
CALLS_OF_EACH = 4       # calls that are made with one sheet
MOST_WORD = (1 << 32) - 1
MOST_SIZE = (1 << 64) - 1
MOST_COORDINATE = (1 << 16) - 1


def mark(x, y):
    return x << 16 | y


def in_mark(x, y):
    """A mark, or the nearest where a coordinate is below 0 or above 16 bits."""
    return mark(*(min(MOST_COORDINATE, max(0, k)) for k in (x, y)))


class Screen:
    """What a sheet shows, as far as it can be read: width, height, spots of the parts, of the corners, runs as pairs of
    spots, and crossings."""

    def __init__(self, words, sheet):
        head = sheet[0] if sheet else 0
        self.width, self.height = head >> 12 & 0xfff, head & 0xfff
        spots = {k: [(w >> 12 & 0xfff, w & 0xfff) for w in sheet if w >> 28 == k] for k in (5, 7)}
        self.parts, self.corners = spots[5], spots[7]
        self.runs, self.crossings = [], []
        try:
            d = upright_or_level(sheets.read(words, sheet))
        except (IndexError, ValueError):
            self.runs = list(zip(self.corners, self.corners[1:]))
            return
        self.runs = [run[2:] for run in d.runs()]
        self.crossings = some_crossings(self.runs)


def some_crossings(runs, most=100000):
    """Spots between the points of a level run and of an upright one: all, or those that are found in so many steps."""
    columns, level = {}, []
    for (px, py), (qx, qy) in runs:
        if px == qx:
            columns.setdefault(px, []).append((min(py, qy), max(py, qy)))
        elif py == qy and abs(px - qx) > 1:
            level.append((min(px, qx), max(px, qx), py))
    random.Random(1).shuffle(level)
    out = []
    for left, right, y in level:
        for x in range(left + 1, right):
            others = columns.get(x, ())
            out += [(x, y) for low, high in others if low < y < high]
            most -= 1 + len(others)
        if most < 0:
            break
    return out


def upright_or_level(d):
    """The drawing with the corners of each cable from the end from which its runs are straight."""
    for line, some in enumerate(d.corners):
        points = d.points(line)
        if any(p[0] != q[0] and p[1] != q[1] for p, q in zip(points, points[1:])):
            d.corners[line] = some[::-1]
    return d


# Kinds of marks: a function of random numbers, a screen and the sheet, which gives a mark, or None where the screen has
# no place for it.

def one_of(rng, spots):
    return in_mark(*rng.choice(spots)) if spots else None


def on_part(rng, screen, sheet):
    return one_of(rng, screen.parts)


def on_corner(rng, screen, sheet):
    return one_of(rng, screen.corners)


def on_run(rng, screen, sheet):
    if not screen.runs:
        return None
    p, q = rng.choice(screen.runs)
    return in_mark(*sheets.along(p, q, rng.randint(0, sheets.steps(p, q)), 0))


def on_crossing(rng, screen, sheet):
    return one_of(rng, screen.crossings)


def on_any(rng, screen, sheet):
    """One of the above."""
    return rng.choice([on_part, on_corner, on_run, on_crossing, on_crossing])(rng, screen, sheet)


def one_step_off(rng, screen, sheet):
    found = on_any(rng, screen, sheet)
    if found is None:
        return None
    dx, dy = rng.choice(sheets.STEPS)
    return in_mark((found >> 16) + dx, (found & 0xffff) + dy)


def in_head(rng, screen, sheet):
    return mark(rng.randint(0, screen.width), rng.randint(0, screen.height))


def beyond_head(rng, screen, sheet):
    """By one column or row, or by more."""
    x, y = rng.randint(0, screen.width), rng.randint(0, screen.height)
    by = rng.choice([1, 1, 2, 4096])
    return rng.choice([mark(screen.width + by, y), mark(x, screen.height + by),
                       mark(screen.width + by, screen.height + by)])


def like_another(rng, screen, sheet):
    """A spot that is not that of a part, a corner or a run, though some of its bits are: 4,096 columns or rows further,
    a row of 4,096 more in the column before, in the upper or lower half alone, with x for y."""
    found = on_any(rng, screen, sheet)
    if found is None:
        return None
    x, y = found >> 16, found & 0xffff
    further = 4096 * rng.randint(1, 15)
    return rng.choice([in_mark(x + further, y), in_mark(x, y + further), in_mark(x - 1, y + 4096),
                       in_mark(x + 1, y - 4096), mark(y, x), x << 12 | y, x, y, mark(x, MOST_COORDINATE),
                       mark(MOST_COORDINATE, y)])


def word_of_sheet(rng, screen, sheet):
    return rng.choice(sheet) if sheet else None


def any_word(rng, screen, sheet):
    return rng.choice([rng.getrandbits(32), rng.getrandbits(32), 0, MOST_WORD, 1 << 31, 0x0fff0fff, 0x10000000, 0x1000])


MARKS = {
    'on a part': on_part,
    'on a corner': on_corner,
    'on a run': on_run,
    'on a crossing': on_crossing,
    'one step off': one_step_off,
    'in the head': in_head,
    'beyond the head': beyond_head,
    'like another': like_another,
    'a word of the sheet': word_of_sheet,
    'any word': any_word,
}


def some_mark(rng, screen, sheet):
    """(kind, mark)."""
    while True:
        kind = rng.choices(list(MARKS), [4, 4, 4, 4, 3, 2, 1, 1, 1, 1])[0]
        found = MARKS[kind](rng, screen, sheet)
        if found is not None:
            return kind, found


def some_marks(rng, words, sheet, count, screen=None):
    """[(kind, mark)], some of them twice."""
    screen = screen or Screen(words, sheet)
    out = []
    for _ in range(count):
        out.append(rng.choice(out) if out and rng.random() < 0.05 else some_mark(rng, screen, sheet))
    return out


def some_count(rng):
    """How many marks: few, or about the most."""
    return rng.choices([0, 1, rng.randint(2, 9), rng.randint(10, 62), 63, 64, 65, rng.randint(66, 200)],
                       [6, 10, 44, 6, 8, 14, 8, 4])[0]


def some_room(rng, count):
    """How long the row for the answers is."""
    return rng.choice([count, count, count, count + 1, count + rng.randint(2, 9), max(0, count - 1), 0, MOST_MARKS])


def some_line(rng, words):
    """A cable line, mostly one of the list."""
    m = words[0] & 0xffff if words else 0
    if m and rng.random() < 0.7:
        return rng.choice([0, m - 1, rng.randrange(m)])
    line = rng.randrange(m) if m else 0
    return rng.choice([m, m, m + 1, 1 << 63, MOST_SIZE, line + 4096, line + 65536, line + (1 << 32), (1 << 63) + line,
                       MOST_SIZE - line, rng.getrandbits(64)])


def wrong_twice(rng, d):
    """A list that is refused and a sheet that is refused."""
    _, _, sheet, _ = sheets.foreign(rng, d, False, rng.choice([*sheets.BAD_LAYOUT, *sheets.BAD_CABLE]))
    return lists.refused(rng), sheet


def some_sheet(rng, d, small=False):
    """(kind, list, sheet): a sheet of some kind made from a drawing, about half of them accepted."""
    if rng.random() < 0.03:
        return 'list and sheet refused', *wrong_twice(rng, d)
    kind, words, sheet, _ = sheets.foreign(rng, d, small)
    return kind, words, sheet


def calls(rng, count=None, small=False):
    """Random calls one by one, so many or without end: (kind of the sheet, list, sheet, [(kind, mark)], room, line)."""
    made = 0
    while count is None or made < count:
        d = sheets.base(rng, small or rng.random() < 0.25)
        kind, words, sheet = some_sheet(rng, d, small)
        screen = Screen(words, sheet)
        for _ in range(CALLS_OF_EACH if count is None else min(CALLS_OF_EACH, count - made)):
            size = some_count(rng)
            yield kind, words, sheet, some_marks(rng, words, sheet, size, screen), some_room(rng, size), \
                some_line(rng, words)
            made += 1


def tally_of(results):
    """A line of how often each stands there."""
    tally = {}
    for result in results:
        tally[result] = tally.get(result, 0) + 1
    return ', '.join('%d %s' % (tally[key], key) for key in sorted(tally, key=str))


def name_of(result):
    return 'refused %d' % result[1] if result[0] == 'refused' else result[0]


LYING = 'blank', 'a part', 'a cable', 'two cables'


def table(hits):
    """Lines of a table, by kind of mark and by what lies there, of (kind, hit) pairs."""
    out = ['%-24s' % 'mark' + ''.join('%11s' % what for what in LYING)]
    for kind in [*MARKS, *sorted({kind for kind, _ in hits} - set(MARKS))]:
        row = [sum(one == kind and word >> 24 & 0xf == k for one, word in hits) for k in range(len(LYING))]
        if any(row):
            out.append('%-24s' % kind + ''.join('%11s' % (count or '') for count in row))
    return out + ['%-24s' % 'all' + ''.join('%11d' % sum(word >> 24 & 0xf == k for _, word in hits)
                                             for k in range(len(LYING)))]


def main(args):
    count, seed = (int(args[k]) if len(args) > k else default for k, default in enumerate((5000, 1)))
    located, selected, hits = [], [], []
    for _, words, sheet, kinds, room, line in calls(random.Random(seed), count):
        result = reference.locate(words, sheet, [word for _, word in kinds], room)
        located.append(name_of(result))
        selected.append(name_of(reference.select_cable(words, sheet, line)))
        if result[0] == 'hits':
            hits += [(kind, word) for (kind, _), word in zip(kinds, result[1])]
    print('\n'.join(table(hits)))
    print('marks: ' + tally_of(located))
    print('cables: ' + tally_of(selected))


if __name__ == '__main__':
    sys.exit(main(sys.argv[1:]))
