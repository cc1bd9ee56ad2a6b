#!/usr/bin/env python3
"""Sheets to validate (2026-09), each with its list: ours, as other drawing tools might draw the same list, and damaged.

`sheets.py [COUNT [SEED]]` makes COUNT random sheets (default 5000, 1) and prints for each kind how many are accepted
and how many are refused by which check, by reference.py.

A kind is a way to make a sheet from a drawing that is accepted. It tells what is due where that is known from the way
the sheet is made: None for accepted, a check with its place, a check with the place OPEN, or OPEN. Sheets of our own
are drawn by reference.py; nothing here uses its `check_sheet`, but for the table.
"""

import heapq
import random
import sys

import lists
import reference

OPEN = 'open'
MOST_FIELD = 4095

TRIANGLE = lists.build(3, 0, 2, [(0, 1), (1, 2), (0, 2)])
PAIR = lists.build(3, 0, 2, [(0, 1), (1, 0), (1, 2)])       # the first cable twice
CHAIN = lists.build(3, 0, 2, [(0, 1), (1, 2)])


# Words, made without the reference so that a slip there is not repeated here.

def sheet_head(width, height):
    return 0x40000000 | width << 12 | height


def part(x, y):
    return 0x50000000 | x << 12 | y


def line_word(line, corners):
    return 0x60000000 | line << 12 | corners


def corner(x, y):
    return 0x70000000 | x << 12 | y


def is_inside(spot, width, height):
    return 0 <= spot[0] <= width and 0 <= spot[1] <= height


class Drawn:
    """A drawing of a list that passes checks 1 to 10: the list's words, the head's width and height, the spot of each
    part, and the corners by line, from the first part of the list's word to the second."""

    def __init__(self, words, width, height, parts, corners):
        self.words, self.width, self.height = list(words), width, height
        self.parts, self.corners = list(parts), [list(some) for some in corners]

    def copy(self):
        return Drawn(self.words, self.width, self.height, self.parts, self.corners)

    def cables(self):
        return [(w >> 12 & 0xfff, w & 0xfff) for w in self.words[2:]]

    def points(self, line):
        w = self.words[2 + line]
        return [self.parts[w >> 12 & 0xfff]] + self.corners[line] + [self.parts[w & 0xfff]]

    def runs(self):
        """(line, k, p, q): the run of a line from its k-th point p to the next, q. New corners of it stand before
        corner k."""
        return [(line, k, *two) for line in range(len(self.corners))
                for points in [self.points(line)] for k, two in enumerate(zip(points, points[1:]))]

    def sheet(self):
        """The words, up to the last cable's corners."""
        out = [sheet_head(self.width, self.height)] + [part(*spot) for spot in self.parts]
        for line, some in enumerate(self.corners):
            out.append(line_word(line, len(some)))
            out += [corner(*spot) for spot in some]
        return out

    def lines_at(self):
        """Where the word of each line stands in the sheet."""
        out, place = [], 1 + len(self.parts)
        for some in self.corners:
            out.append(place)
            place += 1 + len(some)
        return out

    def mapped(self, spot, width, height):
        """The drawing with every spot changed by a function, and another head; None where it does not fit."""
        if max(width, height) > MOST_FIELD:
            return None
        corners = [[spot(*c) for c in some] for some in self.corners]
        return Drawn(self.words, width, height, [spot(*p) for p in self.parts], corners)


# Drawings that are accepted.

def our_drawing(words, spacing):
    """Our own drawing of a list in a spacing, or None where 14 refuses it."""
    g = reference.spaced(reference.draw(words), spacing)
    if reference.too_large(g) is not None:
        return None
    corners = [some if g.rank[a] < g.rank[b] else some[::-1] for (a, b), some in zip(g.cables, g.corners)]
    return Drawn(words, g.width, g.height, g.parts, corners)


STEPS = (1, 0), (0, 1), (-1, 0), (0, -1)


def cheapest_way(start, goal, width, height, held, barred, is_direct, cost, turn):
    """A way of unit steps from one part to another, as spots, or None. A spot in `held` is passed straight, across the
    cable that passes there, or not at all where that is None; a spot has its cost, and a turn has one. The one step
    between neighbours is a way only if it `is_direct`."""
    heap, before = [], {}
    for d in range(4):
        heapq.heappush(heap, (0, start, d, None))
    while heap:
        far, spot, d, came = heapq.heappop(heap)
        if (spot, d) in before:
            continue
        before[spot, d] = came
        if spot == goal:
            out, state = [], (spot, d)
            while state:
                out.append(state[0])
                state = before[state]
            return out[::-1]
        for e in range(4):
            if spot != start and ((d - e) % 4 == 2 or (spot in held and d != e)) or (spot == start and d != e):
                continue
            nxt = spot[0] + STEPS[e][0], spot[1] + STEPS[e][1]
            if not is_inside(nxt, width, height) or (nxt == goal and spot == start and not is_direct):
                continue
            if nxt != goal and nxt in held:
                across = held[nxt]
                if across is None or across[0] in barred or across[1] == (e % 2 == 0):
                    continue
            heapq.heappush(heap, (far + cost[nxt] + (turn if d != e else 0), nxt, e, (spot, d)))
    return None


def corners_of(way):
    """The spots of a way of unit steps where it turns."""
    return [q for p, q, r in zip(way, way[1:], way[2:]) if (q[0] - p[0], q[1] - p[1]) != (r[0] - q[0], r[1] - q[1])]


def routed_on(rng, words, width, height, parts, laid=()):
    """A drawing with these spots of the parts, each cable laid by the cheapest way by chance, in a sequence by chance;
    the lines in `laid` are straight. No two others lie on one run of one step, so that all may be drawn apart. None
    where a cable finds no way."""
    cables = [(w >> 12 & 0xfff, w & 0xfff) for w in words[2:]]
    held, corners, stepped = {spot: None for spot in parts}, [[] for _ in cables], set()
    most, turn = rng.choice([1, 2, 9]), rng.choice([0, 0, 1, 5, 40])
    cost = {(x, y): rng.randint(1, most) for x in range(width + 1) for y in range(height + 1)}
    for line in laid:
        (ax, ay), (bx, by) = (parts[p] for p in cables[line])
        for x in range(min(ax, bx), max(ax, bx) + 1):
            for y in range(min(ay, by), max(ay, by) + 1):
                held.setdefault((x, y), None)
    for line in rng.sample(range(len(cables)), len(cables)):
        if line in laid:
            continue
        a, b = cables[line]
        barred, is_direct = set(), frozenset((a, b)) not in stepped
        for _ in range(4):
            way = cheapest_way(parts[a], parts[b], width, height, held, barred, is_direct, cost, turn)
            if way is None:
                return None
            across = [held[spot][0] for spot in way[1:-1] if spot in held]
            twice = {other for other in across if across.count(other) > 1}
            if not twice:
                break
            barred |= twice
        if twice or len(set(way)) < len(way):
            return None
        corners[line] = corners_of(way)
        if len(way) == 2:
            stepped.add(frozenset((a, b)))
        for p, q in zip(way, way[1:-1]):
            held[q] = None if q in corners[line] or q in held else (line, p[1] == q[1])
    return Drawn(words, width, height, parts, corners)


def routed(rng, words, most=24):
    """A drawing in which each cable takes the cheapest way by chance; the head is at most so wide and high. None where
    none is found in some trials."""
    n, m = words[0] >> 16 & 0xfff, words[0] & 0xffff
    for trial in range(6):
        side = 1 + max(2, int((n + m) ** 0.5)) + trial
        width, height = (min(most, max(1, side + rng.randint(-2, 2))) for _ in range(2))
        spots = [(x, y) for x in range(width + 1) for y in range(height + 1)]
        if len(spots) >= n:
            d = routed_on(rng, words, width, height, rng.sample(spots, n))
            if d:
                return d
    return None


def stretched(d, k, margin):
    """Every coordinate times k, and a margin on all sides. Between the columns and rows that were there nothing ends,
    and what passes there passes on straight."""
    return d.mapped(lambda x, y: (margin + k * x, margin + k * y), k * d.width + 2 * margin, k * d.height + 2 * margin)


def along(p, q, t, h):
    """The spot t steps from p towards q, and h steps to the left of that way."""
    ux, uy = (q[0] > p[0]) - (q[0] < p[0]), (q[1] > p[1]) - (q[1] < p[1])
    return p[0] + t * ux - h * uy, p[1] + t * uy + h * ux


def steps(p, q):
    return abs(p[0] - q[0]) + abs(p[1] - q[1])


def bump(p, q, t, u, h):
    """Corners by which the run from p to q leaves its way at t for h steps to the left, and comes back to it at u."""
    return [along(p, q, *k) for k in ((t, 0), (t, h), (u, h), (u, 0))]


def with_corners(d, line, k, more):
    """The drawing with more corners on the k-th run of a line, or None where they are outside the head."""
    if not all(is_inside(spot, d.width, d.height) for spot in more) or len(d.corners[line]) + len(more) > MOST_FIELD:
        return None
    out = d.copy()
    out.corners[line][k:k] = more
    return out


def box(spots):
    xs, ys = zip(*spots)
    return min(xs), max(xs), min(ys), max(ys)


def are_apart(one, other):
    return one[1] < other[0] or other[1] < one[0] or one[3] < other[2] or other[3] < one[2]


def detoured(rng, d, most=6):
    """A stretched drawing with detours into the columns and rows between: what crosses the run where it was crosses the
    detour now, once. No two detours are in one place. None where the drawing is too large or too small."""
    k = rng.choice([2, 2, 3, 4, 6])
    d = stretched(d, k, k - 1)
    if d is None:
        return None
    boxes, found = [], []
    for _ in range(3 * most):
        line, at, p, q = rng.choice(d.runs())
        between = [t for t in range(1, steps(p, q)) if t % k]
        if len(between) < 2 or len(found) == most:
            continue
        t, u = sorted(rng.sample(between, 2)) if rng.random() < 0.6 else between[:2]
        more = bump(p, q, t, u, rng.choice([-1, 1]) * rng.randint(1, k - 1))
        place = box(more)
        if all(are_apart(place, other) for other in boxes):
            boxes.append(place)
            found.append((line, at, t, more))
    # From the last on a line to the first, so that the runs before keep their numbers.
    for line, at, _, more in sorted(found, reverse=True):
        d = with_corners(d, line, at, more)
    return d if found else None


def zigzag(d, line, k, count=MOST_FIELD):
    """A drawing stretched by 2 or more, with detours of one step along a whole run, so many corners at most."""
    p, q = d.points(line)[k:k + 2]
    more = []
    for t in range(1, steps(p, q) - 2, 4):
        if len(more) + 4 <= count - len(d.corners[line]):
            more += bump(p, q, t, t + 2, 1)
    return with_corners(d, line, k, more)


def read(words, sheet):
    """The drawing that a sheet shows, which follows the layout."""
    n, m = words[0] >> 16 & 0xfff, words[0] & 0xffff
    spots, corners, place = [(w >> 12 & 0xfff, w & 0xfff) for w in sheet], [], n + 1
    for _ in range(m):
        count = sheet[place] & 0xfff
        corners.append(spots[place + 1:place + 1 + count])
        place += 1 + count
    return Drawn(words, *spots[0], spots[1:n + 1], corners)


# What a drawing has.

def crossing_spots(d):
    """(spot, level run, upright run) for each crossing of two lines of an accepted drawing."""
    runs = d.runs()
    level = [r for r in runs if r[2][1] == r[3][1]]
    upright = [r for r in runs if r[2][0] == r[3][0]]
    out = []
    for one in level:
        (px, y), (qx, _) = one[2:]
        for other in upright:
            (x, py), (_, qy) = other[2:]
            if min(px, qx) < x < max(px, qx) and min(py, qy) < y < max(py, qy):
                out.append(((x, y), one, other))
    return out


def beside(d, run, t, u, h):
    """The lines with a run parallel to this one that passes between its way from t to u and the way h steps to the
    left, or runs along that way, in a drawing where nothing ends between t and u."""
    _, _, p, q = run
    first, last = along(p, q, t, 0 if h == 0 else h // abs(h)), along(p, q, u, h)
    low_x, high_x, low_y, high_y = box([first, last])
    is_level, out = p[1] == q[1], set()
    for line, _, a, b in d.runs():
        if (a[1] == b[1]) == is_level:
            x0, x1, y0, y1 = box([a, b])
            if not are_apart((low_x, high_x, low_y, high_y), (x0, x1, y0, y1)):
                out.add(line)
    return out


def repeated_lines(d):
    """Two lines of the same two parts, or None."""
    seen = {}
    for line, cable in enumerate(d.cables()):
        if frozenset(cable) in seen:
            return seen[frozenset(cable)], line
        seen[frozenset(cable)] = line
    return None


# Kinds that are accepted: a function of random numbers and an accepted drawing, which gives (list, sheet, due), or None
# where the drawing has no place for it.

def as_drawn(d, due=None):
    return d and (d.words, d.sheet(), due)


def junk(rng, d):
    """Words that another house might write behind the last corner."""
    spot = corner(rng.randint(0, d.width), rng.randint(0, d.height))
    some = [spot, corner(MOST_FIELD, MOST_FIELD), line_word(len(d.corners), 1), line_word(0, 0), 0, 0xffffffff,
            rng.getrandbits(32), 0x80000001, 0xa0000006, sheet_head(0, 0)]
    return [rng.choice(some) for _ in range(rng.choice([1, 1, 2, 3, 9]))]


def ours(rng, d):
    """A sheet that our calls write, in a spacing, with its lengths and perhaps a quote."""
    small = rng.randint(1, 4), rng.randint(1, 4), rng.randint(0, 3)
    spacing = rng.choice([reference.GRID, small, lists.good_spacing(rng)])
    discount = rng.choice([None, lists.good_discount(rng)])
    result = reference.answer(d.words, None, discount, spacing)
    return (d.words, result[1], None) if result[0] == 'sheet' else None


def ours_cut(rng, d):
    """The same, with some words or all behind the last corner cut off."""
    made = ours(rng, d)
    if made is None:
        return None
    words, sheet, _ = made
    n, m = words[0] >> 16 & 0xfff, words[0] & 0xffff
    size = 1 + n + m + sum(w >> 28 == 7 for w in sheet)
    return words, sheet[:rng.choice([size, size, rng.randint(size, len(sheet))])], None


def mirrored_x(rng, d):
    return as_drawn(d.mapped(lambda x, y: (d.width - x, y), d.width, d.height))


def mirrored_y(rng, d):
    return as_drawn(d.mapped(lambda x, y: (x, d.height - y), d.width, d.height))


def turned(rng, d):
    """By a quarter, one way or the other, or across."""
    spot = rng.choice([lambda x, y: (y, d.width - x), lambda x, y: (d.height - y, x), lambda x, y: (y, x)])
    return as_drawn(d.mapped(spot, d.height, d.width))


def from_other_end(rng, d):
    """The corners of some cables, or of all, from the other end."""
    out = d.copy()
    for line in range(len(out.corners)):
        if rng.random() < 0.6:
            out.corners[line].reverse()
    return as_drawn(out)


def shifted(rng, d):
    dx, dy = rng.choice([0, 1, rng.randint(0, 9)]), rng.choice([0, 1, rng.randint(0, 9)])
    more = rng.randint(0, 3)
    return as_drawn(d.mapped(lambda x, y: (x + dx, y + dy), d.width + dx + more, d.height + dy))


def larger_head(rng, d):
    out = d.copy()
    out.width = rng.choice([d.width, min(MOST_FIELD, d.width + 1), MOST_FIELD, rng.randint(d.width, MOST_FIELD)])
    out.height = rng.choice([d.height, min(MOST_FIELD, d.height + 1), MOST_FIELD, rng.randint(d.height, MOST_FIELD)])
    return as_drawn(out)


def pushed(d, at_x, at_y, width, height):
    """All from a column and a row on moved away, up to another width and height."""
    dx, dy = width - d.width, height - d.height
    return d.mapped(lambda x, y: (x + dx * (x >= at_x), y + dy * (y >= at_y)), width, height)


def at_most_field(rng, d):
    """Drawn apart, so that the last column, the last row or both are 4,095."""
    ways = rng.choice([(MOST_FIELD, d.height), (d.width, MOST_FIELD), (MOST_FIELD, MOST_FIELD)])
    return as_drawn(pushed(d, rng.randint(0, d.width), rng.randint(0, d.height), *ways))


def drawn_apart(rng, d):
    """Columns and rows put in between."""
    columns, rows = ([0] for _ in range(2))
    for row, size in ((columns, d.width), (rows, d.height)):
        for _ in range(size):
            row.append(row[-1] + rng.choice([1, 1, 2, 3]))
    return as_drawn(d.mapped(lambda x, y: (columns[x], rows[y]), columns[-1], rows[-1]))


def with_detours(rng, d):
    out = detoured(rng, d, rng.choice([1, 2, 6]))
    return out and from_other_end(rng, out) if rng.random() < 0.5 else as_drawn(out)


def many_corners(rng, d):
    """A run in zigzag, as far as it goes."""
    out = stretched(d, rng.choice([4, 6]), 1)
    if out is None:
        return None
    line, k, p, q = max(out.runs(), key=lambda run: steps(*run[2:]))
    return as_drawn(zigzag(out, line, k))


def turned_round(rng, d):
    """Cables of the list turned round; the sheet is as it was."""
    words = [lists.turned(w) if i > 1 and rng.random() < 0.5 else w for i, w in enumerate(d.words)]
    return words, d.sheet(), None


def other_lines(rng, d):
    """The lines of list and sheet in another sequence."""
    out, order = d.copy(), rng.sample(range(len(d.corners)), len(d.corners))
    out.words[2:] = [d.words[2 + line] for line in order]
    out.corners = [d.corners[line] for line in order]
    return as_drawn(out)


def repeats_exchanged(rng, d):
    """Two cables between the same parts exchanged, in another direction where the list has them so."""
    lines = repeated_lines(d)
    if lines is None:
        return None
    a, b = lines
    out = d.copy()
    out.corners[a], out.corners[b] = d.corners[b], d.corners[a]
    return as_drawn(out)


def with_junk(rng, d):
    return d.words, d.sheet() + junk(rng, d), None


def straight_pair(rng, far, is_level):
    """A list with a cable there twice or more, both straight between parts so far apart: (drawing, the lower line)."""
    for _ in range(20):
        words = lists.paired(rng, 3, 5)
        cables = [lists.pair(w >> 12 & 0xfff, w & 0xfff) for w in words[2:]]
        a, b = rng.choice([c for c in cables if cables.count(c) > 1])
        lines = [line for line, c in enumerate(cables) if c == (a, b)][:rng.choice([2, 2, 3])]
        width, height = (far + rng.randint(2, 5) for _ in range(2))
        x, y = (rng.randint(1, size - 1 - far * is_far)
                for size, is_far in ((width, is_level), (height, not is_level)))
        ends = [(x, y), (x + far, y) if is_level else (x, y + far)]
        between = [(x + t, y) if is_level else (x, y + t) for t in range(far + 1)]
        free = [(i, j) for i in range(width + 1) for j in range(height + 1) if (i, j) not in between]
        parts = rng.sample(free, words[0] >> 16 & 0xfff)
        parts[a], parts[b] = rng.sample(ends, 2)
        d = routed_on(rng, words, width, height, parts, lines)
        if d:
            return d, lines[0]
    return None


def repeats_one_step(rng, d):
    """Two cables on one straight run between parts one step apart: they share the parts' spots alone."""
    made = straight_pair(rng, 1, rng.random() < 0.5)
    return made and as_drawn(made[0])


def good_from_one_end(rng, d):
    """A straight cable with a detour and its corners from the other end, so that it alternates from both ends, and read
    from the end where the corners do not start it touches itself; or with them from the end where they do."""
    out = stretched(d, 4, 3)
    runs = out and [run for run in out.runs() if not out.corners[run[0]]]
    if not runs:
        return None
    line, k, p, q = rng.choice(runs)
    t = rng.randint(1, 2)
    out = with_corners(out, line, k, bump(p, q, t, t + 1, rng.choice([-2, -1, 1, 2])))
    if rng.random() < 0.6:
        out.corners[line].reverse()
    return as_drawn(out)


GOOD = {
    'as drawn': lambda rng, d: as_drawn(d),
    'ours': ours,
    'ours, lengths cut off': ours_cut,
    'mirrored in x': mirrored_x,
    'mirrored in y': mirrored_y,
    'turned by 90 degrees': turned,
    'corners from the other end': from_other_end,
    'shifted': shifted,
    'larger head': larger_head,
    'up to 4,095': at_most_field,
    'drawn apart': drawn_apart,
    'with detours': with_detours,
    'many corners': many_corners,
    'cables turned round in the list': turned_round,
    'lines in another sequence': other_lines,
    'repeated cables exchanged': repeats_exchanged,
    'junk behind': with_junk,
    'repeated cables, one step apart': repeats_one_step,
    'good from one end': good_from_one_end,
}


# Kinds that 19 refuses.

def no_words(rng, d):
    return d.words, [], (19, 0)


def cut_short(rng, d):
    sheet = d.sheet()
    place = rng.choice([len(sheet) - 1, rng.randrange(len(sheet)), rng.choice([0, *d.lines_at()])])
    return d.words, sheet[:place], (19, place)


def word_missing(rng, d):
    sheet = d.sheet()
    i = rng.randrange(len(sheet))
    return d.words, sheet[:i] + sheet[i + 1:] + rng.choice([[], [], junk(rng, d)]), OPEN


def word_put_in(rng, d):
    sheet = d.sheet()
    i = rng.randint(0, len(sheet))
    return d.words, sheet[:i] + [rng.choice(sheet + junk(rng, d))] + sheet[i:], OPEN


def words_exchanged(rng, d):
    sheet = d.sheet()
    i, j = rng.sample(range(len(sheet)), 2)
    sheet[i], sheet[j] = sheet[j], sheet[i]
    return d.words, sheet, OPEN


def spare_bits(rng, d):
    """A bit of 27 to 24 set in a head, a part or a corner; in a cable's word it is one of the line number."""
    sheet = d.sheet()
    i = rng.choice([0, 1, len(sheet) - 1, rng.randrange(len(sheet))])
    sheet[i] |= 1 << rng.randint(24, 27)
    return d.words, sheet, (19, i)


def wrong_kind(rng, d):
    sheet = d.sheet()
    i = rng.choice([0, 1, len(sheet) - 1, rng.randrange(len(sheet)), rng.choice(d.lines_at())])
    sheet[i] ^= rng.randint(1, 15) << 28
    return d.words, sheet, (19, i)


def wrong_line(rng, d):
    sheet, line = d.sheet(), rng.randrange(len(d.corners))
    place = d.lines_at()[line]
    other = rng.choice([line + 1, max(0, line - 1), line ^ 1, line + 256, line ^ 0x8000, rng.randrange(65536)])
    if other == line:
        return None
    sheet[place] = line_word(other, sheet[place] & 0xfff)
    return d.words, sheet, (19, place)


def lines_exchanged(rng, d):
    """Two cables' words with their corners and line numbers, each in the other's place."""
    one, other = sorted(rng.sample(range(len(d.corners)), 2))
    rows, sheet = [], d.sheet()
    for line, place in enumerate(d.lines_at()):
        rows.append(sheet[place:place + 1 + len(d.corners[line])])
    rows[one], rows[other] = rows[other], rows[one]
    return d.words, sheet[:1 + len(d.parts)] + [w for row in rows for w in row], (19, d.lines_at()[one])


def corners_miscounted(rng, d):
    """A cable's word that counts more corners than follow, or less. Behind the last line nothing is due."""
    sheet, line = d.sheet(), rng.randrange(len(d.corners))
    place, count = d.lines_at()[line], len(d.corners[line])
    said = rng.choice([count + 1, count + 2, max(0, count - 1), 0, MOST_FIELD])
    if said == count:
        return None
    sheet[place] = line_word(line, said)
    if said > count:
        return d.words, sheet, (19, place + 1 + count)
    return d.words, sheet, (19, place + 1 + said) if line + 1 < len(d.corners) else OPEN


def head_too_small(rng, d):
    """The head one less than the greatest x, or y, of all points: 19 at the first that has it."""
    sheet = d.sheet()
    side = rng.randrange(2)
    fields = [(w >> 12 & 0xfff, w & 0xfff)[side] if w >> 28 in (5, 7) else 0 for w in sheet]
    if max(fields) == 0:
        return None
    head = [d.width, d.height]
    head[side] = max(fields) - 1
    return d.words, [sheet_head(*head)] + sheet[1:], (19, fields.index(max(fields)))


def moved_beyond(rng, d, word):
    """The word of a part or a corner, one column or row beyond the head, or far beyond."""
    spot, side = [word >> 12 & 0xfff, word & 0xfff], rng.randrange(2)
    size = (d.width, d.height)[side]
    spot[side] = rng.choice([size + 1, size + 1, MOST_FIELD])
    return word >> 28 << 28 | spot[0] << 12 | spot[1]


def beyond_head(rng, d):
    if max(d.width, d.height) == MOST_FIELD:
        return None
    sheet = d.sheet()
    i = rng.choice([i for i, w in enumerate(sheet) if w >> 28 in (5, 7)])
    sheet[i] = moved_beyond(rng, d, sheet[i])
    return d.words, sheet, (19, i)


def two_wrong_words(rng, d):
    """Two words that are wrong, each in its own way: 19 at the first."""
    if max(d.width, d.height) == MOST_FIELD:
        return None
    sheet = d.sheet()
    places = sorted(rng.sample(range(1, len(sheet)), 2))
    for i in places:
        ways = [sheet[i] ^ rng.randint(1, 15) << 28, sheet[i] ^ 1 << rng.randint(24, 27)]
        sheet[i] = rng.choice(ways + [moved_beyond(rng, d, sheet[i])] * 3 if sheet[i] >> 28 in (5, 7) else ways)
    return d.words, sheet, (19, places[0])


# Kinds that 20 refuses for a cable by itself.

def zero_run(rng, d):
    """A corner there twice, or one on the end's spot, or two inside a run on one spot, as if it left its way there and
    came back."""
    line, k, p, q = rng.choice(d.runs())
    inside = 2 * [along(p, q, rng.randint(1, max(1, steps(p, q) - 1)), 0)]
    return as_drawn(with_corners(d, line, k, rng.choice([[p], [q], inside, inside])), (20, line))


def two_in_a_row(rng, d):
    """A corner inside a run, so that two level runs or two upright ones are in a row."""
    runs = [run for run in d.runs() if steps(*run[2:]) > 1]
    if not runs:
        return None
    line, k, p, q = rng.choice(runs)
    return as_drawn(with_corners(d, line, k, [along(p, q, rng.randint(1, steps(p, q) - 1), 0)]), (20, line))


def turned_back(rng, d):
    """A run that goes too far and comes back, or that starts the wrong way."""
    line, k, p, q = rng.choice(d.runs())
    far = steps(p, q)
    t, u = rng.choice([(far, far - 1), (far + 1, far), (far, 0), (-1, 0),
                       (rng.randint(1, far + 1), rng.randint(-1, far))])
    more = [along(p, q, t, 0), along(p, q, u, 0)]
    return as_drawn(with_corners(d, line, k, more), (20, line))


def not_straight(rng, d):
    """A corner moved both ways."""
    lines = [line for line, some in enumerate(d.corners) if some]
    if not lines:
        return None
    line = rng.choice(lines)
    k = rng.randrange(len(d.corners[line]))
    x, y = d.corners[line][k]
    out = d.copy()
    out.corners[line][k] = x + rng.choice([-1, 1]), y + rng.choice([-1, 1])
    return as_drawn(out, OPEN) if is_inside(out.corners[line][k], d.width, d.height) else None


def loop(rng, d):
    """A cable that crosses its own line."""
    k = rng.choice([4, 5])
    d = stretched(d, k, 1)
    if d is None:
        return None
    line, at, p, q = rng.choice(d.runs())
    t, h = k * rng.randrange(steps(p, q) // k), rng.choice([-1, 1])
    more = [along(p, q, t + i, j * h) for i, j in ((2, 0), (2, 1), (1, 1), (1, -1), (3, -1), (3, 0))]
    return as_drawn(with_corners(d, line, at, more), (20, line))


def back_along_itself(rng, d):
    """A detour that comes back before it leaves, so that two runs lie on each other. Where the cable has no other
    corners it is a good detour, read from the other end."""
    k = rng.choice([3, 4])
    d = stretched(d, k, 1)
    if d is None:
        return None
    line, at, p, q = rng.choice(d.runs())
    t = k * rng.randrange(steps(p, q) // k)
    more = bump(p, q, t + 2, t + 1, rng.choice([-1, 1]))
    return as_drawn(with_corners(d, line, at, more), (20, line) if d.corners[line] else None)


def through_own_part(rng, d):
    """A cable that leaves its part, comes back across its spot and goes on."""
    d = stretched(d, rng.choice([3, 4]), 1)
    if d is None:
        return None
    out = d.copy()
    line = rng.randrange(len(out.corners))
    if rng.random() < 0.5:
        out.words[2 + line] = lists.turned(out.words[2 + line])
        out.corners[line].reverse()
    p, q = out.points(line)[:2]
    h = rng.choice([-1, 1])
    more = [along(p, q, t, j * h) for t, j in ((1, 0), (1, 1), (0, 1), (0, -1), (2, -1), (2, 0))]
    return as_drawn(with_corners(out, line, 0, more), (20, line))


def part_touched(rng, d):
    """A detour that takes a cable across a part's spot, on a run or at a corner: that of a part that it does not join,
    or of one that it joins."""
    d = stretched(d, 3, 1)
    if d is None:
        return None
    found = []
    for line, at, p, q in d.runs():
        ux, uy = along((0, 0), (q[0] - p[0], q[1] - p[1]), 1, 0)
        for x, y in d.parts:
            dx, dy = x - p[0], y - p[1]
            t, h = dx * ux + dy * uy, dy * ux - dx * uy
            if 0 < t < steps(p, q) and h:
                found.append((line, at, p, q, t, h))
    if not found:
        return None
    line, at, p, q, t, h = rng.choice(found)
    t, u = rng.choice([(t - 1, t + 1), (t - 1, t), (t, t + 1)])
    return as_drawn(with_corners(d, line, at, bump(p, q, t, u, h)), (20, line))


def part_on_way(rng, d):
    """A cable led straight across a part that it does not join, whatever else it meets."""
    line = rng.randrange(len(d.corners))
    a, b = d.cables()[line]
    x, y = d.parts[rng.choice([p for p in range(len(d.parts)) if p not in (a, b)])]
    (ax, ay), (bx, by) = d.parts[a], d.parts[b]
    out = d.copy()
    out.corners[line] = rng.choice([
        [(x, ay), (x, y), (bx, y)], [(x, ay), (x, by)], [(ax, y), (bx, y)], [(ax, y), (x, y), (x, by)],
        [(x, ay), (x, y), (rng.randint(0, d.width), y)]])
    return as_drawn(out, OPEN)


def spot_shared(rng, d):
    """Two parts on one spot."""
    out = d.copy()
    p, q = rng.sample(range(len(d.parts)), 2)
    out.parts[p] = out.parts[q]
    if rng.random() < 0.4:      # and the cable between them leads round
        for line, cable in enumerate(d.cables()):
            if set(cable) == {p, q}:
                x, y = out.parts[q]
                out.corners[line] = [(x + 1, y), (x + 1, y + 1), (x, y + 1)]
                out.width, out.height = max(d.width, x + 1), max(d.height, y + 1)
    return as_drawn(out, (20, OPEN)) if max(out.width, out.height) <= MOST_FIELD else None


def part_shifted(rng, d):
    out = d.copy()
    p = rng.randrange(len(d.parts))
    x, y = d.parts[p]
    out.parts[p] = x + rng.choice([-1, 0, 1]), y + rng.choice([-1, 0, 1])
    return as_drawn(out, OPEN) if is_inside(out.parts[p], d.width, d.height) else None


def parts_exchanged(rng, d):
    out = d.copy()
    p, q = rng.sample(range(len(d.parts)), 2)
    out.parts[p], out.parts[q] = out.parts[q], out.parts[p]
    return as_drawn(out, OPEN)


def corner_shifted(rng, d):
    lines = [line for line, some in enumerate(d.corners) if some]
    if not lines:
        return None
    out, line = d.copy(), rng.choice(lines)
    k = rng.randrange(len(d.corners[line]))
    x, y = d.corners[line][k]
    far = rng.choice([-1, 1, 1, 2])
    out.corners[line][k] = rng.choice([(x + far, y), (x, y + far)])
    return as_drawn(out, OPEN) if is_inside(out.corners[line][k], d.width, d.height) else None


def corners_mixed(rng, d):
    """The corners of a cable in another sequence, or one of them left out."""
    lines = [line for line, some in enumerate(d.corners) if some]
    if not lines:
        return None
    out, line = d.copy(), rng.choice(lines)
    if rng.random() < 0.5:
        rng.shuffle(out.corners[line])
    else:
        out.corners[line].pop(rng.randrange(len(out.corners[line])))
    return as_drawn(out, OPEN)


def cables_exchanged(rng, d):
    """The corners of two cables, each in the other's place."""
    out = d.copy()
    one, other = rng.sample(range(len(d.corners)), 2)
    out.corners[one], out.corners[other] = d.corners[other], d.corners[one]
    return as_drawn(out, OPEN)


# Kinds that 20 refuses for a pair.

def knocked(rng, d):
    """A crossing taken apart: both cables turn there, each away from the other, and cross once beside it."""
    d = stretched(d, rng.choice([3, 4]), rng.randint(0, 1))
    found = d and crossing_spots(d)
    if not found:
        return None
    (x, y), (i, at, p, q), (j, on, r, s) = rng.choice(found)
    level = [(x, y), (x, y + 1), (x + 2, y + 1), (x + 2, y)]
    upright = [(x, y), (x + 1, y), (x + 1, y + 2), (x, y + 2)]
    d = with_corners(d, i, at, level if p[0] < q[0] else level[::-1])
    d = with_corners(d, j, on, upright if r[1] < s[1] else upright[::-1])
    return as_drawn(d, (20, min(i, j)))


def three_crossings(rng, d):
    """A crossing made three of the same pair, each of them good by itself."""
    d = stretched(d, rng.choice([3, 4]), rng.randint(0, 1))
    found = d and crossing_spots(d)
    if not found:
        return None
    (x, y), (i, at, p, q), (j, _, _, _) = rng.choice(found)
    more = [(x + 1, y), (x + 1, y + 1), (x - 1, y + 1), (x - 1, y + 2), (x + 2, y + 2), (x + 2, y)]
    return as_drawn(with_corners(d, i, at, more if p[0] < q[0] else more[::-1]), (20, min(i, j)))


def to_neighbour(rng, d, beyond):
    """A detour from one run to a parallel one of any cable, or so far beyond it, within a gap of the drawing as it was;
    with it the lines that it meets wrongly."""
    k = rng.choice([3, 4])
    d = stretched(d, k, k - 1)
    found = []
    for run in d.runs() if d else ():
        line, at, p, q = run
        for t in range(0, steps(p, q), k):
            for side in (-1, 1):
                for h in range(k, k * (max(d.width, d.height) // k), k):
                    if is_inside(along(p, q, t, side * (h + beyond)), d.width, d.height):
                        met = beside(d, run, t + 1, t + 2, side * (h + beyond))
                        if met:
                            found.append((line, at, bump(p, q, t + 1, t + 2, side * (h + beyond)), met))
                            break
    if not found:
        return None
    line, at, more, met = rng.choice(found)
    return as_drawn(with_corners(d, line, at, more), (20, line if line in met else min(line, *met)))


def overlaid(rng, d):
    """A detour that runs along another cable for a step, or along the cable itself."""
    return to_neighbour(rng, d, 0)


def two_crossings(rng, d):
    """A detour that crosses another cable twice, or the cable itself."""
    return to_neighbour(rng, d, 1)


def joined_before_part(rng, d):
    """A cable that comes to a part beside another one and turns into its way one step before, so that the spot there is
    a corner of one and inside a run of the other, and is all that they share but the part's."""
    d = stretched(d, rng.choice([3, 4]), 1)
    if d is None:
        return None
    ends = {}       # by part: line, whether it is the first part of its word, the spot one step away
    for line, (a, b) in enumerate(d.cables()):
        points = d.points(line)
        ends.setdefault(a, []).append((line, True, along(*points[:2], 1, 0)))
        ends.setdefault(b, []).append((line, False, along(*points[:-3:-1], 1, 0)))
    found = [(p, one, other) for p, some in ends.items() for one in some for other in some
             if one[2][0] != other[2][0] and one[2][1] != other[2][1]]
    if not found:
        return None
    p, (i, _, near), (j, is_first, own) = rng.choice(found)
    (x, y), (ux, uy) = d.parts[p], near
    vx, vy = own[0] - x, own[1] - y
    more = [(ux, uy), (ux + 2 * vx, uy + 2 * vy), (x + 2 * vx, y + 2 * vy)]
    d = with_corners(d, j, 0, more) if is_first else with_corners(d, j, len(d.corners[j]), more[::-1])
    return as_drawn(d, (20, min(i, j)))


def two_pairs(rng, d):
    """Two pairs that meet wrongly, or one pair in two ways."""
    places = []
    for _ in range(2):
        made = rng.choice([knocked, three_crossings, joined_before_part, joined_before_part])(rng, d)
        if made is None:
            return None
        places.append(made[2][1])
        d = read(*made[:2])
    return as_drawn(d, (20, min(places)))


def repeats_overlaid(rng, d):
    """Two cables between the same parts with the same corners: wrong, unless both are one step."""
    lines = repeated_lines(d)
    if lines is None:
        return None
    a, b = lines
    out, cables = d.copy(), d.cables()
    out.corners[b] = d.corners[a] if cables[a] == cables[b] or rng.random() < 0.5 else d.corners[a][::-1]
    return as_drawn(out, OPEN if len(out.points(a)) == 2 else (20, OPEN))


def equal_uprights(rng, d):
    """Two straight cables on one upright run, which share spots where no cable has a point."""
    made = straight_pair(rng, rng.randint(2, 4), False)
    return made and as_drawn(made[0], (20, made[1]))


def equal_levels(rng, d):
    made = straight_pair(rng, rng.randint(2, 4), True)
    return made and as_drawn(made[0], (20, made[1]))


def run_shifted(rng, d):
    """A run between two corners moved to one side."""
    runs = [run for run in d.runs() if 0 < run[1] < len(d.corners[run[0]])]
    if not runs:
        return None
    line, k, p, q = rng.choice(runs)
    h = rng.choice([-2, -1, 1, 2])
    out = d.copy()
    out.corners[line][k - 1:k + 1] = along(p, q, 0, h), along(p, q, steps(p, q), h)
    return as_drawn(out, OPEN) if all(is_inside(c, d.width, d.height) for c in out.corners[line]) else None


def any_detour(rng, d):
    """A detour of any size, with no regard to what is there."""
    runs = [run for run in d.runs() if steps(*run[2:]) > 2]
    if not runs:
        return None
    line, k, p, q = rng.choice(runs)
    t, u = sorted(rng.sample(range(1, steps(p, q)), 2))
    return as_drawn(with_corners(d, line, k, bump(p, q, t, u, rng.choice([-3, -2, -1, 1, 2, 3]))), OPEN)


def spots_on(points):
    """The spots of the runs between points."""
    return {(x, y) for p, q in zip(points, points[1:])
            for x in range(min(p[0], q[0]), max(p[0], q[0]) + 1) for y in range(min(p[1], q[1]), max(p[1], q[1]) + 1)}


def by_chance(rng, d):
    """Few parts and cables on a small head, each cable alternating by chance from one part to the other, and often
    beside the others."""
    words = rng.choice([CHAIN, TRIANGLE, PAIR, lists.drawn(rng, 3, 4)])
    n, width, height = words[0] >> 16 & 0xfff, rng.randint(1, 4), rng.randint(1, 4)
    spots = [(x, y) for x in range(width + 1) for y in range(height + 1)]
    if len(spots) < n:
        return None
    parts, corners, taken = rng.sample(spots, n), [], set()
    for w in words[2:]:
        (ax, ay), (bx, by) = ends = [parts[w >> 12 & 0xfff], parts[w & 0xfff]]
        for _ in range(rng.choice([1, 4, 12])):
            x, y = rng.randint(0, width), rng.randint(0, height)
            straight = [[]] if ax == bx or ay == by else []
            some = rng.choice(2 * straight + [[(ax, by)], [(bx, ay)], [(x, ay), (x, by)], [(ax, y), (bx, y)],
                                              [(x, ay), (x, y), (bx, y)], [(ax, y), (x, y), (x, by)]])
            points = ends[:1] + some + ends[1:]
            its = spots_on(points) - set(ends)
            if len(set(points)) == len(points) and not its & taken and not its & set(parts):
                break
        taken |= its
        corners.append(some)
    return as_drawn(Drawn(words, width, height, parts, corners), OPEN)


# Kinds with other words.

def bits_turned(rng, d):
    """Bits of the sheet turned over, and words of chance."""
    sheet = d.sheet()
    for _ in range(rng.choice([1, 1, 2, 3])):
        i = rng.randrange(len(sheet))
        sheet[i] ^= rng.choice([1 << rng.randrange(32), 1 << rng.randrange(24), rng.getrandbits(32)])
    return d.words, sheet, OPEN


def refused_list(rng, d):
    """A list that one of checks 1 to 10 refuses, with any sheet."""
    words = lists.refused(rng)
    return words, rng.choice([[], d.sheet(), [rng.getrandbits(32) for _ in range(rng.randrange(9))]]), (OPEN, OPEN)


def other_list(rng, d):
    """The sheet with the list of another station, of as many parts where one is found."""
    n, words = len(d.parts), lists.drawn(rng, 3, 6)
    for _ in range(6):
        if words[0] >> 16 & 0xfff != n:
            words = lists.drawn(rng, max(3, n - 1), n + 1)
    return words, d.sheet(), OPEN


def other_ends(rng, d):
    """A cable of the list from another part."""
    words, line, n = list(d.words), rng.randrange(len(d.corners)), len(d.parts)
    words[2 + line] = lists.cable(*rng.sample(range(n), 2))
    return words, d.sheet(), OPEN


BAD_LAYOUT = {
    'no words': no_words,
    'cut short': cut_short,
    'a word missing': word_missing,
    'a word put in': word_put_in,
    'words exchanged': words_exchanged,
    'spare bits': spare_bits,
    'wrong kind': wrong_kind,
    'wrong line': wrong_line,
    'lines exchanged': lines_exchanged,
    'corners miscounted': corners_miscounted,
    'head too small by one': head_too_small,
    'a point beyond the head': beyond_head,
    'two wrong words': two_wrong_words,
}
BAD_CABLE = {
    'a run of no length': zero_run,
    'two runs in a row': two_in_a_row,
    'turned back': turned_back,
    'a run not straight': not_straight,
    'loop': loop,
    'back along itself': back_along_itself,
    'through its own part': through_own_part,
    'a part touched by a detour': part_touched,
    'a part touched': part_on_way,
    'a spot of two parts': spot_shared,
    'a part shifted': part_shifted,
    'parts exchanged': parts_exchanged,
    'a corner shifted': corner_shifted,
    'corners in another sequence': corners_mixed,
    'cables exchanged': cables_exchanged,
}
BAD_PAIR = {
    'a shared corner beside a crossing': knocked,
    'three crossings': three_crossings,
    'overlaid': overlaid,
    'one step along another cable': joined_before_part,
    'two crossings': two_crossings,
    'two pairs': two_pairs,
    'repeated cables overlaid': repeats_overlaid,
    'two equal straight uprights': equal_uprights,
    'two equal straight levels': equal_levels,
    'a run shifted': run_shifted,
    'any detour': any_detour,
    'by chance': by_chance,
}
BAD_WORDS = {
    'bits turned over': bits_turned,
    'a refused list': refused_list,
    'another list': other_list,
    'a cable from another part': other_ends,
}


def several_faults(rng, d):
    """Two or three faults of cables, so that the lowest counts, of those by themselves first."""
    for _ in range(rng.choice([2, 2, 3])):
        name = rng.choice([*BAD_CABLE, *3 * [*BAD_PAIR]])
        if name in ('by chance', 'two equal straight uprights', 'two equal straight levels'):
            continue        # they make a drawing of their own
        made = {**BAD_CABLE, **BAD_PAIR}[name](rng, d)
        if made is not None:
            d = read(*made[:2])
    return as_drawn(d, OPEN)


BAD_WORDS['several faults'] = several_faults
KINDS = {**GOOD, **BAD_LAYOUT, **BAD_CABLE, **BAD_PAIR, **BAD_WORDS}


# Sheets by name. A name begins with what is due, then a comma.

def wave(x, y, side, runs, far=1):
    """Points from (x, y) on: so many runs of one step or more, level ones to one side and between them up and down."""
    out = [(x, y)]
    for k in range(runs):
        dx, dy = (side * far, 0) if k % 2 == 0 else (0, far if k % 4 == 1 else -far)
        out.append((out[-1][0] + dx, out[-1][1] + dy))
    return out


# With k corners, where 4 divides k + 1, a wave ends in its upper row and behind a level run, and its cable goes on
# upward.

def waved(corners, last):
    """A chain of three parts whose first cable has so many corners, each a step from the next; the last part is in this
    row."""
    points = wave(0, 0, 1, corners)
    x = points[-1][0]
    return Drawn(CHAIN, x, last, [(0, 0), (x, 4), (x, last)], [points[1:], []])


def waved_across(corners, crossings):
    """The same with steps of two, and the second cable back over the first and across it, once or twice."""
    points = wave(0, 2, 1, corners, 2)
    x = points[-1][0]
    corners = [(x, 10), (1, 10)] + [(1, 0), (3, 0)] * (crossings - 1)
    return Drawn(CHAIN, x, 10, [(0, 2), (x, 8), (1, 0) if crossings == 1 else (3, 6)], [points[1:], corners])


def named():
    """(name, list, sheet)."""
    out = []

    def put(what, d):
        out.append(('accepted, ' + what, d.words, d.sheet()))

    def no(check, place, what, words, sheet):
        out.append(('refused %d %d, %s' % (check, place, what), words, sheet))

    def changed(place, word):
        return sheet[:place] + [word] + sheet[place + 1:]

    # The layout, on the triangle's sheet: words 0, 1 to 3, 4 to 6, 7 and 8 are head, parts, cables and corners.
    three = Drawn(TRIANGLE, 1, 2, [(0, 0), (0, 1), (0, 2)], [[], [], [(1, 0), (1, 2)]])
    sheet, words = three.sheet(), three.words
    put('the triangle', three)
    for k in range(len(sheet)):
        no(19, k, 'the triangle, %d words' % k, words, sheet[:k])
        for bit in range(24, 32) if sheet[k] >> 28 != 6 else range(12, 32):
            no(19, k, 'word %d with bit %d turned over' % (k, bit), words, changed(k, sheet[k] ^ 1 << bit))
    for width in (0, 1, 2, MOST_FIELD):
        for height in (0, 1, 2, 3, MOST_FIELD):
            other, what = changed(0, sheet_head(width, height)), 'the triangle in a head of %d, %d' % (width, height)
            if height < 2:
                no(19, 2 + height, what, words, other)
            elif width < 1:
                no(19, 7, what, words, other)
            else:
                out.append(('accepted, ' + what, words, other))
    for k, (x, y) in enumerate(three.parts + three.corners[2]):
        place = k + 1 if k < 3 else k + 4
        for spot in ((2, y), (x, 3), (MOST_FIELD, y), (x, MOST_FIELD)):
            word = (part if k < 3 else corner)(*spot)
            no(19, place, 'word %d at %d, %d' % (place, *spot), words, changed(place, word))
    for count in (0, 1, 3, MOST_FIELD):
        other, what = changed(6, line_word(2, count)), '%d corners counted at cable 2' % count
        no(*((20, 2) if count < 2 else (19, 9)), what, words, other)
        no(*((20, 2) if count < 2 else (19, 9)), what + ', then lengths', words, other + [0x80000001, 0x80001001])
    for what, more in (('a corner', [corner(1, 1)]), ('a corner beyond', [corner(9, 9)]),
                       ('a cable', [line_word(3, 0)]), ('a cable again', [line_word(2, 2), *sheet[7:]]),
                       ('the sheet again', sheet), ('zeros', 40 * [0])):
        out.append(('accepted, the triangle, %s behind' % what, words, sheet + more))

    # At 4,095.
    far = MOST_FIELD
    put('along the edge', Drawn(CHAIN, far, far, [(0, 0), (far, 0), (far, far)], [[], []]))
    put('round the edge', Drawn(TRIANGLE, far, far, [(0, 0), (far, 0), (0, far)], [[], [(far, far)], []]))
    put('crossing in the middle',
        Drawn(CHAIN, far, far, [(0, 2047), (far, 2047), (2048, 0)], [[], [(far, far), (2048, far)]]))
    for what, parts in (('the last column', [(far, far - 1), (far, far), (0, far)]),
                        ('the last row', [(far, far), (far - 1, far), (0, far)])):
        put('a pair of one step in %s' % what, Drawn(PAIR, far, far, parts, [[], [], []]))
    for what, parts in (('the first column', [(0, 0), (0, far), (1, far)]),
                        ('the last column', [(far, far), (far, 0), (0, 0)]),
                        ('the first row', [(0, 0), (far, 0), (far, 1)]),
                        ('the last row', [(far, far), (0, far), (0, 0)]),
                        ('a column, two steps', [(9, far - 2), (9, far), (10, far)]),
                        ('a row, two steps', [(far - 2, 9), (far, 9), (far, 10)])):
        no(20, 0, 'a pair along %s' % what, PAIR, Drawn(PAIR, far, far, parts, [[], [], []]).sheet())

    # Many corners.
    d = waved(MOST_FIELD, far)
    put('4,095 corners', d)
    back = d.copy()
    back.corners[0].reverse()
    put('4,095 corners from the other end', back)
    for place, what in ((0, 'first'), (2047, 'middle'), (4094, 'last')):
        wrong = d.copy()
        x, y = wrong.corners[0][place]
        wrong.corners[0][place] = x, y + 1
        no(20, 0, '4,095 corners, the %s one out of line' % what, wrong.words, wrong.sheet())
    no(19, 4099, '4,095 corners, the last missing', d.words, d.sheet()[:4099])
    put('403 corners', waved(403, 9))
    put('403 corners and a crossing', waved_across(403, 1))
    d = waved_across(403, 2)
    no(20, 0, '403 corners and two crossings', d.words, d.sheet())

    # Lines above 255. In our drawing of a chain all parts stand in one column.
    chain = our_drawing(lists.chain_list(512), reference.GRID)
    chain.width = 3
    put('a chain of 512', chain)
    for one in (0, 255, 256, 509):
        d = chain.copy()
        d.corners[one], d.corners[one + 1] = [(1, one), (1, one + 1)], [(2, one + 1), (2, one + 2)]
        no(20, one, 'a chain of 512, cables %d and %d overlaid' % (one, one + 1), d.words, d.sheet())
        d.corners[one + 1] = []
        put('a chain of 512, cable %d beside its column' % one, d)
        d.corners[510] = [(1, 510)]
        no(20, 510, 'a chain of 512, cable 510 not straight, cable %d beside its column' % one, d.words, d.sheet())
        d.corners[510], d.corners[one] = [], [(1, one), (1, one)]
        no(20, one, 'a chain of 512, cable %d with a run of no length' % one, d.words, d.sheet())

    # 1,024 cables.
    full = our_drawing(lists.full_list(512), reference.GRID)
    put('512 parts with four cables each', full)
    put('512 parts with four cables each, up to 4,095', our_drawing(full.words, (7, 7, 252)))
    sheet = full.sheet()
    no(19, len(sheet) - 1, '512 parts, the last word missing', full.words, sheet[:-1])
    d = full.copy()
    d.corners[1023] = [d.parts[0]]
    no(20, 1023, '512 parts, the last cable with a corner on part 0', d.words, d.sheet())
    return out


# Sheets of millions of words, and of long runs, for time: (name, list, sheet, due). Each cable is good by itself,
# unless the name says otherwise.

def wave_chain(n, corners):
    """A chain of n parts, each cable with so many corners (4 divides one more), each a step from the next: to the right
    in two rows and up, then to the left."""
    parts, rows = [(0, 0)], []
    for k in range(n - 1):
        x, y = parts[-1]
        points = wave(x, y, -1 if k % 2 else 1, corners)
        parts.append((points[-1][0], y + 4))
        rows.append(points[1:])
    return Drawn(lists.chain_list(n), parts[1][0], parts[-1][1], parts, rows)


def wave_pairs(n, corners):
    """A chain of n parts with two cables between each two neighbours, the lower with so many corners (4 divides one
    more), the upper with two more. The upper one crosses the lower one before their end."""
    parts, rows = [(1, 0)], []
    for k in range(n - 1):
        (x, y), side = parts[-1], -1 if k % 2 else 1
        lower = wave(x, y, side, corners)
        end = lower[-1][0]
        upper = wave(x, y + 3, side, corners - 1)
        over = end + side, upper[-1][1]
        parts.append((end, y + 6))
        rows += [lower[1:], upper + [over, (over[0], y + 6)]]
    cables = [(p, p + 1) for p in range(n - 1) for _ in range(2)]
    return Drawn(lists.build(n, 0, n - 1, cables), parts[1][0] + 1, parts[-1][1], parts, rows)


def cross_again(d):
    """The last pair of `wave_pairs` with a second crossing."""
    x, y = d.corners[-1][-1]
    back = 2 * d.parts[-1][0] - x
    d.corners[-1][-1:] = [(x, y - 1), (back, y - 1), (back, y)]


def filled(n, full, far=MOST_FIELD, last=2045):
    """A chain of n parts in the first column, of which so many cables go over all rows up to this one, which is odd,
    from side to side and over each other, and the others are straight."""
    parts, rows = [(0, 2 * k + 2) for k in range(n)], []
    for k in range(n - 1):
        some, y = [(1, 2 * k + 2), (1, 0)], 2 * k + 4
        for row in range(last + 1):
            near = 1 if row == 0 else 2 if row == last else 3
            some += [(far, row), (near, row)] if row % 2 else [(near, row), (far, row)]
        rows.append(some[:2] + some[3:] + [(2, y)] if k < full else [])
    return Drawn(lists.chain_list(n), far, last, parts, rows)


def turned_over(d):
    """Columns for rows."""
    return d.mapped(lambda x, y: (y, x), d.height, d.width)


def long_sheets(worst=False):
    """One by one; with those that take longest at the end, if asked for."""
    d = wave_chain(512, MOST_FIELD)
    yield '511 cables of 4,095 corners, a step each', d.words, d.sheet(), None
    turned_d = turned_over(d)
    yield 'the same, turned', d.words, turned_d.sheet(), None
    turned_d.corners = [some[::-1] for some in turned_d.corners]
    yield 'the same, from the other end', d.words, turned_d.sheet(), None
    yield 'the same, the last word missing', d.words, turned_d.sheet()[:-1], (19, 2093568)
    x, y = d.corners[510][4094]
    d.corners[510][4094] = x, y + 1
    yield 'the same, the last corner out of line', d.words, d.sheet(), (20, 510)
    for corners in (2047, 4091):
        d = wave_pairs(512, corners)
        yield '1,022 cables of %d corners and two more, in pairs that cross' % corners, d.words, d.sheet(), None
        yield 'the same, turned', d.words, turned_over(d).sheet(), None
    cross_again(d)
    yield 'the same, the last pair with two crossings', d.words, d.sheet(), (20, 1020)
    for full in (1, 2, 64) + ((511,) if worst else ()):
        d = filled(max(3, full + 1), full)
        due = None if full == 1 else (20, 0)
        yield '%d cables over half of the head, row by row' % full, d.words, d.sheet(), due
        yield 'the same, turned', d.words, turned_over(d).sheet(), due


# Random sheets.

def base(rng, small=False):
    """An accepted drawing: ours, in a small spacing, in another direction or with detours, or one with routes by
    chance."""
    while True:
        if small:
            words = lists.drawn(rng, 3, rng.choice([3, 4, 5]))
            d = routed(rng, words, 6) if rng.random() < 0.6 else our_drawing(words, (1, 1, rng.choice([0, 0, 1])))
        else:
            words = lists.drawn(rng, 3, rng.choice([4, 6, 8, 12]))
            if rng.random() < 0.5:
                d = routed(rng, words)
            else:
                d = our_drawing(words, (rng.choice([1, 1, 2, 3]), rng.choice([1, 1, 2, 3]), rng.choice([0, 0, 1, 2])))
        if d:
            return d


def foreign(rng, d=None, small=False, kind=None):
    """A sheet of a kind, or of a random one, made from this drawing or from a random one: (kind, list, sheet, due).
    About half of the random ones are accepted. Behind a sheet that is complete there may be more words."""
    d = d or base(rng, small)
    while True:
        group = rng.choices([GOOD, BAD_LAYOUT, BAD_CABLE, BAD_PAIR, BAD_WORDS], [46, 12, 19, 18, 5])[0]
        name = kind or rng.choice(list(group))
        made = KINDS[name](rng, d)
        if made is None:
            d = base(rng, small) if kind else d
            continue
        words, sheet, due = made
        if rng.random() < 0.2 and (due is None or due[0] == 20 or name == 'head too small by one'):
            sheet = sheet + junk(rng, d)
        return name, words, sheet, due


def agrees(due, got):
    """Whether an answer is what is due, as far as that is known."""
    if due == OPEN or due == got:
        return True
    return bool(due and got) and due[0] in (OPEN, got[0]) and due[1] in (OPEN, got[1])


def table(cases):
    """Lines of a table, by kind and by answer, of (kind, answer) pairs."""
    checks = sorted({answer[0] if answer else 0 for _, answer in cases})
    tally = {}
    for kind, answer in cases:
        key = kind, answer[0] if answer else 0
        tally[key] = tally.get(key, 0) + 1
    out = ['%-36s' % 'kind' + ''.join('%9s' % (check or 'accepted') for check in checks)]
    for kind in [*KINDS, *sorted({kind for kind, _ in cases} - set(KINDS))]:
        row = [tally.get((kind, check), 0) for check in checks]
        if any(row):
            out.append('%-36s' % kind + ''.join('%9s' % (count or '') for count in row))
    sums = [sum(tally.get((kind, check), 0) for kind in {kind for kind, _ in cases}) for check in checks]
    return out + ['%-36s' % 'all' + ''.join('%9d' % count for count in sums)]


def main(args):
    count, seed = (int(args[k]) if len(args) > k else default for k, default in enumerate((5000, 1)))
    rng, cases, wrong = random.Random(seed), [], 0
    for _ in range(count):
        kind, words, sheet, due = foreign(rng)
        answer = reference.check_sheet(words, sheet)
        cases.append((kind, answer))
        if not agrees(due, answer):
            wrong += 1
            if wrong < 4:
                print('%s: %s, due %s; list %s; sheet %s' % (
                    kind, answer, due, *(' '.join('%08x' % w for w in row) for row in (words, sheet))))
    print('\n'.join(table(cases)))
    print('%d are not as they are made to be' % wrong)
    return wrong > 0


if __name__ == '__main__':
    sys.exit(main(sys.argv[1:]))
