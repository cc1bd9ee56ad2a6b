#!/usr/bin/env python3
"""Draws pictures with examples/picture and compares each with the words of its list and of its sheet.

  compare_picture.py [COUNT [SEED]]     COUNT random lists (default 40) beside the worked and the largest ones

Sheets come from reference.py. Of each picture: a box at every part's spot; every point of every cable in its path,
which begins and ends at the borders of its parts; every cable's title with its parts and its length; an arc at every
crossing and nowhere else, as many as the call counts; every cable's number, nearest to its own line; no text that
reaches into a box, a line, an arc, another text or over the edge. It also edits pictures and needs each edit to be
seen, and compares the pictures in docs/. It is no part of the gate."""
import os
import random
import re
import subprocess
import sys
import tempfile
import xml.etree.ElementTree as ElementTree
from itertools import pairwise

import lists
import reference

TOP = os.path.dirname(os.path.dirname(os.path.abspath(__file__)))
PROGRAM = os.path.join(TOP, 'examples', 'picture')
SVG = '{http://www.w3.org/2000/svg}'
HALF_STROKE = 1

# Texts: width of a sign in a wide font, height of digits, depth of letters, in parts of the font's size.
SIGN, RISE, DEPTH = 0.64, 0.74, 0.22


# Boxes are (left, top, right, bottom).

def overlap(a, b):
    return a[0] < b[2] and b[0] < a[2] and a[1] < b[3] and b[1] < a[3]


def distance(a, b):
    return max(a[0] - b[2], b[0] - a[2], 0) + max(a[1] - b[3], b[1] - a[3], 0)


def rect_box(element):
    x, y, w, h = (float(element.get(name)) for name in ('x', 'y', 'width', 'height'))
    return x, y, x + w, y + h


def text_box(element, size):
    x, y, words = float(element.get('x')), float(element.get('y')), element.text
    half = len(words) * SIGN * size / 2
    return x - half, y - RISE * size, x + half, y + (0 if words.isdigit() else DEPTH * size)


# A path: M, then H, V and A with absolute numbers.

def walk(d):
    """(place after each command but arcs, arcs as (from, to, radius, sweep)) of a path."""
    places, arcs, at = [], [], None
    for letter, rest in re.findall(r'([A-Za-z])([^A-Za-z]*)', d):
        v = [float(t) for t in rest.split()]
        if letter == 'M':
            at = v[0], v[1]
        elif letter == 'H':
            at = v[0], at[1]
        elif letter == 'V':
            at = at[0], v[0]
        elif letter == 'A':
            arcs.append((at, (v[5], v[6]), v[0], v[4]))
            at = v[5], v[6]
            continue
        else:
            raise ValueError('path command ' + letter)
        places.append(at)
    return places, arcs


def without_hops(places, arcs):
    """The places without those where an arc begins."""
    begins = {arc[0] for arc in arcs}
    return [p for p in places if p not in begins]


class Comparison:
    """One picture against its words; what differs is in `bad`."""

    def __init__(self, words, sheet, svg):
        self.bad = []
        self.root = ElementTree.fromstring(svg)
        self.n, self.s, self.t, self.cables = reference.station(words)
        _, _, self.height, self.parts, self.corners, self.lengths, _, _ = reference.read_sheet(words, sheet)
        self.points = [self.points_of(line) for line in range(len(self.cables))]
        self.step = float(self.root.get('data-step'))
        self.named = {e.get('id'): e for e in self.root.iter() if e.get('id')}
        self.boxes = []     # of parts
        self.hops = {}      # radius of the arc at a spot
        self.crossed = [spot for cross, _ in reference.sharing(self.points).values() for spot in cross]
        self.steps = {}     # the cable at the middle of each step, in half steps
        for line, points in enumerate(self.points):
            for p, q in pairwise(points):
                self.steps.update(dict.fromkeys(self.middles(p, q), line))

    def points_of(self, line):
        low, high = sorted(self.cables[line], key=lambda p: self.parts[p][1])
        return [self.parts[low], *self.corners[line], self.parts[high]]

    @staticmethod
    def middles(p, q):
        (x, y), (u, v) = min(p, q), max(p, q)
        return [(k, 2 * y) for k in range(2 * x + 1, 2 * u, 2)] + [(2 * x, k) for k in range(2 * y + 1, 2 * v, 2)]

    def need(self, holds, what):
        if not holds:
            self.bad.append(what)

    def need_inside(self, box, what):
        x, y, w, h = (float(v) for v in self.root.get('viewBox').split())
        self.need(x <= box[0] and y <= box[1] and box[2] <= x + w and box[3] <= y + h, what + ' over the edge')

    def place(self, spot):
        return self.step * spot[0], self.step * (self.height - spot[1])

    def compare(self):
        self.need(self.root.find(SVG + 'title') is not None and self.root.find(SVG + 'desc') is not None, 'no title or desc')
        self.need(len(self.named) == sum(1 for e in self.root.iter() if e.get('id')), 'an id stands twice')
        self.compare_parts()
        self.compare_cables()
        self.compare_texts()
        return self.bad

    # Parts.

    def compare_parts(self):
        self.need(len(self.root.findall('.//%sg[@data-x]' % SVG)) == self.n, 'count of parts')
        for part in range(self.n):
            group = self.named.get('part-%d' % part)
            if group is None:
                self.bad.append('part %d is missing' % part)
                self.boxes.append((0, 0, 0, 0))
                continue
            x, y = self.place(self.parts[part])
            borders = [rect_box(rect) for rect in group.findall(SVG + 'rect')]
            self.boxes.append(borders[0])
            for box in borders:
                self.need(((box[0] + box[2]) / 2, (box[1] + box[3]) / 2) == (x, y), 'part %d stands elsewhere' % part)
                self.need_inside(box, 'part %d' % part)
            self.need(tuple(int(group.get(k)) for k in ('data-x', 'data-y')) == self.parts[part], 'data of part %d' % part)
            text = group.find(SVG + 'text')
            self.need(text.text == str(part) and float(text.get('x')) == x, 'number of part %d' % part)
            self.compare_end(part, group)
        for i, a in enumerate(self.boxes):
            self.need(not any(overlap(a, b) for b in self.boxes[:i]), 'part %d overlaps a part' % i)

    def compare_end(self, part, group):
        """Source and analyser, and only they, have a class and a second border."""
        due = 'part' + (' source' if part == self.s else ' analyser' if part == self.t else '')
        self.need(group.get('class') == due, 'class of part %d' % part)
        self.need(len(group.findall(SVG + 'rect')) == 1 + (part in (self.s, self.t)), 'borders of part %d' % part)

    # Cables.

    def compare_cables(self):
        self.need(len(self.root.findall('.//%spath' % SVG)) == len(self.cables), 'count of cables')
        arcs = []
        for line, points in enumerate(self.points):
            path = self.named.get('cable-%d' % line)
            if path is None:
                self.bad.append('cable %d is missing' % line)
                continue
            self.need(path.get('data-points') == ' '.join('%d,%d' % p for p in points), 'data of cable %d' % line)
            self.need(path.findtext(SVG + 'title') == self.title(line), 'title of cable %d' % line)
            places, its_arcs = walk(path.get('d'))
            self.compare_line(line, points, without_hops(places, its_arcs))
            arcs += [self.arc_spot(line, arc) for arc in its_arcs]
        self.need(sorted(map(str, arcs)) == sorted(map(str, self.crossed)), 'arcs are not the crossings')
        self.need(len(arcs) == reference.crossings(self.points), 'arcs are not as many as the call counts')

    def title(self, line):
        steps = self.lengths[line]
        return 'cable %d: part %d to part %d, %d step%s' % (line, *self.cables[line], steps, '' if steps == 1 else 's')

    def compare_line(self, line, points, places):
        """The ends are on the borders of the parts, towards the next point; the other places are the corners."""
        low, high = sorted(self.cables[line], key=lambda p: self.parts[p][1])
        due = [self.port(low, points[1]), *map(self.place, points[1:-1]), self.port(high, points[-2])]
        for x, y in places:
            self.need_inside((x - HALF_STROKE, y - HALF_STROKE, x + HALF_STROKE, y + HALF_STROKE), 'cable %d' % line)
        self.need(places == due, 'path of cable %d: %s, due %s' % (line, places, due))

    def port(self, part, spot):
        """Where the straight line from a part's spot towards another leaves its box."""
        (x, y), (u, v), box = self.parts[part], spot, self.boxes[part]
        px, py = self.place((x, y))
        return box[0] if u < x else box[2] if u > x else px, box[3] if v < y else box[1] if v > y else py

    def arc_spot(self, line, arc):
        """The spot under an arc that stands upward on a level run of its cable."""
        (x, y), (u, v), radius, sweep = arc
        spot = (x + u) / 2 / self.step, self.height - y / self.step
        fits = y == v and abs(u - x) == 2 * radius < self.step and sweep == (u > x) and all(k == int(k) for k in spot)
        spot = tuple(map(int, spot))
        level = (2 * spot[0] - 1, 2 * spot[1]), (2 * spot[0] + 1, 2 * spot[1])
        self.need(fits and all(self.steps.get(k) == line for k in level), 'an arc of cable %d at %s' % (line, spot))
        self.hops[spot] = radius
        return spot

    # Texts.

    def compare_texts(self):
        placed = []     # (box, words, cable or None)
        for group in 'names', 'numbers':
            size = float(self.named[group].get('font-size'))
            for e in self.named[group]:
                line = int(e.text) if group == 'numbers' else None
                placed.append((text_box(e, size), e.text, line))
        self.need(sorted(w for _, w, line in placed if line is None) == ['analyser', 'source'], 'names')
        self.compare_numbers()
        self.compare_names(placed)
        for box, words, line in placed:
            self.need_inside(box, 'text ' + words)
            self.need(not any(overlap(box, part) for part in self.boxes), 'text %s in a box' % words)
            self.compare_with_lines(box, words, line)
        self.compare_with_texts(placed)

    def compare_numbers(self):
        """Every cable has its own number once; what is said again is the number of a long cable."""
        for line in range(len(self.cables)):
            e = self.named.get('number-%d' % line)
            self.need(e is not None and e.text == str(line), 'number of cable %d' % line)
        own = [e for e in self.named['numbers'] if e.get('class') == 'number']
        again = [int(e.text) for e in self.named['numbers'] if e.get('class') == 'again']
        self.need(len(own) == len(self.cables) and len(own) + len(again) == len(self.named['numbers']), 'count of numbers')
        for line in set(again):
            self.need(sum(abs(p[0] - q[0]) + abs(p[1] - q[1]) for p, q in pairwise(self.points[line])) > 16, 'number %d again' % line)

    def compare_names(self, placed):
        for box, words, line in placed:
            if line is None:
                part = self.s if words == 'source' else self.t
                self.need(distance(box, self.boxes[part]) < 0.2 * self.step, '%s is far from its part' % words)

    def compare_with_lines(self, box, words, line):
        """No line reaches into the box, and the cable's own is the nearest."""
        nearest = {}
        for other, its in self.lines_near(box):
            gap = distance(box, its)
            nearest[other] = min(gap, nearest.get(other, gap))
            self.need(not overlap(box, its), 'text %s on cable %d' % (words, other))
        if line is not None:
            self.need(line in nearest and all(nearest[line] < gap for other, gap in nearest.items() if other != line),
                      'number %s is not nearest to its own line' % words)

    def lines_near(self, box):
        """(cable, box) of each step and each arc within a step of a box."""
        left, right = int(box[0] // self.step) - 1, int(box[2] // self.step) + 2
        low, high = (int(self.height - v // self.step) + d for v, d in ((box[3], -2), (box[1], 1)))
        h = HALF_STROKE
        for x in range(2 * left, 2 * right + 1):
            for y in range(2 * low, 2 * high + 1):
                line = self.steps.get((x, y))
                if line is not None:
                    (px, py), wide, up = self.place((x / 2, y / 2)), x % 2 * self.step / 2, y % 2 * self.step / 2
                    yield line, (px - wide - h, py - up - h, px + wide + h, py + up + h)
                if (x / 2, y / 2) in self.hops:
                    px, py = self.place((x / 2, y / 2))
                    r = self.hops[x / 2, y / 2] + h
                    yield self.steps.get((x + 1, y)), (px - r, py - r, px + r, py)

    def compare_with_texts(self, placed):
        """Sorted by their left sides, a text is compared with those that begin before it ends."""
        row = sorted(placed)
        for i, (box, words, _) in enumerate(row):
            for other, its, _ in row[i + 1:]:
                if other[0] >= box[2]:
                    break
                self.need(not overlap(box, other), 'texts %s and %s overlap' % (words, its))


# Running the program.

def list_text(words):
    n, s, t, cables = reference.station(words)
    return '\n'.join(['parts %d' % n, 'ends %d %d' % (s, t)] + ['cable %d %d' % c for c in cables]) + '\n'


def run(folder, text, sheet_lines):
    """(exit code, what is printed, what is complained) for a list as text and the lines of a sheet."""
    names = [os.path.join(folder, name) for name in ('list.txt', 'sheet.txt')]
    for name, content in zip(names, (text, '\n'.join(sheet_lines) + '\n')):
        with open(name, 'w') as file:
            file.write(content)
    r = subprocess.run([sys.executable, PROGRAM, names[0], '--sheet', names[1]],
                       stdout=subprocess.PIPE, stderr=subprocess.PIPE, text=True)
    return r.returncode, r.stdout, r.stderr


def differences(folder, words):
    """What differs in the picture of a list."""
    _, sheet, _ = reference.answer(words)
    code, svg, why = run(folder, list_text(words), ['%08x' % w for w in sheet])
    return Comparison(words, sheet, svg).compare() if code == 0 else ['exit code %d: %s' % (code, why)]


def all_of(n):
    return sorted(lists.complete(n)[1])


WORKED = [
    ('A', reference.TRIANGLE),
    ('B', lists.build(4, 0, 2, [(0, 1), (1, 2), (2, 3), (3, 0)])),
    ('C', lists.build(4, 0, 2, [(0, 1), (0, 3), (1, 3), (1, 2), (0, 2)])),
    ('D', lists.build(5, 0, 4, all_of(5))),
]


def stations(count, rng):
    yield from WORKED
    for name, (text, *_) in [*reference.REPEATS.items(), *reference.CHAINS.items()]:
        yield name, reference.hexes(text)
    for name, words in lists.boundaries():
        if name.startswith('sheet') and ('cables at s' in name or '256 parts' in name or '512 parts' in name):
            yield name, words
    for k in range(count):
        yield 'random %d' % k, lists.drawn(rng, 3, 40)
    for k in range(count // 20):
        yield 'random %d of 256 to 512 parts' % k, lists.large(rng)


# What must be told in words, and what must be seen.

def complaints(folder):
    """Problems with what the program says of input that it can't draw, and with words behind the total."""
    text, sheet = list_text(reference.TRIANGLE), ['%08x' % w for w in reference.TRIANGLE_SHEET]
    cases = [
        ('separating part', text, ['refused 10 1'], 'without part 1 some other part reaches neither source nor analyser'),
        ('no sheet', text, ['broken file'], 'broken file'),
        ('empty sheet', text, [], 'ends where a word of kind 4'),
        ('short sheet', text, sheet[:8], 'ends where a word of kind 7'),
        ('other sheet', text + 'cable 1 0\n', sheet, 'kind 6 is due'),
        ('skew line', text, sheet[:8] + ['70003001'] + sheet[9:], 'cable 2 of the sheet'),
        ('no lengths', text, sheet[:9], 'ends where a word of kind 8'),
        ('a length less', text, sheet[:11] + sheet[12:], 'kind 8 is due'),
        ('a length more', text, sheet[:12] + ['80003000'] + sheet[12:], 'kind 10 is due'),
        ('lengths in another sequence', text, sheet[:9] + [sheet[10], sheet[9]] + sheet[11:], 'length of cable 1'),
        ('no total', text, sheet[:12], 'ends where a word of kind 10'),
        ('other total', text, sheet[:12] + ['a0000007'], 'a total of 7 steps'),
        ('other lengths', text, sheet[:10] + ['80001002', '80002003', 'a0000006'], 'its length is given as 2'),
        ('unknown line', text + 'cabel 1 0\n', sheet, 'line 6 of the list'),
        ('number too large', text + 'cable 1 4096\n', sheet, 'line 6 of the list'),
        ('no ends', 'parts 3\n', sheet, 'one line `parts N`'),
        ('no such part', text.replace('cable 1 2', 'cable 1 3'), sheet, 'not there'),
    ]
    bad = []
    for name, its_text, its_sheet, due in cases:
        code, out, why = run(folder, its_text, its_sheet)
        if code != 1 or out or due not in why:
            bad.append('%s: exit code %d, said: %s' % (name, code, why))
    plain = run(folder, text, sheet)
    if plain != run(folder, text, sheet + ['00000384']):
        bad.append('words behind the total change the picture')
    if plain != run(folder, '# comment\n\n' + text.replace('parts 3', 'parts 3 # three'), sheet):
        bad.append('comments change the picture')
    return bad


# Edits of the pictures of worked stations: (pattern, what takes its place the first time it is found). D has no cable
# of one step.
EDITS = {'A': [(r', 1 step</title>', ', 1 steps</title>')], 'D': [
    (r'data-x="', 'data-x="1'),
    (r'(id="part-0".*\n<rect x=")', r'\g<1>1'),                     # outer border
    (r'(id="part-0".*\n<rect.*\n<rect x=")', r'\g<1>1'),            # inner border
    (r'(id="part-0"(?:.*\n)*?<text.*>)0<', r'\g<1>1<'),
    (r'class="part source"', 'class="part"'),
    (r'>source</text>', '>drain</text>'),
    (r'A6 6 0 0 \d \d+ \d+', ''),                                   # an arc less
    (r'A6 6 0 0 (\d)', lambda m: 'A6 6 0 0 %d' % (1 - int(m[1]))),  # an arc downward
    (r'(d="M\S+ \d+[HV])', r'\g<1>1'),                              # a first run too long
    (r'(d="M[^"]*)"', r'\g<1>0"'),                                  # a last run too long
    (r'(d="M\d+ )', r'\g<1>1'),                                     # a path that begins elsewhere
    (r'data-points="', 'data-points="1'),
    (r', 7 steps</title>', ', 17 steps</title>'),
    (r'id="cable-7"', 'id="cable-6"'),
    (r'<path id="cable-7".*\n', ''),
    (r'<text class="number" id="number-5".*\n', ''),
    (r'(id="number-5"[^>]*)>5<', r'\g<1>>6<'),
    (r'class="number" id="number-5"', 'class="again"'),
    (r'(id="number-5"[^>]* y=")', r'\g<1>100'),                     # over the edge
    (r'(?s)(id="part-0".*?<text x=")([^"]*)(" y=")([^"]*)(".*id="number-5".*? x=")[^"]*(" y=")[^"]*',
     r'\g<1>\g<2>\g<3>\g<4>\g<5>\g<2>\g<6>\g<4>'),                  # number 5 in part 0
    (r'(id="number-5".*? x=")[^"]*(" y=")[^"]*(".*\n.*id="number-6".*? x=")([^"]*)(" y=")([^"]*)',
     r'\g<1>\g<4>\g<2>\g<6>\g<3>\g<4>\g<5>\g<6>'),                  # number 5 on number 6
    (r'viewBox="(\S+) \S+', r'viewBox="\g<1> 0'),
    (r'<title id="title">.*</title>', ''),
]}


def unseen_edits(folder):
    unseen = []
    for name, edits in EDITS.items():
        words = dict(WORKED)[name]
        sheet = reference.answer(words)[1]
        svg = run(folder, list_text(words), ['%08x' % w for w in sheet])[1]
        for pattern, other in edits:
            edited, count = re.subn(pattern, other, svg, count=1)
            if count == 0 or edited == svg:
                unseen.append('nothing to edit: ' + pattern)
            elif not Comparison(words, sheet, edited).compare():
                unseen.append('not seen: %s, %s' % (pattern, other))
    return unseen


# Pictures that README shows: (in docs/, its list in examples/).
SHOWN = [('station-d.svg', 'five-parts.txt'), ('branches.svg', 'two-branches.txt')]


def stale_pictures(folder):
    """Pictures in docs/ that are not what the program draws now."""
    stale = []
    for picture, name in SHOWN:
        path = os.path.join(TOP, 'examples', name)
        words = subprocess.run([os.path.join(TOP, 'examples', 'encode'), path], stdout=subprocess.PIPE, check=True).stdout
        with open(path) as text, open(os.path.join(TOP, 'docs', picture)) as shown:
            if run(folder, text.read(), reference.printed(words))[1] != shown.read():
                stale.append('docs/%s is not the picture of examples/%s' % (picture, name))
    return stale


def main(a):
    count = int(a[0]) if a else 40
    rng = random.Random(int(a[1]) if len(a) > 1 else 1)
    drawn = wrong = 0
    with tempfile.TemporaryDirectory() as folder:
        problems = complaints(folder) + unseen_edits(folder) + stale_pictures(folder)
        for name, words in stations(count, rng):
            drawn += 1
            bad = differences(folder, words)
            wrong += bool(bad)
            for what in bad[:3]:
                print('%s: %s' % (name, what))
    for problem in problems:
        print(problem)
    print('%d edits, %d problems' % (sum(map(len, EDITS.values())), len(problems)))
    print('%d pictures, %d differ' % (drawn, wrong))
    return wrong > 0 or len(problems) > 0


sys.exit(main(sys.argv[1:]))
