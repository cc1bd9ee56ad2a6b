#!/usr/bin/env python3
"""Compares the definitions of specs/, computed in the checker, with reference.py on random lists.

  compare_definitions.py [COUNT [SEED [LARGE [RINGS]]]]     COUNT lists of 3 to 9 parts, LARGE of about 20, and RINGS rings of
                                                            58 parts, the shortest that check 14 can refuse (default 300, 1, 4, 1)
  compare_definitions.py --editor [COUNT [SEED]]            COUNT operations of the editor in random runs (default 400, 1)
  compare_definitions.py --canonical [COUNT [SEED [LARGE]]] canonical forms of COUNT lists of 3 to 9 parts, many of them with faults, of the short
                                                            named ones, and of LARGE lists of 512 parts and 1,024 cables (default 300, 1, 2)
  compare_definitions.py --levels [COUNT [SEED [LARGE]]]    levels of COUNT lists of 3 to 8 parts, a third of them with faults in the second row, of
                                                            the short named ones, and of LARGE lists of 11 to 13 parts (default 300, 1, 4)
  compare_definitions.py --sheets [COUNT [SEED]]            COUNT sheets of every kind on small heads, and those worked
                                                            by hand (default 300, 1)
  compare_definitions.py --marks [COUNT [SEED]]             COUNT calls of the screen on such sheets, and on those
                                                            worked by hand (default 120, 1)

Of the lists that are drawn some third has repeated cables, and some fifth a cut part; a fifteenth of all is made to be refused by
check 10. Every list is stated with a length of output, a third of them with a discount and half of them with a spacing, as an
equation of `outcome`, the definition at the top, with all words, counts, numbers and places that reference.py gives, and proved by
computation in a copy of the crates. An operation of the editor is stated as an equation of `proposed`, or of `effect` with the row
that it leaves; a list and a length of output for its canonical form as one of `canonical_outcome`; a list, a second row and a length
of output as one of `levels_outcome`, with the bit patterns of the floats; a list and a sheet as one of `sheet_verdict`.
A call for marks is stated as an equation of `locate_outcome` and, for its last mark that is answered, of `hit_at`; a call
for a cable as one of `selected` or of `bounded`.
The definitions name a refusal by its fault, and reference.py by the check's number: `Fault` in checks/src/lib.rt has both.
It is no part of the gate."""
import os
import random
import re
import shutil
import subprocess
import sys
import tempfile

import lists
import marks
import reference
import sheets

HERE = os.path.dirname(os.path.abspath(__file__))
ROOT = os.path.dirname(HERE)


def numbers(words):
    return '(' + ''.join('0x%x ∷ ' % w for w in words) + '[])'


def options(discount, spacing):
    """What the caller gives, as antt has it."""
    given = 'plain' if discount is None else '(quoted %d)' % discount
    return given if spacing is None else '(spaced_by %d %d %d %s)' % (*spacing, given)


def fault_names():
    """The name that the definitions have for each check, by its number."""
    with open(os.path.join(ROOT, 'crates/checks/src/lib.rt'), encoding='utf-8') as f:
        variants = re.search(r'^pub enum Fault \{\n(.*?)^\}$', f.read(), re.M | re.S).group(1)
    return {int(number): name for name, number in re.findall(r'^    (\w+) = (\d+),$', variants, re.M)}


FAULT_NAMES = fault_names()


def refusal(what, check, place):
    """A refusal by this check, given its number, as `sent_back` or `refused` of antt."""
    return '%s faults.%s %d' % (what, FAULT_NAMES[check], place)


def answer(words, room, discount, spacing):
    return reference.answer(words, room, discount, spacing or reference.GRID)


def few(rng, most=9):
    """Any list but one of 257 to 512 parts, which is long to compute and can only be refused."""
    while True:
        words = lists.any_list(rng, 3, most)
        if len(words) < 2 or not 256 < words[0] >> 16 & 0xfff <= lists.MOST_PARTS:
            return words


def separated(rng):
    """A list of at most 9 parts that check 10 refuses."""
    while True:
        words = lists.cut(rng)
        if words[0] >> 16 & 0xfff <= 9:
            return words


def due(words, room, *given):
    got = answer(words, room, *given)
    if got[0] == 'sheet':
        return 'written %s %d' % (numbers(got[1]), got[2]), 0
    return refusal('sent_back', *got[1:]), got[1]


def rooms(rng, words, *given):
    got = answer(words, None, *given)
    if got[0] != 'sheet':
        return rng.choice([0, 7, 4096])
    k = len(got[1])
    return rng.choice([k, k, k + 1, 4096, k - 1, 0])


def imported(rows, module, names):
    """The `use` lines, with these names among those of this module."""
    out = []
    for row in rows:
        found = re.fullmatch(r'(use \S*\.%s\.\{)(.*)(\})' % module, row)
        if found:
            has = found.group(2).split(', ')
            row = found.group(1) + ', '.join(has + [name for name in names if name not in has]) + found.group(3)
        out.append(row)
    return out


def needed(crate):
    """The crates that a crate cites, and those that these cite."""
    with open(os.path.join(ROOT, 'crates.txt'), encoding='utf-8') as f:
        cited = {name: below.split() for name, below in re.findall(r'^(\w+):(.*)$', f.read(), re.M)}
    out, todo = [], list(cited[crate])
    while todo:
        name = todo.pop()
        if name not in out:
            out.append(name)
            todo += cited.get(name, [])
    return out


def checked(crate, text):
    """The cases of a text that the checker refuses, and what it says, in a copy of a crate over those that it needs. Of its proofs only what opens the definitions
    is in the copy; its code, which declares the types that they speak of, is there as it stands."""
    below = needed(crate)
    with tempfile.TemporaryDirectory() as top:
        for name in [crate] + below:
            shutil.copytree(os.path.join(ROOT, 'crates', name), os.path.join(top, 'crates', name), ignore=shutil.ignore_patterns('must-fail', 'out'))
        with open(os.path.join(ROOT, 'crates.txt'), encoding='utf-8') as f:
            rows = [r for r in f.read().split('\n') if r.split(':')[0] in [crate] + below]
        with open(os.path.join(top, 'crates.txt'), 'w', encoding='utf-8') as f:
            f.write('\n'.join(rows) + '\n')
        folder = os.path.join(top, 'crates', crate)

        def read(path):
            with open(os.path.join(folder, path), encoding='utf-8') as f:
                return f.read()

        files = {'proofs/Lib.antt': 'mod Computing\nmod Compare\n', 'proofs/Computing.antt': read('proofs/Computing.antt'), 'proofs/Compare.antt': '\n'.join(text) + '\n'}
        shutil.rmtree(os.path.join(folder, 'proofs'))
        os.makedirs(os.path.join(folder, 'proofs'))
        for path, content in files.items():
            with open(os.path.join(folder, path), 'w', encoding='utf-8') as f:
                f.write(content)
        r = subprocess.run(['rt', 'check'], cwd=folder, stdout=subprocess.PIPE, stderr=subprocess.STDOUT, text=True)
    return sorted(set(re.findall(r'error: `(case_\d+)`', r.stdout))), r.stdout if r.returncode else ''


def told(wrong, output, what):
    """Says whether all agree; the exit status."""
    if not output:
        print('all agree')
        return 0
    print('%d disagree: %s' % (len(wrong), ' '.join(wrong)))
    for name in wrong[:5]:
        print(name, what(int(name[5:])))
    if not wrong:
        print(output[-3000:])
    return 1


def main(a):
    count = int(a[0]) if a else 300
    seed = int(a[1]) if len(a) > 1 else 1
    large = int(a[2]) if len(a) > 2 else 4
    rings = int(a[3]) if len(a) > 3 else 1
    rng = random.Random(seed)
    cases = [separated(rng) if k % 15 == 14 else few(rng) if k % 3 else lists.drawn(rng, 3, 9) for k in range(count)]
    cases += [lists.drawn(rng, 18, 21) for _ in range(large)]
    discounts = [lists.discount(rng) if rng.randrange(3) == 0 else None for _ in range(count)]
    discounts += [lists.good_discount(rng) if k % 2 else None for k in range(large)]
    spacings = [lists.spacing(rng) if rng.randrange(2) == 0 else None for _ in range(count)]
    spacings += [lists.good_spacing(rng) if k % 4 < 2 else None for k in range(large)]
    cases += rings * [lists.ring_list(58)]
    discounts += [lists.good_discount(rng) if k % 2 else None for k in range(rings)]
    spacings += [(rng.randint(1, 64), 64, 224 if k == 0 else rng.randint(222, 226)) for k in range(rings)]
    given = list(zip(discounts, spacings))
    table = open(os.path.join(ROOT, 'crates/hookup/proofs/Table.antt'), encoding='utf-8').read()
    # of the laws only what opens the definitions is in the copy
    rows = [row for row in re.findall(r'^use .*$', table, re.M) if 'Rattle.hookup.proofs' not in row or '.Computing.' in row]
    uses = imported(rows, 'Options', ['plain', 'quoted', 'spaced_by'])
    opened = re.search(r'^unfolding (.*)$', table, re.M).group(1)
    text, tally = ['-- Random lists.'] + uses, {}
    for k, words in enumerate(cases):
        room = rooms(rng, words, *given[k])
        right, check = due(words, room, *given[k])
        tally[check] = tally.get(check, 0) + 1
        text += ['', 'case_%d : outcome %s %s %d ≡ %s' % (k, options(*given[k]), numbers(words), room, right), 'unfolding ' + opened, 'case_%d = refl' % k]
    wrong, output = checked('hookup', text)
    cut = [words for words in cases if reference.fault(words) is None and lists.has_cut_part(words)]
    print('%d lists, %d with repeated cables, %d drawn with a cut part, %d with a discount, %d with a spacing (%s)' % (
        len(cases), sum(map(lists.has_repeats, cases)), len(cut), *(sum(k is not None for k in some) for some in (discounts, spacings)),
        ', '.join('%d %s' % (v, 'drawn' if c == 0 else 'refused by %d' % c) for c, v in sorted(tally.items()))))
    return told(wrong, output, lambda k: '%s %s' % (options(*given[k]), ' '.join('%08x' % w for w in cases[k])))


# The editor: equations of `proposed` and `effect`.

def operation_due(row, asked):
    """The equation of one operation, and its number."""
    what, one, other, count = asked
    answer, after = reference.edit(row, asked)
    number = answer[1] if answer[0] == 'refused' else 0
    if what == lists.PROPOSE:
        right = refusal('refused', *answer[1:]) if number else 'Ok (proposal %d %d %d)' % answer[1:]
        return 'proposed %d %d %s ≡ %s' % (one, other, numbers(row), right), number
    verdict = refusal('refused', *answer[1:]) if number else 'passed'
    return 'effect (Commit (proposal %d %d %d)) %s ≡ record { verdict = %s; row = %s }' % (one, other, count, numbers(row), verdict, numbers(after)), number


def editor(a):
    count, seed = int(a[0]) if a else 400, int(a[1]) if len(a) > 1 else 1
    rng, cases = random.Random(seed), []
    while len(cases) < count:
        row, done = lists.sequence(rng, reference.edit)
        for asked, _, after in done:
            if len(row) < 20:
                cases.append((row, asked))
            row = after
    table = open(os.path.join(ROOT, 'crates/editor/proofs/Table.antt'), encoding='utf-8').read()
    opened = re.search(r'^unfolding (.*)$', table, re.M).group(1)
    maker = re.search(r'^abbrev proposal : .*\n.*$', table, re.M).group()
    text, tally = ['-- Random operations.'] + re.findall(r'^use .*$', table, re.M) + ['', maker], {}
    for k, (row, asked) in enumerate(cases):
        equation, number = operation_due(row, asked)
        tally[number] = tally.get(number, 0) + 1
        text += ['', 'case_%d : %s' % (k, equation), 'unfolding ' + opened, 'case_%d = refl' % k]
    wrong, output = checked('editor', text)
    print('%d operations (%s)' % (len(cases), ', '.join('%d %s' % (v, 'not refused' if c == 0 else 'refused by %d' % c) for c, v in sorted(tally.items()))))
    return told(wrong, output, lambda k: '%s on %s' % (cases[k][1], ' '.join('%08x' % w for w in cases[k][0])))


# The canonical form: equations of `canonical_outcome`.

def faulty(rng):
    """A list that passes checks 1 to 8, with faults."""
    words = lists.unsorted(rng, 3, 9)
    for _ in range(rng.choice([1, 1, 2])):
        words = rng.choice(lists.FAULTS)(rng, words)
    return words


def canonical_due(words, room):
    """The equation of one list, and its number."""
    answer = reference.canonicalize(words, room)
    number = answer[1] if answer[0] == 'refused' else 0
    right = refusal('sent_back', *answer[1:]) if number else 'written %s %d' % (numbers(answer[1]), len(answer[1]))
    return 'canonical_outcome %s %d ≡ %s' % (numbers(words), room, right), number


def canonical(a):
    count, seed, large = (int(a[k]) if len(a) > k else default for k, default in enumerate((300, 1, 2)))
    rng = random.Random(seed)
    cases = [words for _, words, _ in lists.canonicals() if len(words) < 14]
    named = len(cases)
    cases += [lists.unsorted(rng, 3, 9) if k % 3 == 0 else faulty(rng) if k % 3 == 1 else lists.any_list(rng, 3, 9) for k in range(count)]
    cases += [lists.listed(rng, *lists.four_regular(rng, 512), *rng.sample(range(512), 2)) for _ in range(large)]
    table = open(os.path.join(ROOT, 'crates/canonical/proofs/Table.antt'), encoding='utf-8').read()
    # of the laws only what opens the definitions is in the copy, and none of the table's own lists
    uses = [row for row in re.findall(r'^use .*$', table, re.M) if 'Rattle.canonical.proofs' not in row or '.Computing.' in row]
    opened = re.findall(r'\w+_computing', re.search(r'^unfolding (.*)$', table, re.M).group(1))
    text, tally = ['-- Random lists.'] + uses, {}
    for k, words in enumerate(cases):
        size = len(words)
        around = [size] if k >= len(cases) - large else [size, size, size + 1, 4096, max(0, size - 1), 0]
        room = rng.choice(around if reference.list_fault(words) is None else [0, 7, 4096])
        equation, number = canonical_due(words, room)
        tally[number] = tally.get(number, 0) + 1
        text += ['', 'case_%d : %s' % (k, equation), 'unfolding ' + ' '.join(opened), 'case_%d = refl' % k]
    wrong, output = checked('canonical', text)
    print('%d lists, %d of them named, %d with repeated cables (%s)' % (
        len(cases), named, sum(map(lists.has_repeats, cases)),
        ', '.join('%d %s' % (v, 'written' if c == 0 else 'refused by %d' % c) for c, v in sorted(tally.items()))))
    return told(wrong, output, lambda k: ' '.join('%08x' % w for w in cases[k]))


# Levels: equations of `levels_outcome`, in bit patterns.

def levels_due(words, sorts, room):
    """The equation of one call, and its number."""
    answer = reference.levels(words, sorts, room)
    number = answer[1] if answer[0] == 'refused' else 0
    right = refusal('sent_back', *answer[1:]) if number else 'written %s %d' % (numbers(answer[1]), len(answer[1]))
    return 'in_bits (levels_outcome %s %s %d) ≡ %s' % (numbers(words), numbers(sorts), room, right), number


def levels(a):
    count, seed, large = (int(a[k]) if len(a) > k else default for k, default in enumerate((300, 1, 4)))
    rng = random.Random(seed)
    cases = [(words, sorts) for _, words, sorts, _ in lists.levels() if len(words) < 14 and len(sorts) < 20]
    named = len(cases)
    for k in range(count):
        words = few(rng, 8) if k % 3 == 2 else lists.drawn(rng, 3, 8)
        n = min(8, words[0] >> 16 & 0xfff) if words else 0
        cases.append((words, (lists.wrong_sorts if k % 3 == 1 or k % 15 == 2 else lists.some_sorts)(rng, n)))
    for _ in range(large):
        words = lists.drawn(rng, 11, 13)
        cases.append((words, lists.of_gains(*(rng.randint(-6400, 6400) for _ in range(words[0] >> 16 & 0xfff)))))
    table = open(os.path.join(ROOT, 'crates/levels/proofs/Table.antt'), encoding='utf-8').read()
    # of the laws only what opens the definitions is in the copy, and none of the table's own lists
    uses = [row for row in re.findall(r'^use .*$', table, re.M) if 'Rattle.levels.proofs' not in row or '.Computing.' in row]
    opened = re.findall(r'\w+_computing', re.search(r'^unfolding (.*)$', table, re.M).group(1))
    text, tally = ['-- Random calls.'] + uses, {}
    for k, (words, sorts) in enumerate(cases):
        full = reference.levels(words, sorts)
        size = len(full[1]) if full[0] == 'levels' else 0
        room = size if k >= len(cases) - large else rng.choice([size, size, size + 1, 4096, size - 1, 0] if size else [0, 7, 4096])
        equation, number = levels_due(words, sorts, room)
        tally[number] = tally.get(number, 0) + 1
        text += ['', 'case_%d : %s' % (k, equation), 'unfolding ' + ' '.join(opened), 'case_%d = refl' % k]
    wrong, output = checked('levels', text)
    print('%d calls, %d of them named, %d with repeated cables (%s)' % (
        len(cases), named, sum(lists.has_repeats(words) for words, _ in cases),
        ', '.join('%d %s' % (v, 'written' if c == 0 else 'refused by %d' % c) for c, v in sorted(tally.items()))))
    return told(wrong, output, lambda k: '%s with %s' % tuple(' '.join('%08x' % w for w in row) for row in cases[k]))


# Sheet validation: equations of `sheet_verdict`.

MOST_SIDE, MOST_WORDS = 24, 60      # of the sheets that are computed
LARGE_KINDS = 'up to 4,095', 'larger head'      # of which none or few are so small


def is_small(words, sheet):
    n = words[0] >> 16 & 0xfff if words else 0
    return n <= 8 and len(sheet) <= MOST_WORDS and (not sheet or max(reference.two(sheet[0])) <= MOST_SIDE)


def small_sheet(rng, kind=None):
    """A random sheet on a small head, of this kind or of any: (kind, list, sheet)."""
    while True:
        name, words, sheet, _ = sheets.foreign(rng, None, True, kind)
        if is_small(words, sheet):
            return name, words, sheet


def verdicts(a):
    count, seed = (int(a[k]) if len(a) > k else default for k, default in enumerate((300, 1)))
    rng = random.Random(seed)
    cases = [('by hand', reference.hexes(words), reference.hexes(sheet)) for _, words, sheet, _ in reference.SHEETS]
    cases = [case for case in cases if is_small(*case[1:])]
    kinds = [kind for kind in sheets.KINDS if kind not in LARGE_KINDS]
    cases += [small_sheet(rng, kinds[k // 3 % len(kinds)] if k % 3 == 0 else None) for k in range(count)]
    with open(os.path.join(ROOT, 'crates/validation/proofs/Table.antt'), encoding='utf-8') as f:
        table = f.read()
    # of the laws only what opens the definitions is in the copy, and none of the table's own sheets
    rows = re.findall(r'^use .*$', table, re.M)
    uses = [row for row in rows if 'Rattle.validation.proofs' not in row or '.Computing.' in row]
    opened = re.findall(r'\w+_computing', re.search(r'^unfolding (.*)$', table, re.M).group(1))
    text, answers = ['-- Random sheets.'] + uses, []
    for k, (kind, words, sheet) in enumerate(cases):
        answer = reference.check_sheet(words, sheet)
        answers.append((kind, answer))
        right = refusal('refused', *answer) if answer else 'passed'
        text += ['', 'case_%d : sheet_verdict %s %s ≡ %s' % (k, numbers(words), numbers(sheet), right),
                 'unfolding ' + ' '.join(opened), 'case_%d = refl' % k]
    wrong, output = checked('validation', text)
    print('\n'.join(sheets.table(answers)))
    return told(wrong, output, lambda k: '%s: list %s, sheet %s' % (
        cases[k][0], *(' '.join('%08x' % w for w in row) for row in cases[k][1:])))


# The screen: equations of `locate_outcome`, `hit_at`, `selected` and `bounded`.

def screen_calls(rng, count):
    """(list, sheet, marks, room, line): by hand, on those sheets and on random ones."""
    triangle, sheet = reference.TRIANGLE, reference.TRIANGLE_SHEET
    d, its = map(reference.hexes, reference.STATION_D[:2])
    every = [marks.mark(x, y) for y in range(8) for x in range(8)]
    out = [(triangle, sheet, 13 * every[:5], room, 2) for room in (0, 65)] + [(triangle, sheet, every, 63, 3)]
    out += [(d, its, every[8 * k:8 * k + 8], 8, k) for k in range(8)] + [(d, its, every, 64, k) for k in (8, 9, 10)]
    for _, text, foreign, _ in reference.SHEETS:
        words, foreign = reference.hexes(text), reference.hexes(foreign)
        if is_small(words, foreign):
            out.append((words, foreign, [word for _, word in marks.some_marks(rng, words, foreign, 6)],
                        rng.choice([5, 6, 7]), rng.randint(0, words[0] & 0xffff)))
    kinds = [kind for kind in sheets.KINDS if kind not in LARGE_KINDS]
    for k in range(count):
        _, words, foreign = small_sheet(rng, kinds[k // 3 % len(kinds)] if k % 3 == 0 else None)
        size = rng.choice([0, 1, rng.randint(2, 9), rng.randint(2, 9), rng.randint(10, 20), 65 + k % 7])
        some = [word for _, word in marks.some_marks(rng, words, foreign, size)]
        out.append((words, foreign, some, marks.some_room(rng, size), marks.some_line(rng, words)))
    return out


def named_hit(word):
    """What lies at a mark, as antt has it."""
    what, first, second = reference.hit(word)
    return ('Blank', 'Part (record { 0 = %d })' % first, 'Cable %d' % first, 'Crossing %d %d' % (first, second))[what]


def screen_due(k, words, sheet, some, room, line):
    """The equations of one call, and its answers. Of the words of a cable and of its box it has one."""
    given, answer = '%s %s' % (numbers(words), numbers(sheet)), reference.locate(words, sheet, some, room)
    right = 'written %s tt' % numbers(answer[1]) if answer[0] == 'hits' else refusal('sent_back', *answer[1:])
    out = ['locate_outcome %s %s %d ≡ %s' % (given, numbers(some), room, right)]
    if answer[0] == 'hits' and some:
        out.append('hit_at (station_of %s) %s (mark_spot 0x%x) ≡ %s' % (
            numbers(words), numbers(sheet), some[-1], named_hit(answer[1][-1])))
    own = reference.cable_bounds(words, sheet, line) if k % 2 else reference.select_cable(words, sheet, line)
    if own[0] == 'refused':
        right = refusal('refused', *own[1:])
    else:
        right = ('Ok (record { left = %d; bottom = %d; right = %d; top = %d })' if k % 2 else 'words_at %d %d') % own[1:]
    return out + ['%s %s %d ≡ %s' % ('bounded' if k % 2 else 'selected', given, line, right)], (answer, own)


def screen(a):
    count, seed = (int(a[k]) if len(a) > k else default for k, default in enumerate((120, 1)))
    rng = random.Random(seed)
    cases = screen_calls(rng, count)
    with open(os.path.join(ROOT, 'crates/location/proofs/Table.antt'), encoding='utf-8') as f:
        table = f.read()
    # of the laws only what opens the definitions is in the copy, and none of the table's own sheets
    rows = [row for row in re.findall(r'^use .*$', table, re.M) if 'Rattle.location.proofs' not in row or '.Computing.' in row]
    uses = imported(rows, 'Hits', ['mark_spot', 'hit_at'])
    uses.append('use Rattle.location.specs.declared.Hit.TheVariants.{Blank, Part, Cable, Crossing}')
    opened = re.findall(r'\w+_computing', re.search(r'^unfolding (.*)$', table, re.M).group(1))
    text, of_case, located, chosen, hits = ['-- Random calls.'] + uses, [], [], [], []
    for k, case in enumerate(cases):
        equations, (answer, own) = screen_due(k, *case)
        located.append(marks.name_of(answer))
        chosen.append(marks.name_of(own))
        hits += [marks.LYING[word >> 24 & 0xf] for word in answer[1]] if answer[0] == 'hits' else []
        for equation in equations:
            text += ['', 'case_%d : %s' % (len(of_case), equation), 'unfolding ' + ' '.join(opened),
                     'case_%d = refl' % len(of_case)]
            of_case.append((equation, case))
    wrong, output = checked('location', text)
    print('%d calls, %d equations; marks: %s; cables: %s; at the marks %s' % (
        len(cases), len(of_case), *map(marks.tally_of, (located, chosen, hits))))
    return told(wrong, output, lambda k: of_case[k][0])


if __name__ == '__main__':
    modes = {'--editor': editor, '--canonical': canonical, '--levels': levels, '--sheets': verdicts, '--marks': screen}
    chosen = modes.get(sys.argv[1] if len(sys.argv) > 1 else '')
    sys.exit(chosen(sys.argv[2:]) if chosen else main(sys.argv[1:]))
