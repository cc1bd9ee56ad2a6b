#!/usr/bin/env python3
"""Lists to compare programs with.

`lists.py COUNT SEED [N_MAX]` prints COUNT lists, one a line, as hexadecimal
words with single spaces. A list of no words is an empty line.
"""

import random
import sys

MOST_PARTS = 512


# Words, made without the reference so that a slip there is not repeated here.

def head(n, m):
    return 0x10000000 | (n & 0xfff) << 16 | m & 0xffff


def ends(s, t):
    return 0x20000000 | s << 12 | t


def cable(a, b):
    return 0x30000000 | a << 12 | b


def build(n, s, t, cables):
    return [head(n, len(cables)), ends(s, t)] + [cable(a, b) for a, b in cables]


def degrees(n, cables):
    count = [0] * n
    for a, b in cables:
        count[a] += 1
        count[b] += 1
    return count


# Stations without a cut part, as (n, set of sorted pairs).

def pair(a, b):
    return (a, b) if a < b else (b, a)


def ring(n):
    return n, {pair(p, (p + 1) % n) for p in range(n)}


def grid(wide, high):
    """Without a cut part where both sides are 2 or more; a ladder where one is 2."""
    cables = set()
    for y in range(high):
        for x in range(wide):
            p = y * wide + x
            if x + 1 < wide:
                cables.add((p, p + 1))
            if y + 1 < high:
                cables.add((p, p + wide))
    return wide * high, cables


def torus(wide, high):
    """Four cables at each part; both sides 3 or more."""
    cables = set()
    for y in range(high):
        for x in range(wide):
            p = y * wide + x
            cables.add(pair(p, y * wide + (x + 1) % wide))
            cables.add(pair(p, (y + 1) % high * wide + x))
    return wide * high, cables


def second_neighbours(n):
    """Each part joined to the next and the next but one; n is 5 or more."""
    return n, {pair(p, (p + k) % n) for p in range(n) for k in (1, 2)}


def complete(n):
    return n, {(a, b) for b in range(n) for a in range(b)}


def four_regular(rng, n):
    """Two rings over the same parts with no cable in common; n is 5 or more."""
    while True:
        first, second = list(range(n)), list(range(n))
        rng.shuffle(first)
        rng.shuffle(second)
        cables = {pair(row[i - 1], row[i]) for row in (first, second) for i in range(n)}
        if len(cables) == 2 * n:
            return n, cables


def bundle(rng, n, ways):
    """Two hubs with 2 to 4 separate ways between them, which spread the other
    parts; at most one way is a lone cable."""
    cables = set()
    cuts = [1] * (ways - 1) + [0]
    for _ in range(n - 2 - (ways - 1)):
        cuts[rng.randrange(ways)] += 1
    nxt = 2
    for length in cuts:
        last = 0
        for _ in range(length):
            cables.add(pair(last, nxt))
            last = nxt
            nxt += 1
        cables.add(pair(last, 1))
    return n, cables


def long_cable(n):
    """With s = 0 and t = n - 1 the cable between them has 3n - 5 steps: it runs
    level from s, in the first of n columns, to the last, climbs past all other
    parts and runs level back to t, in the third. s has two cables, parts 1 and 2
    three, the others four; each part's rank is its number; n is 9 or more."""
    t = n - 1
    cables = {(p, p + k) for p in range(3, n - 3) for k in (1, 2)}
    return n, cables | {(0, 1), (0, t), (1, 2), (1, 3), (2, n - 3), (2, t),
                        (3, n - 2), (4, n - 2), (n - 3, t), (n - 2, t)}


def with_last(n, cables):
    """The station with one part more, put into the last of its cables."""
    a, b = max(cables)
    return n + 1, cables - {(a, b)} | {(a, n), (b, n)}


def ladder(n):
    """Of n parts, 4 or more; where n is odd the last one is put into a cable."""
    return with_last(*ladder(n - 1)) if n % 2 else grid(2, n // 2)


def near_square(n):
    """A grid of n parts, 4 or more, as square as can be; where n has no divisor the last
    part is put into a cable of the grid of n - 1."""
    wide = max(k for k in range(1, n) if n % k == 0 and k * k <= n)
    return with_last(*near_square(n - 1)) if wide == 1 else grid(wide, n // wide)


def of_ears(rng, n):
    """A random station with 1.4 to 1.6 cables for each part."""
    while True:
        _, cables = ears(rng, n)
        if 1.4 * n <= len(cables) <= 1.6 * n:
            return n, cables


KINDS = (('ladder', lambda rng, n: ladder(n)), ('grid', lambda rng, n: near_square(n)),
         ('ring', lambda rng, n: ring(n)), ('four-regular', four_regular), ('random', of_ears))


# Stations that are drawn with their cut parts, as (n, set of sorted pairs), where s is part 0 and t the last part: each cut
# part has s on one side and t on the other.

def chain(n):
    """Each part joined to the next."""
    return n, {(p, p + 1) for p in range(n - 1)}


def with_chains(n, cables, k):
    """The station with a chain of k parts before its part 0 and one behind its last part."""
    rows = {(a + k, b + k) for a, b in cables}
    return n + 2 * k, rows | {(p, p + 1) for p in (*range(k), *range(n + k - 1, n + 2 * k - 1))}


def ladder_with_chains(n):
    """Of n parts, 8 or more; each chain has a quarter of them."""
    return with_chains(*ladder(n - n // 4 * 2), n // 4)


def triangles(n):
    """Triangles in a row, each sharing a part with the next; where n is even a cable leads to the last part."""
    return n, chain(n)[1] | {(p, p + 2) for p in range(0, n - 2, 2)}


def rings(n, size):
    """Rings of so many parts in a row, with a cable from each to the next; size divides n."""
    return n, chain(n)[1] | {(p, p + size - 1) for p in range(0, n, size)}


CHAINS = (('chain', chain), ('ladder with chains', ladder_with_chains))


# Stations with one cut part, the last.

def two_blocks(rng, one, other):
    """A station of so many parts, from 0 on, and behind it one of so many, with four cables at each part; and the last part,
    put into a cable of each."""
    cables, base, n = set(), 0, one + other
    for size in (one, other):
        more = sorted((a + base, b + base) for a, b in four_regular(rng, size)[1])
        a, b = more.pop()
        cables |= set(more) | {(a, n), (b, n)}
        base += size
    return n + 1, cables


def hung_on_last(n):
    """A ring of all parts but n - 2, which hangs on part n - 1; each up to n - 5 is also joined to the next but one."""
    return n, chain(n - 2)[1] | {(0, n - 1), (n - 3, n - 1), (n - 2, n - 1)} | {(p, p + 2) for p in range(n - 4)}


def rails(n):
    """A list of n parts, an even number, 16 or more, of which many could wait long for their rank. A path from s ends at
    t. Its second part is a rail of a ladder, and the other rail has its ranks first, so that each part of the path cuts
    off those before it. Before the rail high and low numbers take turns: each low one is ranked once the high one
    before it is, and is the lowest part that the whole rail cuts off."""
    rungs = n // 5
    turns = (n - 2) // 2 - rungs
    low, rail, first, high = (list(range(k, k + size)) for k, size in (
        (0, turns), (turns, rungs), (turns + rungs, rungs), (turns + 2 * rungs, turns)))
    s, t = n - 2, n - 1
    path = [s] + [p for two in zip(high, low) for p in two] + rail + [t]
    other = [s] + first + [t]
    return build(n, s, t, [*zip(path, path[1:]), *zip(other, other[1:]), *zip(rail, first)])


# Stations with repeated cables, as (n, row of sorted pairs).

def doubled(n, cables):
    """Each cable twice; at most two of the others at a part."""
    return n, sorted(2 * list(cables))


def triple_ring(n):
    """A ring with every other cable there three times: four cables at each part; n is
    even and 4 or more."""
    return n, sorted(list(ring(n)[1]) + 2 * [(p, p + 1) for p in range(0, n, 2)])


def pair_chain(n):
    """Two cables from each part to the next, and one between the first and the last."""
    return n, sorted(2 * [(p, p + 1) for p in range(n - 1)] + [(0, n - 1)])


def pair_ladder(high):
    """A ladder with two cables for each rung."""
    n, cables = grid(2, high)
    return n, sorted(list(cables) + [(p, p + 1) for p in range(0, n, 2)])


def triple_chain(n):
    """A chain with every other cable there three times."""
    return n, sorted(list(chain(n)[1]) + 2 * [(p, p + 1) for p in range(0, n - 1, 2)])


def repeated(rng, n, cables):
    """More cables between parts that are joined, as long as neither has four: up to
    three, or as many as are found."""
    out, count = list(cables), degrees(n, cables)
    most = len(out) + rng.choice([1, 2, 3, n, 2 * n])
    for a, b in rng.sample(sorted(cables), len(cables)):
        for _ in range(rng.choice([1, 1, 2])):
            if len(out) < most and max(count[a], count[b]) < 4:
                out.append((a, b))
                count[a] += 1
                count[b] += 1
    return n, sorted(out)


def ears(rng, n):
    """A ring, then ears until all n parts are in, then single cables; each step
    leaves no cut part."""
    size = rng.choice([3, n, rng.randint(3, n)])
    cables = {pair(p, (p + 1) % size) for p in range(size)}
    count = [2] * size
    longest = rng.choice([1, 2, 4, n])
    near_last = rng.random() < 0.3      # ears that hang on late parts go deep

    def free_pair(apart):
        free = [p for p in range(len(count)) if count[p] < 4]
        if near_last:
            free = free[-8:]
        for _ in range(20):
            if len(free) < 2:
                return None
            a, b = rng.sample(free, 2)
            if not apart or pair(a, b) not in cables:
                return a, b
        return None

    while len(count) < n:
        inner = rng.randint(1, min(longest, n - len(count)))
        found = free_pair(False)
        if found is None:
            # No free ends: put a part into a cable.
            a, b = rng.choice(sorted(cables))
            cables.remove((a, b))
            cables |= {pair(a, len(count)), pair(b, len(count))}
            count.append(2)
            continue
        a, b = found
        last = a
        for _ in range(inner):
            cables.add(pair(last, len(count)))
            last = len(count)
            count.append(2)
        cables.add(pair(last, b))
        count[a] += 1
        count[b] += 1
    near_last = False
    for _ in range(rng.choice([0, 1, rng.randint(0, n), 2 * n])):
        found = free_pair(True)
        if found is None:
            break
        cables.add(pair(*found))
        for p in found:
            count[p] += 1
    return n, cables


def some_graph(rng, n):
    makers = [ears] * 6
    makers.append(lambda rng, n: ring(n))
    if n <= 5:
        makers.append(lambda rng, n: complete(n))
    if n >= 5:
        makers.append(four_regular)
        makers.append(lambda rng, n: second_neighbours(n))
    if n >= 4 and n % 2 == 0:
        makers.append(lambda rng, n: grid(2, n // 2))
    for wide in range(3, n // 3 + 1):
        if n % wide == 0:
            makers.append(lambda rng, n, wide=wide: grid(wide, n // wide))
            makers.append(lambda rng, n, wide=wide: torus(wide, n // wide))
            break
    for ways in (2, 3, 4):
        if n >= ways + 1:
            makers.append(lambda rng, n, ways=ways: bundle(rng, n, ways))
    return rng.choice(makers)(rng, n)


def some_station(rng, n):
    """A station without a cut part as (n, row of sorted pairs); a third has repeated cables."""
    if rng.random() < 0.05:
        makers = [lambda: doubled(*ring(n)), lambda: pair_chain(n)]
        if n >= 4 and n % 2 == 0:
            makers += [lambda: triple_ring(n), lambda: pair_ladder(n // 2)]
        return rng.choice(makers)()
    n, cables = some_graph(rng, n)
    return repeated(rng, n, cables) if rng.random() < 0.4 else (n, sorted(cables))


def in_row(rng, n):
    """A station of n parts, 2 or more, as (n, row of sorted pairs, s, t): blocks in a row, each sharing a part with the
    next. s is in the first and t in the last, and neither is shared, so that it is drawn. A block of two parts is one
    cable or more, and a row of such blocks a chain."""
    cables, count, made, end = [], n * [0], 1, 0        # end: the part that the next block is put on
    links, times, longest = rng.choice([0, 0.5, 0.5, 1]), rng.choice([1, 1, 2, 3]), rng.choice([3, 5, n])
    while made < n:
        left, free, ways = n - made, 4 - count[end], []
        if left > 1 and rng.random() >= links:
            size, block = some_station(rng, rng.randint(3, min(left + 1, max(3, longest))))
            its = degrees(size, block)
            ways = [(a, b) for a in range(size) if its[a] <= free
                    for b in range(size) if b != a and (its[b] < 4 or size > left)]
        if not ways:
            size, block, ways = 2, min(rng.choice([1, times]), free) * [(0, 1)], [(0, 1)]
        a, b = rng.choice(ways)
        place = [end if q == a else made + q - (q > a) for q in range(size)]
        cables += [pair(place[p], place[q]) for p, q in block]
        count, made, end = degrees(n, cables), made + size - 1, place[b]
    return n, sorted(cables), 0, end


def listed(rng, n, cables, s, t, shuffled=True):
    """The list of a station, its numbers, lines and directions shuffled."""
    number = list(range(n))
    if shuffled:
        rng.shuffle(number)
    rows = [(number[a], number[b]) for a, b in sorted(cables)]
    if shuffled:
        rng.shuffle(rows)
        rows = [c if rng.random() < 0.5 else c[::-1] for c in rows]
    return build(n, number[s], number[t], rows)


def reversed_list(n, cables):
    """The list of a station with its part numbers, its lines and their directions reversed: s is the last part and
    t is part 0."""
    return build(n, n - 1, 0, [(n - 1 - a, n - 1 - b) for a, b in sorted(cables)[::-1]])


def drawn(rng, n_min=3, n_max=40):
    """A list that passes checks 1 to 10, with n_min to n_max parts; a third has
    repeated cables. A quarter has its blocks in a row. Of the others the counts of
    cables at s and t, and whether a cable joins s to t, are chosen first; where no
    station of that shape turns up, any station will do."""
    n = rng.randint(n_min, n_max)
    if rng.random() < 0.25:
        return listed(rng, *in_row(rng, n), rng.random() < 0.85)
    at_s, at_t = rng.choice((2, 3, 4)), rng.choice((2, 3, 4))
    joined = rng.random() < 0.4
    for _ in range(25):
        n, cables = some_station(rng, n)
        count, pairs = degrees(n, cables), set(cables)
        if joined:
            rows = [(a, b) for c in sorted(pairs) for a, b in (c, c[::-1])]
        else:
            rows = [(a, b) for a in range(n) for b in range(n)
                    if a != b and pair(a, b) not in pairs]
        rows = [(a, b) for a, b in rows if (count[a], count[b]) == (at_s, at_t)]
        if rows:
            s, t = rng.choice(rows)
            break
    else:
        s, t = rng.sample(range(n), 2)
    return listed(rng, n, cables, s, t, rng.random() < 0.85)


def has_repeats(words):
    """Whether two cables of a list join the same two parts."""
    cables = [pair(w >> 12 & 0xfff, w & 0xfff) for w in words[2:]]
    return len(set(cables)) < len(cables)


def paired(rng, n_min=3, n_max=40):
    """As `drawn`, with repeated cables."""
    while True:
        words = drawn(rng, n_min, n_max)
        if has_repeats(words):
            return words


def cut_parts(n, cables):
    """The cut parts of a station, of which all parts are joined."""
    return [p for p in range(n) if groups(n, cables, p) > 1]


def has_cut_part(words):
    """Whether a list that passes checks 1 to 9 has a cut part."""
    return bool(cut_parts(words[0] >> 16 & 0xfff, [(w >> 12 & 0xfff, w & 0xfff) for w in words[2:]]))


def large(rng):
    """A list of 256 to 512 parts that passes checks 1 to 10: mostly of 256, 257, 511 or 512. Some
    stations take an even number, or one that 4 or 16 divides, and have as many. A quarter has its
    blocks in a row."""
    n = rng.choice([256, 256, 257, 511, 512, 512, rng.randint(257, MOST_PARTS)])
    half = n // 2
    if rng.random() < 0.25:
        n, cables, s, t = rng.choice([
            lambda: (*chain(n), 0, n - 1), lambda: (*ladder_with_chains(n), 0, n - 1), lambda: (*triangles(n), 0, n - 1),
            lambda: (*doubled(*chain(n)), 0, n - 1), lambda: (*triple_chain(n), 0, n - 1), lambda: in_row(rng, n)])()
        return listed(rng, n, cables, s, t, rng.random() < 0.7)
    n, cables = rng.choice([
        lambda: ring(n), lambda: ladder(n), lambda: near_square(n), lambda: grid(4, n // 4),
        lambda: torus(16, n // 16), lambda: second_neighbours(n),
        lambda: four_regular(rng, n), lambda: ears(rng, n),
        lambda: bundle(rng, n, 4), lambda: doubled(*ring(n)), lambda: triple_ring(2 * half),
        lambda: pair_ladder(half), lambda: repeated(rng, *ears(rng, n))])()
    s, t = rng.sample(range(n), 2)
    return listed(rng, n, cables, s, t, rng.random() < 0.7)


def counts(words):
    """n, m and d + e of a list that passes checks 1 to 10."""
    n, m = words[0] >> 16 & 0xfff, words[0] & 0xffff
    count = degrees(n, [(w >> 12 & 0xfff, w & 0xfff) for w in words[2:]])
    s, t = words[1] >> 12 & 0xfff, words[1] & 0xfff
    return n, m, (count[s] == 4) + (count[t] == 4)


def rooms(words):
    """Lengths of output to try for a list that passes checks 1 to 10: around
    the 4m - n + 4 + d + e words of its sheet, and none at all."""
    n, m, de = counts(words)
    size = 4 * m - n + 4 + de
    return [0, 1, size - 2, size - 1, size, size + 1]


def extent(words):
    """Width and height of the grid of a list that passes checks 1 to 10."""
    n, m, de = counts(words)
    return m - n + 1, n - 1 + de


# Faults, each put into the words of a list. Another may hide it.

def fault_1(rng, words):
    return rng.choice([[], words[:1], [rng.getrandbits(32)]])


def fault_2(rng, words):
    out = list(words)
    if not out:
        return out
    i = rng.choice([0, min(1, len(out) - 1), len(out) - 1, rng.randrange(len(out))])
    if i and rng.random() < 0.5:
        out[i] |= 1 << rng.randint(24, 27)
    else:
        out[i] = out[i] & 0x0fffffff | rng.randrange(16) << 28
    return out


def fault_3(rng, words):
    out = list(words)
    if not out:
        return out
    way = rng.randrange(4)
    if way == 0:
        out.pop()
    elif way == 1:
        out.append(cable(rng.randrange(4), rng.randrange(4)))
    elif way == 2:
        m = out[0] & 0xffff
        out[0] = out[0] & ~0xffff | (m + rng.choice([-1, 1])) & 0xffff
    else:
        out[0] = out[0] & ~0xffff | rng.choice([0, 0xffff, rng.getrandbits(16)])
    return out


def fault_4(rng, words):
    out = list(words)
    if out:
        # 257 and 258 pass, but leave parts without a cable.
        n = rng.choice([0, 1, 2, 257, 258, 0x203, 0xfff])
        out[0] = out[0] & 0xf000ffff | n << 16
    return out


def fault_5(rng, words):
    out = list(words)
    if len(out) < 2:
        return out
    n = out[0] >> 16 & 0xfff
    p = min(0xfff, rng.choice([n, n + 1, 0x100, 0xfff]))
    i = rng.choice([1, rng.randrange(1, len(out))])
    shift = rng.choice([0, 12])
    out[i] = out[i] & ~(0xfff << shift) | p << shift
    return out


def fault_6(rng, words):
    out = list(words)
    if len(out) < 2:
        return out
    i = rng.choice([1, rng.randrange(1, len(out))])
    p = rng.choice([out[i] & 0xfff, out[i] >> 12 & 0xfff])
    out[i] = out[i] & 0xff000000 | p << 12 | p
    return out


def grown(words, extra):
    """The list with more cables, its count kept right."""
    out = list(words) + extra
    out[0] = out[0] & ~0xffff | (out[0] + len(extra)) & 0xffff
    return out


def turned(word):
    return word & 0xff000000 | (word & 0xfff) << 12 | word >> 12 & 0xfff


def repeat(rng, words):
    """Cables once more, behind the others or in place of one: no fault by itself, but a
    part may then have too many cables, or another too few."""
    if len(words) < 3:
        return list(words)
    again = [rng.choice([w, turned(w)]) for w in rng.sample(words[2:], rng.choice([1, 1, 2]))
             ] if len(words) > 3 else [words[2]]
    if rng.random() < 0.5:
        return grown(words, again)
    out = list(words)
    out[rng.randrange(2, len(out))] = again[0]
    return out


def fault_8(rng, words):
    if len(words) < 3:
        return list(words)
    n = max(3, words[0] >> 16 & 0xfff)
    p = rng.randrange(n)
    free = [q for q in range(n) if q != p]
    rng.shuffle(free)
    if rng.random() < 0.3:
        free = 4 * free[:rng.choice([1, 2])]
    extra = []
    for q in free[:rng.choice([1, 2, 3, 4])]:
        extra.append(cable(*rng.choice([(p, q), (q, p)])))
    return grown(words, extra)


# 7 is the number of no check.
FAULTS = [fault_1, fault_2, fault_3, fault_4, fault_5, fault_6, repeat, fault_8]


def apart(rng):
    """Check 9: two stations side by side, or parts without a cable."""
    n, cables = some_station(rng, rng.randint(3, 12))
    size = rng.choice([1, 1, 2, 3, 5])
    if size >= 3:
        more = some_station(rng, size)[1]
    elif size == 2:
        more = rng.choice([1, 1, 2, 3, 4]) * [(0, 1)]
    else:
        more = []
    cables = cables + [(a + n, b + n) for a, b in more]
    n += size
    s, t = rng.sample(range(n), 2)
    return listed(rng, n, cables, s, t)


def cut(rng):
    """Check 10: blocks in a row, with s, t or both elsewhere; or with a pendant part, a
    pendant chain or a pendant row of blocks, or two of these, on s, on t or on any part.
    At most four cables at a part."""
    while True:
        n, cables, s, t = in_row(rng, rng.randint(3, 10))
        way = rng.randrange(6)
        if way == 0:
            s, t = rng.sample(range(n), 2)
        elif way == 1:
            s = rng.randrange(n)
        elif way == 2:
            t = rng.randrange(n)
        for _ in range(rng.choice([1, 1, 2]) if way > 2 else 0):
            on = rng.choice([s, t, rng.randrange(n)])
            k, more, _, _ = in_row(rng, rng.choice([2, 2, 3, rng.randint(3, 6)]))
            place = [on, *range(n, n + k - 1)]
            cables = cables + [pair(place[p], place[q]) for p, q in more]
            n += k - 1
        if s != t and max(degrees(n, cables)) <= 4 and cut_parts(n, cables + [(s, t)]):
            return listed(rng, n, cables, s, t)


def groups(n, cables, gone=None):
    """Into how many groups the parts fall, without one of them and its cables."""
    group = list(range(n))
    for _ in range(n):
        before = list(group)
        for a, b in cables:
            if gone not in (a, b):
                group[a] = group[b] = min(group[a], group[b])
        if group == before:
            break
    return len({group[p] for p in range(n) if p != gone})


def might_pass(words):
    """Whether the list passes checks 1 to 10, tested without the reference. Check 10
    refuses a part that is a cut part once a cable more joins s and t."""
    if len(words) < 2 or words[0] >> 28 != 1 or words[1] >> 24 != 0x20:
        return False
    if any(w >> 24 != 0x30 for w in words[2:]) or len(words) != (words[0] & 0xffff) + 2:
        return False
    n = words[0] >> 16 & 0xfff
    rows = [(w >> 12 & 0xfff, w & 0xfff) for w in words[1:]]
    if not 3 <= n <= MOST_PARTS or any(a >= n or b >= n or a == b for a, b in rows):
        return False
    cables = rows[1:]
    return max(degrees(n, cables)) <= 4 and groups(n, cables) == 1 and not cut_parts(n, rows)


def refused(rng):
    """A list that one of checks 1 to 10 sends back; often with several faults."""
    while True:
        way = rng.randrange(12)
        if way < 8:
            words = FAULTS[way](rng, drawn(rng, 3, rng.choice([4, 6, 16])))
        elif way < 10:
            words = apart(rng)
        else:
            words = cut(rng)
        while rng.random() < 0.35:
            words = rng.choice(FAULTS[1:])(rng, words)
        if not might_pass(words):
            return words


def about_limit(rng):
    """A list whose n is some number around or above the most parts, and of which most
    parts have no cable; now and then with other faults."""
    words = drawn(rng, 3, rng.choice([4, 16, 40]))
    n = rng.choice([257, 511, 512, 513, 514, 515, 768, 1024, 4095, rng.randint(257, 4095)])
    words[0] = head(n, len(words) - 2)
    while rng.random() < 0.35:
        words = rng.choice(FAULTS[1:])(rng, words)
    return words


def noise(rng):
    """Small lists of chance: any outcome, faults in any mixture."""
    n = rng.choice([2, 3, 4, 5, 6])
    m = rng.randint(0, 2 * n)
    rows = [(rng.randrange(n), rng.randrange(n)) for _ in range(m + 1)]
    if rng.random() < 0.5:
        rows = [(a, b if a != b else (a + 1) % n) for a, b in rows]
    words = build(n, *rows[0], rows[1:])
    if rng.random() < 0.2:
        words[rng.randrange(len(words))] ^= 1 << rng.randrange(32)
    return words


def any_list(rng, n_min=3, n_max=40):
    way = rng.random()
    if way < 0.55:
        return drawn(rng, n_min, n_max)
    if way < 0.92:
        return refused(rng)
    return noise(rng)


# Named lists. A name begins with what is due, then a comma.

# Cables at s, at t; which of t's four columns from left to right is that of the
# cable from the last-ranked part but one, if there are four; parts; cables.
FOUR = [
    (4, 2, None, 5, [(0, 1), (0, 2), (0, 3), (0, 4), (1, 2), (2, 3), (3, 4)]),
    (4, 3, None, 5, [(0, 1), (0, 2), (0, 3), (0, 4), (1, 3), (2, 4), (3, 4)]),
    (3, 4, 'first', 5, [(0, 1), (0, 2), (0, 4), (1, 3), (1, 4), (2, 4), (3, 4)]),
    (2, 4, 'second', 5, [(0, 1), (0, 4), (1, 2), (1, 3), (1, 4), (2, 4), (3, 4)]),
    (3, 4, 'third', 5, [(0, 1), (0, 3), (0, 4), (1, 2), (1, 4), (2, 4), (3, 4)]),
    (2, 4, 'fourth', 6, [(0, 1), (0, 4), (1, 2), (1, 3), (1, 5), (2, 5), (3, 5), (4, 5)]),
    (4, 4, 'first', 5, [(0, 1), (0, 2), (0, 3), (0, 4), (1, 4), (2, 3), (2, 4), (3, 4)]),
    (4, 4, 'second', 5, [(0, 1), (0, 2), (0, 3), (0, 4), (1, 4), (2, 4), (3, 4)]),
    (4, 4, 'third', 6, [(0, 1), (0, 2), (0, 3), (0, 4), (1, 5), (2, 5), (3, 5), (4, 5)]),
    (4, 4, 'fourth', 6, [(0, 1), (0, 2), (0, 3), (0, 5), (1, 4), (2, 5), (3, 5), (4, 5)]),
]


def boundaries():
    out = []

    def put(due, what, words):
        out.append(('%s, %s' % (due, what), words))

    def no(check, place, what, words):
        put('refused %d %d' % (check, place), what, words)

    triangle = build(3, 0, 2, [(0, 1), (1, 2), (0, 2)])
    put('sheet', 'triangle', triangle)

    # 1
    no(1, 0, 'no words', [])
    for w in (triangle[0], 0, 0xffffffff):
        no(1, 1, 'one word %08x' % w, [w])

    # 2
    for i, due in enumerate((1, 2, 3, 3, 3)):
        for k in range(16):
            if k != due:
                words = list(triangle)
                words[i] = words[i] & 0x0fffffff | k << 28
                no(2, i, 'kind %d at word %d' % (k, i), words)
        for bit in (24, 25, 26, 27):
            words = list(triangle)
            words[i] |= 1 << bit
            n = 3 + (1 << bit - 16)
            if i:
                no(2, i, 'bit %d at word %d' % (bit, i), words)
            elif n > MOST_PARTS:
                no(4, n, 'bit %d of the head is one of n' % bit, words)
            else:
                no(9, 3, 'bit %d of the head is one of n' % bit, words)
    no(2, 0, 'two words of zero', [0, 0])
    no(2, 1, 'head and zero', [triangle[0], 0])
    no(2, 2, 'two heads in place of cables', triangle[:2] + [triangle[0]] * 3)
    no(2, 3, 'bits in words 3 and 4', triangle[:3] + [0x31001002, 0x38000002])

    # 3
    no(3, 5, 'a word less', triangle[:-1])
    no(3, 5, 'a word more', triangle + [cable(0, 1)])
    no(3, 6, 'm one more', [head(3, 4)] + triangle[1:])
    no(3, 4, 'm one less', [head(3, 2)] + triangle[1:])
    no(3, 2, 'm of 0', [head(3, 0)] + triangle[1:])
    no(3, 65537, 'm of 65535', [head(3, 65535)] + triangle[1:])
    no(3, 3, 'two words and m of 1', [head(3, 1), ends(0, 2)])
    no(9, 1, 'two words and m of 0', [head(3, 0), ends(0, 2)])

    # 4
    for n in (0, 1, 2, 513, 514, 768, 1024, 2048, 2560, 4095):
        no(4, n, 'n of %d' % n, [head(n, 3)] + triangle[1:])
    for n in (4, 255, 256, 257, 258, 511, 512):
        no(9, 3, 'n of %d' % n, [head(n, 3)] + triangle[1:])
    no(4, 2, 'two parts and a cable', build(2, 0, 1, [(0, 1)]))
    for n in (255, 256, 257, 511, 512):
        put('sheet', 'ring of %d' % n, build(n, 0, n - 1, sorted(ring(n)[1])))
    no(4, 513, 'ring of 513', build(513, 0, 512, sorted(ring(513)[1])))
    no(4, 513, '513 parts, no cable', build(513, 0, 1, []))

    # 5
    for i in range(1, 5):
        for p in (3, 4, 256, 512, 4095):
            for shift in (0, 12):
                words = list(triangle)
                words[i] = words[i] & ~(0xfff << shift) | p << shift
                no(5, i, 'part %d at word %d, bit %d' % (p, i, shift), words)
    no(5, 3, 'part 3 at words 3 and 4', triangle[:3] + [cable(3, 1), cable(0, 3)])
    for n in (256, 257, 512):
        big = build(n, 0, n - 1, sorted(ring(n)[1]))
        no(5, n + 1, 'part %d of %d in the last word' % (n, n), big[:-1] + [cable(n, 0)])
        no(5, 1, 't is %d of %d' % (n, n), big[:1] + [ends(0, n)] + big[2:])
    no(5, 513, 'part 512 of 512 in the second field', big[:-1] + [cable(0, 512)])
    no(5, 1, 's is 512 of 512', big[:1] + [ends(512, 0)] + big[2:])

    # 6
    for p in range(3):
        no(6, 1, 's and t are %d' % p, [triangle[0], ends(p, p)] + triangle[2:])
        for i in range(2, 5):
            words = list(triangle)
            words[i] = cable(p, p)
            no(6, i, 'word %d joins %d to itself' % (i, p), words)
    no(6, 1, 's is t and a cable joins a part to itself',
       [triangle[0], ends(1, 1), cable(0, 0)] + triangle[3:])
    no(6, 3, 'two cables join a part to itself',
       triangle[:3] + [cable(2, 2), cable(1, 1)])
    no(6, 513, 'part 511 of 512 joined to itself in the last word', big[:-1] + [cable(511, 511)])
    # Equal in their low bytes alone.
    put('sheet', 's is 0 and t is 256 of 512', big[:1] + [ends(0, 256)] + big[2:])
    put('sheet', 's is 511 and t is 255 of 512', big[:1] + [ends(511, 255)] + big[2:])

    # 7 is the number of no check: a cable that joins two parts again is one as any other.
    no(9, 2, "check 7's example in document 01", build(3, 0, 2, [(0, 1), (1, 0)]))
    for i in range(3):
        for w, how in ((triangle[2 + i], 'again'), (turned(triangle[2 + i]), 'turned round')):
            put('sheet', 'cable %d %s' % (i, how), grown(triangle, [w]))
    put('sheet', 'two adjacent', build(3, 0, 2, [(0, 1), (1, 0), (1, 2), (0, 2)]))
    put('sheet', 'later words cross over',
        build(3, 0, 2, [(0, 1), (1, 2), (2, 1), (1, 0), (0, 2)]))
    no(9, 2, 'three times', build(3, 0, 2, [(0, 1), (0, 1), (1, 0)]))

    # 8
    five = sorted(complete(5)[1])
    for s in range(5):
        for t in range(5):
            if s != t:
                put('sheet', 'all ten cables, s %d, t %d' % (s, t), build(5, s, t, five))
    no(8, 0, 'all fifteen cables among six', build(6, 0, 5, sorted(complete(6)[1])))
    wheel = [(p, (p + 1) % 5) for p in range(5)] + [(5, p) for p in range(5)]
    no(8, 5, 'five cables at the last part', build(6, 0, 5, wheel))
    no(8, 2, 'five cables at 2 and 6',
       build(7, 0, 6, [(6, 0), (6, 1), (6, 3), (6, 4), (6, 5),
                       (2, 0), (2, 1), (2, 3), (2, 4), (2, 5)]))
    put('sheet', 'four cables at the last part',
        build(5, 0, 4, [(0, 1), (1, 2), (2, 3), (3, 0), (4, 0), (4, 1), (4, 2), (4, 3)]))
    # Repeated cables are counted as others. Four between two parts leave no path to a third.
    for k in (5, 6, 7):
        no(8, 0, '%d cables between 0 and 1' % k, build(3, 0, 2, k * [(0, 1)]))
    no(8, 1, 'five cables between 1 and 2', build(3, 0, 2, 5 * [(1, 2)]))
    no(8, 1, 'five cables between 1 and 2, some turned round', build(3, 0, 2, [(1, 2), (2, 1), (2, 1), (1, 2), (2, 1)]))
    no(9, 2, 'four cables between 0 and 1', build(3, 0, 2, 4 * [(0, 1)]))
    no(9, 1, 'four cables between 1 and 2', build(3, 0, 2, [(1, 2), (2, 1), (1, 2), (2, 1)]))
    no(9, 2, 'four cables between 0 and 1, four between 2 and 3', build(4, 0, 3, 4 * [(0, 1), (2, 3)]))
    no(8, 0, 'four cables between 0 and 1, and one to 2', build(3, 0, 2, 4 * [(0, 1)] + [(0, 2)]))
    no(8, 1, 'four cables between 0 and 1, and one from 1 to 2', build(3, 0, 2, 4 * [(0, 1)] + [(1, 2)]))
    no(8, 2, 'three cables and a pair at 2', build(3, 0, 1, 3 * [(0, 2)] + 2 * [(2, 1)]))
    no(8, 1, 'seven cables among three parts', build(3, 0, 2, 2 * [(0, 1)] + 3 * [(1, 2)] + 2 * [(0, 2)]))
    # More than a byte counts, among many parts and among few.
    no(8, 254, '256 cables between 254 and 255', build(256, 0, 255, 256 * [(254, 255)]))
    no(8, 510, '256 cables between 510 and 511', build(512, 0, 511, 256 * [(510, 511)]))
    no(8, 256, 'five cables between 256 and 257', build(258, 0, 257, 5 * [(256, 257)]))
    no(8, 1, '256 cables between 1 and 2', build(3, 0, 2, 256 * [(1, 2)]))

    # 9
    three = [(0, 1), (1, 2), (0, 2)]
    no(9, 3, 'the last part alone', build(4, 0, 2, three))
    no(9, 1, 'part 0 alone', build(4, 1, 3, [(1, 2), (2, 3), (1, 3)]))
    no(9, 3, 'two triangles', build(6, 0, 5, three + [(3, 4), (4, 5), (3, 5)]))
    no(9, 1, 'two triangles in turn',
       build(6, 0, 5, [(0, 2), (2, 4), (4, 0), (1, 3), (3, 5), (5, 1)]))
    no(9, 3, 'two triangles of pairs', build(6, 0, 5, 2 * (three + [(3, 4), (4, 5), (3, 5)])))
    for n in (256, 257, 511, 512):
        no(9, n - 1, 'part %d of %d alone' % (n - 1, n), build(n, 0, 1, sorted(ring(n - 1)[1])))
        no(9, 1, '%d parts, no cable' % n, build(n, 0, 1, []))
    no(9, 256, 'parts 0 to 255 of 512 in one ring and the others in another',
       build(512, 0, 256, sorted(ring(256)[1]) + [(a + 256, b + 256) for a, b in sorted(ring(256)[1])]))

    # Each part reaches s or t, but not part 0.
    for s, t in ((0, 3), (1, 2), (3, 0), (3, 1)):
        no(9, 2, 'two cables apart, s %d, t %d' % (s, t), build(4, s, t, [(0, 1), (2, 3)]))
    apart_by_256 = [(p, p + 1) for p in range(511) if p != 255]
    for s, t in ((0, 511), (300, 255)):
        no(9, 256, 'two chains of 256 apart, s %d, t %d' % (s, t), build(512, s, t, apart_by_256))

    # 10: in `chains`.

    # Several faults: the lower number goes first wherever its word stands.
    no(2, 4, '2 before 3 to 6', [head(2, 9), ends(9, 9), cable(1, 1), cable(1, 1), 0x40000000])
    no(3, 11, '3 before 4 to 6', [head(2, 9), ends(9, 9), cable(1, 1), cable(1, 1)])
    no(4, 2, '4 before 5 and 6', [head(2, 2), ends(9, 9), cable(1, 1), cable(1, 1)])
    no(5, 4, '5 before 6', build(3, 1, 1, [(0, 0), (1, 2), (0, 3)]))
    no(6, 4, '6 behind a repeated cable', build(3, 0, 2, [(0, 1), (1, 0), (2, 2)]))
    no(6, 7, '6 before 8', build(3, 0, 2, 5 * [(0, 1)] + [(2, 2)]))
    no(6, 2, 'a cable from a part to itself twice', build(3, 0, 2, [(1, 1), (1, 1)]))
    no(8, 0, 'six cables at 0, one of them again',
       build(6, 0, 5, [(0, 1), (0, 2), (0, 3), (0, 4), (0, 5), (5, 0)]))
    no(8, 1, '8 before 9', build(7, 0, 6, [(1, 2), (1, 3), (1, 4), (1, 5), (1, 6)]))
    no(8, 0, '8 before 9 and 10, by repeated cables', build(4, 0, 3, 5 * [(0, 1)] + [(1, 2)]))
    no(9, 3, '9 before 10', build(4, 0, 3, [(0, 1), (1, 2)]))

    # Bottom and top connections, alone and together, at s and t joined or not.
    rng = random.Random(256)
    seen = set()
    while len(seen) < 18:
        n, cables = ears(rng, rng.randint(6, 9))
        s, t = rng.sample(range(n), 2)
        count = degrees(n, cables)
        shape = count[s], count[t], pair(s, t) in cables
        if shape not in seen:
            seen.add(shape)
            put('sheet', '%d cables at s; %d at t; %s' % (
                shape[0], shape[1], 'joined' if shape[2] else 'not joined'),
                listed(rng, n, cables, s, t))

    # Four cables at s or t. Without repeated cables this takes five parts, and the
    # fourth column six; with them, in JOINED, three. s is part 0 and t the last, and
    # ranks are as the numbers.
    for at_s, at_t, which, n, cables in FOUR:
        put('sheet', '%d parts: %d cables at s; %s' % (
            n, at_s, 'the %s of four columns climbs over t' % which if which else '%d at t' % at_t),
            build(n, 0, n - 1, cables))

    # s is 6 and t is 4. The second-ranked part, 5, has the highest number beside
    # s and the last-ranked but one, 0, the lowest beside t; their cables are the
    # last line at s and the first at t, then the first and the last.
    ranks_turned = [(0, 1), (0, 4), (1, 3), (1, 4), (2, 3), (2, 5),
                    (2, 6), (3, 4), (3, 6), (4, 6), (5, 6)]
    put('sheet', '7 parts: 4 cables at s; 4 at t; ranks against the numbers',
        build(7, 6, 4, ranks_turned))
    put('sheet', '7 parts: 4 cables at s; 4 at t; ranks against the numbers, lines reversed',
        build(7, 6, 4, ranks_turned[::-1]))

    # 256 parts.
    for what, (n, cables) in (('ladder', grid(2, 128)), ('grid', grid(16, 16)),
                              ('torus', torus(16, 16)),
                              ('next and next but one', second_neighbours(256)),
                              ('512 cables', four_regular(rng, 256)),
                              ('four ways', bundle(rng, 256, 4))):
        put('sheet', '256 parts: ' + what, build(n, 0, n - 1, sorted(cables)))
        put('sheet', '256 parts: %s shuffled' % what,
            listed(rng, n, cables, *rng.sample(range(n), 2)))

    # 257, 511 and 512 parts.
    for n in (257, 511, 512):
        for what, make in KINDS:
            rng = random.Random('%s of %d' % (what, n))
            _, cables = make(rng, n)
            put('sheet', '%d parts: %s in order' % (n, what), build(n, 0, n - 1, sorted(cables)))
            put('sheet', '%d parts: %s reversed' % (n, what), reversed_list(n, cables))
            put('sheet', '%d parts: %s shuffled' % (n, what), listed(rng, n, cables, *rng.sample(range(n), 2)))
    rng = random.Random(513)
    for what, (n, cables) in (('torus', torus(16, 32)), ('next and next but one', second_neighbours(512)),
                              ('four ways', bundle(rng, 512, 4))):
        put('sheet', '512 parts: ' + what, build(n, 0, n - 1, sorted(cables)))
        put('sheet', '512 parts: %s shuffled' % what,
            listed(rng, n, cables, *rng.sample(range(n), 2)))

    for n in (16, 256, 512):
        put('sheet', '%d parts: rails' % n, rails(n))

    # The longest cable that is known for so many parts, without repeated ones.
    for n in (9, 256, 257, 512):
        put('sheet', '%d parts: a cable of %d steps' % (n, 3 * n - 5),
            build(n, 0, n - 1, sorted(long_cable(n)[1])))
    return out + repeats() + chains()


# Stations with repeated cables: cables at s, at t; how often the two lowest ranks are joined, the two highest, s
# and t; parts; cables. s is part 0 and t the last, and ranks are as the numbers. None has a cut part: a pair at s or t
# takes a third cable there.
JOINED = [(a + c, b + c, a, b, c, 3, a * [(0, 1)] + b * [(1, 2)] + c * [(0, 2)])
          for a in (1, 2, 3) for b in (1, 2, 3) for c in (1, 2, 3)
          if max(a + b, b + c, a + c) <= 4 and a + b + c > 3] + [
    (2, 2, 1, 1, 1, 4, [(0, 1), (1, 2), (1, 2), (2, 3), (0, 3)]),
    (2, 2, 1, 1, 1, 4, [(0, 1), (1, 2), (1, 2), (1, 2), (2, 3), (0, 3)]),
    (3, 3, 2, 2, 0, 4, [(0, 1), (0, 1), (0, 2), (1, 3), (2, 3), (2, 3)]),
    (3, 3, 1, 1, 2, 4, [(0, 1), (0, 3), (1, 2), (0, 3), (2, 3)]),
    (3, 4, 2, 2, 1, 4, [(0, 1), (0, 1), (0, 3), (1, 2), (1, 3), (2, 3), (2, 3)]),
    (3, 4, 1, 1, 1, 4, [(0, 1), (0, 2), (0, 3), (1, 3), (1, 3), (2, 3)]),
    (4, 3, 2, 2, 1, 4, [(0, 1), (0, 1), (0, 2), (0, 3), (1, 2), (2, 3), (2, 3)]),
    (4, 3, 1, 1, 1, 4, [(0, 1), (0, 2), (0, 2), (0, 3), (1, 3), (2, 3)]),
    (4, 2, 2, 1, 0, 4, [(0, 1), (0, 1), (0, 2), (0, 2), (1, 3), (2, 3)]),
    (4, 2, 3, 1, 0, 4, [(0, 1), (0, 1), (0, 1), (0, 2), (1, 3), (2, 3)]),
    (2, 4, 1, 2, 0, 4, [(0, 1), (0, 2), (1, 3), (1, 3), (2, 3), (2, 3)]),
    (2, 4, 1, 3, 0, 4, [(0, 1), (0, 2), (1, 3), (2, 3), (2, 3), (2, 3)]),
    (4, 4, 1, 1, 2, 4, [(0, 1), (0, 2), (0, 3), (0, 3), (1, 3), (2, 3)]),
    (4, 4, 2, 2, 2, 4, 2 * [(0, 1), (1, 2), (2, 3), (0, 3)]),
    (4, 4, 3, 3, 1, 4, [(0, 1), (0, 1), (0, 1), (1, 2), (0, 3), (2, 3), (2, 3), (2, 3)]),
    (4, 4, 1, 1, 0, 6, [(0, 1), (0, 2), (0, 3), (0, 4), (2, 3), (3, 2), (1, 5), (2, 5), (3, 5), (4, 5)]),
]

# The same with cut parts, where s or t, or both, may have one cable.
JOINED_IN_ROW = [(a, b, a, b, 0, 3, a * [(0, 1)] + b * [(1, 2)]) for a in (1, 2, 3) for b in (1, 2, 3) if a + b <= 4] + [
    (1, 1, 1, 1, 0, 4, [(0, 1), (1, 2), (1, 2), (2, 3)]),
    (1, 1, 1, 1, 0, 4, [(0, 1), (1, 2), (1, 2), (1, 2), (2, 3)]),
    (2, 2, 2, 2, 0, 4, 2 * [(0, 1), (1, 2), (2, 3)]),
    (3, 3, 3, 3, 0, 4, 3 * [(0, 1), (2, 3)] + [(1, 2)]),
    (1, 2, 1, 1, 0, 4, [(0, 1), (1, 2), (1, 3), (2, 3)]),
    (2, 1, 1, 1, 0, 4, [(0, 1), (0, 2), (1, 2), (2, 3)]),
    (2, 2, 2, 1, 0, 4, [(0, 1), (0, 1), (1, 2), (1, 3), (2, 3)]),
    (2, 2, 1, 2, 0, 4, [(0, 1), (0, 2), (1, 2), (2, 3), (2, 3)]),
    (1, 3, 1, 1, 0, 5, [(0, 1), (1, 2), (1, 3), (1, 4), (2, 4), (3, 4)]),
    (3, 1, 1, 1, 0, 5, [(0, 1), (0, 2), (0, 3), (1, 3), (2, 3), (3, 4)]),
    (1, 4, 1, 2, 0, 5, [(0, 1), (1, 2), (1, 3), (1, 4), (2, 4), (3, 4), (3, 4)]),
    (4, 1, 2, 1, 0, 5, [(0, 1), (0, 1), (0, 2), (0, 3), (1, 3), (2, 3), (3, 4)]),
    (1, 4, 1, 1, 0, 7, [(0, 1), (1, 2), (1, 3), (1, 4), (2, 5), (2, 6), (3, 6), (4, 6), (5, 6)]),
    (4, 1, 1, 1, 0, 7, [(0, 1), (0, 2), (0, 3), (0, 4), (1, 4), (2, 5), (3, 5), (4, 5), (5, 6)]),
    (4, 4, 2, 2, 0, 7, 2 * [(0, 1), (0, 2), (4, 6), (5, 6)] + [(1, 3), (2, 3), (3, 4), (3, 5)]),
]

# A part, the far ends of its outgoing cables by line, the other cables of the station, parts: with equal far ends at
# s with three and with four cables, and at a part where one comes in and where two do. As above s is part 0.
EQUAL_FAR = [(0, far, [(1, 2)], 3) for far in (
    '112', '121', '211', '122', '212', '221', '1222', '2122', '2212', '2221')] + [
    (1, '22', [(0, 1), (0, 2)], 3), (1, '222', [(0, 1), (0, 2)], 3), (1, '33', [(0, 1), (0, 2), (2, 3)], 4)] + [
    (1, far, [(0, 1), (0, 3), (2, 3)], 4) for far in ('223', '232', '322', '233', '323', '332')] + [
    (1, '22', [(0, 1), (0, 1), (0, 2)], 3), (2, '33', [(0, 1), (0, 2), (1, 2), (0, 3)], 4)]

# The far ends of s's four cables, or of t's, by line: 1 is the second-ranked or the last-ranked but one.
FOUR_LINES = ('1122', '1212', '1221', '2112', '2121', '2211', '1112', '1121', '1211', '2111')


def left_to_right(part, cables):
    """The lines that go up from a part, where ranks are as the numbers: by rising far end, and
    among equal ones by line. Of four at s the lowest line to part 1 takes the last column."""
    lines = [line for _, line in sorted((max(c), line) for line, c in enumerate(cables) if min(c) == part)]
    return lines[1:] + lines[:1] if part == 0 and len(lines) == 4 else lines


def repeats():
    """The boundaries of stations with repeated cables."""
    out = []

    def put(what, words):
        out.append(('sheet, ' + what, words))

    def some_turned(cables):
        return [c[::-1] if k % 2 else c for k, c in enumerate(cables)]

    for at_s, at_t, low, high, through, n, cables in JOINED + JOINED_IN_ROW:
        what = ('%d parts, %d cables: %d cables at s; %d at t; '
                'the two lowest ranks joined %d times, the two highest %d, s and t %d')
        what %= n, len(cables), at_s, at_t, low, high, through
        put(what, build(n, 0, n - 1, cables))
        put(what + '; lines reversed, some turned round', build(n, 0, n - 1, some_turned(cables[::-1])))

    for part, far, others, n in EQUAL_FAR:
        own = [(part, int(q)) for q in far]
        for how, cables in (('', own + others), (', behind others, some turned round', others + some_turned(own))):
            put('far ends %s%s; %d in; part %d: lines %s from left to right' % (
                ' '.join(far), how, sum(max(c) == part for c in others), part,
                ' '.join(map(str, left_to_right(part, cables)))), build(n, 0, n - 1, cables))

    # Of two or three that could leave s downward, or climb over t, the lowest line does.
    for far in FOUR_LINES:
        lines = [k for k, q in enumerate(far) if q == '1']
        for how, which in (('', []), (', turned round', lines[:1]), (', the others turned round', lines[1:])):
            at_s = [(int(q), 0) if k in which else (0, int(q)) for k, q in enumerate(far)]
            at_t = [(2, q % 2) if k in which else (q % 2, 2) for k, q in enumerate(map(int, far))]
            put('far ends %s: line %d leaves s downward%s; part 0: lines %s from left to right' % (
                ' '.join(far), lines[0], how, ' '.join(map(str, left_to_right(0, at_s)))),
                build(3, 0, 2, at_s + [(1, 2)]))
            put('far ends %s behind a line: line %d climbs over t%s' % (
                ' '.join(far).replace('2', '0'), 1 + lines[0], how), build(3, 0, 2, [(0, 1)] + at_t))

    # s is 6 and t is 4, and the order is 6, 5, 2, 3, 1, 0, 4: the second-ranked part has the highest number beside s
    # and the last-ranked but one the lowest beside t.
    turned_ranks = [(0, 1), (0, 4), (0, 4), (1, 3), (1, 4), (2, 3), (2, 5), (2, 6), (4, 6), (5, 6), (5, 6)]
    put('7 parts: 4 cables at s; 4 at t; ranks against the numbers: line 9 leaves s downward; line 1 climbs over t',
        build(7, 6, 4, turned_ranks))
    put('7 parts: 4 cables at s; 4 at t; ranks against the numbers: line 0 leaves s downward; line 8 climbs over t',
        build(7, 6, 4, turned_ranks[::-1]))

    for n in (3, 4, 5, 8):
        cables = sorted(ring(n)[1])
        for t in sorted({1, n // 2, n - 1}):
            put('ring of %d pairs: 4 cables at s; t is %d' % (n, t), build(n, 0, t, 2 * cables))
        put('ring of %d pairs, each side by side' % n, build(n, 0, n - 1, doubled(n, cables)[1]))
    for what, (n, cables) in (('ring with every other cable three times', triple_ring(6)),
                              ('chain of pairs', pair_chain(6)), ('ladder with pairs for rungs', pair_ladder(4))):
        put('%d parts: %s' % (n, what), build(n, 0, n - 1, cables))
        put('%d parts: %s; s is 2, t is 1' % (n, what), build(n, 2, 1, cables))

    for n in (256, 512):
        rng = random.Random(2 * n)
        for what, (_, cables) in (('doubled ring', doubled(*ring(n))), ('triple ring', triple_ring(n)),
                                  ('chain of pairs', pair_chain(n)), ('pair ladder', pair_ladder(n // 2)),
                                  ('random, with repeated cables', repeated(rng, *(ears if n == 256 else of_ears)(rng, n)))):
            put('%d parts: %s' % (n, what), build(n, 0, n - 1, cables))
            put('%d parts: %s shuffled' % (n, what), listed(rng, n, cables, *rng.sample(range(n), 2)))
    return out


# Stations with cut parts and two pairs of ends or more: what it is, parts, cables, and what is due for s and t: the place
# of refusal 10, or None where it is drawn.
RING_OF_4 = [(0, 1), (1, 2), (2, 3), (0, 3)]
ENDS_OF = [
    ('chain of 3', 3, [(0, 1), (1, 2)],
     {(0, 2): None, (2, 0): None, (0, 1): 1, (1, 0): 1, (1, 2): 1, (2, 1): 1}),
    ('chain of 3, part 0 within', 3, [(0, 1), (0, 2)],
     {(1, 2): None, (2, 1): None, (0, 2): 0, (2, 0): 0, (0, 1): 0, (1, 0): 0}),
    ('chain of 3, part 2 within', 3, [(0, 2), (1, 2)],
     {(0, 1): None, (1, 0): None, (0, 2): 2, (2, 0): 2, (1, 2): 2, (2, 1): 2}),
    ('chain of 4', 4, [(0, 1), (1, 2), (2, 3)],
     {(0, 3): None, (3, 0): None, (0, 2): 2, (2, 0): 2, (0, 1): 1, (1, 0): 1, (1, 2): 1, (2, 1): 1, (1, 3): 1, (3, 1): 1,
      (2, 3): 1, (3, 2): 1}),
    ('chain of 3 pairs', 4, 2 * [(0, 1), (1, 2), (2, 3)], {(0, 3): None, (3, 0): None, (0, 2): 2, (1, 3): 1, (1, 2): 1, (2, 1): 1}),
    ('two triangles on part 2', 5, [(0, 1), (1, 2), (0, 2), (2, 3), (3, 4), (2, 4)],
     {(0, 4): None, (3, 1): None, (2, 0): 2, (0, 2): 2, (0, 1): 2, (4, 3): 2, (2, 4): 2, (4, 2): 2}),
    ('two triangles with a cable between', 6, [(0, 1), (1, 2), (0, 2), (3, 4), (4, 5), (3, 5), (2, 3)],
     {(0, 5): None, (4, 1): None, (0, 3): 3, (3, 0): 3, (0, 2): 2, (2, 3): 2, (2, 5): 2, (3, 5): 2, (0, 1): 2}),
    ('two triangles with a pair between', 6, [(0, 1), (1, 2), (0, 2), (3, 4), (4, 5), (3, 5), (2, 3), (3, 2)],
     {(0, 5): None, (4, 1): None, (0, 3): 3, (2, 5): 2, (3, 4): 2}),
    ('three triangles in a row', 7, sorted(triangles(7)[1]),
     {(0, 6): None, (5, 1): None, (3, 6): 2, (0, 3): 4, (2, 4): 2, (2, 6): 2, (0, 4): 4, (4, 0): 4, (4, 2): 2, (0, 1): 2, (5, 6): 2}),
    ('a ring of 4 and a triangle on part 3', 6, RING_OF_4 + [(3, 4), (4, 5), (3, 5)],
     {(0, 4): None, (5, 1): None, (4, 2): None, (0, 2): 3, (0, 3): 3, (3, 0): 3, (3, 4): 3, (4, 5): 3}),
    ('a ring of 4, a cable and a triangle', 7, RING_OF_4 + [(3, 4), (4, 5), (4, 6), (5, 6)],
     {(0, 5): None, (6, 1): None, (0, 2): 3, (0, 3): 3, (0, 4): 4, (4, 0): 4, (3, 4): 3, (3, 5): 3, (4, 5): 3, (5, 6): 3}),
    ('star, part 0 in its middle', 4, [(0, 1), (0, 2), (0, 3)], {(1, 2): 0, (3, 2): 0, (0, 1): 0, (3, 0): 0}),
    ('star, part 4 in its middle', 5, [(0, 4), (1, 4), (2, 4), (3, 4)], {(0, 1): 4, (2, 3): 4, (4, 1): 4, (3, 4): 4}),
    ('triangle with a pendant part on each', 6, [(0, 1), (1, 2), (0, 2), (0, 3), (1, 4), (2, 5)],
     {(3, 4): 2, (3, 5): 1, (4, 5): 0, (0, 1): 0, (0, 4): 0, (3, 1): 1, (2, 3): 1, (5, 0): 0}),
    ('ring of 4 with two pendant parts', 6, RING_OF_4 + [(1, 4), (3, 5)],
     {(4, 5): None, (5, 4): None, (4, 3): 3, (1, 5): 1, (0, 2): 1, (4, 0): 3, (2, 5): 1}),
    ('two pendant parts and a triangle on part 1', 5, [(0, 1), (1, 2), (1, 3), (1, 4), (3, 4)],
     {(0, 2): 1, (2, 0): 1, (0, 3): 1, (4, 2): 1, (1, 3): 1}),
]


def chain_place(number, s, t):
    """The place of refusal 10 for a chain of these parts, with s and t in these places of it, s before t: the lowest part
    that has others on its side away from s and t, s and t among them. None where there are no others."""
    return min(number[1:s + 1] + number[t:-1], default=None)


def chains():
    """The boundaries of stations with cut parts: drawn, and refused by 10."""
    out = []

    def put(what, words, place=None):
        out.append(('%s, %s' % ('sheet' if place is None else 'refused 10 %d' % place, what), words))

    put("check 10's example in document 01", build(3, 0, 2, [(0, 1), (1, 2)]))
    for what, n, cables, ends_due in ENDS_OF:
        for (s, t), place in ends_due.items():
            put('%s, s %d, t %d' % (what, s, t), build(n, s, t, cables), place)

    # A part, a pair's far end, a chain or a block hangs on a ring, s and t among its parts.
    for on in range(4):
        for s, t in ((0, 2), (3, 0)):
            for what, more in (('part', [(on, 4)]), ('pair', 2 * [(4, on)]), ('triangle', [(on, 4), (4, 5), (on, 5)])):
                put('ring of 4, s %d, t %d, a %s hangs on %d' % (s, t, what, on),
                    build(6 if what == 'triangle' else 5, s, t, RING_OF_4 + more), on)
    put('ring of 4, a chain of 2 hangs on 3', build(6, 0, 2, RING_OF_4 + [(3, 4), (4, 5)]), 3)
    put('ring of 4 from part 2, a chain of 2 hangs on 5', build(6, 2, 4, [(2, 3), (3, 4), (4, 5), (5, 2), (5, 1), (1, 0)]), 1)
    put('ring of 4 from part 2, a chain of 2 hangs on 2, which is s', build(6, 2, 4, [(2, 3), (3, 4), (4, 5), (5, 2), (2, 1), (1, 0)]), 1)
    put('complete graph of 4, a part hangs on each', build(8, 0, 3, sorted(complete(4)[1]) + [(p, p + 4) for p in range(4)]), 0)
    put('complete graph of 4, a part hangs on each, s and t two of these',
        build(8, 4, 7, sorted(complete(4)[1]) + [(p, p + 4) for p in range(4)]), 1)

    # Cables at s and at t, from one to four, with a cut part.
    rng, seen = random.Random(14), set()
    while len(seen) < 16:
        n, cables, s, t = in_row(rng, rng.randint(4, 9))
        count = degrees(n, cables)
        if (count[s], count[t]) not in seen and cut_parts(n, cables):
            seen.add((count[s], count[t]))
            put('%d cables at s; %d at t; blocks in a row' % (count[s], count[t]), listed(rng, n, cables, s, t))

    # Chains, in order, reversed and shuffled; ladders with chains.
    for kind, make in CHAINS:
        for n in (3, 4, 256, 257, 511, 512) if kind == 'chain' else (16, 257, 511, 512):
            rng = random.Random('%s of %d' % (kind, n))
            _, cables = make(n)
            put('%d parts: %s in order' % (n, kind), build(n, 0, n - 1, sorted(cables)))
            put('%d parts: %s reversed' % (n, kind), reversed_list(n, cables))
            put('%d parts: %s shuffled' % (n, kind), listed(rng, n, cables, 0, n - 1))
    rng = random.Random(514)
    for what, (n, cables) in (('chain of 40 pairs', doubled(*chain(41))), ('chain, every other cable three times', triple_chain(41)),
                              ('triangles in a row', triangles(41)), ('doubled chain', doubled(*chain(256))),
                              ('triangles in a row', triangles(511)), ('triangles in a row', triangles(512)),
                              ('rings of 16 in a row', rings(512, 16)), ('doubled chain', doubled(*chain(512))),
                              ('triple chain', triple_chain(512)), ('two blocks on part 511', two_blocks(rng, 256, 255))):
        t = 300 if 'on part 511' in what else n - 1
        put('%d parts: %s' % (n, what), build(n, 0, t, sorted(cables)))
        put('%d parts: %s shuffled' % (n, what), listed(rng, n, cables, 0, t))
    for n in (256, 512):
        for k in range(2):
            put('%d parts: random blocks in a row, %d' % (n, k), listed(rng, *in_row(rng, n)))
    for n in (256, 257, 512):
        put('part %d of %d on one cable, which is t' % (n - 1, n), build(n, 0, n - 1, sorted(ring(n - 1)[1]) + [(n - 2, n - 1)]))
        put('part %d of %d on one cable, which is s' % (n - 1, n), build(n, n - 1, 0, sorted(ring(n - 1)[1]) + [(n - 2, n - 1)]))

    # Refused with many parts: at the highest part, at the lowest, at s, at t and at others.
    for n in (256, 257, 512):
        last, in_order = n - 1, sorted(chain(n)[1])
        put('chain of %d, t is %d' % (n, n - 2), build(n, 0, n - 2, in_order), n - 2)
        put('chain of %d, s is %d' % (n, n - 2), build(n, n - 2, 0, in_order), n - 2)
        put('chain of %d, s is 1' % n, build(n, 1, last, in_order), 1)
        for what, s, t in (('', 0, 1), (', which is s', last, 0), (', which is t', 0, last)):
            put('%d parts: part %d hangs on %d%s' % (n, n - 2, last, what), build(n, s, t, sorted(hung_on_last(n)[1])), last)
        for what, s, t in (('', 1, 2), (', which is s', 0, 1), (', which is t', 1, 0)):
            put('%d parts: part %d hangs on 0%s' % (n, last, what), build(n, s, t, sorted(ring(n - 1)[1]) + [(0, last)]), 0)
    _, in_order = chain(512)
    put('chain of 512, s is 255 and t is 256', build(512, 255, 256, sorted(in_order)), 1)
    put('chain of 512, t is 256', build(512, 0, 256, sorted(in_order)), 256)
    for n, s, t in ((256, 0, 254), (512, 0, 256), (512, 200, 511), (512, 100, 400), (512, 255, 256)):
        number = rng.sample(range(n), n)
        rows = [(number[p], number[p + 1]) for p in range(n - 1)]
        rng.shuffle(rows)
        put('chain of %d shuffled, s and t in places %d and %d' % (n, s, t), build(n, number[s], number[t], rows), chain_place(number, s, t))
    _, cables = ladder_with_chains(512)
    put('512 parts: ladder with chains, s is 0 and t is 383, where the second begins', build(512, 0, 383, sorted(cables)), 383)
    put('512 parts: ladder with chains, s is 128, where the first ends', build(512, 128, 511, sorted(cables)), 1)
    put('511 parts: triangles in a row, t is 508, which two share', build(511, 0, 508, sorted(triangles(511)[1])), 508)
    put('511 parts: triangles in a row, t is 506, which two share', build(511, 0, 506, sorted(triangles(511)[1])), 506)
    put('512 parts: rings of 16 in a row, t is 480, where the last but one begins', build(512, 0, 480, sorted(rings(512, 16)[1])), 480)
    _, cables = two_blocks(rng, 256, 255)
    for s, t in ((0, 255), (256, 510), (511, 0), (0, 511)):
        put('512 parts: two blocks on part 511, s is %d and t is %d' % (s, t), build(512, s, t, sorted(cables)), 511)
    return out


def is_large(words):
    """Whether a list has 256 parts or more, and no more than there may be."""
    return len(words) > 1 and 256 <= (words[0] >> 16 & 0xfff) <= MOST_PARTS


# Runs and discounts.

READY = sorted([2 << k for k in range(11)] + [3 << k for k in range(10)])


def with_run(steps):
    """A list whose sheet has a cable of so many steps, 1 to 1,531."""
    if steps < 4:
        return build(4, 0, 2, [(0, 1), (1, 2), (2, 3), (3, 0)])
    if steps < 20:
        n, cables = ring(steps - 1)
    else:
        # 3n - 5 steps. With a cable less there is a column less: left of t, which
        # makes one level run a step shorter, or right of t, which makes both.
        n, cables = long_cable((steps + 7) // 3)
        cables -= [set(), {(n - 4, n - 3)}, {(3, 4)}][3 * n - 5 - steps]
    return build(n, 0, n - 1, sorted(cables))


def runs():
    """(steps, list) around each ready length up to 1,024: a cable that is a step
    shorter, as long, and a step longer; then the longest that is known of 256 parts
    and of 512, which takes 1,536."""
    around = {ready + k for ready in READY if ready <= 1024 for k in (-1, 0, 1)}
    return [(steps, with_run(steps)) for steps in sorted(around | {763, 1531})]


def halves(ready):
    """The discounts that leave half a cent of a ready length's price. For some
    lengths there is none."""
    return [d for d in range(10001) if (900 + 35 * ready) * (10000 - d) % 10000 == 5000]


HALVES = {ready: halves(ready) for ready in READY}
GOOD = [0, 1, 5, 499, 500, 501, 1250, 4999, 5000, 9999, 10000]
BAD = [10001, 65535, 65536, 75536, 1 << 31, (1 << 32) - 10000, (1 << 32) - 1]
DISCOUNTS = GOOD + BAD


def good_discount(rng):
    """A discount that passes check 12, now and then one that leaves half a cent."""
    way = rng.randrange(4)
    if way == 0:
        return rng.choice(GOOD)
    if way == 1:
        return rng.choice(HALVES[rng.choice([ready for ready in READY if HALVES[ready]])])
    return rng.randint(0, 10000)


def bad_discount(rng):
    return rng.choice([rng.choice(BAD), rng.randint(10001, 20000), rng.randint(10001, (1 << 32) - 1)])


def discount(rng):
    """Any number of 32 bits; one in five fails check 12."""
    return (bad_discount if rng.random() < 0.2 else good_discount)(rng)


# Spacings: column pitch, row pitch, margin.

GRID = 1, 1, 0
PITCHES = [1, 2, 3, 15, 16, 17, 63, 64]
LARGE_PITCHES = [7, 8, 9]       # around the largest that 512 parts have room for
BAD_PITCHES = [0, 65, 128, 256, 257, 65535, 65536, 65537, (1 << 31) + 1, (1 << 32) - 64, (1 << 32) - 1]
MARGINS = [0, 1, 7, 8, 127, 128, 254, 255]
BAD_MARGINS = [256, 257, 511, 65535, 65536, 65537, 1 << 31, (1 << 32) - 255, (1 << 32) - 1]


def good_pitch(rng):
    return rng.choice([rng.choice(PITCHES), rng.randint(1, 64), rng.randint(1, 64)])


def good_margin(rng):
    return rng.choice([rng.choice(MARGINS), rng.randint(0, 255), rng.randint(0, 255)])


def good_spacing(rng):
    """A spacing that passes check 13."""
    return good_pitch(rng), good_pitch(rng), good_margin(rng)


def bad_spacing(rng):
    """A spacing with one, two or three faults."""
    out = list(good_spacing(rng))
    for place in rng.sample(range(3), rng.choice([1, 1, 2, 3])):
        bad, most = (BAD_MARGINS, 255) if place == 2 else (BAD_PITCHES, 64)
        out[place] = rng.choice([rng.choice(bad), rng.randint(most + 1, 4 * most), rng.randint(most + 1, (1 << 32) - 1)])
    return tuple(out)


def spacing(rng):
    """Any three numbers of 32 bits; one in five fails check 13."""
    return (bad_spacing if rng.random() < 0.2 else good_spacing)(rng)


def edge_spacing(rng, words):
    """A spacing that brings a head field of this list's sheet to 4,095 or a little
    beside it, as far as pitch and margin reach. The list passes checks 1 to 10."""
    side = rng.randrange(2) if extent(words)[0] else 1      # no pitch makes a sheet of one column wider
    size = extent(words)[side]
    pitch = min(64, max(1, 4095 // size))
    pitch = rng.choice([pitch, pitch, max(1, pitch - 1), rng.randint(1, pitch)])
    margin = (4095 - pitch * size) // 2 + rng.choice([-1, 0, 0, 1, 1, 2])
    other = rng.choice([pitch, good_pitch(rng), rng.randint(1, pitch)])
    margin = min(255, max(0, margin))
    return (other, pitch, margin) if side else (pitch, other, margin)


def ring_list(n):
    """The grid is 1 wide and n - 1 high."""
    return build(n, 0, n - 1, sorted(ring(n)[1]))


def chain_list(n):
    """The grid is one column, n - 1 high."""
    return build(n, 0, n - 1, sorted(chain(n)[1]))


def full_list(n):
    """Four cables at each part: the grid is n + 1 wide and high."""
    return build(n, 0, n - 1, sorted(second_neighbours(n)[1]))


def wide_list(n):
    """Without the cable between s and t the grid is n wide and n - 1 high."""
    return build(n, 0, n - 1, sorted(second_neighbours(n)[1] - {(0, n - 1)}))


# Stations at the edge of check 14: for each spacing the larger head field of the
# sheet, worked by hand from the grid's width and height.
EDGES = [
    ('ring of 256', ring_list(256), [
        ((1, 16, 0), 4080), ((1, 16, 7), 4094), ((64, 16, 7), 4094), ((64, 1, 255), 765), ((1, 15, 135), 4095),
        ((1, 16, 8), 4096), ((1, 15, 136), 4097), ((1, 17, 0), 4335), ((1, 16, 255), 4590), ((1, 64, 0), 16320), ((64, 64, 255), 16830)]),
    ('ring of 66', ring_list(66), [
        ((1, 63, 0), 4095), ((1, 62, 32), 4094), ((1, 62, 33), 4096), ((1, 63, 1), 4097), ((1, 64, 0), 4160)]),
    ('ring of 65', ring_list(65), [((1, 63, 31), 4094), ((1, 63, 32), 4096), ((1, 64, 0), 4096), ((64, 64, 0), 4096)]),
    ('ring of 64', ring_list(64), [((1, 64, 31), 4094), ((1, 63, 63), 4095), ((1, 64, 32), 4096), ((1, 63, 64), 4097)]),
    # A chain has one column, for which no pitch counts: the head's width is twice the margin.
    ('chain of 3', chain_list(3), [
        ((1, 1, 0), 2), ((64, 1, 0), 2), ((64, 1, 255), 512), ((1, 64, 255), 638), ((64, 64, 255), 638)]),
    ('chain of 58', chain_list(58), [((64, 64, 223), 4094), ((64, 64, 224), 4096), ((1, 64, 224), 4096), ((1, 63, 252), 4095), ((1, 63, 253), 4097)]),
    ('chain of 65', chain_list(65), [((64, 63, 31), 4094), ((64, 63, 32), 4096), ((64, 64, 0), 4096), ((64, 1, 255), 574)]),
    ('chain of 66', chain_list(66), [((64, 63, 0), 4095), ((64, 63, 1), 4097), ((1, 64, 0), 4160)]),
    # The largest ring that the widest spacing has room for, and the next one.
    ('ring of 57', ring_list(57), [((64, 64, 255), 4094)]),
    ('ring of 58', ring_list(58), [((64, 64, 223), 4094), ((64, 64, 224), 4096), ((64, 64, 255), 4158)]),
    ('64 parts, 128 cables', full_list(64), [
        ((63, 1, 0), 4095), ((1, 63, 0), 4095), ((63, 63, 0), 4095), ((63, 1, 1), 4097), ((1, 63, 1), 4097),
        ((64, 1, 0), 4160), ((1, 64, 0), 4160), ((63, 64, 0), 4160), ((64, 63, 0), 4160), ((63, 64, 1), 4162), ((64, 63, 1), 4162),
        ((64, 64, 255), 4670)]),
    ('63 parts, 126 cables', full_list(63), [((63, 1, 31), 4094), ((63, 1, 32), 4096), ((64, 1, 0), 4096), ((1, 64, 0), 4096)]),
    ('62 parts, 124 cables', full_list(62), [((64, 1, 31), 4094), ((63, 1, 63), 4095), ((64, 1, 32), 4096), ((63, 1, 64), 4097)]),
    ('ring of 257', ring_list(257), [((1, 15, 127), 4094), ((1, 15, 128), 4096), ((1, 16, 0), 4096), ((16, 16, 0), 4096)]),
    ('ring of 511', ring_list(511), [((1, 8, 0), 4080), ((1, 8, 7), 4094), ((1, 8, 8), 4096), ((1, 9, 0), 4590)]),
    ('ring of 512', ring_list(512), [
        ((1, 8, 0), 4088), ((1, 8, 3), 4094), ((64, 8, 3), 4094), ((64, 1, 255), 1021), ((1, 7, 255), 4087),
        ((1, 8, 4), 4096), ((1, 9, 0), 4599), ((1, 8, 255), 4598), ((1, 64, 0), 32704), ((64, 64, 255), 33214)]),
    ('chain of 256', chain_list(256), [((64, 16, 7), 4094), ((64, 16, 8), 4096), ((64, 17, 0), 4335)]),
    ('chain of 257', chain_list(257), [((64, 15, 127), 4094), ((64, 15, 128), 4096), ((64, 16, 0), 4096)]),
    ('chain of 511', chain_list(511), [((1, 8, 7), 4094), ((64, 8, 7), 4094), ((64, 8, 8), 4096), ((1, 9, 0), 4590)]),
    ('chain of 512', chain_list(512), [
        ((1, 8, 0), 4088), ((64, 8, 0), 4088), ((1, 8, 3), 4094), ((64, 8, 3), 4094), ((64, 1, 255), 1021), ((64, 7, 255), 4087),
        ((1, 8, 4), 4096), ((64, 8, 4), 4096), ((1, 9, 0), 4599), ((64, 9, 0), 4599), ((1, 64, 0), 32704), ((64, 64, 255), 33214)]),
    ('doubled chain of 512', build(512, 0, 511, doubled(*chain(512))[1]), [
        ((8, 8, 3), 4094), ((8, 1, 3), 4094), ((8, 8, 4), 4096), ((8, 1, 4), 4096), ((1, 8, 4), 4096), ((8, 9, 0), 4599), ((9, 8, 0), 4599)]),
    ('255 parts, 510 cables', full_list(255), [
        ((15, 1, 127), 4094), ((15, 1, 128), 4096), ((16, 1, 0), 4096), ((1, 16, 0), 4096), ((16, 16, 0), 4096)]),
    ('256 parts, 511 cables', wide_list(256), [
        ((15, 16, 0), 4080), ((15, 16, 7), 4094), ((15, 15, 127), 4094),
        ((15, 16, 8), 4096), ((15, 15, 128), 4096), ((16, 16, 0), 4096), ((16, 17, 0), 4335), ((17, 16, 0), 4352)]),
    # The longest sheets of 256 parts.
    ('256 parts, 512 cables', full_list(256), [
        ((15, 15, 120), 4095), ((15, 1, 120), 4095), ((1, 15, 120), 4095), ((15, 15, 121), 4097),
        ((16, 1, 0), 4112), ((1, 16, 0), 4112), ((16, 20, 0), 5140), ((20, 16, 0), 5140), ((64, 64, 255), 16958)]),
    ('257 parts, 514 cables', full_list(257), [
        ((15, 15, 112), 4094), ((15, 1, 113), 4096), ((1, 15, 113), 4096), ((16, 1, 0), 4128), ((1, 16, 0), 4128)]),
    ('510 parts, 1020 cables', full_list(510), [
        ((8, 1, 3), 4094), ((1, 8, 3), 4094), ((8, 1, 4), 4096), ((1, 8, 4), 4096), ((9, 1, 0), 4599)]),
    ('511 parts, 1022 cables', full_list(511), [
        ((7, 1, 255), 4094), ((1, 7, 255), 4094), ((8, 1, 0), 4096), ((1, 8, 0), 4096), ((8, 8, 0), 4096)]),
    ('512 parts, 1023 cables', wide_list(512), [
        ((7, 8, 0), 4088), ((7, 8, 3), 4094), ((7, 7, 255), 4094),
        ((7, 8, 4), 4096), ((8, 1, 0), 4096), ((8, 8, 0), 4096), ((8, 9, 0), 4599), ((9, 8, 0), 4608)]),
    # The longest sheets.
    ('512 parts, 1024 cables', full_list(512), [
        ((7, 7, 252), 4095), ((7, 1, 252), 4095), ((1, 7, 252), 4095), ((7, 7, 253), 4097),
        ((8, 1, 0), 4104), ((1, 8, 0), 4104), ((8, 10, 0), 5130), ((10, 8, 0), 5130), ((64, 64, 255), 33342)]),
]


def spaced():
    """Calls with a spacing, as (name, list, discount or None, spacing). Names are
    as those of `boundaries`."""
    out = []

    def put(due, what, words, given, discount=None):
        out.append(('%s, %s, spacing %d %d %d%s' % (
            due, what, *given, '' if discount is None else ', discount %d' % discount), words, discount, given))

    def no(check, place, *rest):
        put('refused %d %d' % (check, place), *rest)

    # 13
    triangle = build(3, 0, 2, [(0, 1), (1, 2), (0, 2)])
    pitches = PITCHES + LARGE_PITCHES
    for place, good, bad in ((0, pitches, BAD_PITCHES), (1, pitches, BAD_PITCHES), (2, MARGINS, BAD_MARGINS)):
        for numbers, refuses in ((good, False), (bad, True)):
            for k in numbers:
                given = [2, 3, 10]
                given[place] = k
                if refuses:
                    no(13, place, 'triangle', triangle, tuple(given))
                else:
                    put('sheet', 'triangle', triangle, tuple(given))
    put('sheet', 'triangle', triangle, (64, 64, 255))
    for place, given in ((0, (0, 0, 0)), (0, (0, 65, 256)), (0, (65, 64, 256)), (0, (0, 65, 255)), (0, ((1 << 32) - 1,) * 3),
                         (1, (1, 65, 256)), (1, (64, 0, (1 << 32) - 1)), (1, (64, 65, 255)), (2, (64, 64, 256)), (2, (1, 1, 65536))):
        no(13, place, 'triangle', triangle, given)
    for discount in (0, 1250, 10000):
        no(13, 0, 'triangle', triangle, (0, 1, 0), discount)
        put('sheet', 'triangle', triangle, (2, 3, 10), discount)
    for discount in (10001, (1 << 32) - 1):
        for given in ((0, 65, 256), (1, 1, 256), (1, 1, 0)):
            no(12, discount, '12 before 13', triangle, given, discount)

    # 13 comes before the list, and a good spacing changes no refusal of 1 to 10.
    first = {}
    for name, words in boundaries():
        due = name.split(',')[0].split()
        if due[0] == 'refused':
            first.setdefault(int(due[1]), (int(due[2]), words))
    for check, (place, words) in sorted(first.items()):
        no(13, 0, '13 before %d' % check, words, (0, 1, 0))
        no(13, 1, '13 before %d' % check, words, (64, 65, 256), 500)
        no(13, 2, '13 before %d' % check, words, (1, 1, 256))
        no(12, 10001, '12 before 13 and %d' % check, words, (1, 0, 0), 10001)
        no(check, place, 'check %d' % check, words, (64, 64, 255))
        no(check, place, 'check %d' % check, words, (2, 3, 10), 1250)

    # 14
    for what, words, rows in EDGES:
        for k, (given, largest) in enumerate(rows):
            due = 'sheet' if largest <= 4095 else 'refused 14 %d' % largest
            put(due, what, words, given)
            put(due, what, words, given, GOOD[k % len(GOOD)])
    for n in (256, 512):
        no(10, n - 2, '10 before 14', build(n, 0, n - 2, sorted(chain(n)[1])), (64, 64, 255))
        no(9, n - 1, '9 before 14', build(n, 0, 1, sorted(ring(n - 1)[1])), (64, 64, 255), 500)
        no(13, 2, '13 before 14', ring_list(n), (64, 64, 256))
    return out


# The editor: a row holds a list and words behind it. An operation is PROPOSE or
# COMMIT, two part numbers, and a version: the count of cables that the slip says. At
# PROPOSE the version is 0 and means nothing.

PROPOSE, COMMIT = 0, 1
LAST = (1 << 32) - 1

# Too large for a field of 12 bits; most have low bits that would be a part.
TOO_WIDE = [4096, 4097, 4098, 8194, 65535, 65536, 65537, 65538, 1 << 24, (1 << 24) + 2, (1 << 28) + 1,
            1 << 31, (1 << 31) + 2, LAST - 65535, LAST - 4095, LAST]

# Words behind a list that show if it is read too far, or one of them written.
BEHIND = [cable(0, 1), cable(2, 2), LAST, cable(0, 4095), 0, cable(1, 0), head(3, 0)]


def slots(words, spare):
    """A row that holds this list and so many words behind it."""
    return words + [BEHIND[k % len(BEHIND)] for k in range(spare)]


# Of eight parts 1 and 6 have four cables and 7 has none. The first line is one of 1's
# and the last one of 6's; some lines name the higher part first.
CROWDED = build(8, 0, 7, [(1, 4), (1, 0), (2, 1), (3, 1), (6, 2), (3, 6), (4, 6), (6, 5)])


def tried(due, one, other):
    return due, (PROPOSE, one, other, 0)


def laid(due, one, other, version):
    return due, (COMMIT, one, other, version)


def fresh(one, other, version):
    """A try that changes nothing, however often, and the lay of its slip."""
    return 2 * [tried('proposal %d %d %d' % (one, other, version), one, other)] + [laid('committed', one, other, version)]


def away(check, place, version, *cables):
    """Each cable refused alike, as a try and as a lay with this version."""
    due = 'refused %d %d' % (check, place)
    return [k for c in cables for k in (tried(due, *c), laid(due, *c, version))]


def stale(m, *slips):
    return [laid('refused 15 %d' % m, *slip) for slip in slips]


def unread(check, place, m):
    """On a list that is refused: its refusal comes before all that a slip gets."""
    due = 'refused %d %d' % (check, place)
    return away(check, place, m, (0, 1), (0, 0), (4096, 1)) + [laid(due, 0, 1, m + 1), laid(due, LAST, LAST, LAST)]


def edits():
    """Runs of operations by name, as (name, row, [(what is due, operation)])."""
    out = []

    def put(name, row, *operations):
        out.append((name, row, [k for some in operations for k in some]))

    two, triangle = build(3, 0, 2, []), build(3, 0, 2, [(0, 1), (1, 2), (0, 2)])

    # Rows shorter than their list.
    put('no words', [], unread(1, 0, 0))
    for w in (head(3, 0), head(3, 1), head(3, 65535), 0, LAST):
        put('one word %08x' % w, [w], unread(1, 1, w & 0xffff))
    for m in (1, 2, 512, 1024, 65534, 65535):
        put('head and ends; m is %d' % m, [head(3, m), ends(0, 2)], unread(3, m + 2, m))
    for k in (2, 3, 4):
        put('%d words of the triangle' % k, triangle[:k], unread(3, 5, 3))
    put('kind 4, and the last word missing', [head(3, 3), ends(0, 2), cable(0, 1), 0x40000002], unread(2, 3, 3))
    put('a spare bit, and the last word missing', [head(3, 3), ends(0, 2), 0x31000001, cable(1, 2)], unread(2, 2, 3))
    put('no ends, and the last words missing', [head(3, 3), 0x30000002, cable(0, 1)], unread(2, 1, 3))
    put('no head, and the last words missing', [0x20030003, ends(0, 2), cable(0, 1)], unread(2, 0, 3))
    put('3 before 4 to 6', [head(2, 4), ends(9, 9), cable(1, 1), cable(1, 1), cable(0, 9)], unread(3, 6, 4))

    # Lists that checks 2 to 8 refuse, in a row of their own length and in a longer one.
    seen = set()
    for name, words in boundaries():
        due, what = name.split(', ', 1)
        if due == 'sheet' or len(words) < 2:
            continue
        check, place, m = *map(int, due.split()[1:]), words[0] & 0xffff
        if check <= 8 and len(words) == m + 2:
            for spare in (0, 2):
                few = away(check, place, m, (0, 1)) if spare else [tried(due, 1, 2), laid(due, 2, 1, m + 1)]
                put('%s; %d words behind' % (what, spare), slots(words, spare), few if (check, spare) in seen else unread(check, place, m))
                seen.add((check, spare))

    # What lies behind a list is no part of it.
    put('a cable behind the triangle', triangle + [cable(0, 1)],
        away(6, 5, 3, (1, 1)), away(5, 5, 3, (3, 1)), fresh(0, 1, 3), away(16, 6, 4, (0, 1), (2, 1)))
    put('m is 0 in front of cables', [head(3, 0)] + triangle[1:],
        fresh(0, 1, 0), fresh(1, 0, 1), fresh(0, 2, 2), away(16, 5, 3, (0, 1)))
    put('m is 2 in front of three cables', [head(3, 2)] + triangle[1:], fresh(2, 0, 2), away(16, 5, 3, (0, 2)))
    put('a list behind the list', two + two, fresh(1, 0, 0), fresh(2, 1, 1), away(16, 4, 2, (0, 2)))
    put('all ones behind the list', two + 3 * [LAST], fresh(1, 2, 0), fresh(0, 1, 1))
    put('the new cable behind the list', two + 3 * [cable(0, 1)],
        fresh(1, 0, 0), fresh(0, 1, 1), fresh(1, 2, 2), away(16, 5, 3, (0, 1), (1, 2)))
    put('five cables of a part behind the list', [head(7, 0), ends(0, 1)] + [cable(0, q) for q in range(1, 6)],
        fresh(0, 6, 0), fresh(0, 5, 1), fresh(0, 4, 2), fresh(0, 3, 3), away(8, 0, 4, (0, 2), (1, 0)), fresh(1, 2, 4))

    # No cable yet.
    put('no cable and no room', two, away(16, 2, 0, (0, 1), (2, 0)), away(6, 2, 0, (1, 1)), away(5, 2, 0, (0, 3), (4096, 4096)),
        stale(0, (0, 1, 1), (0, 0, 65536), (LAST, 0, LAST)))
    put('no cable and room for one', slots(two, 1), stale(0, (0, 2, 1), (0, 2, 65536)), fresh(0, 2, 0),
        away(16, 3, 1, (0, 1), (2, 0)), stale(1, (0, 1, 0), (0, 2, 0)))

    # 5: the largest part, and numbers that are none. It comes before 6, and the low bits do
    # not count.
    for n, numbers in ((3, [3, 4, 255, 256, 4095, *TOO_WIDE]), (4, [4, 5, 256, 257, 4094, 4095, *TOO_WIDE]),
                       (256, [256, 257, 511, 512, 4095, 4096 + 255, 65536 + 255, (1 << 24) + 255, LAST - 4095 + 255, LAST]),
                       (257, [257, 258, 512, 513, 4095, 4096 + 256, 65536 + 256, (1 << 24) + 256, LAST - 4095 + 256, LAST]),
                       (512, [512, 513, 1023, 1024, 4095, 4096 + 511, 65536 + 511, (1 << 24) + 511, LAST - 4095 + 511, LAST])):
        cables = [c for p in numbers for c in ((p, 0), (n - 1, p))] + [(p, p) for p in numbers[::4]]
        cables += [(4097, 2), (1, 4098), (4098, 4097), (65537, 2), (2, 65537), (4096, 0), (0, 4096), (65536, 0)]
        put('part numbers among %d' % n, slots(build(n, 0, n - 1, [(1, 2)]), 2),
            away(5, 3, 1, *cables), fresh(n - 1, 0, 1), away(5, 4, 2, (n, 1)), fresh(0, 1, 2), away(5, 5, 3, (1, n)))

    # 5, 6 and 8, either way round, with room and without: 16 comes last. 15 comes before all. A cable that joins
    # two parts again is refused as any other: all of CROWDED are at 1 or at 6.
    at_1, at_6 = ([c for q in far for c in ((p, q), (q, p))] for p, far in ((1, (4, 0, 2, 3)), (6, (2, 3, 4, 5))))
    all_refused = (
        away(5, 10, 8, (8, 1), (1, 8), (8, 8), (4097, 5), (6, 4096)) + away(6, 10, 8, (0, 0), (1, 1), (6, 6), (7, 7))
        + away(8, 1, 8, *at_1) + away(8, 6, 8, *at_6)
        + away(8, 1, 8, (1, 5), (5, 1), (1, 7), (7, 1), (1, 6), (6, 1)) + away(8, 6, 8, (0, 6), (6, 0), (6, 7), (7, 6))
        + stale(8, *[(*c, v) for c in ((0, 8), (LAST, 1), (7, 7), (1, 1), (4, 1), (1, 4), (1, 5), (6, 0), (0, 7)) for v in (7, 9)])
        + stale(8, *[(7, 0, v) for v in (0, 1, 10, 256 + 8, 4096 + 8, 65536 + 8, (8 << 16) + 8, (1 << 24) + 8, (1 << 31) + 8,
                                         CROWDED[0], LAST - 65535 + 8, LAST)]))
    put('eight parts, no room', CROWDED, all_refused, away(16, 10, 8, (0, 7), (5, 2)))
    put('eight parts, room for three', slots(CROWDED, 3), all_refused,
        fresh(7, 0, 8), stale(9, (7, 0, 8)), away(8, 6, 9, (6, 0)), fresh(0, 7, 9), stale(10, (0, 7, 9), (7, 0, 8)),
        fresh(5, 7, 10), away(16, 13, 11, (0, 5), (7, 5), (7, 0)), stale(11, (0, 5, 10)), away(8, 1, 11, (7, 1)))

    # Two parts joined as often as check 8 lets them be, and once more.
    put('one cable again and again', slots(build(4, 0, 3, []), 7),
        fresh(0, 1, 0), fresh(0, 1, 1), fresh(1, 0, 2), fresh(0, 1, 3), away(8, 0, 4, (0, 1), (1, 0), (0, 2)),
        away(8, 1, 4, (1, 2), (3, 1)), away(6, 6, 4, (1, 1)), away(5, 6, 4, (0, 4)), fresh(3, 2, 4), fresh(2, 3, 5),
        fresh(3, 2, 6), away(16, 9, 7, (2, 3)), away(8, 0, 7, (1, 0)), stale(7, (2, 3, 6)))
    put('a repeated cable and no room', build(3, 0, 2, [(0, 1)]),
        away(16, 3, 1, (0, 1), (1, 0), (0, 2)), stale(1, (0, 1, 0)))
    put('the higher part has four', slots(build(6, 0, 5, [(0, 5), (5, 0), (5, 1), (1, 5)]), 2),
        away(8, 5, 4, (0, 5), (5, 0), (1, 5), (5, 2)), fresh(1, 0, 4), fresh(2, 0, 5),
        away(8, 0, 6, (0, 1), (2, 0)), away(16, 8, 6, (2, 1)))
    put('both parts have four', slots(build(4, 1, 2, 3 * [(1, 3)] + [(2, 1), (3, 2)]), 2),
        away(8, 1, 5, (1, 3), (3, 1), (1, 2)), away(8, 3, 5, (2, 3), (3, 0)),
        fresh(2, 0, 5), fresh(0, 2, 6), away(8, 2, 7, (2, 0)))
    put('pairs between three parts', slots(build(3, 0, 2, []), 7),
        *[fresh(*c, k) for k, c in enumerate([(0, 1), (1, 2), (2, 0), (0, 2), (2, 1), (1, 0)])],
        away(8, 0, 6, (0, 1), (2, 0)), away(8, 1, 6, (1, 2), (2, 1)))

    # The fourth cable of a part passes and the fifth does not, whichever field names it.
    for what, part, cables, fourth, fifth, other in (
            ('the lowest part', 0, [(0, 1), (2, 0), (0, 3)], (4, 0), (0, 5), (5, 1)),
            ('the highest part', 5, [(5, 1), (2, 5), (3, 5)], (5, 4), (5, 0), (0, 1)),
            ('a part in first fields', 2, [(2, 0), (2, 1), (2, 3)], (2, 4), (2, 5), (0, 5)),
            ('a part in second fields', 3, [(0, 3), (1, 3), (2, 3)], (4, 3), (5, 3), (5, 0))):
        put('the fourth and the fifth at %s' % what, slots(build(6, 0, 5, cables), 2),
            fresh(*fourth, 3), away(8, part, 4, fifth, fifth[::-1]), fresh(*other, 4))
    put('a fourth at both ends', slots(build(7, 0, 6, [(0, 1), (0, 2), (0, 3), (6, 3), (6, 4), (6, 5)]), 2),
        fresh(6, 0, 6), away(8, 0, 7, (0, 5), (0, 6), (6, 0)), away(8, 6, 7, (6, 1)))

    # Of slips with one version one is laid. A slip with a later one waits.
    put('two slips with one version', slots(two, 3),
        fresh(0, 1, 0)[:1], fresh(1, 2, 0), stale(1, (0, 1, 0), (1, 2, 0)), fresh(0, 1, 1), fresh(1, 2, 2),
        stale(3, (1, 2, 2)))
    put('a slip ahead of its version', slots(two, 3),
        stale(0, (0, 2, 2)), fresh(0, 1, 0), stale(1, (0, 2, 2)), fresh(1, 2, 1), fresh(0, 2, 2))
    ten = sorted(complete(5)[1])
    put('all ten cables among five', slots(build(5, 0, 4, []), 12), *[fresh(*c[::1 - k % 2 * 2], k) for k, c in enumerate(ten)],
        *[away(8, min(c), 10, c[::1 - k % 2 * 2]) for k, c in enumerate(ten)])

    # 256 parts. With 512 cables every part has four, so that 16 never comes.
    full, wide, around = full_list(256), wide_list(256), ring_list(256)
    for spare in (0, 1, 6):
        put('512 cables; %d words behind' % spare, slots(full, spare),
            away(8, 0, 512, (0, 100), (0, 255), (1, 0)), away(8, 128, 512, (255, 128)), away(8, 252, 512, (252, 255)),
            away(6, 514, 512, (255, 255)), away(5, 514, 512, (256, 0), (100, 4096)),
            stale(512, (0, 100, 511), (0, 100, 0), (0, 100, 65536 + 512), (0, 256, 513)))
    put('511 cables, no room', wide, away(16, 513, 511, (255, 0)), away(8, 2, 511, (2, 255)), away(8, 100, 511, (0, 100)),
        away(8, 254, 511, (254, 255)), stale(511, (0, 255, 255)))
    put('511 cables, room for one', slots(wide, 1), stale(511, (0, 255, 510)), fresh(255, 0, 511),
        away(8, 0, 512, (0, 255), (0, 128)), stale(512, (0, 128, 511)))
    put('256 cables', slots(around, 4), stale(256, *[(128, 3, v) for v in (0, 255, 257, 512)]),
        fresh(128, 3, 256), fresh(254, 127, 257), away(5, 260, 258, (3, 256)), fresh(3, 128, 258),
        away(8, 3, 259, (3, 128)), fresh(255, 0, 259), away(16, 262, 260, (0, 2), (0, 255)))
    put('255 cables', slots(build(256, 0, 255, [(p, p + 1) for p in range(255)]), 1),
        fresh(255, 0, 255), away(16, 258, 256, (0, 2), (0, 255)))
    put('512 cables, each twice', slots(build(256, 0, 255, doubled(*ring(256))[1]), 1),
        away(8, 0, 512, (0, 1), (255, 0), (100, 0)), away(8, 254, 512, (255, 254)), stale(512, (0, 1, 511)))
    put('510 cables, each twice', slots(build(256, 0, 255, 2 * [(p, p + 1) for p in range(255)]), 2),
        away(8, 1, 510, (0, 1)), away(8, 254, 510, (255, 254)), fresh(255, 0, 510), fresh(0, 255, 511),
        away(8, 0, 512, (0, 255)))

    # 512 parts. With 1,024 cables every part has four, so that 16 never comes.
    full, wide, around = full_list(512), wide_list(512), ring_list(512)
    for spare in (0, 1, 6):
        put('1024 cables; %d words behind' % spare, slots(full, spare),
            away(8, 0, 1024, (0, 256), (0, 511), (1, 0)), away(8, 256, 1024, (511, 256)), away(8, 508, 1024, (508, 511)),
            away(6, 1026, 1024, (511, 511), (256, 256)), away(5, 1026, 1024, (512, 0), (256, 4096)),
            stale(1024, (0, 256, 1023), (0, 256, 0), (0, 256, 65536 + 1024), (0, 512, 1025)))
    put('1023 cables, no room', wide, away(16, 1025, 1023, (511, 0)), away(8, 2, 1023, (2, 511)), away(8, 256, 1023, (0, 256)),
        away(8, 510, 1023, (510, 511)), stale(1023, (0, 511, 511), (0, 511, 255)))
    put('1023 cables, room for one', slots(wide, 1), stale(1023, (0, 511, 1022)), fresh(511, 0, 1023),
        away(8, 0, 1024, (0, 511), (0, 256)), stale(1024, (0, 256, 1023)))
    put('512 cables of 512 parts', slots(around, 4), stale(512, *[(256, 3, v) for v in (0, 256, 511, 513, 1024)]),
        fresh(256, 3, 512), fresh(510, 255, 513), away(5, 516, 514, (3, 512)), fresh(3, 256, 514),
        away(8, 3, 515, (3, 256)), fresh(511, 0, 515), away(16, 518, 516, (0, 2), (0, 511)), away(8, 256, 516, (0, 256), (256, 511)))
    put('511 cables of 512 parts', slots(build(512, 0, 511, [(p, p + 1) for p in range(511)]), 1),
        fresh(511, 0, 511), away(16, 514, 512, (0, 2), (0, 511)))
    put('1024 cables, each twice', slots(build(512, 0, 511, doubled(*ring(512))[1]), 1),
        away(8, 0, 1024, (0, 1), (511, 0), (256, 0)), away(8, 510, 1024, (511, 510)), stale(1024, (0, 1, 1023)))
    put('1022 cables, each twice', slots(build(512, 0, 511, 2 * [(p, p + 1) for p in range(511)]), 2),
        away(8, 1, 1022, (0, 1)), away(8, 510, 1022, (511, 510)), fresh(511, 0, 1022), fresh(0, 511, 1023),
        away(8, 0, 1024, (0, 511)))
    # Parts whose numbers have one low byte.
    put('four cables between 0 and 256', slots(build(512, 0, 256, 4 * [(0, 256)]), 3),
        away(8, 0, 4, (0, 256), (0, 511), (256, 0)), away(8, 256, 4, (256, 511), (1, 256)), away(6, 6, 4, (256, 256), (0, 0)),
        fresh(257, 1, 4), fresh(511, 255, 5), fresh(1, 257, 6), away(16, 9, 7, (257, 1)))
    return out


def long_edits():
    """As `edits`, on rows of 65,536 words and more: around the greatest m, and a million."""
    most = 65535
    right = [head(256, most), ends(0, 1)] + [cable(0, 1), cable(1, 2)] * (most // 2) + [cable(0, 1)]
    for name, row, check, place in (
            ('a word less than the greatest m', right[:-1], 3, 65537),
            ('the greatest m', right, 8, 0),
            ('a word behind the greatest m', right + [LAST], 8, 0),
            ('the greatest m in a million words', right + 934463 * [cable(0, 1)], 8, 0),
            ('the greatest m between the last two parts', right[:2] + most * [cable(255, 254)], 8, 254),
            ('kind 4 in the last word', right[:-1] + [0x40000000], 2, 65536),
            ('513 parts', [head(513, most)] + right[1:], 4, 513),
            ('512 parts', [head(512, most)] + right[1:], 8, 0),
            ('the last two of 512 parts', [head(512, most), ends(0, 1)] + most * [cable(511, 510)], 8, 510),
            ('256 in the last word', right[:-1] + [cable(0, 256)], 5, 65536),
            ('512 in the last word', [head(512, most)] + right[1:-1] + [cable(0, 512)], 5, 65536),
            ('the last word joins a part to itself', right[:-1] + [cable(9, 9)], 6, 65536)):
        yield name, row, unread(check, place, most)
    yield ('a million words behind the list', slots(build(3, 0, 2, [(0, 1)]), 1000000),
           stale(1, (2, 1, 0)) + fresh(2, 1, 1) + fresh(1, 2, 2) + fresh(0, 2, 3) + fresh(2, 0, 4)
           + away(8, 2, 5, (2, 0), (1, 2)) + away(6, 7, 5, (2, 2)) + away(5, 7, 5, (4096, 1)))


def loose(rng, n, m):
    """A list that passes checks 1 to 8, with m cables if so many are found; often with
    repeated ones."""
    pairs = rng.choice([1, 1, 2, 4]) * sorted((four_regular(rng, n) if n > 12 else complete(n))[1])
    rng.shuffle(pairs)
    cables, count = [], [0] * n
    for a, b in pairs:
        if len(cables) < m and count[a] < 4 and count[b] < 4:
            cables.append((a, b) if rng.random() < 0.5 else (b, a))
            count[a] += 1
            count[b] += 1
    return build(n, *rng.sample(range(n), 2), cables)


def start(rng, most=8):
    """A row to start from. Most hold a list that passes checks 1 to 8: of 3 to 8 parts, of
    up to 256 where most is 256, or of 257 to 512."""
    way = rng.random()
    if way < 0.10:
        words = refused(rng)
    elif way < 0.14:
        words = noise(rng)
    else:
        if most == 8:
            n = rng.choice([3, 4, 5, 6, 6, 7, 7, 8, 8])
        elif most == 256:
            n = rng.choice([13, 64, 255, 256, rng.randint(9, 256)])
        else:
            n = rng.choice([257, 511, 512, 512, rng.randint(257, MOST_PARTS)])
        words = loose(rng, n, rng.choice([0, 0, rng.randint(0, n), rng.randint(0, 2 * n), 2 * n - 1]))
    spare = rng.choice([0, 1, 2, 4, 8, 16, 24] if most == 8 else [0, 1, 24, 600])
    row = words + [rng.choice([rng.getrandbits(32), cable(rng.randrange(4), rng.randrange(4)), rng.choice(BEHIND)]) for _ in range(spare)]
    return row[:rng.randint(0, len(row))] if rng.random() < 0.02 else row


def some_cable(rng, n, cables):
    """Two numbers, chosen so that each of 5, 6 and 8, a repeated cable and no refusal come
    often."""
    count = [0] * n
    for p in (p for c in cables for p in c if p < n):
        count[p] += 1

    def any_two():
        return tuple(rng.sample(range(n), 2))

    def first(test, pairs):
        return next((c if rng.random() < 0.5 else c[::-1] for c in pairs if test(c)), any_two())

    pairs = [any_two() for _ in range(60)] if n > 12 else rng.sample(sorted(complete(n)[1]), n * (n - 1) // 2)
    way = rng.randrange(16)
    if way == 0:
        none = rng.choice([n, n + 1, 4095, rng.randrange(n, 4096), rng.choice(TOO_WIDE), rng.getrandbits(32) | 4096,
                           rng.randrange(1, 16) << 12 | rng.randrange(n), rng.randrange(1, 65536) << 16 | rng.randrange(n)])
        return rng.choice([(none, rng.randrange(n)), (rng.randrange(n), none), (none, none)])
    if way == 1:
        return 2 * (rng.randrange(n),)
    if way in (2, 3) and cables:
        return rng.choice(rng.choice([cables, cables[-1:], cables[:1]]))[::rng.choice([1, -1])]
    if way in (4, 5, 6):
        return first(lambda c: max(count[c[0]], count[c[1]]) >= 4, pairs)
    if way == 7:
        return rng.getrandbits(rng.choice([3, 8, 32])), rng.getrandbits(rng.choice([3, 8, 32]))
    return first(lambda c: max(count[c[0]], count[c[1]]) < 4, pairs)


def operation(rng, row, slips, most):
    """The next operation, chosen by what the row holds; slips are those made so far. Parts
    are so many at most."""
    n = min(most, max(3, row[0] >> 16 & 0xfff)) if row else 3
    m = row[0] & 0xffff if row else 0
    one, other = some_cable(rng, n, [(w >> 12 & 0xfff, w & 0xfff) for w in row[2:m + 2]])
    way = rng.random()
    if way < 0.35:
        return PROPOSE, one, other, 0
    if way < 0.43 and slips:
        return (COMMIT, *rng.choice(slips))
    if way < 0.49:
        return COMMIT, one, other, rng.choice([0, m + 1, max(0, m - 1), m + 65536, m + (1 << rng.randrange(32)), rng.getrandbits(32)]) & LAST
    if way < 0.72 and slips and slips[-1][2] == m:
        return (COMMIT, *slips[-1])
    return COMMIT, one, other, m


def run_on(rng, row, edit, count, most=MOST_PARTS):
    """So many operations on a row, each with its answer and the row then; edit gives
    both for a row and an operation."""
    slips, done = [], []
    for _ in range(count):
        asked = operation(rng, row, slips, most)
        answer, row = edit(row, asked)
        if answer[0] == 'proposal':
            slips.append(answer[1:])
        done.append((asked, answer, row))
    return done


def sequence(rng, edit, most=8):
    """A row, as `start` makes it, and a run on it. Some large stations grow by many cables."""
    row = start(rng, most)
    return row, run_on(rng, row, edit, rng.choice([3, 10, 20, 40] if most == 8 else [20, 40, 400]), max(256, most))


# The canonical form, document 02's settled form: the cables of a list sorted, each with its smaller part first.

def rearranged(rng, words):
    """The list with its lines in another sequence, and some of its cables turned round."""
    lines = words[2:]
    rng.shuffle(lines)
    return words[:2] + [rng.choice([w, turned(w)]) for w in lines]


def unsorted(rng, n_min=3, n_max=40):
    """A list that passes checks 1 to 8, mostly with its lines in any sequence and its cables either way round: of a
    station that is drawn, or of any cables, often with repeated ones. Now and then it is sorted, or nearly."""
    if rng.random() < 0.4:
        words = rearranged(rng, drawn(rng, n_min, n_max))
    else:
        n = rng.randint(n_min, n_max)
        words = loose(rng, n, rng.choice([0, 1, 2, rng.randint(0, n), rng.randint(0, 2 * n), 2 * n]))
    if rng.random() < 0.3 and len(words) > 2:
        lines = sorted(min(w, turned(w)) for w in words[2:])
        i = rng.randrange(len(lines))
        words = words[:2] + rng.choice([lambda: lines, lambda: lines[::-1], lambda: [turned(w) for w in lines],
                                        lambda: lines[i:] + lines[:i], lambda: lines[:i] + [turned(lines[i])] + lines[i + 1:]])()
    return words


def fourfold(n):
    """Four cables between each part of an even number and the next."""
    return n, sorted(4 * [(p, p + 1) for p in range(0, n, 2)])


def fourfold_across(n):
    """Four cables between each part of the lower half, from 0 on, and one of the upper half, from the last down; n is even."""
    return n, sorted(4 * [(p, n - 1 - p) for p in range(n // 2)])


def canonicals():
    """Lists by name, each with its canonical form, or with None where it is refused. Names are as those of `boundaries`,
    with `list` for a canonical form."""
    out = []

    def put(what, n, s, t, cables, due):
        out.append(('list, ' + what, build(n, s, t, cables), build(n, s, t, due)))

    def no(check, place, what, words):
        out.append(('refused %d %d, %s' % (check, place, what), words, None))

    def ways(what, n, s, t, due, rng):
        """A canonical list itself, and in other sequences and directions."""
        back = [c[::-1] for c in due]
        for how, cables in (('in order', due), ('reversed', due[::-1]), ('turned round', back), ('reversed and turned round', back[::-1]),
                            ('by second part, then first', sorted(due, key=lambda c: c[::-1])),
                            ('every other line first', due[1::2] + due[::2])):
            put('%s, %s' % (what, how), n, s, t, cables, due)
        put('%s, shuffled' % what, n, s, t, [rng.choice([c, c[::-1]]) for c in rng.sample(due, len(due))], due)

    rng = random.Random(13)
    three = [(0, 1), (0, 2), (1, 2)]
    put('triangle', 3, 0, 2, [(0, 1), (1, 2), (0, 2)], three)
    put('triangle, each cable turned round', 3, 0, 2, [(1, 0), (2, 1), (2, 0)], three)
    ways('triangle', 3, 0, 2, three, rng)
    ways('all ten cables among five', 5, 0, 4, sorted(complete(5)[1]), rng)

    # No cable, and one.
    for n in (3, 4, 255, 256, 257, 511, 512):
        put('%d parts, no cable' % n, n, 0, n - 1, [], [])
        put('%d parts, no cable, s is the last part' % n, n, n - 1, 0, [], [])
        for a, b in ((0, 1), (0, n - 1), (n - 2, n - 1)):
            put('%d parts, the cable %d-%d' % (n, a, b), n, 0, 1, [(a, b)], [(a, b)])
            put('%d parts, the cable %d-%d' % (n, b, a), n, 0, 1, [(b, a)], [(a, b)])

    # The ends are not sorted, whatever the cables say.
    for s in range(3):
        for t in range(3):
            if s != t:
                put('triangle, s is %d and t is %d' % (s, t), 3, s, t, [(2, 1), (2, 0), (1, 0)], three)
    for s, t in ((511, 0), (0, 511), (256, 255), (255, 256), (510, 511)):
        put('512 parts, s is %d and t is %d' % (s, t), 512, s, t, [(511, 0), (256, 255), (511, 510)], [(0, 511), (255, 256), (510, 511)])

    # The cables of one part: all to larger parts, all to smaller ones, and to both.
    put('four cables to larger parts', 5, 0, 4, [(0, 4), (3, 0), (0, 2), (1, 0)], [(0, 1), (0, 2), (0, 3), (0, 4)])
    put('four cables to smaller parts', 5, 0, 4, [(4, 3), (2, 4), (4, 1), (0, 4)], [(0, 4), (1, 4), (2, 4), (3, 4)])
    put('two cables to larger parts and two to smaller ones', 5, 0, 4, [(2, 4), (1, 2), (2, 3), (2, 0)], [(0, 2), (1, 2), (2, 3), (2, 4)])
    put('part 0 of 512, four cables', 512, 0, 511, [(0, 511), (0, 1), (256, 0), (255, 0)], [(0, 1), (0, 255), (0, 256), (0, 511)])
    put('part 511 of 512, four cables', 512, 0, 511, [(511, 510), (0, 511), (511, 256), (255, 511)],
        [(0, 511), (255, 511), (256, 511), (510, 511)])
    put('parts 0 and 511 of 512, four cables each', 512, 511, 0,
        [(511, 510), (0, 511), (511, 0), (509, 511), (2, 0), (0, 1)], [(0, 1), (0, 2), (0, 511), (0, 511), (509, 511), (510, 511)])

    # Repeated cables stay, as often as they are.
    for k in (2, 3, 4):
        for how, cables in (('', k * [(0, 1)]), (', turned round', k * [(1, 0)]), (', in turn', (2 * [(0, 1), (1, 0)])[:k])):
            put('%d cables between 0 and 1%s' % (k, how), 3, 0, 2, cables, k * [(0, 1)])
    put('the triangle, a cable again', 3, 0, 2, [(0, 1), (1, 2), (0, 2), (0, 1)], [(0, 1)] + three)
    put('the triangle, a cable again and turned round', 3, 0, 2, [(2, 1), (0, 1), (1, 2), (0, 2)], three + [(1, 2)])
    put('the triangle, each cable twice', 3, 0, 2, [(2, 1), (0, 1), (2, 0), (1, 2), (1, 0), (0, 2)],
        [(0, 1), (0, 1), (0, 2), (0, 2), (1, 2), (1, 2)])
    put('three cables and one at a part', 4, 0, 3, [(1, 3), (0, 1), (3, 1), (1, 3)], [(0, 1), (1, 3), (1, 3), (1, 3)])
    put('four cables between 510 and 511', 512, 0, 511, [(511, 510), (510, 511), (511, 510), (510, 511)], 4 * [(510, 511)])
    put('four cables between 0 and 1, four between 2 and 3, in turn', 4, 0, 3, 4 * [(3, 2), (0, 1)], 4 * [(0, 1)] + 4 * [(2, 3)])

    # Rising by first part, then second: neither by second part, nor by low bytes, nor by the sum.
    put('first parts fall while second parts rise', 8, 0, 7, [(3, 4), (2, 5), (1, 6), (0, 7)], [(0, 7), (1, 6), (2, 5), (3, 4)])
    put('equal second parts', 8, 0, 7, [(6, 7), (7, 5), (1, 7), (7, 0)], [(0, 7), (1, 7), (5, 7), (6, 7)])
    put('first parts 0, 1, 255, 256, 257 and 511', 512, 0, 511,
        [(511, 256), (257, 256), (0, 256), (256, 255), (0, 511), (1, 255), (0, 255), (1, 257), (0, 1), (257, 258)],
        [(0, 1), (0, 255), (0, 256), (0, 511), (1, 255), (1, 257), (255, 256), (256, 257), (256, 511), (257, 258)])
    put('parts 1, 2, 256 and 512 less one', 512, 1, 2, [(511, 2), (256, 1), (511, 1), (2, 256), (1, 2)],
        [(1, 2), (1, 256), (1, 511), (2, 256), (2, 511)])

    # Checks 9 and 10 are not made.
    put('part 0 alone', 4, 1, 3, [(3, 1), (3, 2), (1, 2)], [(1, 2), (1, 3), (2, 3)])
    put('the last part alone', 4, 0, 2, [(2, 0), (2, 1), (1, 0)], three)
    put('s and t alone', 5, 3, 4, [(2, 0), (2, 1), (1, 0)], three)
    put('two triangles', 6, 0, 5, [(5, 4), (2, 1), (5, 3), (2, 0), (4, 3), (1, 0)], three + [(3, 4), (3, 5), (4, 5)])
    put('a chain, t within', 4, 0, 2, [(3, 2), (2, 1), (1, 0)], [(0, 1), (1, 2), (2, 3)])
    put('a chain, s within', 4, 1, 3, [(1, 0), (2, 1), (3, 2)], [(0, 1), (1, 2), (2, 3)])
    put('a star, part 4 in its middle', 5, 0, 1, [(4, 3), (4, 1), (4, 2), (4, 0)], [(0, 4), (1, 4), (2, 4), (3, 4)])
    put("check 7's example in document 01", 3, 0, 2, [(0, 1), (1, 0)], [(0, 1), (0, 1)])
    put('512 parts, two rings apart', 512, 0, 256, sorted((b + k, a + k) for a, b in ring(256)[1] for k in (0, 256))[::-1],
        sorted((a + k, b + k) for a, b in ring(256)[1] for k in (0, 256)))

    # As many cables as there may be, and the most parts.
    for what, (n, cables) in (('512 cables', four_regular(rng, 256)), ('next and next but one', second_neighbours(512)),
                              ('1024 cables', four_regular(rng, 512)), ('doubled ring', doubled(*ring(512))),
                              ('four cables between two parts each', fourfold(512)), ('four cables between the halves', fourfold_across(512))):
        ways('%d parts: %s' % (n, what), n, *rng.choice([(0, n - 1), (n - 1, 0)]), sorted(cables), rng)
    for n in (511, 512):
        for what, (_, cables) in (('ring', ring(n)), ('chain', chain(n)), ('random', of_ears(rng, n)),
                                  ('random, with repeated cables', repeated(rng, *of_ears(rng, n)))):
            due = sorted(cables)
            put('%d parts: %s' % (n, what), n, 0, n - 1, [rng.choice([c, c[::-1]]) for c in rng.sample(due, len(due))], due)

    # Checks 1 to 8, each before 11. A place is that of the list as it stands, sorted or not.
    no(1, 0, 'no words', [])
    no(1, 1, 'a head alone', [head(3, 0)])
    no(2, 0, 'no head', [ends(0, 2), ends(0, 2), cable(1, 0)])
    no(2, 1, 'no ends', [head(3, 1), cable(0, 2), cable(1, 0)])
    no(2, 4, 'a spare bit in the last cable', build(3, 0, 2, [(2, 1), (1, 0)]) + [0x31000002])
    no(2, 3, 'a part in place of a cable', build(3, 0, 2, [(2, 1)]) + [0x50001000, cable(1, 0)])
    no(3, 3, 'no word for the one cable', [head(3, 1), ends(0, 2)])
    no(3, 2, 'a cable too many', [head(3, 0), ends(0, 2), cable(1, 0)])
    no(3, 65537, 'm of 65535', [head(3, 65535), ends(0, 2), cable(1, 0)])
    for n in (0, 1, 2, 513, 514, 1024, 4095):
        no(4, n, '%d parts' % n, build(n, 0, 1, [(1, 0)]))
    no(4, 513, '513 parts, 1026 cables', full_list(513))
    no(5, 4, 'part 3 of 3 behind others', build(3, 0, 2, [(2, 1), (1, 0), (3, 0)]))
    no(5, 1, 's is 3 of 3', build(3, 3, 2, [(2, 1)]))
    no(5, 1025, 'part 512 of 512 in the last word', full_list(512)[:-1] + [cable(512, 0)])
    no(6, 1, 's is t', build(3, 1, 1, [(2, 1)]))
    no(6, 3, 'part 1 joined to itself', build(3, 0, 2, [(2, 1), (1, 1), (0, 0)]))
    no(6, 1025, 'part 511 joined to itself in the last word', full_list(512)[:-1] + [cable(511, 511)])
    no(8, 0, 'five cables between 0 and 1', build(3, 0, 2, [(1, 0), (0, 1), (1, 0), (0, 1), (1, 0)]))
    no(8, 0, 'five cables at 0', build(6, 0, 5, [(5, 0), (4, 0), (3, 0), (2, 0), (1, 0)]))
    no(8, 5, 'five cables at the last part', build(6, 0, 5, [(5, 0), (5, 4), (5, 3), (5, 2), (5, 1)]))
    no(8, 2, 'five cables at 2 and at 6', build(7, 0, 6, [(6, 0), (6, 1), (6, 3), (6, 4), (6, 5), (2, 0), (2, 1), (2, 3), (2, 4), (2, 5)]))
    no(8, 0, '512 parts, 1025 cables', build(512, 0, 511, sorted(second_neighbours(512)[1]) + [(256, 0)]))
    no(8, 255, '512 parts, 1025 cables, the last again', build(512, 0, 511, sorted(second_neighbours(512)[1] - {(0, 511)}) + 2 * [(511, 255)]))
    return out


# Levels. The second row of a call has a word of kind 9 for each part. Numbers, gains and levels count 1/64 dB.

JOINT, PAD, AMPLIFIER = 0, 1, 2
MOST_NUMBER = 6400
NUMBERS = [0, 1, 2, 63, 64, 65, 640, 4096, 6399, 6400]
TOO_LARGE = [6401, 6402, 6464, 8191, 8192, 12800, 16384, 32767, 32768, 59136, 65535]


def sort_word(sort, number=0):
    return 0x90000000 | sort << 24 | number


def of_gains(*gains):
    """The second row of parts with these gains: an amplifier where it is above 0, a pad below, else a joint."""
    return [sort_word((g > 0) * AMPLIFIER or (g < 0) * PAD, abs(g)) for g in gains]


def gains_of(sorts):
    return [(w & 0xffff) * (0, -1, 1)[w >> 24 & 3] for w in sorts]


def numbered(n, cables, sorts):
    """Least and greatest level by part where ranks are as the numbers and s is part 0."""
    own, below = gains_of(sorts), [[] for _ in range(n)]
    for a, b in cables:
        below[max(a, b)].append(min(a, b))
    least, greatest = own[:1], own[:1]
    for p in range(1, n):
        least.append(own[p] + min(least[q] for q in below[p]))
        greatest.append(own[p] + max(greatest[q] for q in below[p]))
    return [level for two in zip(least, greatest) for level in two]


def negated(sorts):
    """The second row with pads and amplifiers exchanged."""
    return [w ^ 3 << 24 if w >> 24 & 3 else w for w in sorts]


def some_sorts(rng, n):
    """A second row of n parts that passes 17 and 18: all of one sort, pads and amplifiers of one number, so that many
    levels are 0, few parts that are no joints, or any."""
    number = rng.choice([rng.choice(NUMBERS), rng.randint(0, MOST_NUMBER)])
    most = rng.choice([0, 1, 2, 64, MOST_NUMBER, MOST_NUMBER])
    way = rng.randrange(10)
    if way < 3:
        return n * [sort_word(way, number if way else 0)]
    if way == 3:
        return n * [sort_word(rng.choice([PAD, AMPLIFIER]), rng.choice([0, MOST_NUMBER]))]
    if way < 6:
        some = [sort_word(PAD, number), sort_word(AMPLIFIER, number)] + (way - 4) * [sort_word(JOINT), sort_word(PAD)]
        return [rng.choice(some) for _ in range(n)]
    out = []
    for _ in range(n):
        sort = rng.choice([PAD, AMPLIFIER]) if rng.random() < (0.2 if way == 6 else 0.8) else JOINT
        out.append(sort_word(sort, rng.choice([rng.randint(0, most), rng.randint(0, most), min(most, rng.choice(NUMBERS))]) if sort else 0))
    return out


# Faults, each put into a second row. Another may hide it.

def wrong_sort_word(rng, word):
    """The word with another kind, a sort that is none, or spare bits; now and then any word of these."""
    while True:
        way = rng.randrange(4)
        if way == 0:
            out = word & 0x0fffffff | rng.randrange(16) << 28
        elif way == 1:
            out = word & 0xf0ffffff | rng.randint(3, 15) << 24
        elif way == 2:
            out = word | rng.choice([1 << rng.randrange(8), rng.randrange(1, 256)]) << 16
        else:
            out = rng.choice([rng.getrandbits(32), cable(0, 1), head(3, 3), 0, 0xffffffff])
        if out >> 28 != 9 or (out >> 24 & 15) > AMPLIFIER or out >> 16 & 0xff:
            return out


def sorts_17(rng, sorts):
    out, more = list(sorts), some_sorts(rng, rng.choice([1, 1, 2, 3, 9, max(1, len(sorts))]))
    way = rng.randrange(8)
    if way == 0:
        return out[:rng.choice([0, max(0, len(out) - 1), rng.randint(0, len(out))])]
    if way == 1:
        return out + more
    if way == 2:
        i = rng.choice([0, len(more) - 1, rng.randrange(len(more))])
        return out + more[:i] + [wrong_sort_word(rng, more[i])] + more[i + 1:]
    if out:
        i = rng.choice([0, len(out) - 1, rng.randrange(len(out))])
        out[i] = wrong_sort_word(rng, out[i])
    return out


def sorts_18(rng, sorts):
    out = list(sorts)
    for _ in range(rng.choice([1, 1, 1, 2, 3]) if out else 0):
        i = rng.choice([0, len(out) - 1, rng.randrange(len(out))])
        out[i] = rng.choice([sort_word(JOINT, rng.choice([1, 6400, 65535, rng.randint(1, 65535)])),
                             sort_word(rng.choice([PAD, AMPLIFIER]), rng.choice([rng.choice(TOO_LARGE), rng.randint(6401, 65535)]))])
    return out


def wrong_sorts(rng, n):
    """A second row for n parts with faults, 17 and 18 in any mixture; now and then the faults mend each other."""
    out = some_sorts(rng, n)
    for _ in range(rng.choice([1, 1, 1, 2, 3])):
        out = rng.choice([sorts_17, sorts_17, sorts_18])(rng, out)
    return out


def levels():
    """Calls by name, as (name, list, second row, least and greatest level by part). Names are as those of `boundaries`,
    with `levels` for levels. In place of these there is None where the call is refused, and at some large stations."""
    out = []

    def put(what, words, sorts, due=None):
        out.append(('levels, ' + what, words, sorts, due))

    def no(check, place, what, words, sorts):
        out.append(('refused %d %d, %s' % (check, place, what), words, sorts, None))

    def rising(what, n, cables, sorts):
        """Of a station whose ranks are as the numbers."""
        put(what, build(n, 0, n - 1, sorted(cables)), sorts, numbered(n, cables, sorts))

    three = [(0, 1), (1, 2), (0, 2)]
    triangle, joints = build(3, 0, 2, three), of_gains(0, 0, 0)
    put('triangle: joint, pad, amplifier', triangle, of_gains(0, -640, 1280), [0, 0, -640, -640, 640, 1280])
    put('triangle of joints', triangle, joints, 6 * [0])

    # Zero is positive zero: at the source, of a zero pad, of a pad behind an amplifier, either value, both.
    for sort, what in ((PAD, 'pad'), (AMPLIFIER, 'amplifier')):
        put('triangle of zero %ss' % what, triangle, 3 * [sort_word(sort)], 6 * [0])
        for p in range(3):
            put('triangle, part %d a zero %s' % (p, what), triangle, joints[:p] + [sort_word(sort)] + joints[p + 1:], 6 * [0])
    put('triangle, a zero pad behind a pad and an amplifier', triangle, of_gains(-64, 64) + [sort_word(PAD)], [-64, -64, 0, 0, -64, 0])
    put('triangle, a zero pad behind an amplifier and a pad', triangle, of_gains(64, -64) + [sort_word(PAD)], [64, 64, 0, 0, 0, 64])
    for k in (1, 64, 6400):
        for gains, due in (((k, -k, 0), [k, k, 0, 0, 0, k]), ((-k, k, 0), [-k, -k, 0, 0, -k, 0]), ((0, k, -k), [0, 0, k, k, -k, 0]),
                           ((0, -k, k), [0, 0, -k, -k, 0, k]), ((k, 0, -k), [k, k, k, k, 0, 0]), ((-k, 0, k), [-k, -k, -k, -k, 0, 0]),
                           ((0, -k, 0), [0, 0, -k, -k, -k, 0]), ((0, k, 0), [0, 0, k, k, 0, k]), ((k, k, k), [k, k, 2 * k, 2 * k, 2 * k, 3 * k]),
                           ((-k, -k, -k), [-k, -k, -2 * k, -2 * k, -3 * k, -2 * k])):
            put('triangle, gains of %d, %d and %d' % gains, triangle, of_gains(*gains), due)
    chain_4 = build(4, 0, 3, [(0, 1), (1, 2), (2, 3)])
    put('chain of 4, a pad and an amplifier in turn', chain_4, of_gains(-6400, 6400, -6400, 6400), [-6400, -6400, 0, 0, -6400, -6400, 0, 0])
    put('chain of 4, an amplifier and a pad in turn', chain_4, of_gains(6400, -6400, 6400, -6400), [6400, 6400, 0, 0, 6400, 6400, 0, 0])
    put('chain of 4, a quarter, a half and one dB', chain_4, of_gains(16, -32, 64, -48), [16, 16, -16, -16, 48, 48, 0, 0])
    put('ring of 4, two ways to 0', build(4, 0, 2, RING_OF_4), of_gains(0, 7, 0, -7), [0, 0, 7, 7, -7, 7, -7, -7])
    put('ring of 4, 0 by two ways', build(4, 0, 2, RING_OF_4), of_gains(-5, 5, 0, 5), [-5, -5, 0, 0, 0, 0, 0, 0])

    # Each part's gain is a power of two, so that a level shows the parts of its route.
    powers = of_gains(1, 2, 4, 8, 16)
    for s in range(3):
        for t in range(3):
            if s != t:
                a, b, c = 1 << s, 1 << 3 - s - t, 1 << t
                due = {s: [a, a], 3 - s - t: [a + b, a + b], t: [a + c, a + b + c]}
                put('triangle, s is %d and t is %d' % (s, t), build(3, s, t, three), powers[:3], [k for p in range(3) for k in due[p]])
    put('B', build(4, 0, 2, [(0, 1), (1, 2), (2, 3), (3, 0)]), powers[:4], [1, 1, 3, 3, 7, 13, 9, 9])
    # The order is 0, 3, 1, 2: a route climbs from 3 to 1.
    c = build(4, 0, 2, [(0, 1), (0, 3), (1, 3), (1, 2), (0, 2)])
    put('C', c, powers[:4], [1, 1, 3, 11, 5, 15, 9, 9])
    put('C, part 3 a pad', c, of_gains(1, 2, 4, -8), [1, 1, -5, 3, -1, 7, -7, -7])
    d = build(5, 0, 4, sorted(complete(5)[1]))
    put('D', d, powers, [1, 1, 3, 3, 5, 7, 9, 15, 17, 31])
    put('D, pads and amplifiers in turn', d, of_gains(0, -2, 4, -8, 16), [0, 0, -2, -2, 2, 4, -10, -4, 6, 20])
    put('D, pads', d, of_gains(-1, -2, -4, -8, -16), [-1, -1, -3, -3, -7, -5, -15, -9, -31, -17])
    # The order is 2, 0, 3, 1.
    put('chain of 4 against its numbers', build(4, 2, 1, [(3, 0), (1, 3), (0, 2)]), powers[:4], [5, 5, 15, 15, 4, 4, 13, 13])
    # The order is 4, 3, 0, 1, 2 and 4, 1, 3, 0, 2.
    put('ring of 5, s is 4 and t is 2', build(5, 4, 2, sorted(ring(5)[1])), powers, [17, 17, 19, 19, 23, 28, 24, 24, 16, 16])
    put('five parts, s is 4 and t is 2', build(5, 4, 2, [(4, 1), (4, 3), (3, 0), (1, 3), (0, 2), (1, 2)]), powers,
        [25, 27, 18, 18, 22, 31, 24, 26, 16, 16])

    # Cables between the same parts are routes of one level.
    for what, cables in (('line 0 again', three + [(1, 0)]), ('line 2 again', three + [(0, 2)]), ('each cable twice', 2 * three),
                         ('0-1 three times', three + [(0, 1), (1, 0)])):
        put('triangle, %s' % what, build(3, 0, 2, cables), of_gains(1, -2, 4), [1, 1, -1, -1, 3, 5])
    put('chain of 4 pairs', build(5, 0, 4, 2 * [(0, 1), (1, 2), (2, 3), (3, 4)]), of_gains(-1, -2, 4, -8, 16), [-1, -1, -3, -3, 1, 1, -7, -7, 9, 9])
    put('three cables and one in turn', build(5, 0, 4, triple_chain(5)[1]), powers, [1, 1, 3, 3, 7, 7, 15, 15, 31, 31])

    # Cut parts: a chain at either end of a triangle, and two triangles on part 2, whose four routes have four levels.
    put('a triangle between two cables', build(5, 0, 4, [(0, 1), (1, 2), (1, 3), (2, 3), (3, 4)]), of_gains(1, -2, -4, 8, -16),
        [1, 1, -1, -1, -5, -5, 3, 7, -13, -9])
    put('two triangles on part 2', build(5, 0, 4, three + [(2, 3), (3, 4), (2, 4)]), powers, [1, 1, 3, 3, 5, 7, 13, 15, 21, 31])

    # Two sides of a ring, t opposite s: one side is ranked first, and then the other from its far end.
    for n in (8, 9, 16):
        t = n // 2
        for what, left, right in (('', 5, 7), (', a pad on either side', -5, -7), (', one side of pads', -6400, 6400), (', one side of joints', 0, -1)):
            due = [level for p in range(t) for level in 2 * [left * p]] + sorted([left * (t - 1), right * (n - 1 - t)])
            due += [level for p in range(t + 1, n) for level in 2 * [right * (n - p)]]
            put('ring of %d, t is %d%s' % (n, t, what), build(n, 0, t, sorted(ring(n)[1])), of_gains(0, *(t - 1) * [left], 0, *(n - 1 - t) * [right]), due)

    # 17: every wrong kind, sort and spare bit; the first wrong word counts, behind the n-th word too.
    good = of_gains(0, -640, 1280)

    def changed(i, word, row=good):
        return row[:i] + [word] + row[i + 1:]

    for k in range(16):
        if k != 9:
            i = k % 3
            no(17, i, 'kind %d at word %d' % (k, i), triangle, changed(i, good[i] & 0x0fffffff | k << 28))
    for sort in range(3, 16):
        i = sort % 3
        no(17, i, 'sort %d at word %d' % (sort, i), triangle, changed(i, sort_word(sort)))
    for bit in range(16, 24):
        i = bit % 3
        no(17, i, 'bit %d at word %d' % (bit, i), triangle, changed(i, good[i] | 1 << bit))
    for i in range(3):
        for what, word in (('kind 8', 0x80000000), ('kind 11', 0xb0000000), ('sort 3', 0x93000000), ('sort 15', 0x9f000000), ('bits 23 to 16', 0x90ff0000),
                           ('no word of any kind', 0), ('all bits', 0xffffffff)):
            no(17, i, '%s alone at word %d' % (what, i), triangle, changed(i, word, joints))
        no(17, i, 'every word wrong from %d on' % i, triangle, good[:i] + (3 - i) * [0x90010000])
    no(17, 1, 'words 1 and 2 wrong', triangle, [good[0], sort_word(3), 0])
    no(17, 3, 'no second row', triangle, [])
    no(17, 3, 'one word', triangle, good[:1])
    no(17, 3, 'two words', triangle, good[:2])
    no(17, 3, 'four words', triangle, good + joints[:1])
    no(17, 3, 'six words', triangle, good + good)
    no(17, 3, '259 words', triangle, 259 * joints[:1])
    no(17, 0, 'one word, wrong', triangle, [0])
    no(17, 1, 'two words, the last wrong', triangle, [good[0], sort_word(4)])
    for i, word in ((3, 0), (3, sort_word(3)), (3, 0x90010000), (3, 0xffffffff), (4, 0x30000001), (5, sort_word(15)), (9, 0x90800000)):
        no(17, i, 'word %d behind the third is %08x' % (i, word), triangle, good + (i - 3) * joints[:1] + [word])
        no(17, i, 'word %d behind the third is %08x, others behind it' % (i, word), triangle, good + (i - 3) * joints[:1] + [word] + good)
    no(17, 1, 'word 1 and word 4 wrong', triangle, [good[0], 0, good[2], good[0], 0])
    no(17, 0, 'the list in place of the second row', triangle, triangle)
    no(17, 2, 'word 2 is a cable', triangle, changed(2, cable(1, 2)))

    # 18: a number above 6,400, or not 0 at a joint.
    for number in (6399, 6400):
        put('triangle, pads of %d' % number, triangle, of_gains(-number, -number, -number), [-number, -number] + 2 * [-2 * number] + [-3 * number, -2 * number])
        put('triangle, joints and an amplifier of %d' % number, triangle, of_gains(0, 0, number), [0, 0, 0, 0, number, number])
    for k, number in enumerate(TOO_LARGE):
        for sort in (PAD, AMPLIFIER):
            p = (k + sort) % 3
            no(18, p, 'sort %d with %d at part %d' % (sort, number, p), triangle, changed(p, sort_word(sort, number)))
    for k, number in enumerate((1, 2, 64, 255, 256, 4096, 6400, 6401, 32768, 65535)):
        no(18, k % 3, 'a joint with %d at part %d' % (number, k % 3), triangle, changed(k % 3, sort_word(JOINT, number)))
    no(18, 1, 'parts 1 and 2', triangle, [good[0], sort_word(JOINT, 1), sort_word(PAD, 6401)])
    no(18, 0, 'all three parts', triangle, [sort_word(PAD, 65535), sort_word(JOINT, 65535), sort_word(AMPLIFIER, 65535)])
    no(18, 3, 'the last part of 4', chain_4, of_gains(1, 2, 3) + [sort_word(AMPLIFIER, 6401)])

    # 17 before 18, wherever the words stand.
    for bad in (sort_word(PAD, 6401), sort_word(JOINT, 1)):
        no(17, 2, '17 at 2 before 18 at 0 with %08x' % bad, triangle, [bad, good[1], sort_word(3)])
        no(17, 3, 'a word too many before 18 with %08x' % bad, triangle, [bad] + good)
        no(17, 3, 'a word too few before 18 with %08x' % bad, triangle, [bad] + good[:1])
        no(17, 4, 'a wrong word behind before 18 with %08x' % bad, triangle, [bad] + good + [0])
        no(17, 3, 'behind the n-th word %08x' % bad, triangle, good + [bad])
    no(17, 0, 'sort 3 with 65535', triangle, changed(0, 0x9300ffff))
    no(17, 1, 'kind 8 with 65535', triangle, changed(1, 0x8100ffff))
    no(17, 2, 'bit 16 and all below', triangle, changed(2, 0x9101ffff))

    # Checks 1 to 10 come first, whatever the second row is.
    first = {}
    for name, words in boundaries():
        due = name.split(',')[0].split()
        if due[0] == 'refused':
            first.setdefault(int(due[1]), (int(due[2]), words))
    for check, (place, words) in sorted(first.items()):
        for what, sorts in (('a good row', good), ('no row', []), ('17', [0, 0, 0]), ('18', changed(0, sort_word(JOINT, 1))), ('a word too many', good + [0])):
            no(check, place, 'check %d with %s' % (check, what), words, sorts)
    no(10, 511, '10 of 512 parts before 17', build(512, 0, 1, sorted(hung_on_last(512)[1])), [])
    no(9, 511, '9 of 512 parts before 18', build(512, 0, 1, sorted(ring(511)[1])), 512 * [sort_word(JOINT, 1)])
    no(4, 513, '513 parts with 513 words', ring_list(513), 513 * joints[:1])

    # 256 to 512 parts. The greatest level that there may be is 512 times 6,400, which is 51,200 dB.
    for n in (256, 257, 511, 512):
        for k, what in ((6400, 'amplifiers'), (-6400, 'pads')):
            rising('chain of %d %s of 6400' % (n, what), n, chain(n)[1], of_gains(*n * [k]))
        rising('ring of %d, amplifiers of 6400' % n, n, ring(n)[1], of_gains(*n * [6400]))
    n, odd = 512, [p % 2 for p in range(512)]
    rising('chain of 512 joints', n, chain(n)[1], n * joints[:1])
    rising('chain of 512 amplifiers, one of 6399', n, chain(n)[1], of_gains(6399, *511 * [6400]))
    rising('chain of 256 amplifiers and 256 pads of 6400', n, chain(n)[1], of_gains(*256 * [6400], *256 * [-6400]))
    rising('chain of 256 pads and 256 amplifiers of 6399', n, chain(n)[1], of_gains(*256 * [-6399], *256 * [6399]))
    rising('chain of 512, an amplifier and a pad in turn', n, chain(n)[1], of_gains(*256 * [6400, -6400]))
    rising('chain of 512 amplifiers of 1', n, chain(n)[1], of_gains(*n * [1]))
    put('chain of 512 reversed, gains rise with the numbers', reversed_list(*chain(n)), of_gains(*(12 * p for p in range(n))),
        [level for p in range(n) for level in 2 * [sum(12 * q for q in range(p, n))]])
    rng = random.Random(8)

    def mixed():
        return of_gains(*(rng.randint(-6400, 6400) for _ in range(n)))

    number = rng.sample(range(n), n)
    due = {number[k]: 6400 * (k + 1) for k in range(n)}
    put('chain of 512 shuffled, amplifiers of 6400', build(n, number[0], number[-1], rng.sample([*zip(number, number[1:])], n - 1)), of_gains(*n * [6400]),
        [level for p in range(n) for level in 2 * [due[p]]])
    for what, (_, cables) in (('ladder', ladder(n)), ('grid', near_square(n)), ('next and next but one', second_neighbours(n)), ('triangles in a row', triangles(n)),
                              ('doubled chain', doubled(*chain(n))), ('chain of pairs', pair_chain(n)), ('pair ladder', pair_ladder(n // 2))):
        rising('512 parts: %s, amplifiers of 6400' % what, n, cables, of_gains(*n * [6400]))
        rising('512 parts: %s, pads of 6400 at odd parts' % what, n, cables, of_gains(*(-6400 * k for k in odd)))
        rising('512 parts: %s, any' % what, n, cables, mixed())
    for what, (_, cables) in (('ladder', ladder(n)), ('grid', near_square(n)), ('four-regular', four_regular(rng, n)), ('random', of_ears(rng, n)),
                              ('random, with repeated cables', repeated(rng, *of_ears(rng, n)))):
        words = listed(rng, n, cables, *rng.sample(range(n), 2))
        put('512 parts: %s shuffled, any' % what, words, mixed())
        put('512 parts: %s shuffled, amplifiers of 6400' % what, words, of_gains(*n * [6400]))
    put('512 parts: four-regular reversed, any', reversed_list(*four_regular(rng, n)), mixed())
    put('512 parts: rails, any', rails(n), mixed())

    # Second rows of many words.
    full, row = chain_list(n), of_gains(*n * [6400])
    for count in (0, 1, 255, 256, 511, 513, 768, 1024):
        no(17, 512, '512 parts with %d words' % count, full, 1024 * joints[:1] if count == 1024 else (row + row)[:count])
    no(17, 511, '512 parts, the last word of sort 3', full, row[:-1] + [sort_word(3)])
    no(17, 512, '512 parts, a wrong word behind', full, row + [0])
    no(17, 1023, '512 parts with 1024 words, the last wrong', full, row + row[:-1] + [0])
    no(17, 256, '512 parts, word 256 wrong, and 18 before it', full, changed(0, sort_word(PAD, 6401), changed(256, 0x90010000, row)))
    no(18, 511, '512 parts, the last a joint with 1', full, row[:-1] + [sort_word(JOINT, 1)])
    no(18, 256, '512 parts, 6401 at 256 and at 511', full, changed(256, sort_word(PAD, 6401), row[:-1] + [sort_word(AMPLIFIER, 6401)]))
    no(17, 257, '257 parts with one word', chain_list(257), joints[:1])
    no(17, 256, '256 parts with 257 words', chain_list(256), 257 * joints[:1])
    return out


def files():
    """(name, bytes, first line due) about the length of a file."""
    triangle = b''.join(w.to_bytes(4, 'big')
                        for w in build(3, 0, 2, [(0, 1), (1, 2), (0, 2)]))
    out = [('file of %d bytes' % k, triangle[:k],
            'broken file' if k % 4 else 'refused %d %d' % ((1, k // 4) if k < 8 else (3, 5)))
           for k in range(20)]
    out.append(('triangle', triangle, '40001002'))
    for k in (1, 2, 3):
        out.append(('triangle and %d bytes' % k, triangle + bytes(k), 'broken file'))
    out.append(('triangle and a word', triangle + bytes(4), 'refused 2 5'))
    full = b''.join(w.to_bytes(4, 'big') for w in
                    [head(3, 16382), ends(0, 2)] + [cable(0, 1), cable(1, 2)] * 8191)
    assert len(full) == 65536
    largest, last = (b''.join(w.to_bytes(4, 'big') for w in [head(n, 16382), ends(0, 2)] + 16382 * [cable(510, 511)])
                     for n in (512, 511))
    out += [('65532 bytes', full[:-4], 'refused 3 16384'),
            ('65535 bytes', full[:-1], 'broken file'),
            ('65536 bytes', full, 'refused 8 0'),
            ('65536 bytes, 512 parts', largest, 'refused 8 510'),
            ('65536 bytes, 511 parts', last, 'refused 5 2'),
            ('65537 bytes', full + b'0', 'file too large'),
            ('65540 bytes', full + full[:4], 'file too large'),
            ('a million bytes', bytes(1000000), 'file too large')]
    return out


def main(args):
    if len(args) not in (2, 3):
        sys.exit('lists.py COUNT SEED [N_MAX]')
    rng = random.Random(int(args[1]))
    n_max = int(args[2]) if len(args) == 3 else 40
    for _ in range(int(args[0])):
        print(' '.join('%08x' % w for w in any_list(rng, 3, n_max)))


if __name__ == '__main__':
    main(sys.argv[1:])
