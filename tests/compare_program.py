#!/usr/bin/env python3
"""Runs the sheet program and reference.py on fresh random lists and on files of every length, and compares what they print.

  compare_program.py [COUNT [SEED]]     COUNT lists (default 1000), and a fiftieth as many of 256 to 512 parts; the program is
                                        crates/sheet/out/sheet, made by `rt run` in crates/sheet

It is no part of the gate."""
import os
import random
import subprocess
import sys

import lists
import reference

PROGRAM = os.path.join(os.path.dirname(os.path.dirname(os.path.abspath(__file__))), 'crates', 'sheet', 'out', 'sheet')


def main(a):
    count = int(a[0]) if a else 1000
    rng = random.Random(int(a[1]) if len(a) > 1 else 1)
    inputs = [data for _, data, _ in lists.files()]
    inputs += [reference.file_of(words) for _, words in lists.boundaries()]
    for k in range(count):
        words = (lists.noise(rng) if k % 5 == 4 else lists.any_list(rng, 3, 40) if k % 5 < 3 else
                 lists.drawn(rng, 3, 24) if k % 50 else lists.about_limit(rng))
        inputs.append(reference.file_of(words))
    inputs += [reference.file_of(lists.large(rng)) for _ in range(count // 50)]
    tally, wrong = {}, 0
    for data in inputs:
        due = '\n'.join(reference.printed(data)) + '\n'
        got = subprocess.run([PROGRAM], input=data, stdout=subprocess.PIPE).stdout.decode()
        name = ' '.join(due.split('\n')[0].split()[:2]) if due[:1] in 'rbf' else 'sheet'
        tally[name] = tally.get(name, 0) + 1
        if got != due:
            wrong += 1
            if wrong <= 3:
                print('differs:', data[:200].hex(), due[:100].split('\n'), got[:100].split('\n'))
    for name in sorted(tally):
        print('%6d %s' % (tally[name], name))
    print('%d lists, %d differ' % (len(inputs), wrong))
    return wrong > 0


sys.exit(main(sys.argv[1:]))
