#!/usr/bin/env python3
"""Looks up the names of docs/TRACEABILITY.md in the files that stand beside them, and the paths under crates/ that documents name.

  check_names.py     prints each miss with its line and last `N names, M paths, all found`; with a miss it exits with 1

A row there has a sentence, names and files. Every name in backticks must be declared in one of the row's files: in antt as a
definition, law, record, field or constructor, in Rattle as a function, type, constant, field or variant, or as the edit that the
file is. A file is a path under crates/, with or without its ending; a name with a `/` in it is a file of the repository.
In README.md, docs/*.md and include/dovranis.h every path of the form crates/.. or CRATE/specs/.., and with proofs, src or must-fail
for specs, must exist, but for what rt makes in out/; a `*` stands for any name. The notes in docs/changes are of their day. It is no part of the gate."""
import functools
import glob
import os
import re
import sys

TOP = os.path.dirname(os.path.dirname(os.path.abspath(__file__)))
TABLE = 'docs/TRACEABILITY.md'

ANTT = re.compile(r'^ *(?:(?:abbrev|unfoldable|opaque) )?(?:pub )?(?:(?:record|data) (\S+)|(\S+) :(?: |$))', re.M)
RATTLE = re.compile(r'\b(?:fn|struct|enum|const|type|mod) (\w+)')
BODY = re.compile(r'^(?:pub )?(?:struct|enum) \w+ \{\n(.*?)^\}', re.M | re.S)
MEMBER = re.compile(r'^    (?:pub )?(\w+)', re.M)
PATH = re.compile(r'(?:crates/|(?<![\w/.*-])[\w*]+/(?:specs|proofs|src|must-fail)\b)[\w/.*-]*')
TICKED = re.compile(r'`([^`]+)`')


def files(path):
    """What a path under crates/ names."""
    path = path.removeprefix('crates/')
    return [f for end in ('', '.antt', '.rt', '.edit') for f in glob.glob(os.path.join(TOP, 'crates', path + end))]


@functools.cache
def declared(file):
    name, end = os.path.splitext(os.path.basename(file))
    if end not in ('.antt', '.rt'):
        return {name}
    with open(file, encoding='utf-8') as f:
        text = f.read()
    if end == '.antt':
        return {a or b for a, b in ANTT.findall(text)}
    return set(RATTLE.findall(text)) | {m for body in BODY.findall(text) for m in MEMBER.findall(body)}


def row(line):
    """The names and the paths of a table's row, and those of the names that are missing."""
    _, named, beside = line.strip().strip('|').split('|')
    names, paths = TICKED.findall(named), TICKED.findall(beside)
    there = {n for p in paths for f in files(p) for n in declared(f)}
    return names, paths, [n for n in names if n not in there and not ('/' in n and os.path.exists(os.path.join(TOP, n)))]


def main():
    names = paths = 0
    misses = []
    documents = ['README.md', *sorted(glob.glob('docs/*.md', root_dir=TOP)), 'include/dovranis.h']
    for document in documents:
        with open(os.path.join(TOP, document), encoding='utf-8') as f:
            lines = f.read().split('\n')
        for number, line in enumerate(lines, 1):
            here = [p.rstrip('.') for p in PATH.findall(line) if '/out/' not in p]
            if document == TABLE and line.startswith('| ') and line.count('|') != 4:
                misses.append((document, number, 'not a row of three cells'))
            elif document == TABLE and line.startswith('| '):
                named, here, missing = row(line)
                names += len(named)
                misses += [(document, number, 'no `%s` in %s' % (n, ', '.join(here) or 'any file')) for n in missing]
            paths += len(here)
            misses += [(document, number, 'no file ' + p) for p in here if not files(p)]
    for miss in misses:
        print('%s:%d: %s' % miss)
    print('%d names, %d paths, %s' % (names, paths, '%d missing' % len(misses) if misses else 'all found'))
    return 1 if misses else 0


if __name__ == '__main__':
    sys.exit(main())
