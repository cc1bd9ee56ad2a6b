#!/usr/bin/env python3
"""Brings the names of definitions, lemmas, fields and constructors to snake case.

usage: tools/snake_names.py [--list]

Run at the top of the repository. A name that a file of specs/ or proofs/ declares and that has a dash or a capital inside is respelled: each capital
becomes an underscore and its small letter, each dash an underscore. A type keeps its capital, and the dash that joins it to a name. A lemma that would get its definition's name ends in _lem. Names that a file
takes from the kit's libraries stay, and so do the names that a proof gives to generated goals. Turned are .antt and .rt files, whose code has such
names in clauses alone, must-fail edits, and code spans in Markdown. --list prints the table and the names that fall together, and writes nothing.
"""

import collections
import os
import re
import subprocess
import sys

WORD = re.compile(r'[^\s(){}.;,@"«»⟨⟩⟦⟧⌜⌝]+')
SPOKEN = re.compile(r"[A-Za-z0-9_'₀-₉-]*[A-Za-z0-9_'₀-₉]")
SPAN = re.compile(r"`[^`\n]+`")
FILE = re.compile(r"examples/|\.(?:txt|sheet|svg|py|c|h)\b")
HEAD = re.compile(r"^(?:(?:pub|abbrev|unfoldable|inline|data|record|ruleset|private|irreducible) )*([^\s(){}.;,@\"]+)(?: :|$| \()")
FIELD = re.compile(r"^\s+(?:(?:pub|abbrev|unfoldable|inline|data|record) )*([^\s(){}.;,@\"]+) :")
USE = re.compile(r"\buse ([^;{\n]+)\.\{([^}]*)\}", re.S)
# lemmas that stand in snake case already and whose definition takes that name
LEMMAS = {n: n + "_lem" for n in ("in_place", "same_parts", "same_spot", "sent_back", "too_large")}
KEYWORDS = {"let", "in", "where", "use", "mod", "pub", "abbrev", "unfoldable", "data", "record", "do", "rw", "simp", "omega", "grind", "search", "elim", "infixl", "infixr", "infix", "ruleset", "unfolding"}


def snake(name):
    if name[:1].isupper():
        head, dash, rest = name.partition("-")
        return head + dash + (snake(rest) if rest else "")
    name = re.sub(r"(?<=[a-z0-9_₀-₉])([A-Z])(?=[a-z0-9_-]|$)", lambda m: "_" + m.group(1).lower(), name)
    name = re.sub(r"([A-Z]+)", lambda m: "_" + m.group(1).lower(), name)
    return re.sub(r"_+", "_", name.replace("-", "_"))


def files(root, *ends):
    for folder, dirs, names in os.walk(root):
        dirs[:] = sorted(d for d in dirs if d not in ("out", ".git"))
        for n in sorted(names):
            if n.endswith(ends):
                yield os.path.join(folder, n)


def read(path):
    with open(path, encoding="utf-8") as f:
        return f.read()


def write(path, text):
    with open(path, "w", encoding="utf-8") as f:
        f.write(text)


def spoken(word, table, every):
    """A name in a code span of a page: one of the table, or one that has its snake case in the repository."""
    return table.get(word) or (snake(word) if own_name(word) and snake(word) in every else word)


def without_comments(text):
    return re.sub(r"(?m)(?<![^\s(){}.;,@\"])--.*$", "", text)


def own_name(name):
    return not name[:1].isdigit() and name not in KEYWORDS and "◌" not in name and re.search(r"[A-Z-]", name) and name != snake(name)


def declared(root):
    """The names that the repository declares, and those that it takes from elsewhere."""
    ours, others, every = collections.defaultdict(set), set(), set()
    for p in files(os.path.join(root, "crates"), ".antt"):
        text = without_comments(read(p))
        goals = set(re.findall(r"(?m)^(?:pub |abbrev )*(\S+) :\s+(?:tie|goal)\.", text))
        for line in text.split("\n"):
            m = HEAD.match(line) or FIELD.match(line)
            if m and m.group(1) not in goals:
                every.add(m.group(1))
                if own_name(m.group(1)):
                    ours[m.group(1)].add(p)
        for module, names in USE.findall(text):
            if not module.startswith("Rattle.") or module.startswith(("Rattle.std", "Rattle.core", "Rattle.io", "Rattle.libc")):
                others.update(n.split(" as ")[0].strip() for n in names.split(","))
    for p in files(os.path.join(root, "crates"), ".rt"):
        for module, names in USE.findall(read(p)):
            if not module.startswith("Rattle.") or module.startswith(("Rattle.std", "Rattle.core", "Rattle.io", "Rattle.libc")):
                others.update(n.split(" as ")[0].strip() for n in names.split(","))
    return ours, others, every


def turn_words(text, table):
    return WORD.sub(lambda m: table.get(m.group(0), m.group(0)), text)


def turn_comment(text, table, here):
    def word(m):
        w = m.group(0)
        return table[w] if w in table and ("-" not in w or w in here) else w

    def span(m):
        return SPOKEN.sub(lambda n: table.get(n.group(0), n.group(0)), m.group(0))

    parts, at = [], 0
    for m in SPAN.finditer(text):
        parts += [SPOKEN.sub(word, text[at : m.start()]), span(m)]
        at = m.end()
    return "".join(parts) + SPOKEN.sub(word, text[at:])


def turn_code(text, table, mark):
    """Code by words, what stands behind the comment's mark by spoken words."""
    here = set(WORD.findall(text))
    lines = []
    for line in text.split("\n"):
        m = re.search(r"(?:(?<=\s)|^)" + re.escape(mark) + r"(?=\s|$)", line)
        code, rest = (line[: m.start()], line[m.start() :]) if m else (line, "")
        lines.append(turn_words(code, table) + turn_comment(rest, table, here))
    return "\n".join(lines)


def turn_rt(text, table):
    parts, at = [], 0
    for m in re.finditer(r'"(?:\\.|[^"\\])*"', text):
        before = text[at : m.start()]
        if "//" in before.rsplit("\n", 1)[-1]:
            continue
        parts += [turn_code(before, table, "//"), m.group(0)]
        at = m.end()
    return "".join(parts) + turn_code(text[at:], table, "//")


def main(argv):
    root = os.getcwd()
    ours, others, every = declared(root)
    table = {n: snake(n) for n in ours if n not in others}
    defined = {snake(n) for n in table if "-" not in n and n[:1].islower()}
    for n in table:
        if "-" in n and n[:1].islower() and (snake(n) in defined or snake(n) in every):
            table[n] = snake(n) + "_lem"
    table |= LEMMAS
    groups = collections.defaultdict(set)
    for old, new in table.items():
        groups[new].add(old)
        if new in every or new in others:
            groups[new].add(new)
    if "--list" in argv:
        for old, new in sorted(table.items()):
            print(old, new)
        for new, olds in sorted(groups.items()):
            if len(olds) > 1:
                print("together:", new, "<-", ", ".join(f"{o} ({len(ours.get(o, ()))})" for o in sorted(olds)))
        print("kept:", ", ".join(sorted(n for n in ours if n in others)))
        return 0
    for p in files(os.path.join(root, "crates"), ".antt", ".rt", ".edit"):
        text = read(p)
        new = turn_rt(text, table) if p.endswith(".rt") else turn_code(text, table, "--")
        if new != text:
            write(p, new)
    for p in files(root, ".md"):
        text = read(p)
        new = SPAN.sub(lambda m: m.group(0) if FILE.search(m.group(0)) else SPOKEN.sub(lambda n: spoken(n.group(0), table, every), m.group(0)), text)
        if new != text:
            write(p, new)
    for crate in sorted(os.listdir(os.path.join(root, "crates"))):
        subprocess.run(["rt", "fmt"], cwd=os.path.join(root, "crates", crate), stdout=subprocess.DEVNULL, check=True)
    return 0


if __name__ == "__main__":
    raise SystemExit(main(sys.argv[1:]))
