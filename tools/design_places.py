#!/usr/bin/env python3
"""Counts places in the crates' src/ that are written by hand where today's Rattle has a form for them.

    python3 tools/design_places.py [COMMIT]      of a commit, or of the files as they stand

docs/DESIGN-PASS.md says what each number means.
"""
import collections
import re
import subprocess
import sys

SOURCE = re.compile(r"crates/[^/]+/src/.*\.rt$")


def git(*args):
    return subprocess.run(("git",) + args, check=True, capture_output=True, text=True).stdout


def sources(commit):
    """The name and the text of each source file."""
    if commit is None:
        for name in git("ls-files", "crates").split("\n"):
            if SOURCE.match(name):
                yield name, open(name, encoding="utf-8").read()
        return
    for name in git("ls-tree", "-r", "--name-only", commit, "crates").split("\n"):
        if SOURCE.match(name):
            yield name, git("show", f"{commit}:{name}")


def functions(text):
    """The name, the head and the body of each function."""
    pattern = r'^( *)(?:pub(?:\(\w+\))? |extern "C" )*fn (\w+)(.*?)^\1\{\n(.*?)^\1\}'
    for found in re.finditer(pattern, text, re.S | re.M):
        yield found.group(2), found.group(3), found.group(4)


def enums(text):
    """Enums of two variants, at least one of which holds something: the shape of Option and Result."""
    for found in re.finditer(r"^(?:pub )?enum (\w+)[^{]*\{\n(.*?)^\}", text, re.S | re.M):
        variants = [line for line in found.group(2).split("\n") if re.match(r"    [A-Z]", line)]
        if len(variants) == 2 and any(re.search(r"[({]", line) for line in variants):
            yield found.group(1)


FLAG = r"\b(?:is|on|turns|below|passes|given): (?:bool|u32)"
KIND = r"const [A-Z_]*(?:_KIND|_HIT|JOINT|PAD|AMPLIFIER): u32"
REFUSAL = r"check: (?:[0-9]+|u8)"
PREDICATE = r"\b([A-Z]\w+)\b"


def facts(found):
    """Facts that the `requires` of three or more functions state, with how many do."""
    stated = collections.defaultdict(set)
    for name, text in found:
        for function, head, _ in functions(text):
            for clause in re.findall(r"requires(?: \w+)? \{(.*?)\}\s*\n", head, re.S):
                for word in set(re.findall(PREDICATE, clause)) - {"None", "Nothing", "Some"}:
                    stated[word].add((name, function))
                for word in ("_places", "check13", "most_parts", "x < 4096", "most_discount"):
                    if word in clause:
                        stated[word].add((name, function))
    return {word: len(where) for word, where in stated.items() if len(where) >= 3}


def main():
    found = list(sources(sys.argv[1] if len(sys.argv) > 1 else None))
    texts = "\n".join(text for _, text in found)
    shaped = [enum for _, text in found for enum in enums(text)]
    print("1  enums of the shape of Option or Result:", len(shaped), " ".join(sorted(shaped)))
    print("1  flags with a value beside:", len(re.findall(FLAG, texts)))
    print("1  constants for kinds:", len(re.findall(KIND, texts)))
    print("1  refusals by number:", len(re.findall(REFUSAL, texts)))
    print("3  while loops:", len(re.findall(r"^\s*while ", texts, re.M)))
    print("3  for loops:", len(re.findall(r"^\s*for ", texts, re.M)))
    print("4  types that derive Clone and Copy alone:", len(re.findall(r"derive\(Clone, Copy\)\]", texts)))
    print("4  comparisons of ranks by number:", len(re.findall(r"\.number\(\) (?:==|<|<=|!=)", texts)))
    stated = facts(found)
    print("5  facts in three or more contracts:", len(stated), "in all", sum(stated.values()), "times")
    for word, times in sorted(stated.items(), key=lambda item: -item[1]):
        print("     ", times, word)
    long_heads = [
        f"{name}: {function}"
        for name, text in found
        for function, head, _ in functions(text)
        if len(re.findall(r"\w+: ", head.split("requires")[0].split("ensures")[0])) >= 7
    ]
    print("5  functions of seven parameters and more:", len(long_heads))
    print("6  places in a row that are passed as numbers:", len(re.findall(r"\bat: usize", texts)))


main()
