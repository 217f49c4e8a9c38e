#!/usr/bin/env python3
"""Brings the repository's own definitions and lemmas to one spelling: words in snake case, types and modules in camel case.

usage: tools/snake_names.py [FOLDER]

Run once, at the top of the repository or on FOLDER, behind the kit's port.py and before any edit by hand. A dash stays only between the name of
a definition and what a lemma says of it, as in `inked-append`; between words it becomes an underscore. Names of src/, of the toolchain's library and
of goals stay. A name that would fall together with another keeps its dash, or gets the end `_lem`. Files are rewritten in place: .antt, .rt and
.edit below crates/, and what README.md and docs/ have between back quotes.
"""
import collections
import glob
import os
import re
import sys

WORD = r"[^\s(){}.;,@\"«»\[\]\\:`]+"
HEAD = re.compile(r"(?m)^[ \t]*((?:pub |abbrev |unfoldable |record |data |ruleset )*)(" + WORD + r")(?=\s*(?::|\(|\{|=))")
IMPORT = re.compile(r"(?m)^\s*(?:pub )?(?:ghost )?use (\S+?)\.\{([^}]*)\}")
NOT_NAMES = {"use", "module", "where", "in", "let", "mod", "open", "rw", "simp", "elim", "unfolding", "as", "pub", "abbrev", "record", "data", "ruleset"}
FIELDS = {"by_values"}
TOKENS = re.compile(r"\"(?:[^\"\\\n]|\\.)*\"|" + WORD)


def read(path):
    with open(path, encoding="utf-8") as file:
        return file.read()


def below(top, end):
    paths = glob.glob(os.path.join(glob.escape(top), "crates/**/*" + end), recursive=True)
    return sorted(path for path in paths if "/out/" not in path)


def declared(top):
    """The names that the .antt files declare: in specs/, and in proofs/ but for goals, invariants and the theorems of functions."""
    defined, proved = set(), set()
    for path in below(top, ".antt"):
        text = re.sub(r"--.*", "", read(path))
        for found in HEAD.finditer(text):
            marks, name = found.groups()
            rest = text[found.end() : found.end() + 80].lstrip()
            if name in NOT_NAMES or not re.search(r"[A-Za-z]", name) or not (rest.startswith((":", "(", "{")) or "ruleset" in marks):
                continue
            if rest.startswith((": tie.", ": {M : Type 1} → statement")) or name.endswith(("-spec", "_spec")):
                continue
            (defined if "/specs/" in path else proved).add(name)
    return defined, proved


def snake(part):
    """A part without dashes, in snake case, where it does not begin with a capital."""
    return part if not part[:1].islower() else re.sub(r"(?<=[a-z0-9])([A-Z])", lambda it: "_" + it.group(1).lower(), part)


def turned(name, defined):
    parts = [snake(part) for part in name.split("-")]
    for i in range(1, len(parts)):
        if "_".join(parts[:i]) in defined and i < len(parts):
            return "_".join(parts[:i]) + "-" + "_".join(parts[i:])
    return "_".join(parts)


def renamings(top):
    defined, proved = declared(top)
    words = {turned(name, set()) for name in defined}
    every = sorted(defined | proved, key=lambda name: (name not in defined, "-" in name, name))
    new, taken = {}, collections.defaultdict(set)
    for name in every:
        if re.fullmatch(r"[A-Za-z0-9]+[-_]?[\d]+", name) and "-" in name:
            taken[name].add(name)
            continue
        to = turned(name, words)
        if taken[to] and name not in taken[to]:
            kept = "-".join(snake(part) for part in name.split("-"))
            to = kept if not taken[kept] else to + "_lem"
            print(f"falls together: {name} -> {to}, beside {sorted(taken[turned(name, words)])}")
        taken[to].add(name)
        if to != name:
            new[name] = to
    return new


def from_library(text, crates):
    names = set()
    for path, listed in IMPORT.findall(text):
        if not (path.startswith("Rattle.") and path.split(".")[1] in crates):
            names.update(re.findall(WORD, listed))
    return names


def apply(text, new, keep, comment):
    """The text with the new names. A plain word is a lemma's only in a proof, and never behind a point, where it is a function's or a field."""
    def one(found):
        word = found.group()
        plain = re.fullmatch(r"[a-z0-9_]+", word)
        if word in keep or (plain and (comment != "-- " or (text_before(found).endswith(".") and word not in FIELDS))):
            return word
        return new.get(word, word)

    def text_before(found):
        return found.string[: found.start()]

    camel = {name: to for name, to in new.items() if re.search("[A-Z]", name)}
    lines = []
    for line in text.split("\n"):
        code, mark, said = line.partition(comment) if not line.lstrip().startswith(comment) else ("", comment, line.lstrip()[len(comment) :])
        indent = line[: len(line) - len(line.lstrip())] if not code and mark else ""
        code = TOKENS.sub(one, code)
        said = re.sub(WORD, lambda it: camel.get(it.group(), it.group()), said)
        lines.append(indent + code + mark + said)
    return "\n".join(lines)


def in_page(word, new, names):
    """A name between back quotes of a page: pages were left as they were by port.py, so a name that it turned is turned here too."""
    if re.fullmatch(r"[a-z0-9_]+", word):
        return word
    turns = [new.get(word), turned(word, set()), turned(word, names)]
    return next((to for to in turns if to in names), word)


def write(path, text, before):
    if text != before:
        with open(path, "w", encoding="utf-8") as file:
            file.write(text)


def main():
    top = sys.argv[1] if len(sys.argv) > 1 else "."
    crates = set(os.listdir(os.path.join(top, "crates")))
    new = renamings(top)
    for end, comment in ((".antt", "-- "), (".rt", "// ")):
        for path in below(top, end):
            text = read(path)
            write(path, apply(text, new, from_library(text, crates), comment), text)
    for path in below(top, ".edit"):
        text = read(path)
        write(path, apply(text, new, set(), "\0"), text)
    names = set().union(*declared(top))
    for path in [os.path.join(top, "README.md"), *glob.glob(os.path.join(glob.escape(top), "docs/**/*.md"), recursive=True)]:
        text = read(path)
        told = re.sub(r"`[^`\n]+`", lambda it: re.sub(WORD, lambda word: in_page(word.group(), new, names), it.group()), text)
        write(path, told, text)
    print(f"{len(new)} names turned")


if __name__ == "__main__":
    main()
