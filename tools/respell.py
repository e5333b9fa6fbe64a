#!/usr/bin/env python3
"""Spells this repository's own definitions and lemmas as today's Rattle does, and renames the crate that is called as a library of the kit is.

usage: python3 tools/respell.py            at the top of the repository, once, after the kit's port.py

Words with dashes that a file of specs/ or proofs/ declares or binds become words with underscores, and those that begin with a
capital join their words: `read-row` is `read_row`, `Reads-back` is `ReadsBack`. Names of the library, and the names of goals, stay.
It turns proof files, definitions, and the clauses of the sources, and says on a line that begins 'meets:' where a new name was there before.
Functions of src/, strings, inputs and outputs keep their names. Pages of docs/ are turned in their code spans alone. Then `rt fmt` lays the crates out.
"""
import collections
import os
import re
import subprocess
import sys

RENAMED = {"log": "duty_log"}
# Lemmas whose new name would be that of the function they are about.
LEMMAS = {"bit-and": "bit-bit_and", "bit-or": "bit-bit_or"}
TOKEN = re.compile(r'[^\s(){}.;,@"«»`]+')
USE = re.compile(r"^(?:ghost )?use (\S+?)(?:\.\{([^}]*)\})?(?: as \S+?)?;?$", re.M)
GOAL = re.compile(r"^(?:abbrev )?pub (\S+) : goal\.", re.M)


def files(*endings):
    for folder, dirs, names in os.walk("crates"):
        dirs[:] = sorted(d for d in dirs if d != "out")
        for name in sorted(names):
            if name.endswith(endings):
                yield os.path.join(folder, name)


def read(path):
    with open(path, encoding="utf-8") as f:
        return f.read()


def write(path, text):
    with open(path, "w", encoding="utf-8") as f:
        f.write(text)


def blank(found):
    return " " * len(found[0])


def code(text):
    """The text of an antt file without comments and strings, of the same length."""
    text = re.sub(r"(?m)(?:(?<=\s)|^)--.*$", blank, text)
    return re.sub(r'"(?:[^"\\\n]|\\.)*"', blank, text)


def imported(text, crates):
    """The names that a file takes from libraries, and the names of goals that it has or takes."""
    names = set(GOAL.findall(text))
    for path, items in USE.findall(text):
        step = path.split(".")
        made = len(step) > 4 and step[-1] in ("Goals", "Given")
        own = step[0] == "Rattle" and step[1] in crates and not made
        if not own:
            for item in items.split(","):
                names.update(part.strip() for part in item.split(" as "))
    return names


def own_names(crates):
    found = set()
    for path in files(".antt"):
        text = code(read(path))
        others = imported(text, crates)
        body = USE.sub(blank, text)
        for word in TOKEN.finditer(body):
            name = word[0]
            if "-" in name and name[0].isalpha() and name not in others and body[word.start() - 1 : word.start()] != ".":
                found.add(name)
    # the sources' own names for what they import
    for path in files(".rt"):
        for item in re.findall(r"(?m)^ghost use \S+\{([^}]*)\};", read(path)):
            found.update(re.findall(r" as ([a-z]+-[a-z-]+)", item))
    return found


def new_name(name):
    if name in LEMMAS:
        return LEMMAS[name]
    parts = name.split("-")
    if name[0].isupper():
        return "".join(part[:1].upper() + part[1:] for part in parts)
    return re.sub(r"(?<=[a-z0-9])[A-Z]", lambda m: "_" + m[0].lower(), "_".join(parts))


def turned(text, spelled, kept=frozenset()):
    return TOKEN.sub(lambda m: m[0] if m[0] in kept else spelled.get(m[0], m[0]), text)


def turn_antt(text, spelled, crates):
    """Code and comments turn; strings, the library's names and the names of goals stay."""
    kept = imported(code(text), crates)
    parts = re.split(r'("(?:[^"\\\n]|\\.)*")', text)
    return "".join(part if k % 2 else turned(part, spelled, kept) for k, part in enumerate(parts))


def turn_source(text, spelled):
    """Clauses, ghost items and their imports turn: nothing else has a name with a dash. Strings and characters stay."""
    parts = re.split(r"""(b?"(?:[^"\\\n]|\\.)*"|b?'(?:\\.|[^'\\])')""", text)
    return "".join(part if k % 2 else turned(part, spelled) for k, part in enumerate(parts))


def turn_spans(text, spelled):
    """A span that has a slash is a path or a command, and stays."""
    return re.sub(r"`[^`/\n]+`", lambda m: "`" + turned(m[0][1:-1], spelled) + "`", text)


def rename_crates():
    for old, new in RENAMED.items():
        if not os.path.isdir(os.path.join("crates", old)):
            continue
        os.rename(os.path.join("crates", old), os.path.join("crates", new))
        write("crates.txt", re.sub(rf"\b{old}\b", new, read("crates.txt")))
        for path in files(".antt", ".rt"):
            text = read(path)
            text = re.sub(rf"\bRattle\.{old}\.", f"Rattle.{new}.", text)
            if path.endswith(".rt"):
                text = re.sub(rf"(?<![\w:]){old}::", f"{new}::", text)
            write(path, text)


def main():
    crates = set(os.listdir("crates"))
    names = own_names(crates)
    spelled = {name: new_name(name) for name in names}
    there = collections.defaultdict(set)
    for path in files(".antt"):
        for word in TOKEN.findall(code(read(path))):
            there[word].add(path)
    for new, count in collections.Counter(spelled.values()).items():
        if count > 1 or new in there:
            old = sorted(n for n in names if spelled[n] == new)
            print(f"meets: {' '.join(old)} -> {new}, in {' '.join(sorted(there[new])[:4])}")
    for path in files(".antt"):
        write(path, turn_antt(read(path), spelled, crates))
    for path in files(".rt"):
        write(path, turn_source(read(path), spelled))
    pages = ["README.md"] + [os.path.join("docs", p) for p in sorted(os.listdir("docs")) if p.endswith(".md")]
    for path in pages:
        write(path, turn_spans(read(path), spelled))
    rename_crates()
    for crate in sorted(os.listdir("crates")):
        subprocess.run(["rt", "fmt"], cwd=os.path.join("crates", crate), stdout=subprocess.DEVNULL, check=False)
    print(f"respell: {len(names)} names")


if __name__ == "__main__":
    if not os.path.isdir("crates"):
        sys.exit("respell: run it at the top of the repository")
    main()
