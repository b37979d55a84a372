#!/usr/bin/env python3
"""Brings this repository's own definitions and lemmas to today's spelling: snake case for all but types and modules.

usage: tools/snake_names.py [--list]     at the top, once, after port.py

A name is renamed where it has a dash or a capital behind a small letter, stands in code of a .antt or .rt file, and is
no name of the kit. What Rattle makes (what stands behind a dot and is no field of ours) keeps its name. In comments,
README.md and docs/ a name is renamed in backquotes. --list prints the names, old and new, and writes nothing.
"""
import os
import re
import sys

KIT = "/opt/rattle/rattle"
# A module of this name is one that Rattle makes.
MODULES = {"independence": ("Contracts", "EntryContracts")}
# A lemma that would have its function's name gets `_lem`. These five have port.py's spelling already.
LEMMAS = ["digits_of", "held_in", "pattern_number", "row_number", "step_by"]
# A field has the plain name.
OTHERS = {"wellFormed": "is_well_formed"}
WORD = re.compile(r"[^\s(){}\[\];,.\"|:@«»`&]+")
TURN = re.compile(r"[a-z⊞⊟⊠⊘][\w'⊞⊟⊠⊘-]*")
FIELD = re.compile(r"^\s+(?:pub )?([^\s:(){}]+)\s+:\s", re.M)
RECORD = re.compile(r"^( *)(?:pub )?(?:record|data)\b.*\n((?:\1 .*\n|\s*--.*\n|\n)+)", re.M)
COMMENT = {".antt": "--", ".rt": "//"}


def own_files(root):
    for folder, dirs, names in os.walk(os.path.join(root, "crates")):
        dirs[:] = sorted(d for d in dirs if d not in ("out", "data"))
        for name in sorted(names):
            if name.endswith((".antt", ".rt")):
                yield os.path.join(folder, name)


def read(path):
    with open(path, encoding="utf-8") as file:
        return file.read()


def halves(line, path):
    """A line's code and its comment."""
    mark = COMMENT[os.path.splitext(path)[1]]
    at = line.find(mark)
    while at > 0 and path.endswith(".antt") and line[at - 1] not in " \t":
        at = line.find(mark, at + 1)
    return (line, "") if at < 0 else (line[:at], line[at:])


def words(code):
    """Each word of the code, with what stands before it."""
    code = re.sub(r'"(?:[^"\\]|\\.)*"', lambda m: '"' + " " * (len(m[0]) - 2) + '"', code)
    for m in WORD.finditer(code):
        yield m[0], code[m.start() - 1] if m.start() else " "


def kit_names():
    found = set()
    for folder, dirs, names in os.walk(KIT):
        for name in names:
            if name.endswith(".antt"):
                for line in read(os.path.join(folder, name)).splitlines():
                    found.update(word for word, _ in words(line))
    return found


def snake(name):
    name = re.sub(r"(?<=[a-z0-9])([A-Z])", r"_\1", name).lower().replace("-", "_")
    return re.sub(r"__+", "_", name)


def to_rename(root):
    kit = kit_names()
    fields, found, others = set(), set(), set()
    for path in own_files(root):
        text = read(path)
        if path.endswith(".antt"):
            for record in RECORD.finditer(text):
                fields.update(FIELD.findall(record[2]))
    for path in own_files(root):
        for line in read(path).splitlines():
            code, _ = halves(line, path)
            for word, before in words(code):
                others.add(word)
                if before == "." and word not in fields:
                    continue
                if TURN.fullmatch(word) and re.search(r"[A-Z-]", word[1:]) and word not in kit and not re.match(r"b'.'$", word):
                    found.add(word)
    names = {word: OTHERS.get(word) or snake(word) for word in found}
    functions = {new for old, new in names.items() if "-" not in old}
    for old, new in names.items():
        if "-" in old and (new in functions or new in others):
            names[old] = new + "_lem"
    names.update({word: word + "_lem" for word in LEMMAS})
    return names, others, fields, kit


def turned(text, names, fields):
    """The code with its names turned."""
    out, at = [], 0
    for m in WORD.finditer(text):
        word = m[0]
        if word not in names or (m.start() and text[m.start() - 1] == "." and word not in fields):
            continue
        quotes = re.sub(r"\\.", "", text[: m.start()]).count('"')
        if quotes % 2:
            continue
        out += [text[at : m.start()], names[word]]
        at = m.end()
    return "".join(out) + text[at:]


def in_backquotes(text, names):
    def one(m):
        return "`" + WORD.sub(lambda w: names.get(w[0], w[0]), m[1]) + "`"

    return re.sub(r"`([^`\n]*)`", one, text)


def write(path, text):
    with open(path, "w", encoding="utf-8") as file:
        file.write(text)


def main():
    root = os.getcwd()
    names, others, fields, kit = to_rename(root)
    together = {}
    for old, new in sorted(names.items()):
        together.setdefault(new, []).append(old)
    for new, olds in sorted(together.items()):
        if len(olds) > 1 or new in others or new in kit:
            where = "another of ours" if len(olds) > 1 else "in use" if new in others else "the kit's"
            print(f"look: {', '.join(olds)} -> {new} ({where})")
    if "--list" in sys.argv:
        for old, new in sorted(names.items()):
            print(old, new)
        return
    for path in own_files(root):
        lines = []
        for line in read(path).split("\n"):
            code, comment = halves(line, path)
            usable = names if path.endswith(".antt") else {old: new for old, new in names.items() if old not in LEMMAS}
            lines.append(turned(code, usable, fields) + in_backquotes(comment, usable))
        text = "\n".join(lines)
        for crate, (old, new) in MODULES.items():
            text = text.replace(f"Rattle.{crate}.specs.{old}.", f"Rattle.{crate}.specs.{new}.")
        write(path, text)
    for crate, (old, new) in MODULES.items():
        specs = os.path.join(root, "crates", crate, "specs")
        os.rename(os.path.join(specs, old + ".antt"), os.path.join(specs, new + ".antt"))
        lib = os.path.join(specs, "Lib.antt")
        write(lib, read(lib).replace(f"pub mod {old}\n", f"pub mod {new}\n"))
    documents = [os.path.join(root, "README.md")] + [os.path.join(root, "docs", name) for name in sorted(os.listdir(os.path.join(root, "docs"))) if name.endswith(".md")]
    for path in documents:
        write(path, in_backquotes(read(path), names))
    print(f"{len(names)} names turned")


if __name__ == "__main__":
    main()
