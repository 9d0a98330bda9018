#!/usr/bin/env python3
"""Respells this repository's own names, once, after the kit's port.py: definitions, record fields and
constructors in snake case, an acronym as Rust spells it, and two crates by names that no library of the kit has.

usage: python3 tools/respell.py [FOLDER]      FOLDER has crates/ and crates.txt; default: the current one

Functions of src/, strings, inputs and outputs keep their names.
"""
import os
import re
import sys

CRATES = {"check": "check32", "hex": "hex_digits"}
# these would fall together with a lemma of the repository
APART = {"okOr": "std_ok_or", "heardAll": "all_heard"}
WORD = re.compile(r"(?<![\w'\\])[A-Za-z_][\w'\-]*")
CAMEL = re.compile(r"^[a-z][a-z0-9]*(?:[A-Z][a-z0-9]*)+'*$")
RECORD = re.compile(r"\s*(?:pub\s+)?(record|data)\s+\S")
FIELD = re.compile(r"\s*(?:pub\s+)?([a-z][\w'\-]*)\s*:(?:\s|$)")


def texts(top, ends):
    for root, dirs, names in os.walk(os.path.join(top, "crates")):
        dirs[:] = sorted(d for d in dirs if d != "out")
        for name in sorted(names):
            if name.endswith(ends):
                yield os.path.join(root, name)


def read(path):
    with open(path, encoding="utf-8") as f:
        return f.read()


def members(top):
    """The fields and constructors whose names have a dash."""
    found = set()
    for path in texts(top, (".antt",)):
        depth = None
        for line in read(path).split("\n"):
            indent = len(line) - len(line.lstrip())
            if RECORD.match(line) and "=" not in line.split("--")[0]:
                depth = indent
                continue
            if depth is not None and line.strip() and indent <= depth and not line.strip().startswith("--"):
                depth = None
            m = FIELD.match(line)
            if depth is not None and m and "-" in m.group(1):
                found.add(m.group(1))
    return found


def snake(word):
    return re.sub(r"(?<=[a-z0-9])([A-Z])", lambda m: "_" + m.group(1).lower(), word)


def spelled(word, dashed):
    if word in APART:
        return APART[word]
    if word in dashed:
        return word.replace("-", "_")
    parts = word.split("-")
    if len(parts) == 1 or parts[0] == "fewIn":
        parts = [snake(p) if CAMEL.match(p) else p for p in parts]
    return re.sub(r"(?<=[a-z])OK$", "Ok", "-".join(parts))


def turn_line(line, dashed):
    # a string in code keeps its text
    pieces = re.split(r'("(?:[^"\\]|\\.)*")', line)
    for i in range(0, len(pieces), 2):
        pieces[i] = WORD.sub(lambda m: spelled(m.group(0), dashed), pieces[i])
    return "".join(pieces)


def turn_crates(text):
    for old, new in CRATES.items():
        text = re.sub(rf"\bRattle\.{old}\.", f"Rattle.{new}.", text)
        text = re.sub(rf"(?m)^((?:\s*pub)?\s*use ){old}::", rf"\g<1>{new}::", text)
        text = re.sub(rf"(?<![\w.:]){old}::(?=\w)", f"{new}::", text)
    return text


def main():
    top = sys.argv[1] if len(sys.argv) > 1 else "."
    dashed = members(top)
    for path in texts(top, (".antt", ".rt", ".edit")):
        old = read(path)
        new = turn_crates("\n".join(turn_line(l, dashed) for l in old.split("\n")))
        if new != old:
            with open(path, "w", encoding="utf-8") as f:
                f.write(new)
    path = os.path.join(top, "crates.txt")
    lines = [re.sub(r"\b(" + "|".join(CRATES) + r")\b", lambda m: CRATES[m.group(1)], l) for l in read(path).split("\n")]
    with open(path, "w", encoding="utf-8") as f:
        f.write("\n".join(lines))
    for old, new in CRATES.items():
        os.rename(os.path.join(top, "crates", old), os.path.join(top, "crates", new))


if __name__ == "__main__":
    main()
