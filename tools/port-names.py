#!/usr/bin/env python3
"""Spells the project's own definitions and lemmas as the toolchain does: words in snake case.

usage: python3 tools/port-names.py     once, at the top of a checkout that the toolchain's port.py has just turned

A name of specs/ or of a lemma file in proofs/ loses its inner capitals and its dashes: `blocksIn` becomes
`blocks_in`, `wire-given` becomes `wire_given`. Types, modules, names of the toolchain's library, functions of src/
and their generated names stay. Where a lemma would then have its definition's name, it ends in `_lem`.
"""
import collections
import os
import re

TOKEN = re.compile(r"[^\s(){}\[\].,;\"|`:]+")
USE = re.compile(r"^(?:ghost )?(?:pub )?use (\S+?)(?:\.\{([^}]*)\})?(?: as .*)?;?$")
COMMENT = re.compile(r"(^|\s)(--|//)\s.*$")
# what would fall together with a definition: the lemma's name says so
LEMMAS = ["lags-last", "lags-in", "ring-bytes", "base-d", "base-w", "loop-no", "loop-yes", "step-to", "best-last", "all-below"]
FIXED = {name: name.replace("-", "_") + "_lem" for name in LEMMAS}
FIXED["some_below"] = "some_below_lem"
FIXED["decLeℤ"] = "dec_le_ℤ"
# a hypothesis in one file
LOCAL = {"crates/witness/specs/Laws/Trace.antt": {"from_in": "from_within"}}


def files(*endings):
    for folder, dirs, names in os.walk("."):
        dirs[:] = sorted(d for d in dirs if d not in (".git", "target", "out"))
        for name in sorted(names):
            if name.endswith(endings):
                yield os.path.relpath(os.path.join(folder, name), ".")


def lines(path):
    with open(path, encoding="utf-8") as f:
        return f.read().split("\n")


def foreign():
    """Names that come from outside the project."""
    found = set()
    for path in files(".antt", ".rt"):
        for line in lines(path):
            match = USE.match(line.strip())
            if match and match.group(2):
                module = match.group(1).split(".")
                owner = module[1] if module[0] == "Rattle" else module[0]
                if not os.path.isdir("crates/" + owner):
                    for item in match.group(2).split(","):
                        found.update(re.split(r"\s+as\s+", item.strip()))
    return found


def snake(name):
    name = name.replace("-", "_")
    return re.sub(r"(?<=[a-z0-9'])([A-Z])", lambda m: "_" + m.group(1).lower(), name)


def other(name):
    return bool(re.search(r"[\w']-[\w']", name)) or (name[0].islower() and bool(re.search(r"[a-z0-9'][A-Z]", name)))


def table():
    outside = foreign()
    used = collections.Counter()
    for path in files(".antt"):
        parts = path.split("/")
        if parts[2] == "proofs" and len(parts) > 4:
            continue
        for line in lines(path):
            if not USE.match(line.strip()):
                used.update(TOKEN.findall(COMMENT.sub("", line)))
    turned = {name: snake(name) for name in used if other(name) and name not in outside}
    turned.update(FIXED)
    seen = collections.defaultdict(set)
    for old, new in turned.items():
        seen[new].add(old)
    for new, olds in seen.items():
        if (new in used or new in outside) and new not in turned:
            olds.add(new)
        if len(olds) > 1 and new != "from_in":
            raise SystemExit(f"port-names: {sorted(olds)} fall together as {new}")
    return turned


def turn(text, names):
    return TOKEN.sub(lambda m: names.get(m.group(0), m.group(0)), text)


def turn_line(line, names):
    """Code is turned whole, of a comment only what stands in backticks."""
    match = COMMENT.search(line)
    if not match:
        return turn(line, names)
    code, comment = line[: match.start()], line[match.start() :]
    return turn(code, names) + turn_quoted(comment, names)


def turn_quoted(text, names):
    return re.sub(r"`[^`]*`", lambda m: turn(m.group(0), names), text)


def main():
    names = table()
    for path in files(".antt", ".rt", ".edit", ".md"):
        here = {**names, **LOCAL.get(path, {})}
        text = lines(path)
        if path.endswith(".md"):
            new = [turn_quoted(line, here) for line in text]
        elif path.endswith(".edit"):
            new = [turn(line, here) if line.startswith(("old:", "new:")) else line for line in text]
        else:
            new = [turn_line(line, here) for line in text]
        if new != text:
            with open(path, "w", encoding="utf-8") as f:
                f.write("\n".join(new))


main()
