#!/usr/bin/env python3
"""Brings the repository's own definitions and laws to today's spelling: snake case, where they were in camel case or with dashes.

usage: python3 tools/port/respell.py        at the top of the repository, once, after the kit's port.py

It reads which names specs/ declares and writes them anew in every .antt and .rt file, whole words only. Types keep their capital, names of std and of
src/ stay. A law that would fall together with the function that it speaks of gets `_lem`. The list it went by is left in tools/port/names.tsv.
"""

import collections
import glob
import os
import re

SPLIT = re.compile(r"([\s(){}\[\].;,`]+)")
HEAD = re.compile(r"^\s*((?:abbrev |unfoldable |pub |data |record )*)([a-z][\w'\-₀-₉?]*) :( .*)?$")
# A function whose law has its name already, or a fact whose name begins in lower case.
BY_HAND = {
    "belowRoot": "is_below_root",
    "entryFree": "is_free_entry",
    "rowCount": "count_of_rows",
    "rowFits": "is_fitting_row",
    "rowPut": "row_stored",
    "sameBytes": "equal_bytes",
    "oneEntry": "one_entry_only",
    "endsOf": "both_ends_of",
    "pendingOf": "PendingOf",
}


def snake(name):
    name = name.replace("-", "_")
    name = re.sub(r"(?<=[a-z0-9])([A-Z])", r"_\1", name)
    return name.lower()


def declared():
    names = collections.Counter()
    for path in sorted(glob.glob("crates/*/specs/*.antt")):
        for line in open(path, encoding="utf-8"):
            m = HEAD.match(line.rstrip("\n"))
            if m:
                names[m[2]] += 1
    return names


def foreign():
    """Names that files bring in from outside of the repository, and Rust's own names."""
    ours = set(re.findall(r"(?m)^(\w+)(?: staticlib)?:", open("crates.txt").read()))
    names = set()
    for path in glob.glob("crates/*/*/**/*.antt", recursive=True) + glob.glob("crates/*/src/*.rt"):
        text = open(path, encoding="utf-8").read()
        for module, items in re.findall(r"(?m)^(?:pub |ghost )*use ([\w.'\-]+?)\.\{([^}]*)\}", text):
            parts = module.split(".")
            if not (parts[0] == "Rattle" and parts[1] in ours and "declared" not in parts):
                names |= {w.split(" as ")[0].strip() for w in items.split(",")}
    return names


def table():
    names, outside = declared(), foreign()
    turned = {n: BY_HAND.get(n, snake(n)) for n in names if n not in outside and (snake(n) != n)}
    taken = collections.Counter(turned.values())
    kept = set(names) | outside
    said = []
    for n in sorted(turned):
        to = turned[n]
        if n in BY_HAND:
            continue
        if "-" in n and (taken[to] > 1 or to in kept):
            turned[n] = to + "_lem"
        elif taken[to] > 1 and not any("-" in o and turned[o] in (to, to + "_lem") for o in turned if o != n):
            said.append(f"{n} and another become {to}")
        elif to in kept:
            said.append(f"{n} becomes {to}, which stands")
    return turned, said, sorted(n for n in names if n in outside and snake(n) != n)


def turn_words(text, names, skip):
    parts = SPLIT.split(text)
    for i in range(0, len(parts), 2):
        if parts[i] in names:
            if skip and i > 1 and parts[i - 1] == "." and parts[i - 2] in ("c", "before"):
                continue
            parts[i] = names[parts[i]]
    return "".join(parts)


def turn_antt(text, names, skip):
    lines = []
    for line in text.split("\n"):
        code, dash, comment = line.partition("-- ")
        if line.lstrip().startswith("-- "):
            lines.append(re.sub(r"`[^`]*`", lambda m: turn_words(m[0], names, False), line))
        else:
            lines.append(turn_words(code, names, skip) + dash + comment)
    return "\n".join(lines)


def turn_rt(text, names):
    """Camel case stands in clauses alone; names with a dash are turned on lines of clauses and ghost imports."""
    lines = []
    for line in text.split("\n"):
        if line.lstrip().startswith("//"):
            lines.append(line)
            continue
        ghost = "ghost use" in line or re.search(r"[≡≤×→λ≢]", line) or re.match(r"\s*(requires|ensures)\b", line)
        here = names if ghost else {n: t for n, t in names.items() if "-" not in n}
        lines.append(turn_words(line, here, False))
    return "\n".join(lines)


def main():
    names, said, same = table()
    for it in said:
        print("look: " + it)
    for it in same:
        print("stays, as the library has it too: " + it)
    changed = 0
    paths = glob.glob("crates/*/specs/**/*.antt", recursive=True) + glob.glob("crates/*/proofs/**/*.antt", recursive=True)
    for path in sorted(set(paths)) + sorted(glob.glob("crates/*/src/**/*.rt", recursive=True)):
        old = open(path, encoding="utf-8").read()
        new = turn_rt(old, names) if path.endswith(".rt") else turn_antt(old, names, "/proofs/" in path)
        if new != old:
            open(path, "w", encoding="utf-8").write(new)
            changed += 1
    os.makedirs("tools/port", exist_ok=True)
    with open("tools/port/names.tsv", "w", encoding="utf-8") as out:
        for n in sorted(names):
            out.write(f"{n}\t{names[n]}\n")
    print(f"{len(names)} names, {changed} files")


if __name__ == "__main__":
    main()
