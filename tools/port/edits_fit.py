#!/usr/bin/env python3
"""Says of each must-fail edit, and of each control beside one, whether its old texts stand exactly once.

usage: python3 tools/port/edits_fit.py        at the top of the repository; more-edits/ too. Pairs apply in order, as rt applies them.
"""

import glob
import os
import sys


def misfit(path):
    folder = "/".join(path.split("/")[:2])
    file, old, texts, pairs = "", None, {}, 0
    for line in open(path, encoding="utf-8").read().split("\n"):
        if line.startswith("file: "):
            file = line[len("file: ") :].strip()
        elif line.startswith("old: "):
            old = line[len("old: ") :]
        elif line.startswith("new:"):
            new = line[len("new:") :].removeprefix(" ")
            if not file or not old:
                return "a new text with no file or old text before it"
            if file not in texts:
                if not os.path.isfile(f"{folder}/{file}"):
                    return f"there is no {file}"
                texts[file] = open(f"{folder}/{file}", encoding="utf-8").read()
            found = texts[file].count(old)
            if found != 1:
                return f"{found} times in {file}: {old.strip()}"
            if old == new:
                return "a pair that changes nothing"
            texts[file] = texts[file].replace(old, new)
            old, pairs = None, pairs + 1
    return None if pairs else "no pair"


def main():
    counts, bad = {}, 0
    for path in sorted(glob.glob("crates/*/must-fail/**/*", recursive=True) + glob.glob("crates/*/more-edits/*")):
        if not os.path.isfile(path) or path.endswith(".md"):
            continue
        kind = "more" if path.endswith(".edit") and "/more-edits/" in path else path.rsplit(".", 1)[1]
        counts[kind] = counts.get(kind, 0) + 1
        said = misfit(path)
        if said:
            bad += 1
            print(f"{path}: {said}")
    print(", ".join(f"{counts[k]} {k}" for k in sorted(counts)) + f": {bad} do not fit")
    return 1 if bad else 0


if __name__ == "__main__":
    sys.exit(main())
