#!/usr/bin/env python3
"""Turns the names of definitions and laws that the pages mention to those of today.

usage: python3 tools/port/pages.py COMMIT        at the top of the repository; COMMIT is one whose pages speak of its own definitions

The declarations of each file of specs/ are laid beside those of the same file at COMMIT, in their order. A name that differs is then written anew wherever a
page has it as a whole word between backticks. Blocks of code are left for the eye, and so is what no longer stands in any file.
"""

import collections
import difflib
import glob
import re
import subprocess
import sys

DECLARED = re.compile(r"^\s*(?:(?:abbrev|unfoldable|pub|mutual|data|record) )*([^\s(){}:]+)(?: [({].*)? :(?: |$)")
SPLIT = re.compile(r"([\s(){}\[\].;,`:&<>|=!\"/]+)")


def declared(text):
    names = []
    for line in text.split("\n"):
        if not line.strip().startswith(("--", "use ")):
            m = DECLARED.match(line)
            if m and "≡" not in m[1]:
                names.append(m[1])
    return names


def plain(name):
    return re.sub(r"(?<=[a-z0-9])([A-Z])", r"_\1", name.replace("-", "_")).lower().replace("_lem", "")


def table(commit):
    found = collections.defaultdict(collections.Counter)
    for path in sorted(glob.glob("crates/*/specs/**/*.antt", recursive=True)):
        ran = subprocess.run(["git", "show", f"{commit}:{path}"], stdout=subprocess.PIPE, stderr=subprocess.DEVNULL)
        old, new = declared(ran.stdout.decode()), declared(open(path, encoding="utf-8").read())
        same = difflib.SequenceMatcher(None, [plain(it) for it in old], [plain(it) for it in new], autojunk=False)
        for i, j, n in [(0, 0, len(old))] if len(old) == len(new) else same.get_matching_blocks():
            for k in range(n):
                found[old[i + k]][new[j + k]] += 1
    return {old: new.most_common(1)[0][0] for old, new in found.items()}


def turned(text, names):
    parts = SPLIT.split(text)
    return "".join(names.get(it, it) if at % 2 == 0 else it for at, it in enumerate(parts))


def main():
    names = {old: new for old, new in table(sys.argv[1]).items() if old != new}
    for path in ["README.md", *glob.glob("docs/*.md"), *glob.glob("docs/requests/*.md")]:
        if path == "docs/PORT.md":
            continue
        lines, fenced = [], False
        for line in open(path, encoding="utf-8").read().split("\n"):
            fenced ^= line.startswith("```")
            if not fenced and not line.startswith("    "):
                line = re.sub(r"`[^`]*`", lambda m: turned(m[0], names), line)
            lines.append(line)
        with open(path, "w", encoding="utf-8") as out:
            out.write("\n".join(lines))
    print(f"{len(names)} names differ")


if __name__ == "__main__":
    main()
