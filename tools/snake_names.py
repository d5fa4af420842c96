#!/usr/bin/env python3
"""Brings the repository's own definitions and lemmas to one spelling: snake case, with a dash only between the names of
two functions, as in get_or-shares. Types keep their capital. A lemma that would have the name of a function gets _lem.
Usage: snake_names.py [--check], at the top. With --check it only lists the names, and those that fall together."""
import collections
import os
import re
import sys

PLAIN = r"[^\s:(){}\[\],.;=|«»]+"
DEFINED = re.compile(r"\s*(?:(?:abbrev|opaque|unfoldable|pub|record|data|ruleset)\s+)*(" + PLAIN + r")(?:\s+[({].*)?\s*:(?:\s|$)")
NO_NAMES = {"let", "use", "module", "λ", "in", "where", "elim", "_"}
# functions of the library that lemmas here are named after, as their names are now
LIBRARY = {"length", "sum", "get_or", "take", "drop", "map", "set"}
# the library's getD is get_or now
RENAMED = {"getD": "get_or"}


def files(*endings):
    for folder, inner, names in os.walk("crates"):
        inner[:] = sorted(n for n in inner if n not in ("out", "target"))
        for name in sorted(names):
            if name.endswith(endings):
                yield os.path.join(folder, name)


def read(path):
    with open(path, encoding="utf-8") as f:
        return f.read()


def snake(part):
    return RENAMED.get(part) or re.sub(r"(?<=[a-z0-9])[A-Z]", lambda m: "_" + m[0].lower(), re.sub(r"(?<=[A-Z])[A-Z]", lambda m: "_" + m[0].lower(), part))


def defined():
    """Each name that a file of specs/ or proofs/ defines, without the goals that an answer is named after."""
    specs, proofs = set(), set()
    for path in files(".antt"):
        for line in read(path).split("\n"):
            line = re.sub(r"\s*--.*", "", line)
            m = DEFINED.match(line)
            if m and m[1] not in NO_NAMES and ": goal." not in line and not re.match(r"\s*let\b", line):
                (specs if "/specs/" in path else proofs).add(m[1])
    return specs, proofs


def renamings():
    specs, proofs = defined()
    functions = {snake(n) for n in specs if "-" not in n} | LIBRARY
    out = {}
    for name in sorted(specs | proofs):
        if not re.match(r"[a-z]", name) or not re.search(r"[A-Z]|-", name):
            continue
        first, *rest = [snake(p) for p in name.split("-")]
        rest = "_".join(rest)
        joint = "-" if first in functions and rest in functions else "_"
        out[name] = first + joint + rest if rest else first
    return {a: b for a, b in out.items() if a != b}, specs | proofs


def turned(text, new):
    return "".join(new.get(t, t) for t in re.split(r"(" + PLAIN + r")", text))


def apart(new, names):
    """The renamings, where a lemma whose new name stands for something else gets _lem."""
    taken = collections.Counter(new.values())
    standing = set(names)
    for path in files(".antt"):
        text = re.sub(r"(?m)^.*\buse Rattle\.\S*proofs\..*$", "", read(path)) if "/proofs/" in path else read(path)
        tokens = set(re.findall(PLAIN, text))
        standing |= {new[a] for a in new if "-" in a and a in tokens and new[a] in tokens}
    return {a: b + "_lem" if "-" in a and (taken[b] > 1 or b in standing) else b for a, b in new.items()}


def main(argv):
    new, names = renamings()
    new = apart(new, names)
    if "--check" in argv:
        back = collections.defaultdict(set)
        for a, b in new.items():
            print(f"{a} -> {b}")
            back[b].add(a)
        for b, olds in sorted(back.items()):
            if len(olds) > 1 or b in names:
                print(f"falls together: {b}: {' '.join(sorted(olds))}")
        return 0
    for path in files(".antt", ".rt", ".edit"):
        text = read(path)
        out = turned(text, new)
        if out != text:
            with open(path, "w", encoding="utf-8") as f:
                f.write(out)
    print(f"{len(new)} names turned")
    return 0


if __name__ == "__main__":
    sys.exit(main(sys.argv[1:]))
