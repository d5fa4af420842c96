"""Counts the pairs of parameters that stand together in three functions or more: parameter_pairs.py COMMIT."""
import collections
import itertools
import re
import subprocess
import sys


def git(*words):
    return subprocess.run(("git",) + words, capture_output=True, text=True, check=True).stdout


def parameters(text):
    for found in re.finditer(r"fn (\w+)(?:<[^>]*(?:<[^>]*>[^>]*)*>)?\(([^)]*)\)", text):
        names = [word.split(":")[0].strip().removeprefix("mut ") for word in found.group(2).split(",") if ":" in word]
        yield found.group(1), sorted(name.lstrip("_") for name in names)


def main(commit):
    pairs = collections.Counter()
    for path in git("ls-tree", "-r", "--name-only", commit).split():
        if re.match(r"crates/[^/]+/src/.*\.rt$", path):
            for _, names in parameters(git("show", f"{commit}:{path}")):
                pairs.update(itertools.combinations(names, 2))
    often = [(count, pair) for pair, count in pairs.most_common() if count >= 3]
    print(len(often))
    for count, pair in often:
        print(count, *pair)


main(sys.argv[1])
