#!/usr/bin/env python3
"""Counts the places in src/ that docs/DESIGN-PASS.md speaks of, point by point.

usage: python3 tools/places.py COMMIT [POINT]      with a point, each place is printed, and not only how many there are
"""
import collections
import re
import subprocess
import sys

NOTHING = ["Refused", "Full", "Never", "Outside", "Unknown"]  # a variant of these makes an enum one of the shape of Option or Result
BY_HAND = r"\b(wide|wide16|wide32|half|counted|one|one_if|digit|only_if|fair_if|number_if|filled_if|same_bytes|same_key|same_groups)\("


def git(*words):
    return subprocess.run(["git", *words], capture_output=True, text=True, check=True).stdout


def sources(commit, ending):
    for path in git("ls-tree", "-r", "--name-only", commit, "crates").split("\n"):
        if re.search(ending, path):
            yield path, git("show", f"{commit}:{path}")


def enums(commit):
    for path, text in sources(commit, r"/src/.*\.rt$"):
        for name, body in re.findall(r"^(?:pub )?enum (\w+)[^{]*\{(.*?)^\}", text, re.M | re.S):
            if any(re.search(rf"^    {word}\b", body, re.M) for word in NOTHING):
                yield f"{path}: enum {name}"


def lines(commit, ending, pattern):
    for path, text in sources(commit, ending):
        for number, line in enumerate(text.split("\n"), 1):
            if re.search(pattern, line) and not line.lstrip().startswith("//"):
                yield f"{path}:{number}: {line.strip()}"


def facts(commit):
    found = collections.defaultdict(set)
    for path, text in sources(commit, r"/src/.*\.rt$"):
        function = ""
        for line in text.split("\n"):
            if begun := re.match(r'\s*(?:pub )?(?:extern "C" )?fn (\w+)', line):
                function = f"{path.split('/')[1]}::{begun[1]}"
            if clause := re.match(r"\s+requires (?:\w+ )?\{ (.*) \}$", line):
                for fact in clause[1].split(" × "):
                    found[re.sub(r"^\((.*)\)$", r"\1", fact.strip())].add(function)
    for fact, functions in sorted(found.items(), key=lambda entry: -len(entry[1])):
        if len(functions) >= 3:
            for function in sorted(functions):
                yield f"{fact}: {function}"


def parameters(commit):
    for path, text in sources(commit, r"/src/.*\.rt$"):
        for name, inside in re.findall(r"^\s*(?:pub )?fn (\w+)(?:<[^>]*>)?\(([^{]*?)\)(?: ->|\s|$)", text, re.M | re.S):
            count = len(re.findall(r"\w+: ", inside))
            if count >= 6:
                yield f"{path}: {name}, {count} parameters"


POINTS = {
    "1": ("own enums of the shape of Option or Result", enums),
    "3": ("loops by while", lambda c: lines(c, r"/src/.*\.rt$", r"^\s*while ")),
    "4": ("calls of own conversions, choices and comparisons", lambda c: lines(c, r"/src/.*\.rt$", BY_HAND)),
    "5": ("functions that require a fact which three or more require", facts),
    "5b": ("functions with six parameters or more", parameters),
    "8": ("answers", lambda c: lines(c, r"/proofs/.*/Answers\.antt$", r"^pub \S+ : goal\.")),
}


def main():
    commit, wanted = sys.argv[1], sys.argv[2:]
    for point, (words, places) in POINTS.items():
        if not wanted or point in wanted:
            found = list(places(commit))
            print(f"point {point}: {len(found)} {words}")
            if wanted:
                print("\n".join(found))


main()
