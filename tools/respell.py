#!/usr/bin/env python3
"""Brings the repository's own definitions and lemmas to today's spelling: words in snake case, types and modules in upper camel case.

usage: python3 tools/respell.py        at the top of the repository, once, after the port's own script

A name that a file of specs/ or proofs/ defines in camel case, as `leastBelow`, becomes `least_below` wherever it stands in a clause, a definition, a
proof or a must-fail edit. A name of specs/ with a dash, as `built-or-many` or `Demand-2`, becomes `built_or_many` and `Demand2`. Functions of
src/ have snake case already, and keep it. Must-fail edits, which the port's own script leaves, get its spelling of projections, primes and operators too.
It stops where two names would fall together.
"""
import glob
import re
import sys

DEFINES = re.compile(r"^\s*(?:(?:abbrev|unfoldable|pub|private|opaque) )*(?:record |data )?([^\s(){}:=\[\],]+)(?: [^:=]*)? :(?= |$)")
TOKEN = r"(?<![\w'\-′]){}(?![\w'\-′])"
# names that are made from one of these by hand, and locals in the same spelling
MORE = {"kindFits": "kind_fits", "sizeFits": "size_fits", "decA": "dec_a", "decB": "dec_b", "trueUs0": "true_us0"}


def proofs_and_specs():
    return sorted(glob.glob("crates/*/specs/**/*.antt", recursive=True) + glob.glob("crates/*/proofs/**/*.antt", recursive=True))


def read(path):
    with open(path, encoding="utf-8") as f:
        return f.read()


def snake(name):
    name = re.sub(r"([a-z0-9])([A-Z])", lambda m: m[1] + "_" + m[2].lower(), name)
    return re.sub(r"_([A-Z])", lambda m: "_" + m[1].lower(), name)


def renamed():
    table = dict(MORE)
    for path in proofs_and_specs():
        for line in read(path).splitlines():
            if line.startswith("use") or line.lstrip().startswith("--"):
                continue
            found = DEFINES.match(line)
            if not found:
                continue
            name = found[1]
            if re.match(r"^[a-z][\w']*[A-Z]", name):
                table[name] = snake(name)
            elif "-" in name and "/specs/" in path and re.fullmatch(r"[A-Za-z0-9-]+", name):
                table[name] = name.replace("-", "" if name[0].isupper() else "_")
    return table


def together(table):
    new = {}
    for a, b in table.items():
        new.setdefault(b, []).append(a)
    return [names for names in new.values() if len(names) > 1]


def edit_line(text):
    """What the port's own script does to a line of a clause, a definition or a proof."""
    text = text.replace("′", "'")
    text = re.sub(r"\((\w[\w']*) \.(\w[\w-]*)\)", r"\1.\2", text)
    text = re.sub(r"(?<=[\w)']) \.(?=[a-z0-9])", ".", text)
    text = re.sub(r"Rattle·(\w+)(?:·specs|·proofs)?\.", r"Rattle.\1.", text)
    text = re.sub(TOKEN.format(r"([a-z][a-z0-9]*[A-Z]\w*)"), lambda m: snake(m[1]), text)
    return text.replace("get_d ", "get_or ")


def main():
    table = renamed()
    clash = together(table)
    if clash:
        sys.exit(f"two names would be one: {clash}")
    pattern = re.compile(TOKEN.format("(" + "|".join(sorted(map(re.escape, table), key=len, reverse=True)) + ")"))
    for path in proofs_and_specs() + sorted(glob.glob("crates/*/src/*.rt")):
        old = read(path)
        new = pattern.sub(lambda m: table[m[1]], old)
        if new != old:
            with open(path, "w", encoding="utf-8") as f:
                f.write(new)
    for path in sorted(glob.glob("crates/*/must-fail/*.edit")):
        old = read(path)
        new = "\n".join(edit_line(pattern.sub(lambda m: table[m[1]], l)) if l.startswith(("old:", "new:")) else l for l in old.split("\n"))
        if new != old:
            with open(path, "w", encoding="utf-8") as f:
                f.write(new)
    for a, b in sorted(table.items()):
        print(f"{a} {b}")


main()
