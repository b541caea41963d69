#!/usr/bin/env python3
"""Brings the repository's own definitions and lemmas to snake case: recordOf and record-of become record_of.

usage: tools/spell_names.py [ROOT]

Run once, after port.py and before any edit by hand. It goes over specs/, proofs/ and the clauses in src/ of every crate, and renames what the
repository declares there (definitions, lemmas, fields, constructors, and names of a `let` or a parameter that are spelled so). Types, modules,
functions of src/, strings and comments in src/ keep their names. What Rattle itself makes (goals, steps) is no name of the repository's.
A lemma that would get the name of a definition or of a function of src/ ends in _is in place of it: record-among is record_among_is.
"""

import glob
import os
import re
import sys

KIT = "/opt/rattle"
ROOT = sys.argv[1] if len(sys.argv) > 1 else "."
NAME = r"[^\s(){}.;,@\"«»\[\]\\:]+"
TOKEN = re.compile(r"--[^\n]*|\"(?:[^\"\\]|\\.)*\"|" + NAME)
# A declaration, a field or a constructor: words, the name, its parameters, a colon.
DECLARED = re.compile(r"^\s*(?:(?:pub|abbrev|unfoldable|irreducible|private)\s+)*(" + NAME + r")\s*(?:[({][^\n]*?[)}]\s*)*:\s")
RULES = re.compile(r"^\s*(?:pub\s+)?ruleset\s+(?:pub\s+)?(" + NAME + r")")
LIBRARY = re.compile(r"^use\s+(?!Rattle\.(?!std\b))[^{\n]*\{([^}]*)\}", re.M)
# Lemmas that port.py gave the very name that a definition takes here.
FIRST = {"all_true": "all_true_is", "first_then": "first_then_is", "least_doubled": "least_doubled_is", "place_at": "place_at_is", "told_of": "told_start"}
# Names that Rattle makes, of goals and steps.
MADE = re.compile(r"^(returns|overflow|nonzero|bounds|offset|slice-bounds|loop\d*|if\d|in|not|same-length)(-|$)|-(requires|preserved|init|smaller|spec)(-\d+)?$|-\d+$")
# Names of Rattle's library, which some files import or which it makes.
NOT_OURS = {"decreases-loop", "invariant-loop", "not-true", "not-false"}
GOAL = re.compile(r":\s*(\([^)]*\)\s*→\s*)?tie\.(Need|Inv|Measure|Dec|Live)")


def read(path):
    with open(path, encoding="utf-8") as f:
        return f.read()


def write(path, text):
    with open(path, "w", encoding="utf-8") as f:
        f.write(text)


def files(kind):
    return sorted(p for k in kind for p in glob.glob(os.path.join(ROOT, "crates", "*", k), recursive=True))


def snake(name):
    name = re.sub(r"(?<=[a-z0-9])([A-Z])(?=[a-z0-9_'-]|$)", lambda m: "_" + m.group(1).lower(), name)
    name = re.sub(r"(?<=[a-z0-9])([A-Z]+)", lambda m: "_" + m.group(1).lower(), name)
    return re.sub(r"(?<=[\w'])-(?=\w)(?![A-Z])", "_", name)


def odd(name):
    return re.match(r"[a-z]", name) and snake(name) != name


def declared(path, text):
    """Names that the file declares, at any depth."""
    for line in text.split("\n"):
        if line.lstrip().startswith("--"):
            continue
        for pattern in (DECLARED, RULES):
            m = pattern.match(line)
            if m and not GOAL.search(line):
                yield m.group(1)


def library_names(text):
    out = set()
    for m in LIBRARY.finditer(text):
        for it in m.group(1).split(","):
            out.update(it.split())
    return out


def main():
    antt = files(["specs/**/*.antt", "proofs/**/*.antt"])
    rt = files(["src/**/*.rt"])
    for p in antt:
        write(p, TOKEN.sub(lambda m: FIRST.get(m.group(0), m.group(0)), read(p)))
    own = {}
    for p in antt:
        for n in declared(p, read(p)):
            if odd(n) and n not in NOT_OURS:
                own.setdefault(n, set()).add(p)
    library = set()
    for p in glob.glob(os.path.join(KIT, "rattle", "**", "*.antt"), recursive=True):
        library.update(TOKEN.findall(read(p)))
    for p in antt:
        if not p.endswith("/Proof.antt"):
            for n in TOKEN.findall(read(p)):
                if n[:2] != "--" and odd(n) and n not in library and not MADE.search(n):
                    own.setdefault(n, set()).add(p)
    functions = set()
    for p in rt:
        functions.update(re.findall(r"\bfn (\w+)", read(p)))
    plain = set()
    for p in antt:
        plain.update(n for n in declared(p, read(p)) if not odd(n))
    # Definitions (camel case) take the plain snake name; lemmas give way.
    new = {}
    taken = set(plain)
    # Definitions first, then lemmas with a name of their own, then those that give way.
    for n in sorted((n for n in own if "-" not in n)) + sorted((n for n in own if "-" in n), key=lambda n: (snake(n) in functions or snake(n) in {snake(c) for c in own if "-" not in c}, n)):
        to = snake(n)
        if "-" in n:
            if to in taken or to in functions:
                to += "_is" if not to + "_is" in taken else "_holds"
        elif to in taken:
            to += "_of" if not to.endswith("_of") else "_it"
        taken.add(to)
        new[n] = to
    changed = 0
    clash = []
    for p in antt + rt:
        text = read(p)
        keep = library_names(text) if p.endswith(".antt") else set()
        here = set(TOKEN.findall(text))
        for n in here:
            if n in new and n not in keep and new[n] in here:
                clash.append((p, n, new[n]))
        if p.endswith(".rt"):
            it = re.sub(r"//[^\n]*|b?\"(?:[^\"\\]|\\.)*\"|[A-Za-z][\w'-]*(?:-\w[\w'-]*|[A-Z]\w*)+", lambda m: m.group(0) if m.group(0).startswith(("//", '"', 'b"')) else new.get(m.group(0), m.group(0)), text)
        else:
            it = TOKEN.sub(lambda m: m.group(0) if m.group(0) in keep or m.group(0)[:2] == "--" else new.get(m.group(0), m.group(0)), text)
        if it != text:
            write(p, it)
            changed += 1
    for p, n, to in clash:
        print(f"look: {p}: {n} becomes {to}, which stands there already")
    with open(os.path.join(ROOT, "docs", "PORT-NAMES.tsv"), "w", encoding="utf-8") as f:
        f.writelines(f"{a}\t{b}\n" for a, b in sorted(new.items()))
    print(f"{len(new)} names, {changed} files, {len(clash)} to look at")
    for n, to in sorted(new.items()):
        if to != snake(n):
            print(f"gave way: {n} {to}")


main()
