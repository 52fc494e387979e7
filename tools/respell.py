#!/usr/bin/env python3
"""Gives this repository's own definitions and lemmas today's spelling: words in snake case.

usage: python3 tools/respell.py          at the top, once, after the kit's port.py; files are rewritten in place

A name is the repository's own where a file of a crate's specs/ or proofs/ declares it. Each one that begins with a small
letter and has a capital or a dash in it is turned: ruleMatch and rule-match become rule_match. Names of types keep their
capitals. A lemma that would have a function's name gets _lem: action-text beside actionText becomes action_text_lem. What
Rattle itself makes is left: the names of goals, and what a Proof.antt declares of them. Pages are turned within backticks
alone. It prints each name that it turned, and stops before it writes where two names would still fall together.
"""
import collections
import os
import re
import sys

DECLARED = re.compile(r"^\s*(?:abbrev |unfoldable )?(?:pub )?(?:\| )?([^\s:(){}.;,λ]+) : ")
TOKEN = re.compile(r"[^\s(){}\[\].;,λ:`\"]+")
MADE = re.compile(r"(^|[\s(:])tie\.|[-_]spec( |$)|statement M|-claims( |$)|^μ-|: Claim")

# Functions of the library beside which a lemma of ours would get the same name.
LIBRARY = {"bit_and"}
# Actions as a sheet writes them, which are no names.
WORDS_OF_SHEETS = ("permit-log", "deny-log")


def spelled(name):
    name = re.sub(r"(?<=[a-z0-9])([A-Z])", lambda m: "_" + m.group(1).lower(), name)
    return name.replace("-", "_").lower()


def files(top, ends, skip=()):
    for folder, inner, names in os.walk(top):
        inner[:] = sorted(d for d in inner if d not in ("out", "target", ".git") and d not in skip)
        for name in sorted(names):
            if name.endswith(ends):
                yield os.path.join(folder, name)


def own_names():
    found = collections.defaultdict(set)
    for path in files("crates", (".antt",), ("src",)):
        crate = path.split(os.sep)[1]
        text = open(path, encoding="utf-8").read()
        for line in text.split("\n"):
            m = DECLARED.match(line)
            if not m or line.lstrip().startswith(("--", "let ")):
                continue
            if path.endswith("Proof.antt") and MADE.search(line):
                continue
            found[m.group(1)].add(crate)
    return found


def main():
    found = own_names()
    turned = {}
    for name in found:
        if name[0].islower() and spelled(name) != name and re.fullmatch(r"[a-zA-Z0-9'?_-]+", name):
            turned[name] = spelled(name)
    taken = {turned.get(name, name) for name in found if "-" not in name} | LIBRARY
    for name in turned:
        if "-" in name and turned[name] in taken:
            turned[name] += "_lem"
    # Two names must not become one.
    back = collections.defaultdict(set)
    for name in found:
        back[turned.get(name, name)].add(name)
    bad = {new: olds for new, olds in back.items() if len(olds) > 1}
    for new, olds in sorted(bad.items()):
        print("fall together:", new, ", ".join(f"{o} ({' '.join(sorted(found[o]))})" for o in sorted(olds)))
    if bad:
        return 1

    def turn(text):
        return TOKEN.sub(lambda m: turned.get(m.group(0), m.group(0)), text)

    # Edits and pages still have names that port.py turned in the crates: any old spelling of a name that now stands.
    now = {turned.get(name, name) for name in found}

    def turn_old(text):
        def word(m):
            name = m.group(0)
            if name in turned or name in WORDS_OF_SHEETS or not re.fullmatch(r"[a-z][a-zA-Z0-9'?_-]*", name):
                return turned.get(name, name)
            return spelled(name) if spelled(name) in now else name

        return TOKEN.sub(word, text)

    for path in list(files("crates", (".antt", ".rt", ".edit"))):
        text = open(path, encoding="utf-8").read()
        new = turn_old(text) if path.endswith(".edit") else turn(text)
        if new != text:
            open(path, "w", encoding="utf-8").write(new)
    for path in list(files(".", (".md",), ("target",))):
        text = open(path, encoding="utf-8").read()
        new = re.sub(r"`[^`\n]+`", lambda m: turn_old(m.group(0)), text)
        if new != text:
            open(path, "w", encoding="utf-8").write(new)
    for name in sorted(turned):
        print(name, turned[name], " ".join(sorted(found[name])))
    return 0


if __name__ == "__main__":
    sys.exit(main())
