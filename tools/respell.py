#!/usr/bin/env python3
"""Brings the repository's own definitions and lemmas to one spelling: types in camel case, everything else in snake case.

    tools/respell.py            renames in every crate, once
    tools/respell.py --list     only says what it would rename

Renamed are the names with a dash that a file of specs/ defines, or a file of lemmas right in proofs/, or a helper in a
function's proof. The names of goals and steps, which the check makes, keep their dashes, and so does a name that some file
imports from the library. Only antt is changed: .antt files outside comments, and the clauses and ghost items of .rt files.
"""
import glob
import os
import re
import sys

ROOT = os.path.dirname(os.path.dirname(os.path.abspath(__file__)))
WORD = r"[A-Za-z_Σ][\w'·]*(?:-[\w'·]+)+"
DEFINES = re.compile(r"\s*(?:abbrev |unfoldable |irreducible |pub )*(?:record |data )?(" + WORD + r")(?=\s*(?:[({:\[]| :))")
MADE = re.compile(r"(loop-|returns|invariant-|decreases-|overflow|bounds-|nonzero|index-|in-bounds|range)|.*(-requires|-preserved|-init)(-|$)")
def files():
    for path in sorted(glob.glob(ROOT + "/crates/*/specs/**/*.antt", recursive=True) + glob.glob(ROOT + "/crates/*/proofs/**/*.antt", recursive=True)):
        yield path


def code(line):
    """The line and its comment."""
    at = line.find("--") if line.lstrip().startswith("--") or " -- " in line else -1
    return (line, "") if at < 0 else (line[:at], line[at:])


def defined():
    names, imported = {}, set()
    for path in files():
        goals = os.path.basename(path) in ("Answers.antt", "Invariants.antt", "Choices.antt", "Proof.antt")
        for line in open(path, encoding="utf-8"):
            line, _ = code(line)
            if line.startswith("use "):
                if line.startswith("use Rattle.") and line.split(".")[1] in CRATES:
                    continue
                imported |= set(re.findall(WORD, line[line.find("{"):] if "{" in line else ""))
                continue
            found = DEFINES.match(line)
            if found and not (goals and MADE.match(found[1])):
                names.setdefault(found[1], set()).add(os.path.relpath(path, ROOT))
            for field in [] if goals else re.findall(r"\s+pub (" + WORD + r")\s*:", line):
                names.setdefault(field, set()).add(os.path.relpath(path, ROOT))
    for path in sorted(glob.glob(ROOT + "/crates/*/src/**/*.rt", recursive=True)):
        for line in open(path, encoding="utf-8"):
            if line.startswith("ghost use Rattle.") and line.split(".")[1] not in CRATES:
                imported |= set(re.findall(WORD, line[line.find("{"):] if "{" in line else ""))
    return {n: names[n] for n in names if n not in imported}


def respelled(name):
    parts = name.split("-")
    if name[0].isupper():
        return "".join(p[:1].upper() + p[1:] for p in parts)
    return "_".join(parts)


def turn(text, names):
    token = re.compile(r"(?<![\w'·-])" + WORD)
    return token.sub(lambda m: names.get(m[0], m[0]), text)


def turn_source(text, names):
    """Clauses and ghost items alone: from the word that opens one to the end of its line or braces."""
    out, depth, inside = [], 0, False
    for line in text.split("\n"):
        bare = line.lstrip()
        starts = re.match(r"(ghost|requires|ensures|pub ghost)\b", bare)
        if (starts or inside) and not bare.startswith("//"):
            out.append(turn(line, names))
            depth += line.count("{") - line.count("}")
            inside = depth > 0 and (inside or "{" in line)
            if not inside:
                depth = 0
        else:
            out.append(line)
    return "\n".join(out)


def main():
    names = {n: respelled(n) for n in defined()}
    if "--list" in sys.argv:
        for n in sorted(names):
            print(n, names[n])
        return
    for path in files():
        text = open(path, encoding="utf-8").read()
        lines = []
        for line in text.split("\n"):
            body, comment = code(line)
            lines.append(turn(body, names) + comment)
        if "\n".join(lines) != text:
            open(path, "w", encoding="utf-8").write("\n".join(lines))
    for path in sorted(glob.glob(ROOT + "/crates/*/src/**/*.rt", recursive=True)):
        text = open(path, encoding="utf-8").read()
        new = turn_source(text, names)
        if new != text:
            open(path, "w", encoding="utf-8").write(new)


CRATES = set(os.listdir(ROOT + "/crates"))
if __name__ == "__main__":
    main()
