#!/usr/bin/env python3
"""Respells this repository's own definitions, lemmas and ghost names as today's Rattle spells names: words in snake
case, types and facts in upper camel case. Run once, at the top, after the kit's port.py. Names from src/, goals and
steps that Rattle makes, names of the library, strings, inputs and outputs keep their spelling. In README.md and docs/
it turns names between backticks, as far as specs/ or proofs/ still had them in the older spelling.

usage: python3 tools/respell.py [--list]     --list prints what would be renamed and changes nothing
"""
import glob
import re
import sys

TOKEN = re.compile(r"[^\s(){}\[\],;.\"`«»]+")
DASHED = re.compile(r"[A-Za-z0-9₀-₉'_]-[A-Za-z0-9]")
CAMEL = re.compile(r"^[a-z][a-z0-9_]*[A-Z]")
GENERATED = ("Answers.antt", "Invariants.antt", "Proof.antt")
USE = re.compile(r"use (\S+?)\.\{(.*?)\}", re.S)
# variables that begin with a capital and are no types or facts: four named after a type parameter, and one that the
# kit's script took for a fact
VARIABLES = {"M-meaning": "m_meaning", "N-meaning": "n_meaning", "B-kind": "b_kind", "C-kind": "c_kind", "All-there": "all_there"}
# names that would fall together with a function of src/ in a file that imports them
APART = {"profile-A": "the_profile_a", "yellowOrRed": "yellow_or_red_lem"}
# a definition of ours whose function has its name: Rattle called the step of a call of it the same, and the step of
# today has the function's spelling, which is the definition's new one
SHARED = {"yellow-or-red"}


def read(path):
    with open(path, encoding="utf-8") as f:
        return f.read()


def code(text):
    """The text without its comments."""
    return re.sub(r"--.*", "", text)


def ours(module):
    return re.match(r"Rattle\.(%s)\.(specs|proofs)\." % "|".join(CRATES), module) and not module.endswith((".Goals", ".Given"))


CRATES = sorted(p.split("/")[1] for p in glob.glob("crates/*/src"))
ANTT = sorted(p for p in glob.glob("crates/*/**/*.antt", recursive=True) if "/out/" not in p)
RT = sorted(p for p in glob.glob("crates/*/src/**/*.rt", recursive=True))
PAGES = ["README.md"] + sorted(glob.glob("docs/*.md"))


def kinds():
    """Names that are not ours, imported from a library or from src/; names that Rattle makes; and each file's code."""
    foreign, made, fields, found = set(), set(), set(), {}
    for path in ANTT:
        text = code(read(path))
        for module, names in USE.findall(text):
            for item in names.split(","):
                words = item.split(" as ")
                if not ours(module):
                    foreign.add(words[0].strip())
                elif ".declared." in module:
                    foreign.add(words[0].strip())
        if path.endswith(GENERATED):
            made |= set(re.findall(r"^(?:abbrev )?pub ([^ ]+) :", text, re.M))
        else:
            fields |= set(re.findall(r"^\s+(?:pub )?([^ ()]+) :", text, re.M))
        found[path] = text
    for path in ANTT:
        if path.endswith(GENERATED):
            for name in re.findall(r"\.([^\s(){}\[\],;.]+)", found[path]):
                if name not in fields:
                    made.add(name)
    return foreign, made, found


def ghost(text):
    """The spans of ghost text in a source file: ghost imports, ghost fields and members, and clauses."""
    for m in re.finditer(r"^[ \t]*(?:pub )?ghost use [^;]*;", text, re.M):
        yield m.span()
    for m in re.finditer(r"^[ \t]*(?:(?:pub )?ghost [A-Za-z_]\w*\s*[:=]|requires\*?(?: \w+)?|ensures\*?(?: \w+)?)\s*\{", text, re.M):
        depth, i = 1, m.end()
        while depth:
            depth += {"{": 1, "}": -1}.get(text[i], 0)
            i += 1
        yield m.start(), i


def renamed(name):
    if name in VARIABLES:
        return VARIABLES[name]
    if name in APART:
        return APART[name]
    if name[0].isupper():
        return "".join(w[0].upper() + (w[1:].lower() if w.isupper() else w[1:]) for w in name.split("-"))
    return re.sub(r"([a-z0-9])([A-Z])", r"\1_\2", name.replace("-", "_")).lower()


def names():
    foreign, made, found = kinds()
    mine = set()
    for path, text in found.items():
        mine |= {t for t in TOKEN.findall(text) if DASHED.search(t) or CAMEL.search(t)}
    for path in RT:
        text = read(path)
        for a, b in ghost(text):
            mine |= {t for t in TOKEN.findall(text[a:b]) if DASHED.search(t) or CAMEL.search(t)}
    mine -= foreign
    both = {n for n in mine & made if n not in VARIABLES and n not in SHARED}
    mine -= made - SHARED
    return {n: renamed(n) for n in mine}, both


def turn(text, table):
    """The text with its names respelled; what stands between double quotes stays."""
    parts = re.split(r'("[^"\n]*")', text)
    return "".join(p if p.startswith('"') else TOKEN.sub(lambda m: table.get(m.group(0), m.group(0)), p) for p in parts)


def main():
    table, both = names()
    tokens = {p: set(TOKEN.findall(code(read(p)))) for p in ANTT}
    for n, new in sorted(table.items()):
        clash = [p for p, ts in tokens.items() if n in ts and new in ts]
        if clash:
            print(f"falls together: {n} and {new} in {' '.join(clash)}")
    back = {}
    for n, new in table.items():
        back.setdefault(new, []).append(n)
    for new, olds in sorted(back.items()):
        if len(olds) > 1:
            print(f"falls together: {' and '.join(sorted(olds))} as {new}")
    if "--list" in sys.argv:
        for n, new in sorted(table.items()):
            print(f"{n} -> {new}")
        print("made by Rattle, kept:", " ".join(sorted(both)))
        return
    for path in ANTT:
        text = read(path)
        new = turn(text, table)
        if new != text:
            open(path, "w", encoding="utf-8").write(new)
    for path in RT:
        text, out, last = read(path), [], 0
        for a, b in sorted(ghost(text)):
            out += [text[last:a], turn(text[a:b], table)]
            last = b
        new = "".join(out) + text[last:]
        if new != text:
            open(path, "w", encoding="utf-8").write(new)
    for path in PAGES:
        text = read(path)
        new = re.sub(r"`[^`\n]+`", lambda m: turn(m.group(0), table), text)
        if new != text:
            open(path, "w", encoding="utf-8").write(new)


main()
