#!/usr/bin/env python3
"""Brings the repository's own names to the spelling of the toolchain's style, once, after its port
script: definitions in snake case, a dash in a lemma's name only where it joins two names.

    tools/spelling.py            rewrites crates/ and prints each name that changes
    tools/spelling.py --check    prints them and writes nothing

A name is turned by whole words in specs/, proofs/, clauses and must-fail edits. A lemma keeps its
dashes where the new name is taken.
"""
import collections
import pathlib
import re
import sys

ROOT = pathlib.Path.cwd()
CRATES = ROOT / "crates"
WORD = re.compile(r"[A-Za-z_Ͱ-Ͽ◌][\w'′-]*")
DEFINED = re.compile(
    r"(?m)^[ ]*(?:unfoldable |abbrev )?(?:pub )?(?!use\b|let\b|in\b|λ)([A-Za-z][\w'′-]*)(?: \{ℓ\})? :(?=\s)")
CAMEL = re.compile(r"^[a-z][\w'′-]*[a-z0-9][A-Z]")
# what a dash may join beside the repository's own definitions: the library's names, constructors
LIBRARY = """length take drop set sets append cons nil map replicate zero suc one add mul sub mod div pow min max get_or
cond and or not eqb ltb leb some none list pad tabulate filter sum reverse all any""".split()


def snake(name):
    return re.sub(r"(?<=[a-z0-9'])([A-Z])", lambda m: "_" + m[1].lower(), name)


def files():
    for path in sorted(CRATES.rglob("*")):
        if path.suffix in (".antt", ".rt", ".edit") and "out" not in path.relative_to(CRATES).parts[1:2]:
            yield path


def kind(path):
    parts = path.relative_to(CRATES).parts
    return "lemmas" if parts[1] == "proofs" and len(parts) == 3 else parts[1]


# names beside which a definition comes to have the same one, by the first word of the crate
BESIDE = {
    "monitor_answers": {"call_rows": "call_rows_lem"},
    "enforcement": {"position_at": "position_at_lem", "one_more": "one-more", "number_size": "number-size"},
    "notation_unpack": {"is_digit": "digit_is"},
}


def apart(path, text):
    if path.suffix == ".antt":
        for crate, names in BESIDE.items():
            if path.relative_to(CRATES).parts[0].startswith(crate):
                text = WORD.sub(lambda m: names.get(m[0], m[0]), text)
    return text


given = {path: path.read_text(encoding="utf-8") for path in files()}
texts = {path: apart(path, text) for path, text in given.items()}
words = {path: set(WORD.findall(text)) for path, text in texts.items()}
specs, lemmas = set(), set()
for path, text in texts.items():
    if path.suffix == ".antt":
        body = re.sub(r"--.*", "", text)
        if kind(path) == "specs":
            specs |= set(DEFINED.findall(body))
        elif kind(path) == "lemmas":
            lemmas |= set(DEFINED.findall(body))

turned = {name: snake(name) for name in specs | lemmas if CAMEL.match(name)}
known = {turned.get(name, name) for name in specs} | set(LIBRARY)
taken = set().union(*words.values()) | set(turned.values())
kept = []
for name in sorted(lemmas):
    new = snake(name) if CAMEL.match(name) else name
    parts, out = new.split("-"), ""
    for i, part in enumerate(parts):
        if i:
            joins = "_".join(parts[:i]) in known or parts[i - 1] in known
            out += "-" if joins and ("_".join(parts[i:]) in known or part in known) else "_"
        out += part
    if out != name:
        if out in taken and out != turned.get(name):
            kept.append((name, out))
            out = new
        if out != name:
            turned[name] = out
            taken.add(out)

clashes = collections.defaultdict(list)
for path, used in words.items():
    for name in used & turned.keys():
        if turned[name] in used:
            clashes[name].append(str(path.relative_to(CRATES)))
by_new = collections.defaultdict(list)
for name, new in turned.items():
    by_new[new].append(name)
for new, names in by_new.items():
    if len(names) > 1:
        print("falls together:", new, names)
for name, where in sorted(clashes.items()):
    print("beside:", name, "->", turned[name], where)
for name, out in kept:
    print("kept:", name, "for", out, "is taken")
if "--check" not in sys.argv:
    for path, text in texts.items():
        new = WORD.sub(lambda m: turned.get(m[0], m[0]), text)
        if new != given[path]:
            path.write_text(new, encoding="utf-8")
for name, new in sorted(turned.items()):
    print("turned:", name, new)
