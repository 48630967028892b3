#!/usr/bin/env python3
"""Brings the repository's own names to one spelling, once, after /opt/rattle/port/port.py (docs/PORT.md).

Functions, lemmas, fields and constructors of specs/ and proofs/ are in snake case, types in upper camel case.
Names of src/, of the library and of what Rattle makes keep their spelling.
Run it at the top of the repository; it changes the files of crates/ and prints each name with its new one.
"""
import collections
import glob
import re
import sys

TOKEN = r"[A-Za-z_0-9'μ⊎ℕ\-]+"
# Two names that would fall together, and the new name of one.
APART = {
    "is-in": "is_in_lem",
    "atLevel": "pairs_at_level",
    "both-free": "both_free_lem",
    "in-column": "in_column_lem",
    "partner-of": "partner_of_lem",
    "mate-in": "mate_in_lem",
    "saving-in": "saving_in_lem",
    "In-form": "TextInForm",
    "One-answer": "OneAnswerToEach",
}
# What Rattle makes: a goal, an invariant, a measure, a step.
MADE = re.compile(r"^(returns|overflow|decreases|invariant)(-|$)|^loop-.*-(init|preserved|smaller|ends)|^loop-from-preserved")


def sources():
    return sorted(glob.glob("crates/*/specs/**/*.antt", recursive=True) + glob.glob("crates/*/proofs/**/*.antt", recursive=True))


def defined():
    """Each name that a file of specs/ or proofs/ defines, with the files."""
    names = collections.defaultdict(set)
    line_of = re.compile(r"^\s*(?:(?:pub|abbrev|unfoldable|record|data|let) )*(" + TOKEN + r")(?:\s+[({].*)?\s:\s")
    for path in sources():
        for line in open(path):
            found = line_of.match(line.rstrip("\n") + " ")
            if found:
                names[found.group(1)].add(path)
    return names


def imported():
    """Each name that comes from a library, so is not the repository's own to spell."""
    names = set()
    for path in sources() + glob.glob("crates/*/src/*.rt"):
        for module, items in re.findall(r"use ([A-Za-z_0-9.]+)\.\{([^}]*)\}", open(path).read()):
            own = [d for d in crates() if module.startswith("Rattle." + d + ".")]
            if not own:
                names.update(item.split(" as ")[0].strip() for item in items.split(","))
    return names


def crates():
    return [d.split("/")[1] for d in glob.glob("crates/*/")]


def respelled(name):
    if name in APART:
        return APART[name]
    if name[0].isupper():
        return "".join(part[:1].upper() + part[1:] for part in name.split("-"))
    name = re.sub(r"([a-z0-9])([A-Z])", lambda m: m.group(1) + "_" + m.group(2).lower(), name) if re.search(r"[a-z][A-Z]", name) else name
    return name.replace("-", "_")


def turn(text, new):
    return re.sub(TOKEN, lambda m: new.get(m.group(0), m.group(0)), text)


def turn_antt(text, new):
    out = []
    for line in text.split("\n"):
        code, mark, comment = line.partition("--")
        out.append(turn(code, new) + mark + comment)
    return "\n".join(out)


def turn_clauses(text, new):
    """Of a source file only what stands in clauses, ghost items and ghost imports."""
    out, at = [], 0
    for head in re.finditer(r"\b(ghost use [^;]*;|(?:ensures|requires|ghost)\*?(?: [a-z_]+)?(?: =|:)? \{)", text):
        if head.start() < at:
            continue
        end = head.end()
        if head.group(0).endswith("{"):
            depth = 1
            while depth:
                depth += {"{": 1, "}": -1}.get(text[end], 0)
                end += 1
        out.append(text[at:head.start()] + turn(text[head.start():end], new))
        at = end
    return "".join(out) + text[at:]


def main():
    names, theirs = defined(), imported()
    new = {}
    for name in sorted(names):
        if name in theirs or MADE.match(name) or respelled(name) == name:
            continue
        new[name] = respelled(name)
    taken = collections.defaultdict(list)
    for name in names:
        taken[new.get(name, name)].append(name)
    together = {k: v for k, v in taken.items() if len(v) > 1}
    for k, v in sorted(together.items()):
        print("falls together:", k, "<-", ", ".join(v), [sorted(names[x])[:3] for x in v])
    if together and "--dry" not in sys.argv and "--force" not in sys.argv:
        return 1
    for name in sorted(new):
        print(name, "->", new[name])
    if "--dry" in sys.argv:
        return 0
    for path in sources():
        text = open(path).read()
        turned = turn_antt(text, new)
        if turned != text:
            open(path, "w").write(turned)
    for path in glob.glob("crates/*/src/*.rt"):
        text = open(path).read()
        turned = turn_clauses(text, new)
        if turned != text:
            open(path, "w").write(turned)
    for path in glob.glob("crates/*/must-fail/*.edit"):
        text = open(path).read()
        if "file: specs/" in text:
            open(path, "w").write(turn(text, new))
    return 0


sys.exit(main())
