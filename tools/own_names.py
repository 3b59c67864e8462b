#!/usr/bin/env python3
"""Brings this repository's own definitions and lemmas to today's spelling: snake case, a dash only between two names.

usage: tools/own_names.py [--list]      at the top of the repository, once, right after the kit's port.py

What is renamed is what specs/ and the lemma files of proofs/ define. Functions of src/, exported names, strings, names of generated goals and
words of the library keep their spelling. With --list it writes nothing and prints each old and new name.
"""

import os
import re
import sys

# What a token of antt is made of.
TOKEN = re.compile(r"[^\s(){}\[\].,;:=`'\"|\\@]+(?:'+)?")
# The words of the library that may stand on a side of a dash.
WORDS = {"length", "append", "take", "drop", "replicate", "map", "get_or"}
# What port.py calls by a new name, where it stands inside one of ours.
INSIDE = {"getD": "get_or"}
ANSWERS = ("Proof.antt", "Answers.antt", "Invariants.antt")
# What a definition begins with: its name, and a colon after it.
DEFINED = re.compile(r"(?m)^(?P<ind>[ \t]*)(?:pub )?(?:abbrev |unfoldable )?(?:pub )?(?:data |record )?(?P<name>[^\s:(){}.,\[\]]+)(?= (?:\([^\n]*\) |\{[^\n]*\} )?:)")
LOCAL = re.compile(r"\blet (?P<name>[^\s:(){}.,\[\]]+)(?= [:=])|λ \((?P<bound>[^\s:(){}.,\[\]]+(?: [^\s:(){}.,\[\]]+)*) :|[({](?P<arg>[^\s:(){}.,\[\]]+(?: [^\s:(){}.,\[\]]+)*) :")
ALIAS = re.compile(r"\bas (?P<name>[a-z][^\s:(){}.,\[\]]*)(?=[,}])")
# Arguments that only a clause binds.
BOUND = {"oneHome", "otherHome"}
USE = re.compile(r"(?m)^(?:ghost )?use (?P<path>[^\s{]+?)\.?\{(?P<items>[^}]*)\}")


def files(root):
    for folder, dirs, names in os.walk(root):
        dirs[:] = sorted(d for d in dirs if d not in ("out", ".git", "target"))
        for n in sorted(names):
            yield os.path.join(folder, n)


def read(path):
    with open(path, encoding="utf-8") as f:
        return f.read()


def odd(name):
    """Whether a name is in the older spelling."""
    return not name[0].isupper() and not name.startswith("-") and name != "--" and bool(re.search(r"[a-z0-9]-[A-Za-z0-9]|[a-z0-9][A-Z]", name))


def snake(part):
    part = INSIDE.get(part, part)
    return re.sub(r"(?<=[a-z0-9])([A-Z])", lambda m: "_" + m.group(1).lower(), part)


def code(text):
    """The text without its comments."""
    return re.sub(r"(?m)(^|\s)--( .*|-.*)?$", r"\1", text)


def is_answers(path):
    return "/proofs/" in path and os.path.basename(path) in ANSWERS


def own(root):
    """The names that specs/ and the lemma files define, those of them that have values of their own, and the fields."""
    names, functions = set(BOUND), set()
    for p in files(os.path.join(root, "crates")):
        if not p.endswith((".antt", ".rt")) or is_answers(p):
            continue
        t = code(read(p))
        for m in DEFINED.finditer(t) if p.endswith(".antt") else ():
            names.add(m.group("name"))
            if re.match(r"[ \t]*(abbrev|unfoldable)", m.group(0)):
                functions.add(snake(m.group("name")))
        for m in ALIAS.finditer(t):
            names.add(m.group("name"))
        for m in LOCAL.finditer(t) if p.endswith(".antt") else ():
            for w in (m.group("name") or m.group("bound") or m.group("arg") or "").split():
                names.add(w)
    return names, functions


def new_name(name, functions):
    parts = [snake(p) for p in name.split("-")]
    words = functions | WORDS
    joined = len(parts) == 2 and all(p in words for p in parts)
    if joined and (parts != name.split("-") or any(p in WORDS for p in parts)):
        return "-".join(parts)
    return "_".join(parts)


def table(root):
    """Each old name with its new one; a lemma that would have a definition's name gets `_lem`."""
    names, functions = own(root)
    made = {n: new_name(n, functions) for n in sorted(names) if odd(n)}
    taken = {made[n] for n in made if "-" not in n} | functions
    return {n: new + "_lem" if "-" in n and new in taken else new for n, new in made.items()}


# Lemmas that port.py has already turned, and that would have a definition's name now: the name, and the files that mean it.
LEMMAS = {
    "left_by": ("pages/specs/Flags.antt", "pages/proofs/walk/visit/Proof.antt"),
    "from_bits": ("unpack/proofs/Parts.antt",),
    "past_end": ("unpack/proofs/Parts.antt", "unpack/proofs/shape/Proof.antt"),
    "ran_out": ("code/specs/Missing.antt",),
}


def foreign(text):
    """What a file imports from beyond this repository."""
    got = set()
    for m in USE.finditer(text):
        if not re.match(r"Rattle\.(?!std\b)", m.group("path")):
            got |= {re.split(r" as ", w.strip())[-1] for w in m.group("items").split(",")}
    return got


def answers_of(text):
    """The names that stand for goals in a function's proof."""
    return {m.group(1) for m in re.finditer(r"(?m)^(?:pub )?([^\s:(){}.,]+) : (?:tie|goal)\.", text)} | {m.group(1) for m in re.finditer(r"(?m)^pub ([^\s:(){}.,]+-spec) :", text)}


def turned(path, text, names):
    """A file's text with its names turned; in prose only what stands between backticks."""
    keep = foreign(text) | (answers_of(text) if is_answers(path) else set())
    at_answers = is_answers(path)

    def one(m):
        w = m.group(0)
        if w in LEMMAS and path.endswith(LEMMAS[w]) and not m.string[: m.start()].endswith("."):
            return w + "_lem"
        new = names.get(w)
        if new is None or w in keep:
            return w
        if at_answers and m.start() and m.string[m.start() - 1] == "." and not fielded(m):
            return w
        return new

    def fielded(m):
        return re.search(r"(?:^|[\s(])use [^\n]*$", m.string[: m.start()].rsplit("\n", 1)[-1] + "")

    def line(l, comment):
        at = re.search(r"(^|\s)" + comment + r"( |$|-)", l)
        if at is None:
            return TOKEN.sub(one, l)
        head, tail = l[: at.start()], l[at.start() :]
        return TOKEN.sub(one, head) + re.sub(r"`[^`\n]*`", lambda q: TOKEN.sub(one, q.group(0)), tail)

    if path.endswith(".antt"):
        return "\n".join(line(l, "--") for l in text.split("\n"))
    if path.endswith(".rt"):
        return "\n".join(line(l, "//") for l in text.split("\n"))
    if path.endswith(".edit"):
        return "\n".join(l if l.startswith("#") else TOKEN.sub(one, l) for l in text.split("\n"))
    return re.sub(r"`[^`\n]*`", lambda q: TOKEN.sub(one, q.group(0)), text)


def main(argv):
    root = "."
    names = table(root)
    if "--list" in argv:
        for old, new in names.items():
            print(old, new)
        return 0
    for p in files(root):
        if "/tools/" in p or not p.endswith((".antt", ".rt", ".edit", ".md")):
            continue
        if p.endswith(".md") and os.path.basename(p) in ("CHANGELOG.md",):
            continue
        text = read(p)
        new = turned(p, text, names)
        if new != text:
            with open(p, "w", encoding="utf-8") as f:
                f.write(new)
    return 0


if __name__ == "__main__":
    raise SystemExit(main(sys.argv[1:]))
