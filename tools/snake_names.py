#!/usr/bin/env python3
"""Brings the repository's own definitions and lemmas to the spelling of today's library: values, lemmas and fields in snake case, types in camel case.

usage: tools/snake_names.py          at the top of the repository, once, straight after the kit's port.py
       tools/snake_names.py --list   the names only, old and new

It reads which names crates/*/specs and crates/*/proofs declare themselves (what they import from the library stays), and respells them there,
in the clauses and ghost imports of src/, and in the pages. Code, strings, inputs and outputs keep their names.
"""

import glob
import os
import re
import sys

CRATES = "words sheet search prepare walk query jarvulpe text report suspects".split()
TOKEN = re.compile(r"[^\W\d][\w'-]*")
USE = re.compile(r"use ([\w.+-]+)\.\{([^}]*)\}")
OWN = re.compile(r"Rattle\.(" + "|".join(CRATES) + r")\.")
# what stands for a word of the library that has another name today, and words that fell together with another name
BY_HAND = {"getD-below": "get_or_below", "getD-span": "get_or_span", "full-there": "places_full", "set-of": "of_literals", "byNumber": "answer_by_number"}
# a byte in a comment, and the checker's own words
KEPT = {"xFF", "type-inv", "well-formed"}
# "result" is the checker's name for what a function returns, so the definition of that name has another one
RESULT = re.compile(r"(?<![.\w'-])result(?![\w'-])")


def without_comments(text):
    return "\n".join(re.sub(r"(^|\s)--( .*|-.*|$)", "", l) for l in text.split("\n"))


def proof_of_a_function(path):
    return "/proofs/" in path and len(path.split("/")) > 4


def files():
    return sorted(glob.glob("crates/*/specs/**/*.antt", recursive=True) + glob.glob("crates/*/proofs/**/*.antt", recursive=True))


def snake(name):
    if name in BY_HAND:
        return BY_HAND[name]
    return re.sub(r"(?<=[a-z0-9])([A-Z])", lambda m: "_" + m.group(1).lower(), name.replace("-", "_"))


def respelt():
    library, seen = set(), set()
    for p in files():
        text = without_comments(open(p, encoding="utf-8").read())
        for m in USE.finditer(text):
            if not OWN.match(m.group(1) + "."):
                library |= {it.strip().split(" as ")[0].strip() for it in m.group(2).split(",")}
        if not proof_of_a_function(p):
            seen |= set(TOKEN.findall(USE.sub("", text)))
        else:
            seen |= {w for w in TOKEN.findall(text) if re.match(r"[a-z][a-z0-9_]*[A-Z]", w)} | set(re.findall(r"^pub (\+?[a-z][a-z-]*-spec)\b", text, re.M))
    old = {w for w in seen if w not in library and w not in KEPT and w[0].islower() and ("-" in w or re.match(r"[a-z][a-z0-9_]*[A-Z]", w))}
    return {w: snake(w) for w in old}


def turn_words(text, names):
    return TOKEN.sub(lambda m: names.get(m.group(0), m.group(0)), text)


def takes_result(text):
    return "pub result :" in text or re.search(r"use Rattle\.query\.specs\.Query\.\{[^}]*\bresult\b", text)


def turn_proofs(path, names):
    with open(path, encoding="utf-8") as f:
        text = f.read()
    if takes_result(text):
        text = "\n".join(l if l.lstrip().startswith("--") else RESULT.sub("outcome", l) for l in text.split("\n"))
    if proof_of_a_function(path):
        # there "is-literal" is a lemma of the byte that is branched on
        names = names | {"is-literal": "branched_is_literal"}
    return turn_words(text, names)


def turn_source(path, names):
    """Clauses and ghost imports alone; each stands on one line. A clause that kept its λ, since a definition was named `result`, loses it."""
    with open(path, encoding="utf-8") as f:
        text = f.read()
    renamed = takes_result(text)
    lines = []
    for l in text.split("\n"):
        if re.match(r"\s*(requires|ensures|ghost use)\b", l):
            if renamed:
                l = RESULT.sub("outcome", l)
            m = re.match(r"(\s*ensures)\*( (?:\w+ )?\{ )λ (\w+)\. ⌜ (.*) ⌝ \}$", l)
            if m:
                var, body = m.group(3), m.group(4)
                if var != "_":
                    body = re.sub(r"(?<![.\w'-])" + var + r"(?![\w'-])", "result", body)
                l = m.group(1) + m.group(2) + body + " }"
            l = turn_words(l, names)
        lines.append(l)
    return "\n".join(lines)


def turn_page(path, names):
    """What stands between backticks or is indented as code, alone: prose has hyphens of its own."""
    lines = []
    for l in open(path, encoding="utf-8").read().split("\n"):
        if l.startswith("    "):
            l = turn_words(l, names)
        else:
            l = re.sub(r"`[^`]+`", lambda m: turn_words(m.group(0), names), l)
        lines.append(l)
    return "\n".join(lines)


def main(argv):
    names = respelt()
    if argv == ["--list"]:
        for k in sorted(names):
            print(k, names[k])
        return
    for p in files():
        write(p, turn_proofs(p, names))
    for p in sorted(glob.glob("crates/*/src/**/*.rt", recursive=True)):
        write(p, turn_source(p, names))
    for p in sorted(glob.glob("*.md") + glob.glob("docs/*.md")):
        write(p, turn_page(p, names))


def write(path, text):
    with open(path, encoding="utf-8") as f:
        if f.read() == text:
            return
    with open(path, "w", encoding="utf-8") as f:
        f.write(text)


if __name__ == "__main__":
    os.chdir(os.path.join(os.path.dirname(os.path.realpath(__file__)), ".."))
    main(sys.argv[1:])
