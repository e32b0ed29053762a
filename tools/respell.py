#!/usr/bin/env python3
"""Brings the repository's own names to the spelling of today's Rattle, in crates/: words in snake case, types and modules in camel case.

usage: tools/respell.py [--list]      at the top, once, right after port.py; --list only prints the names, old and new

A camel-case word of a definition, a lemma, a field or a variable becomes snake case: `bitsFrom` is `bits_from`. In a lemma's name a dash
stays where it joins two names, as in `give-moves`, and is `_` where it only joins words, as in `few_digits`. Names of src/ (functions,
types, their fields and variants), names of the library, strings, inputs and outputs stay. A definition may have the name of a function
of src/ that computes it. Where a file has both the old and the new name, that is told, and so is each pair that falls together.
"""

import os
import re
import sys

TOKEN = re.compile(r"[A-Za-z_][A-Za-z0-9_']*(?:-[A-Za-z0-9_']+)*")
CAMEL = re.compile(r"^_?[a-z][A-Za-z0-9]*[A-Z][A-Za-z0-9]*'?$")
DEFINED = re.compile(r"(?m)^(?:abbrev |unfoldable |private )*(?:pub )?([A-Za-z_][A-Za-z0-9_'-]*) :(?=\s)")
# Local names that would fall together with a definition's.
LOCAL = {"crates/stereo_laws/proofs/SoundLaws.antt": {"no_body": "no_body_sound"}}
USED = re.compile(r"(?m)^(?:pub |ghost )*use ([A-Za-z0-9_.+'-]+)\.\{([^}]*)\}")


def files(root):
    for folder, dirs, names in os.walk(os.path.join(root, "crates")):
        dirs[:] = sorted(d for d in dirs if d != "out")
        for name in sorted(names):
            if name.endswith((".antt", ".rt", ".edit")):
                yield os.path.join(folder, name)


def is_own(path, crates):
    parts = path.split(".")
    return parts[0] == "Rattle" and len(parts) > 1 and parts[1] in crates


def library_names(texts, crates):
    found = set()
    for text in texts.values():
        for path, names in USED.findall(text):
            if not is_own(path, crates):
                found |= {n.split(" as ")[0].strip() for n in names.split(",")}
    return found


def snake(word):
    return re.sub(r"(?<=[a-z0-9])([A-Z])", lambda m: "_" + m.group(1), word).lower()


def all_tokens(texts):
    found = set()
    for text in texts.values():
        found |= set(TOKEN.findall(text))
    return found


def camel_words(tokens, library):
    """Each camel-case part of a name, with its new spelling."""
    parts = {p for t in tokens if t not in library for p in t.split("-")}
    return {p: snake(p) for p in parts if CAMEL.match(p) and p not in library}


def in_lib(path):
    return path.endswith(".antt") and os.path.basename(path) not in ("Proof.antt", "Invariants.antt", "Answers.antt")


def names_joined(texts, library):
    """The names that a dash may join: definitions, functions, the library's, each also as a fact is written in a lemma's name."""
    found = set(library)
    for path, text in texts.items():
        if path.endswith(".rt"):
            found |= set(re.findall(r"\bfn (\w+)", text))
        if "/specs/" in path or in_lib(path):
            found |= set(DEFINED.findall(text))
            found |= set(re.findall(r"(?m)^(?:abbrev |unfoldable )*pub (?:data|record) (\w+)", text))
            found |= set(re.findall(r"(?m)^  (?:pub )?(\w+) : ", text))
    found |= {w.split("-")[0] for w in library if w.count("-") == 1}
    return found | {snake(w) for w in found}


def undashed(name, joined):
    parts = name.split("-")
    made, last = parts[0], parts[0]
    for part in parts[1:]:
        keeps = (last in joined or made in joined) and part in joined
        made += ("-" if keeps else "_") + part
        last = part
    return made


def told_of_files(root, texts, words):
    """Tells of each file that has an old name and, as a name of its own, the new one. Paths of modules have the names of src/."""
    for path, text in texts.items():
        bare = re.sub(r"Rattle\.[\w.]+", "", re.sub(r"(?m)^\s*--.*$", "", text))
        found = set(TOKEN.findall(bare))
        if path.endswith(".antt"):
            for old, new in sorted(words.items()):
                if old in found and new in found:
                    print(f"both: {old} and {new} in {os.path.relpath(path, root)}")


def turned_local(root, path, text):
    """The text with the local names that would fall together renamed."""
    for old, new in LOCAL.get(os.path.relpath(path, root), {}).items():
        text = re.sub(rf"(?<![\w'-]){old}(?![\w'-])", new, text)
    return text


def main():
    root = os.getcwd()
    texts = {p: turned_local(root, p, open(p, encoding="utf-8").read()) for p in files(root)}
    crates = set(os.listdir(os.path.join(root, "crates")))
    library = library_names(texts, crates)
    tokens = all_tokens(texts)
    words = camel_words(tokens, library)
    told_of_files(root, texts, words)

    def respelt(token):
        return "-".join(words.get(p, p) for p in token.split("-"))

    joined = {respelt(n) for n in names_joined(texts, library)}
    lemmas = {n for p, t in texts.items() if in_lib(p) for n in DEFINED.findall(t) if "-" in n and n not in library}
    whole = {}
    for name in sorted(lemmas):
        new = undashed(respelt(name), joined)
        if new != respelt(name) and (new in tokens or new in words.values() or new in whole.values()):
            print(f"taken: {name}: {new} is a name already")
            new = respelt(name)
        whole[name] = new
    seen = {}
    for old, new in list(whole.items()) + [(w, n) for w, n in words.items()]:
        if new in seen:
            print(f"fall together: {old} and {seen[new]} are both {new}")
        seen[new] = old
    if "--list" in sys.argv:
        for old, new in sorted(whole.items()) + sorted(words.items()):
            if old != new:
                print(f"{old} {new}")
        return

    def turned(m):
        token = m.group(0)
        return token if token in library else whole.get(token, respelt(token))

    for path, text in texts.items():
        with open(path, "w", encoding="utf-8") as f:
            f.write(TOKEN.sub(turned, text))


main()
