#!/usr/bin/env python3
"""Brings the names of definitions and lemmas to snake case, once, in crates/*/specs and crates/*/proofs and in clauses of crates/*/src.

usage: tools/respell.py            at the top of the repository: rewrites the files, and lists the names that changed in docs/names.txt
       tools/respell.py --list     prints the names alone

A name begins with a small letter and is declared in a file of specs/ or of lemmas. camelCase becomes snake_case, a dash becomes an underscore.
The proof of a function gets the name f_spec. Names that Rattle makes (goals, steps, modules of functions), names of the library, of types, of src/ and of files stay.
Two names of a file that would fall together are printed, and nothing is written."""
import collections
import os
import re
import sys

DECLARED = re.compile(r"^(\s*)(?:(?:abbrev|unfoldable|pub|opaque)\s+)*(?:(?:record|data|module)\s+)?([^\s:(){},.=|]+)(?:\s+[({][^=]*?)?\s*:(?:\s|$)")
TOKEN = re.compile(r"[^\s(){}.,;\"]+")
IMPORT = re.compile(r"(?:ghost )?(?:unfoldable )?(?:pub )?(?:unfoldable )?(?:ghost )?use ([^\s{;]+?)(?:\.\{([^}]*)\}| as (\S+?))?;?\s*$", re.M)
# lemmas that an earlier script brought to the name that a definition gets now
LEMMAS = {"a_second", "first_fits", "listed_next", "no_table", "no_walk", "places_true", "same_address"}
# definitions that would get the name of a field of src/
FIELDS = {"captureLength": "capture_length_of", "clockHost": "clock_host_of", "linkCount": "link_count_of", "placesTrue": "places_true_of", "stretchesLength": "stretches_length_of"}
MADE = {"Statement", "Tie", "Code", "Symbol", "Met", "Goals", "Given"}


def files():
    """Each file with its kind: 'specs', 'lemmas', 'function' or 'src'."""
    for crate in sorted(os.listdir("crates")):
        for folder, dirs, names in os.walk(os.path.join("crates", crate)):
            dirs[:] = sorted(d for d in dirs if d not in ("out", "must-fail"))
            parts = os.path.relpath(folder, os.path.join("crates", crate)).split(os.sep)
            for name in sorted(names):
                path = os.path.join(folder, name)
                if name.endswith(".rt"):
                    yield path, "src"
                elif name.endswith(".antt"):
                    if parts[0] == "specs":
                        yield path, "specs"
                    else:
                        yield path, "function" if name in ("Proof.antt", "Answers.antt", "Invariants.antt") else "lemmas"


def snake(name):
    name = re.sub(r"(?<=[a-z0-9])([A-Z])", lambda m: "_" + m[1].lower(), name)
    return name.replace("-", "_").replace("′", "'")


def turns(name):
    return name[0].islower() and name[0].isascii() and (re.search(r"[a-z0-9][A-Z]", name) or "-" in name) and re.fullmatch(r"[A-Za-z0-9_'′-]+", name)


def own(path):
    """Is the module one of this repository's specs or lemma files?"""
    parts = path.split(".")
    return parts[0] == "Rattle" and len(parts) > 3 and parts[1] in CRATES and parts[2] in ("specs", "proofs") and parts[3] not in ("declared", "contracts") and parts[-1] not in MADE and parts[-1][0].isupper()


def imports(text):
    """Names imported from our modules, names imported from elsewhere, aliases of our modules."""
    ours, theirs, aliases = set(), set(), set()
    for path, names, alias in IMPORT.findall(text):
        if names:
            for n in names.replace("\n", " ").split(","):
                n = n.strip()
                (ours if own(path) else theirs).update(re.split(r"\s+as\s+", n)[:1])
        elif own(path):
            aliases.add(alias or path.split(".")[-1])
    return ours, theirs, aliases


def main():
    global CRATES
    CRATES = set(os.listdir("crates"))
    texts = {p: (k, open(p, encoding="utf-8").read()) for p, k in files()}
    declared, public = collections.defaultdict(set), {}
    for p, (kind, text) in texts.items():
        if kind in ("specs", "lemmas"):
            for line in text.split("\n"):
                m = DECLARED.match(line)
                if m and turns(m[2]):
                    declared[p].add(m[2])
    public = set().union(*declared.values())
    told, clashes, out = {}, [], {}
    # what a name becomes: a lemma that would have the name of a definition gets _lem
    kept = set()
    for p, (kind, text) in texts.items():
        kept |= imports(text)[1]
        if kind in ("specs", "lemmas"):
            kept |= {m[2] for m in map(DECLARED.match, text.split("\n")) if m and not turns(m[2])}
    humps = {n: FIELDS.get(n, snake(n)) for n in public if "-" not in n}
    taken = kept | set(humps.values())
    target = {n: humps.get(n) or (snake(n) + "_lem" if snake(n) in taken else snake(n)) for n in public}
    for n, t in sorted(humps.items()):
        if t in kept:
            print(f"definition {n}: {t} is there")
    for p, (kind, text) in texts.items():
        ours, theirs, aliases = imports(text)

        mine = {m[2] for m in map(DECLARED.match, text.split("\n")) if m} if kind == "lemmas" else set()
        lent = {n for path, names, alias in IMPORT.findall(text) if own(path) and ".proofs." in path for n in re.split(r"[,\s]+", names)}

        def new(m):
            word = m[0]
            if word in LEMMAS and (word in mine or word in lent):
                if text[: m.start()].endswith(".") and not text[: m.start()].endswith(".{"):
                    return word
                told[word] = word + "_lem"
                return word + "_lem"
            if word not in public or word in theirs:
                return word
            before = text[: m.start()]
            dotted = before.endswith(".")
            if dotted and "-" in word:
                head = re.search(r"([^\s(){}.,;]+)\.$", before)
                if not (head and head[1] in aliases) and not re.search(r"\.\{[^}]*$", before) and "-" in word:
                    return word
            if "-" in word:
                if kind == "src" or (kind == "function" and word not in ours and not dotted):
                    return word
            told[word] = target[word]
            return target[word]

        if kind == "src":
            # clauses and imports alone
            done, i = [], 0
            for m in re.finditer(r"^\s*ghost (?!use)\w+[^\n]*$|^\s*(?:pub )?ghost use [^;]*;|^\s*(?:requires|ensures)\*?\b[^{]*\{", text, re.M):
                if m.start() < i:
                    continue
                end = m.end()
                if m[0].endswith("{"):
                    depth = 1
                    while depth:
                        depth += {"{": 1, "}": -1}.get(text[end], 0)
                        end += 1
                done += [text[i : m.start()], text[m.start() : end]]
                i = end
            done.append(text[i:])
            result = "".join(TOKEN.sub(lambda t: target[t[0]] if t[0] in public and "-" not in t[0] else t[0], s) if k % 2 else s for k, s in enumerate(done))
            for s in done[1::2]:
                for t in TOKEN.findall(s):
                    if t in public and "-" not in t:
                        told[t] = target[t]
        else:
            result = TOKEN.sub(new, text)
        after, paths = collections.defaultdict(set), [m.span(1) for m in IMPORT.finditer(text)]
        for m in TOKEN.finditer(text):
            dot = text[: m.start()].endswith(".") and not re.search(r"\.\{[^}]*$", text[max(0, m.start() - 2000) : m.start()])
            line = text[text.rfind("\n", 0, m.start()) + 1 : m.start()]
            if kind != "src" and "--" not in line and not dot and not any(a <= m.start() < b for a, b in paths):
                after[new(m)].add(m[0])
        for n, olds in after.items():
            if len(olds) > 1:
                clashes.append((p, n, olds))
        out[p] = result
    for p, n, olds in clashes:
        print(f"{p}: {' and '.join(sorted(olds))} fall together as {n}")
    if "--list" in sys.argv:
        for a, b in sorted(told.items()):
            print(f"{a} {b}")
        return 0
    if clashes:
        return 1
    for p, t in out.items():
        if t != texts[p][1]:
            with open(p, "w", encoding="utf-8") as f:
                f.write(t)
    for p, (kind, text) in texts.items():
        if os.path.basename(p) == "Proof.antt":
            # the proof of a function f is f_spec
            with open(p, encoding="utf-8") as f:
                text = f.read()
            for name in re.findall(r"^pub (\S+-spec)\s*:", text, re.M):
                text = re.sub(r"(?<![\w'-])" + re.escape(name) + r"(?![\w'-])", name.replace("-", "_"), text)
            with open(p, "w", encoding="utf-8") as f:
                f.write(text)
    with open("docs/names.txt", "w", encoding="utf-8") as f:
        f.write("".join(f"{a} {b}\n" for a, b in sorted(told.items())))
    print(f"{len(told)} names turned")
    return 0


if __name__ == "__main__":
    sys.exit(main())
