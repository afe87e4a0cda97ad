#!/usr/bin/env python3
"""Brings the names of this repository's own definitions and lemmas to the spelling of the library: words in snake case, a dash only
beside the name of a definition.

usage: python3 tools/respell.py [--dry]     at the top of the repository, once, on what the kit's port.py has turned

A name is turned where a file of crates/ declares it, imports it from a crate here or projects it; names that Rust sources, Rattle or
the library give stay as they are. The same names are turned in the clauses of .rt files and, between backquotes, in comments.
It stops, with nothing written, where two names of one file would fall together.
"""
import collections
import os
import re
import sys

TOKEN = re.compile(r"[^\s(){}.,;:«»`\"∥]+")
USE = re.compile(r"^\s*(?:pub )?use ([^{;]+)\.\{([^}]*)\}", re.M)
GHOST = re.compile(r"^ghost use ([^{;]+)\.\{([^}]*)\}", re.M)
SIGNATURE = re.compile(r"^(\s*)((?:abbrev |unfoldable |pub )*)([^\s:(){}.,;=]+) :(?=\s|$)(.*)$")
WORD = re.compile(r"[A-Za-z0-9']+")
# would else fall together with a lemma that port.py turned
APART = {"shownBy": "shown_progress"}
GHOST_LIST = re.compile(r"^ghost use [^{;]+\{([^}]*)\}", re.M)
CLAUSE = re.compile(r"\b(?:requires|ensures|ghost)\b\*?(?:\s+\w+)?:?\s*\{")
HEAD = re.compile(r"^(\s*)(?:abbrev |unfoldable |pub )*(record|data|module)\s+(\S+)")


def sources(suffixes):
    for folder, dirs, files in os.walk("crates"):
        dirs[:] = sorted(d for d in dirs if d != "out")
        for name in sorted(files):
            if name.endswith(suffixes):
                yield os.path.join(folder, name)


def read(path):
    with open(path, encoding="utf-8") as file:
        return file.read()


def declarations(path, text):
    """The names that a file of antt declares, and those of them that are fields of a record."""
    names, fields, record = set(), set(), None
    for line in text.split("\n"):
        if line.lstrip().startswith("--"):
            continue
        head = HEAD.match(line)
        if head:
            if head.group(2) != "module":
                names.add(head.group(3))
            record = len(head.group(1)) if head.group(2) == "record" else None
            continue
        sign = SIGNATURE.match(line)
        if not sign:
            continue
        inside = record is not None and len(sign.group(1)) > record
        if not inside:
            record = None
        # what a proof by hand says of the goals that Rattle names
        if path.endswith("Proof.antt") and (sign.group(4).lstrip().startswith("tie.") or sign.group(3).endswith(("-spec", "_spec"))):
            continue
        names.add(sign.group(3))
        if inside:
            fields.add(sign.group(3))
    return names, fields


def names_of(path, text):
    """The names that stand for themselves in a file: in .rt those of imports, clauses and parameters; no parts of paths, no projections."""
    text = re.sub(r"(?m)--.*$" if path.endswith(".antt") else r"(?m)//.*$", "", text)
    text = re.sub(r"\bRattle\.[^\s{}]*", " ", text)
    if path.endswith(".rt"):
        parts = GHOST_LIST.findall(text)
        for at in CLAUSE.finditer(text):
            depth, end = 1, at.end()
            while depth:
                depth += {"{": 1, "}": -1}.get(text[end], 0)
                end += 1
            parts.append(text[at.end():end - 1])
        parts += re.findall(r"\bfn \w+(?:<[^>]*>)?\(([^)]*)\)", text)
        text = " ".join(parts)
    return {m.group(0) for m in TOKEN.finditer(text) if m.start() == 0 or text[m.start() - 1] != "."}


def snake(word):
    """twoM106 to two_m106, toDigits to to_digits; a word that begins with a capital is a type's or a source constant's, and stays."""
    if not word or not (word[0].islower() or word[0] == "_"):
        return word
    word = re.sub(r"(?<=[a-z0-9])([A-Z])(?=[a-z])", lambda m: "_" + m.group(1).lower(), word)
    return re.sub(r"(?<=[a-z])([A-Z])(?![a-z])", lambda m: "_" + m.group(1).lower(), word)


def respelled(name, heads):
    """A dash stays beside a sign, and beside the name of a definition in several words; other words are joined by an underscore.
    A lemma that would have a definition's name gets _lem behind it."""
    if name in APART:
        return APART[name]
    if "-" not in name:
        return snake(name)
    words = [w for part in name.split("-") for w in (snake(part).split("_") if WORD.fullmatch(part) else [part])]
    if not all(words):
        return name
    parts, at = [], 0
    while at < len(words):
        end = next((e for e in range(len(words), at + 1, -1) if "_".join(words[at:e]) in heads), at + 1)
        parts.append(("_".join(words[at:end]), end > at + 1 or not WORD.fullmatch(words[at])))
        at = end
    new = parts[0][0]
    for (_, one), (part, other) in zip(parts, parts[1:]):
        new += ("-" if one or other else "_") + part
    return new + "_lem" if new in heads else new


def main():
    dry = "--dry" in sys.argv
    crates = {c for c in os.listdir("crates")}
    antt = {p: read(p) for p in sources((".antt",))}
    rust = {p: read(p) for p in sources((".rt",))}
    own, fields, by_file = set(), set(), {}
    for path, text in antt.items():
        by_file[path], its = declarations(path, text)
        own |= by_file[path]
        fields |= its
    heads = {snake(n) for n in own if "-" not in n and n[:1].islower()}
    new = {n: respelled(n, heads) for n in own}
    new = {n: m for n, m in new.items() if m != n}

    def imported(text, pattern):
        ours, others = set(), set()
        for path, names in pattern.findall(text):
            first = path.strip().split(".")
            mine = first[0] == "Rattle" and len(first) > 2 and first[1] in crates and first[2] in ("specs", "proofs")
            for item in re.split(r",\s*", names):
                item = item.strip()
                if item:
                    (ours if mine else others).add(item.split(" as ")[-1].strip() if " as " in item else item)
        return ours, others

    clashes = []
    out = {}
    for path, text in list(antt.items()) + list(rust.items()):
        pattern = USE if path.endswith(".antt") else GHOST
        ours, others = imported(text, pattern)
        tokens = names_of(path, text)
        proof = path.endswith("Proof.antt")
        declared = by_file.get(path, set())
        turned = {}
        for token in tokens:
            if token not in new or token in others:
                continue
            if token in declared or token in ours or token in fields or "-" not in token or not proof:
                turned[token] = new[token]
        after = collections.Counter(turned.get(t, t) for t in tokens)
        for name, count in after.items():
            if count > 1:
                clashes.append(f"{path}: {[t for t in tokens if turned.get(t, t) == name]} would all be {name}")

        def one(match):
            token = match.group(0)
            if token not in turned:
                return token
            start = match.start()
            # behind a dot a name with a dash is a step that Rattle names, unless a record here has it or a module of this repository
            if proof and start and text_part[start - 1] == "." and "-" in token and token not in fields:
                before = re.search(r"([^\s(){},;]+)\.$", text_part[:start])
                head = before.group(1) if before else ""
                if not head.split(".")[0][:1].isupper():
                    return token
            return turned[token]

        lines = []
        for line in text.split("\n"):
            mark = "//" if path.endswith(".rt") else "--"
            at = line.find(mark) if line.lstrip().startswith(mark) or (" " + mark) in line else -1
            if path.endswith(".rt") and '"' in line:
                lines.append(line)
                continue
            text_part, comment = (line, "") if at < 0 else (line[:at], line[at:])
            text_part = TOKEN.sub(one, text_part)
            comment = re.sub(r"`([^`]*)`", lambda m: "`" + TOKEN.sub(lambda t: new.get(t.group(0), t.group(0)), m.group(1)) + "`", comment)
            lines.append(text_part + comment)
        out[path] = "\n".join(lines)
    if clashes:
        print("\n".join(clashes))
        print(f"{len(clashes)} clashes: nothing is written")
        return 1
    changed = 0
    for path, text in out.items():
        if text != (antt.get(path) or rust.get(path)):
            changed += 1
            if not dry:
                with open(path, "w", encoding="utf-8") as file:
                    file.write(text)
    print(f"{len(new)} names, {changed} files")
    if dry:
        for n in sorted(new):
            print(n, new[n])
    return 0


if __name__ == "__main__":
    sys.exit(main())
