#!/usr/bin/env python3
"""Brings the repository's own antt names to the spelling of the library's: words in snake case.

usage: snake_names.py      at the top of the repository, once, right after the port script

Definitions, lemmas and fields that specs/ and proofs/ declare are renamed, wherever they stand: in .antt files, in clauses and imports of .rt files, in
must-fail edits and between backticks in the documents. A capital inside a lower-case name becomes '_' and a small letter; a dash becomes '_', but stays
where the words on both sides are names of functions (`length-transposed`) or where the new name is taken. Types, modules, constructors of the library, names
that Rattle makes, and names of the Rust sources stay. It prints the names that stayed because another has the spelling.
"""

import glob
import os
import re
import sys

TOKEN = re.compile(r"[^\s(){}\[\],;.\"«»`⟦⟧]+")
DECLARED = re.compile(r"^(\s*)((?:(?:abbrev|opaque|unfoldable|pub|constructor)\s+)*)([^\s(){}\[\],;.:]+)\s+:(?:\s|$)")
USED = re.compile(r"^\s*(?:ghost |pub )*use ([^\s{}]+?)\.\{([^{}]*)\}", re.M)
# Functions of the library that lemmas here speak of.
OF_LIBRARY = set("length get_or take drop set append map reverse replicate sum min max mod div add mul sub pow bit_xor bit_and bit_or zip".split())


def files(pattern):
    return sorted(p for p in glob.glob(pattern, recursive=True) if "/out/" not in p)


def read(p):
    with open(p, encoding="utf-8", newline="") as f:
        return f.read()


def words(name):
    """The words of one part of a name, in snake case."""
    if re.search(r"[a-z0-9'][A-Z]", name) and name[0].islower():
        name = re.sub(r"(?<=[a-z0-9'])([A-Z])", lambda m: "_" + m.group(1).lower(), name)
    return name


def main():
    antt = files("crates/*/specs/**/*.antt") + files("crates/*/proofs/**/*.antt")
    declared, fields, functions, outside, every, answers = set(), set(), set(), set(), set(), set()
    for p in antt:
        text = read(p)
        in_record = False
        for line in text.splitlines():
            if line.startswith("--"):
                continue
            if re.match(r"(pub )?(record|data) [A-Z]", line):
                in_record = True
                continue
            m = DECLARED.match(line)
            if line and not line[0].isspace():
                in_record = False
            if m and re.match(r"\{M : Type 1\} → |tie\.(Need|invariant|decreases)\b", line[m.end() :].strip()):
                answers.add(m.group(3))  # to a goal, and it has the goal's name
                continue
            if m and m.group(3) not in ("let", "_"):
                declared.add(m.group(3))
                if in_record and m.group(1):
                    fields.add(m.group(3))
                if not p.endswith("/Proof.antt") and ("abbrev" in m.group(2) or "unfoldable" in m.group(2)):
                    functions.add(m.group(3))
    for p in antt + files("crates/*/src/**/*.rt"):
        text = read(p)
        for m in USED.finditer(text):
            names = [n.strip().split(" as ")[0] for n in m.group(2).split(",")]
            top = m.group(1).split(".")
            if not (top[0] == "Rattle" and os.path.isdir(os.path.join("crates", top[1]))) or "declared" in top:
                outside.update(names)
        if p.endswith(".antt"):
            text = re.sub(r"(?m)--.*$|^\s*(pub )?use [^\s{]+", "", text)
            every.update(m.group(0) for m in TOKEN.finditer(text) if text[m.start() - 1 : m.start()] != ".")
    own = {n for n in declared if n not in outside and n[0].islower() or n in fields}
    known = {words(n) for n in functions} | OF_LIBRARY

    def renamed(n):
        parts = [words(it) for it in n.split("-")]
        if len(parts) == 1:
            return parts[0]
        if "" in parts:
            return n
        out, last = parts[0], [parts[0]]
        for i, it in enumerate(parts[1:], 1):
            left, right = "_".join(last), {"_".join(parts[i:j]) for j in range(i + 1, len(parts) + 1)}
            if left in known and right & known:
                out, last = out + "-" + it, [it]
            else:
                out, last = out + "_" + it, last + [it]
        return out

    new = {n: renamed(n) for n in sorted(own)}
    new = {n: r for n, r in new.items() if r != n}
    taken = (outside | (every - answers) | declared) - set(new)
    seen, lemmas = {}, {}
    # Definitions first: a lemma that has the spelling gives way.
    for n, r in sorted(new.items(), key=lambda it: (it[0] not in functions and it[0] not in fields, "-" in it[0], it[0])):
        given = functions | fields
        if r in taken and n in given and r in declared and r not in given and r not in outside:
            lemmas[r] = r + "_lem"
            taken.discard(r)
        if r not in taken and r not in seen:
            seen[r] = n
            continue
        # What is left of the name: its parts in snake case, joined by dashes.
        to = "-".join(words(it) for it in n.split("-"))
        print(f"stays: {n} -> {to} ({r}: {seen.get(r, 'there already')})")
        if to != n and to not in taken and to not in seen:
            new[n] = to
            seen[to] = n
        else:
            del new[n]
    for n, r in sorted(lemmas.items()):
        print(f"gives way: {n} -> {r}")

    def turned(text, comments, names=new):
        out, at = [], 0
        for m in TOKEN.finditer(text):
            n = m.group(0)
            if n not in names:
                continue
            before = text[m.start() - 1 : m.start()]
            if before == "." and n not in fields:
                # a module's member by its path, and no name that Rattle made
                if not re.search(r"Rattle(\.\w+)+\.$", text[max(0, m.start() - 200) : m.start()]):
                    continue
            line = text[text.rfind("\n", 0, m.start()) + 1 : m.start()]
            if comments in line and before != "`" and not re.search(r"[a-z][A-Z]", n):
                continue
            out.append(text[at : m.start()])
            out.append(names[n])
            at = m.end()
        return "".join(out) + text[at:]

    changed = 0
    for p in antt + files("crates/*/src/**/*.rt") + files("crates/*/must-fail/*.edit"):
        text = read(p)
        to = turned(text, "//" if p.endswith(".rt") else "--" if p.endswith(".antt") else "\0", new | lemmas if p.endswith(".antt") else new)
        if to != text:
            changed += 1
            with open(p, "w", encoding="utf-8", newline="") as f:
                f.write(to)
    for p in ["README.md"] + files("docs/**/*.md"):
        text = read(p)
        to = re.sub(r"`[^`\n]+`", lambda m: turned(m.group(0), "\0"), text)
        if to != text:
            changed += 1
            with open(p, "w", encoding="utf-8", newline="") as f:
                f.write(to)
    print(f"{len(new)} names, {changed} files")


if __name__ == "__main__":
    sys.exit(main())
