#!/usr/bin/env python3
"""Respells the repository's own definitions and lemmas: words in snake case, so `first-none` is `first_none` and `badSides` is `bad_sides`;
types and modules in camel case.

Run once, at the top of the repository, after the kit's port.py. It goes over code, clauses, specs, proofs, edits and pages. Functions of src/,
exported names, strings, what the kit generates and the library's names keep theirs. Where two names of a file would fall together, a lemma
gets `_fact` behind it, and a definition beside a function of its name `_value`. With --look it only lists what it would rename.
"""
import glob
import re
import sys

NAME = re.compile(r"(?<![\w'\u2032-])[A-Za-z_][\w'\u2032]*(?:-[\w'\u2032]+)*")
RT = re.compile(r"""(?P<text>b?"(?:\\.|[^"\\])*"|b?'(?:\\.|[^'\\])[^'\s]{0,8}?')|(?P<note>//[^\n]*)""")
ANTT = re.compile(r"""(?P<text>"(?:\\.|[^"\\])*")|(?P<note>--[^\n]*)""")
DECLARED = re.compile(
    r"^ *(?:abbrev |unfoldable |pub |opaque )*(?:(record|data) )?([A-Za-z_][\w'\u2032]*(?:-[\w'\u2032]+)*)(?= [:({])|^ +(?:pub )?([A-Za-z_][\w'\u2032]*(?:-[\w'\u2032]+)*) : ",
    re.M,
)


def snake(name):
    words = name.replace("-", "_").replace("\u2032", "'")
    return re.sub(r"(?<=[a-z0-9'])([A-Z])", r"_\1", words).lower()


def camel(name):
    return "".join(w[:1].upper() + w[1:] for w in re.split("[-_]", name.replace("\u2032", "'")))


def odd(name):
    return "-" in name or "\u2032" in name or bool(re.match(r"[a-z_]", name) and re.search(r"[A-Z]", name))


def pieces(text, pattern):
    at = 0
    for m in pattern.finditer(text):
        yield "code", text[at : m.start()]
        yield ("note" if m.group("note") else "text"), m.group()
        at = m.end()
    yield "code", text[at:]


def code_of(text, pattern):
    return "".join(p for k, p in pieces(text, pattern) if k == "code")


def main():
    antt = sorted(glob.glob("crates/*/specs/**/*.antt", recursive=True) + glob.glob("crates/*/proofs/**/*.antt", recursive=True))
    rt = sorted(glob.glob("crates/*/src/**/*.rt", recursive=True))
    edits = sorted(glob.glob("crates/*/must-fail/*.edit"))
    pages = ["README.md"] + sorted(glob.glob("docs/*.md")) + sorted(glob.glob("tests/trace/*.txt"))
    ours = {line.split(":")[0] for line in open("crates.txt") if line[:1] not in "#\n"}
    code = {path: code_of(open(path).read(), ANTT if path.endswith(".antt") else RT) for path in antt + rt}

    # what the files of specs/ and proofs/ declare; a function's own folder (Proof.antt) declares answers, which the kit names
    declared, types, library = set(), set(), {}
    for path in antt:
        if re.search(r"/proofs/.+/(Proof|Answers|Invariants)\.antt$", path):
            continue
        for m in DECLARED.finditer(code[path]):
            name = m.group(2) or m.group(3)
            if odd(name):
                declared.add(name)
                if name[0].isupper():
                    types.add(name)
    # what each file has from elsewhere
    for path in antt + rt:
        for m in re.finditer(r"use ([^\s;{]+)\.\{([^}]*)\}", code[path]):
            if not (m.group(1).startswith("Rattle") and re.split("[.\u00b7]", m.group(1))[1] in ours):
                for word in m.group(2).split(","):
                    library.setdefault(word.split(" as ")[0].strip(), set()).add(path)
    shared = sorted(declared & set(library))
    renamed = {name: camel(name) if name in types else snake(name) for name in declared if name not in library}

    fallen = set()
    for path in antt + rt:
        seen = {}
        for m in NAME.finditer(code[path]):
            new = renamed.get(m.group(), m.group())
            if seen.setdefault(new, m.group()) != m.group():
                fallen.add((seen[new], m.group(), new))
    for one, other, new in sorted(fallen):
        for name in (one, other):
            if "-" in name and name in renamed:
                renamed[name] = new + "_fact"
            elif name in renamed and not ("-" in one or "-" in other):
                renamed[name] = new + "_value"
    for path in antt + rt:
        seen = {}
        for m in NAME.finditer(code[path]):
            new = renamed.get(m.group(), m.group())
            if seen.setdefault(new, m.group()) != m.group():
                print("still falls together: %s: %s and %s" % (path, seen[new], m.group()))
    if "--look" in sys.argv:
        print("of the library too, left as they are:", *shared)
        for name in sorted(renamed):
            print(name, renamed[name])
        return

    def turn(text):
        return NAME.sub(lambda m: renamed.get(m.group(), m.group()), text)

    def quoted(text):
        return re.sub(r"`[^`\n]*`", lambda m: turn(m.group()), text)

    def whole(text, pattern):
        return "".join(turn(p) if k == "code" else quoted(p) if k == "note" else p for k, p in pieces(text, pattern))

    for path in antt + rt + edits + pages:
        old = open(path).read()
        if path.endswith(".edit"):
            lines, pattern = [], RT
            for line in old.split("\n"):
                if line.startswith("file:"):
                    pattern = ANTT if line.strip().endswith(".antt") else RT
                head = re.match(r"(old|new):", line)
                lines.append(head.group() + whole(line[4:], pattern) if head else line)
            new = "\n".join(lines)
        elif path.endswith((".md", ".txt")):
            new = quoted(old)
        else:
            new = whole(old, ANTT if path.endswith(".antt") else RT)
        if new != old:
            open(path, "w").write(new)


main()
