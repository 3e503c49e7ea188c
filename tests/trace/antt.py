"""Definitions of specs/ and theorems of proofs/, read by text: names, what they use, what is stated."""
import collections
import os
import re

Def = collections.namedtuple("Def", "crate file name body uses start stop")
Law = collections.namedtuple("Law", "crate file name text statement uses")

KEYWORDS = r"(?:(?:abbrev|unfoldable|opaque|pub)\s+)*"
SIGNED = re.compile(r"^(\s*)" + KEYWORDS + r"(?:(?:record|data)\s+([^\s:({]+)\b.*|([^\s:(){}]+)\s*):(?:\s|$)")
TOKEN = re.compile(r"[^\s(){}⌜⌝,;λ«»\[\].]+")


def read(*path):
    with open(os.path.join(*path), encoding="utf-8") as f:
        return f.read()


def imports(text, crate):
    """Names that a file takes from specs/ of some crate: its own name for it -> (crate, file, name)."""
    found = {}
    for path, names in re.findall(r"\buse\s+(\S+?)\.\{([^}]*)\}", text):
        m = re.match(r"Rattle\.(\w+)\.specs\.(\w+)$", path)
        if m:
            for n in names.split(","):
                whole, _, other = n.strip().partition(" as ")
                found[other or whole] = (m.group(1), m.group(2), whole)
    return found


def words(text):
    """The identifiers of a text without its comments."""
    return set(TOKEN.findall(re.sub(r"(?m)--.*$|//.*$", "", text)))


def named(text, table):
    """Which entries of a table of names a text uses; ◌plus◌ is used by writing plus."""
    there = words(text)
    return {table[n] for n in table if n in there or n.strip("◌") in there}


def signatures(text):
    """(name, start, stop) of each definition: from its signature to the next one. Fields of a record belong to it."""
    found, place, inside = [], 0, None
    for line in text.splitlines(True):
        m, depth = SIGNED.match(line), len(line) - len(line.lstrip())
        if inside is not None and line.strip() and depth <= inside:
            inside = None
        if m and inside is None:
            found.append((m.group(2) or m.group(3), place))
            inside = depth if m.group(2) else None
        place += len(line)
    stops = [p for _, p in found[1:]] + [len(text)]
    return [(n, p, q) for (n, p), q in zip(found, stops)]


def definitions(root, crate, folder="specs"):
    here = os.path.join(root, "crates", crate, folder)
    for name in sorted(os.listdir(here)) if os.path.isdir(here) else []:
        file = name[:-5]
        if not name.endswith(".antt") or file == "Lib":
            continue
        text = read(here, name)
        parts = signatures(text)
        table = imports(text, crate)
        table.update({n: (crate, file, n) for n, _, _ in parts})
        for n, p, q in parts:
            yield Def(crate, file, n, text[p:q], named(text[p:q], table) - {(crate, file, n)}, p, q)


def decided(root, laws):
    """(law, module) for each theorem NAME_decides of a crate's proofs/Sure.antt and each function of the crate that it is stated over: over its contract, as the check reads it."""
    for law in laws:
        if law.file == "proofs/Sure.antt" and law.name.endswith("_decides"):
            text = read(root, "crates", law.crate, law.file)
            table = {other: module for module, other in re.findall(r"(?m)^use (Rattle\.%s\.proofs\.\S+)\.Reads as (\S+)$" % law.crate, text)}
            for module in named(law.text, table):
                yield law, module


def laws(root, crate):
    here = os.path.join(root, "crates", crate, "proofs")
    for folder, _, names in sorted(os.walk(here)):
        for name in sorted(names):
            text = read(folder, name)
            file = os.path.relpath(os.path.join(folder, name), os.path.join(root, "crates", crate))
            table = imports(text, crate)
            used = named(text, table)
            for n, p, q in signatures(text):
                said = re.split(r"(?m)^\s*(?:unfolding\b|%s\b.*=)" % re.escape(n), text[p:q])[0]
                yield Law(crate, file, n, said.partition(" :")[2].strip(), named(said, table), used)
