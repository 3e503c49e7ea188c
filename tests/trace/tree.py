"""What the tree has: functions with their contracts, must-fail edits, and with antt.py definitions and theorems. Read by text; nothing is built."""
import collections
import os
import re

from antt import decided, definitions, imports, laws, named, read

Fn = collections.namedtuple("Fn", "crate file name public clauses asks start stop module")  # the module in which proofs/ have it
Edit = collections.namedtuple("Edit", "crate label file place problem places")  # the place of its last change, and of each


def exports(crate):
    """Whether a crate holds functions of include/mirror.h."""
    return crate.startswith("mirror_")


def functions(root, crate):
    here = os.path.join(root, "crates", crate, "src")
    for name in sorted(os.listdir(here)):
        text = read(here, name)
        table = imports(text, crate)
        owner, kind, place, fn, lent = "", "", 0, None, None
        for line in text.splitlines(True):
            m = re.match(r"impl(?:<[^{]*?>)? (\w+)(?: for ([A-Z]\w*))?", line)
            owner = (m.group(2) or m.group(1)) + "::" if m else "" if line.startswith("}") else owner
            kind = (m.group(2) or "") + m.group(1) + "." if m else kind if owner else ""
            # the clause of a trait's function stands at the trait; an impl says by its ghost members which definitions it speaks of
            lent = set() if m and m.group(2) else lent if owner and not m else None
            m = re.match(r"    ghost \w+ = \{(.*)\};", line)
            if m and lent is not None:
                lent |= named(m.group(1), table)
            m = re.match(r"(\s*)(pub(?:\(crate\))? )?(?:extern \"C\" )?fn (\w+)", line)
            if m:
                fn = [owner + m.group(3), m.group(2) == "pub " or bool(lent), {"answer": set(lent)} if lent else {}, set(), place, m.group(1), kind + m.group(3)]
            m = fn and re.match(r"\s*(ensures|requires)\s*(\w*)\s*\{(.*)", line)
            if m and m.group(1) == "ensures":
                if m.group(2) or not fn[1]:  # a public one without a name is a bound that a caller's safety rests on, and no contract
                    fn[2].setdefault(m.group(2) or "ensures", set()).update(named(m.group(3), table))
            elif m:
                fn[3].update(named(m.group(3), table))
            place += len(line)
            if fn and line.startswith(fn[5] + "}"):
                yield Fn(crate, name, *fn[:5], place, ".".join(["Rattle", crate, "proofs"] + [name[:-3]] * (name != "lib.rt") + [fn[6]]))
                fn = None


def constants(root, crate):
    """(file, name, start, stop) of each constant of a crate's code; one of an `impl` has its owner's name before it."""
    here = os.path.join(root, "crates", crate, "src")
    for file in sorted(os.listdir(here)):
        text = read(here, file)
        for m in re.finditer(r"(?ms)^( *)(?:pub(?:\(crate\))? )?(?:const|static) (\w+)\b.*?;$", text):
            owners = re.findall(r"(?m)^(?:pub )?(?:impl(?:<[^>]*>)?|trait) (\w+)", text[:m.start()])
            owner = owners[-1] + "::" if m.group(1) and owners else ""
            yield file, owner + m.group(2), m.start(), m.end()


def edits(root, crate, defs, fns):
    here, items = os.path.join(root, "crates", crate, "must-fail"), list(constants(root, crate))
    for name in sorted(os.listdir(here)) if os.path.isdir(here) else []:
        first, place, problem, places = None, None, None, set()
        for line in read(here, name).splitlines():
            if line.startswith("file: "):
                file = line[len("file: "):]
                first, given = first or file, read(root, "crates", crate, file)
                text = given
            elif line.startswith("old: "):
                old = line[5:]
                if text.count(old) != 1:
                    problem = "its old text stands %d times in %s" % (text.count(old), file)
                at = holder(crate, file, given.find(old) if old in given else text.find(old), defs, fns, items)
                place = at or place
                places.add(at)
            elif line.startswith("new: "):
                text = text.replace(old, line[5:], 1)
        yield Edit(crate, name[:-5], first, place, problem, places - {None})


def holder(crate, file, at, defs, fns, items):
    """The definition, function or constant in which a place of a file lies."""
    base = os.path.basename(file)
    for d in defs:
        if d.crate == crate and file == "specs/%s.antt" % d.file and d.start <= at < d.stop:
            return (d.crate, d.file, d.name)
    for f in fns:
        if f.crate == crate and file == "src/" + base and f.file == base and f.start <= at < f.stop:
            return f.crate + "::" + f.name
    for base_of, name, start, stop in items:
        if file == "src/" + base_of and start <= at < stop:
            return crate + "::" + name
    return None


class Tree:
    def __init__(self, root):
        self.root = root
        self.crates = re.findall(r"(?m)^(\w+)(?: staticlib)?:", read(root, "crates.txt"))
        every = lambda f: [x for c in self.crates for x in f(root, c)]
        self.defs = {(d.crate, d.file, d.name): d for d in every(definitions)}
        self.uses = {c: d.split() for c, d in re.findall(r"(?m)^(\w+)(?: staticlib)?:(.*)$", read(root, "crates.txt"))}
        # public only so that a sister crate may call them: inner functions for a reader (docs/CONTRACTS.md, "Workers"), but for those that have a row there
        page = read(root, "docs", "CONTRACTS.md")
        lent, rows = (re.findall(r"\w+", " ".join(re.findall(r"(?m)^%s:(.*)$" % w, page))) for w in ("Workers", "Workers with a row above"))
        self.workers = {f.crate + "::" + f.name for f in every(functions) if f.public and f.name in lent}
        self.fns = {k: f._replace(public=f.public and (k not in self.workers or f.name in rows)) for f in every(functions) for k in [f.crate + "::" + f.name]}
        self.laws = collections.defaultdict(list)
        for law in every(laws):
            self.laws[law.crate, law.name].append(law)
        self.deciders = {module: (law.crate, law.name) for law, module in decided(root, [l for ls in self.laws.values() for l in ls])}
        self.edits = {e.crate + "/" + e.label: e for c in self.crates for e in edits(root, c, self.defs.values(), self.fns.values())}

    def public(self):
        return [f for f in self.fns.values() if f.public and f.clauses]

    def reach(self, start):
        """Every definition that these rest on, themselves included."""
        seen, todo = set(), list(start)
        while todo:
            d = todo.pop()
            if d not in seen and d in self.defs:
                seen.add(d)
                todo += self.defs[d].uses
        return seen
