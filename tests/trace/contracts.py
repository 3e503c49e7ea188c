"""docs/CONTRACTS.md: a row for each public function. Its last column, the must-fail edits that a function's contract rules out, is made here from the tree."""
import os
import re

import tree

SHOWN = 5  # labels in a cell; the rest are counted


def called(t, crate):
    """For each function and constant of a crate: those of the crate, and the workers lent to it, whose names stand in it."""
    here, names, bodies = crate + "::", {}, {}
    for worker in t.workers:
        if worker.split("::")[0] in t.uses[crate]:
            names.setdefault(t.fns[worker].name, []).append(worker)
    for f in [f for f in t.fns.values() if f.crate == crate]:
        names.setdefault(f.name, []).append(here + f.name)
        bodies[here + f.name] = tree.read(t.root, "crates", crate, "src", f.file)[f.start:f.stop].replace("Self::", f.name.split("::")[0] + "::")
    for file, name, start, stop in tree.constants(t.root, crate):
        names.setdefault(name, []).append(here + name)
        bodies[here + name] = tree.read(t.root, "crates", crate, "src", file)[start:stop]
    return {k: {x for w in set(re.findall(r"\w+", b)) | set(re.findall(r"\w+::\w+", b)) for x in names.get(w, []) if x != k} for k, b in bodies.items()}


def reached(t, crate):
    """For each public function of a crate: the functions and constants that it calls or names, and theirs, also the workers that another crate lends, and the
    definitions that their contracts rest on."""
    here, calls, todo = crate + "::", {}, [crate]
    while todo:
        lender = todo.pop()
        calls.update(called(t, lender))
        todo += [c for c in t.uses[lender] if any(w.startswith(c + "::") for w in t.workers)]
    for f in [f for f in t.public() if f.crate == crate]:
        seen, todo = set(), [here + f.name]
        while todo:
            x = todo.pop()
            if x not in seen:
                seen.add(x)
                todo += calls[x]
        inner = [t.fns[x] for x in seen if x in t.fns]
        said = set().union(*(d for g in inner for d in [*g.clauses.values(), g.asks]))
        yield here + f.name, seen | t.reach(said)


def of_functions(t):
    """The labels of each public function: edits of its crate, and of crates that lend it workers, that change it, what it calls, or a definition that its contract
    rests on; those of its own code first."""
    rows = {}
    for crate in t.crates:
        for name, places in reached(t, crate):
            lenders = {crate} | {w.split("::")[0] for w in t.workers if w in places}
            found = [label for label, e in t.edits.items() if e.crate in lenders and e.places & places]
            rows[name] = sorted(found, key=lambda l: (name not in t.edits[l].places, not isinstance(t.edits[l].place, str), l))
    return rows


def cell(labels):
    shown = ", ".join("`%s`" % l.split("/")[1] for l in labels[:SHOWN])
    return shown + (" and %d more" % (len(labels) - SHOWN) if len(labels) > SHOWN else "")


def misplaced(t, crate, text):
    """Definitions that a cell names with their file and that are not there: `a`, `b`, specs/File.antt, or crate/specs/File.antt, or specs/File.antt of crate."""
    for names, before, file, after in re.findall(r"((?:`[^`]+`,? ?)+)\(?(?:(\w+)/)?specs/(\w+)\.antt(?: of (\w+))?", text):
        where = after or before or crate
        for name in re.findall(r"`([^`\s]+)[^`]*`", names):
            if (where, file, name) not in t.defs:
                yield "docs/CONTRACTS.md, %s: crates/%s/specs/%s.antt does not define %s" % (crate, where, file, name)


class Contracts:
    def __init__(self, root, t):
        self.place = os.path.join(root, "docs", "CONTRACTS.md")
        self.there = tree.read(self.place)
        self.edits, self.rows, self.cited, self.out, self.gone, crate = of_functions(t), {}, set(), [], [], None
        self.cited.update(label for labels in self.edits.values() for label in labels)
        head, _, self.exceptions = self.there.partition("## Exceptions")
        for line in head.splitlines():
            m = re.match(r"#+ (\w+)", line)
            crate = m.group(1) if m else crate
            cells = line.strip("|").split(" | ") if line.startswith("|") else []
            if len(cells) > 3 and "`" in cells[0]:
                names = [crate + "::" + n for n in re.findall(r"`([\w:]+)`", cells[0])]
                self.rows.update((n, self.edits.get(n, [])) for n in names)
                self.gone += misplaced(t, crate, cells[2])
                cells[3:] = [cell(list(dict.fromkeys(l for n in names for l in self.edits.get(n, []))))]
                line = "|" + " | ".join(cells) + " |"
            else:
                self.cited.update(crate + "/" + w for w in re.findall(r"`(\w+)`", line) if crate and crate + "/" + w in t.edits)
            self.out.append(line)
        self.text = "\n".join(self.out) + "\n" + ("\n" if not head.endswith("\n\n") and _ else "") + _ + self.exceptions

    def without(self):
        """The crates whose public functions have no contract, by the page's own line."""
        m = re.search(r"(?m)^Crates without contracts: (.*)\.$", self.exceptions)
        return re.findall(r"\w+", m.group(1)) if m else []


def decides(t, fn):
    """The theorem that a function's contract decides its answer, by what it is stated over: of mirror_crop mirror_crop_decides, of Normalizer16::new new_decides,
    of Result::number answer_number_decides. None where no theorem of the crate's proofs/Sure.antt speaks of the function."""
    return t.deciders.get(fn.module)
