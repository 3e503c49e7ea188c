"""docs/TRACE.md as text."""
import os

import contracts
import rules as book
import tree

ENDS = {"gate": "crates/ask/stdin", "diff": "tests/differential/README.md", "C": "tests/c", "Rust": "rust/tests/examples.rs", "sheets": "tests/sheet/cases.txt", "vectors": "tests/differential/vectors.py"}


class Page:
    def __init__(self, links, back):
        self.links, self.back, self.tree, self.rules = links, back, links.tree, links.rules
        self.refs, self.out = dict(ENDS), [tree.read(os.path.dirname(os.path.abspath(__file__)), "head.md")]

    def ref(self, name, key, path):
        self.refs[key] = path
        return "[%s][%s]" % (name, key)

    def definition(self, d):
        return self.ref(d[2].replace("_", "\\_"), "%s/%s" % d[:2], "crates/%s/specs/%s.antt" % d[:2])

    def function(self, name):
        f = self.tree.fns[name]
        return self.ref(name, "%s/src/%s" % (f.crate, f.file[:-3]), "crates/%s/src/%s" % (f.crate, f.file))

    def law(self, law):
        found = self.tree.laws[law][0]
        return self.ref(law[1], "%s/%s" % (law[0], found.file[:-5]), "crates/%s/%s" % (law[0], found.file))

    def edit(self, label):
        crate, name = label.split("/")
        return self.ref(name, crate + "/must-fail", "crates/%s/must-fail" % crate)

    def thing(self, x):
        if len(x) == 3:
            return self.definition(x)
        path, text = x
        short = path[len("crates/"):] if path.startswith("crates/") else path
        if short == path:
            return self.ref(path + ", " + text.strip("# "), path, path)
        return "`%s` in %s" % (text.replace("|", "\\|"), self.ref(short, short.rsplit(".", 1)[0], path))

    def contract(self, x):
        name, clauses, roots = x
        said = " " + ", ".join(clauses) if clauses else ""
        return self.function(name) + said + (", by " + ", ".join("`%s`" % r for r in roots) if roots else "")

    def row(self, rule):
        cells = self.links.cells[rule.id]
        show = {"definition": self.thing, "contract": self.contract, "theorem": self.law, "edit": self.edit, "run": str}
        out = []
        for cell in book.CELLS:
            text = ("<br>" if cell == "contract" else ", ").join(show[cell](x) for x in cells[cell])
            out.append(text or "*%s*" % rule.no.get(cell, "?"))
        return "| %s | %s%s | %s |" % (rule.id, rule.label, ". *%s*" % rule.but if rule.but else "", " | ".join(out))

    def sections(self):
        for s in self.rules.sections:
            self.out.append("## %s\n" % s.title)
            some = [r for r in s.rules if not r.kind]
            if some:
                self.out += ["| No. | Rule | Definition | Contract | Theorems | Must-fail edits | Runs |", "|---|---|---|---|---|---|---|"]
                self.out += [self.row(r) for r in some] + [""]
            none = [r for r in s.rules if r.kind]
            if none:
                self.out.append("No rule: " + "; ".join("%s, %s (%s)" % (r.id, r.label.replace("; ", ", "), book.KINDS[r.kind]) for r in none) + ".\n")

    def way_back(self):
        self.out.append("## The way back\n\nEdits here are those that docs/CONTRACTS.md names for the function. An export, of a crate `mirror_*`, has the rules of the library's function behind it.\n")
        for crate in self.tree.crates:
            fns = [f for f in self.tree.public() if f.crate == crate]
            defs = [d for d in self.tree.defs if d[0] == crate]
            if not fns and not defs:
                continue
            self.out.append("### %s\n" % crate)
            if fns:
                self.out += ["| Function | Cites | Decided by | Edits | Rules |", "|---|---|---|---|---|"]
                self.out += [self.function_row(f) for f in fns] + [""]
            named = [d for d in defs if d in self.back.by_def]
            if named:
                self.out += ["| Definition | Rules |", "|---|---|"] + ["| %s | %s |" % (self.definition(d), self.back.how[d]) for d in named] + [""]
            self.rest([d for d in defs if d not in self.back.by_def])

    def function_row(self, f):
        name = f.crate + "::" + f.name
        cited = sorted({d for ds in f.clauses.values() for d in ds})
        edits = self.links.contracts.rows.get(name, [])
        law = contracts.decides(self.tree, f)
        return "| %s | %s | %s | %s | %s |" % (
            self.function(name), ", ".join(map(self.definition, cited)) or "*own-words*", self.law(law) if law else "?",
            ", ".join(map(self.edit, edits)), ", ".join(self.back.rules_of(f)) + (" (*unrun*)" if self.back.unrun(f) else ""))

    def rest(self, defs):
        """Definitions that no rule names: parts of those above, of inner contracts, or outside document 01."""
        parts = {}
        for d in defs:
            how = self.back.how.get(d, "?")
            parts.setdefault(how if not how.startswith("in ") else "in", []).append(self.definition(d) + (" " + how if how.startswith("in ") else ""))
        titles = {"in": "Parts of other definitions", "inner": "Of inner functions' contracts only", "laws only": "Of laws only"}
        self.out += ["%s: %s.\n" % (titles.get(how, how[:1].upper() + how[1:]), ", ".join(names)) for how, names in parts.items()]

    def empty(self):
        self.out.append("## Empty cells\n\n| Name | Why the cell is empty | Where |\n|---|---|---|")
        for key, text in self.rules.reasons.items():
            where = ["%s (%s)" % (r.id, ", ".join(c for c in book.CELLS if r.no.get(c) == key)) for r in self.rules.all() if key in r.no.values()]
            if where:
                self.out.append("| *%s* | %s | %s |" % (key, text, "; ".join(where)))
        self.out.append("")

    def text(self):
        self.sections()
        self.way_back()
        self.empty()
        self.out += ["[%s]: ../%s" % (k, p) for k, p in sorted(self.refs.items())]
        return "\n".join(self.out) + "\n"


def page(links, back):
    return Page(links, back).text()
