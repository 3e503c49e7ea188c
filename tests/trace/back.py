"""The way back, from the tree to the rules, and what no rule reaches."""
import os
import re

import contracts
import tree


class Back:
    def __init__(self, links):
        self.links, self.tree, self.rules = links, links.tree, links.rules
        self.problems = []
        self.by_def, self.by_fn, self.by_law, self.by_edit = {}, {}, {}, {}
        for r in self.rules.all():
            for d in r.defs:
                self.by_def.setdefault(d, []).append(r.id)
            for f, _ in r.fns:
                self.by_fn.setdefault(f, []).append(r.id)
            for l in r.laws:
                self.by_law.setdefault(l, []).append(r.id)
            for e in links.cells.get(r.id, {}).get("edit", []):
                self.by_edit.setdefault(e, []).append(r.id)
        self.door = {w: f for f, ws in self.rules.doors.items() for kind, *names in ws if kind == "c" and not tree.exports(f) for w in names}
        self.functions()
        self.definitions()
        self.promises()
        self.the_edits()
        house = tree.read(links.root, "docs", "ARCHITECTURE.md")
        self.problems += ["docs/ARCHITECTURE.md does not name the crate " + c for c in self.tree.crates if "`%s`" % c not in house]
        self.problems += self.out_of_order(house)
        for path in re.findall(r"`((?:crates|include|rust|tests)/[^`\s]+\.\w+)`", house):
            if not os.path.exists(os.path.join(links.root, path)):
                self.problems.append("docs/ARCHITECTURE.md names the file %s, which is not there" % path)

    def out_of_order(self, house):
        """Crates that stand in the table of docs/ARCHITECTURE.md, "Who uses whom", before one that they use."""
        rows = re.findall(r"(?m)^\| [^|]+ \| ([^|]+) \| [^|]+ \|$", house.partition("## Who uses whom")[2].partition("\n## ")[0])
        order = [c for row in rows for c in re.findall(r"`(\w+)`", row)]
        for i, crate in enumerate(order):
            for used in self.tree.uses.get(crate, []):
                if used not in order[:i]:
                    yield "docs/ARCHITECTURE.md has %s before %s, which it uses" % (crate, used)

    def functions(self):
        c = self.links.contracts
        for f in self.tree.fns.values():
            name = f.crate + "::" + f.name
            if not f.public:
                continue
            if not f.clauses:
                continue
            if not c.edits.get(name):
                self.problems.append("no must-fail edit changes %s or what its contract rests on" % name)
            if self.unrun(f) and name not in self.rules.doors:
                self.problems.append("rules.txt has no door for %s: how is it run?" % name)
            if not self.rules_of(f):
                self.problems.append("no rule reaches the function " + name)
            if not contracts.decides(self.tree, f):
                self.problems.append("no theorem of crates/%s/proofs/Sure.antt is stated over the contract of %s" % (f.crate, name))
            if name not in c.rows:
                self.problems.append("docs/CONTRACTS.md has no row for " + name)
        for name in c.rows:
            if name not in self.tree.fns:
                self.problems.append("docs/CONTRACTS.md has a row for %s, which is not there" % name)

    def unrun(self, f):
        name = f.crate + "::" + f.name
        return not tree.exports(f.crate) and not self.links.ways.of(name)

    def rules_of(self, f):
        """Rules that name a function; an export has those of the library's function behind it."""
        names = {f.crate + "::" + f.name, self.door.get(f.name, "") if tree.exports(f.crate) else ""}
        return [r.id for r in self.rules.all() if any(n in names for n, _ in r.fns)]

    def definitions(self):
        t = self.tree
        public = set().union(*(d for f in t.public() for d in f.clauses.values()))
        inner = set().union(*(d for f in t.fns.values() for d in [*f.clauses.values(), f.asks]))
        proofs = set().union(*(l.uses for ls in t.laws.values() for l in ls))
        self.users = {}
        for d in t.defs.values():
            for u in d.uses:
                self.users.setdefault(u, []).append((d.crate, d.file, d.name))
        self.how = {}
        for d in t.defs:
            users = self.users.get(d, [])
            if d in self.by_def:
                self.how[d] = ", ".join(self.by_def[d])
            elif d in self.rules.outside:
                self.how[d] = self.rules.outside[d]
            elif d in public:
                self.problems.append("no rule reaches %s of crates/%s/specs/%s.antt, which a public contract cites" % (d[2], d[0], d[1]))
            elif users:
                self.how[d] = "in " + ", ".join("`%s`" % u[2] for u in users[:3]) + (" .." if len(users) > 3 else "")
            elif d in inner:
                self.how[d] = "inner"
            elif d in proofs:
                self.how[d] = "laws only"
            else:
                self.problems.append("nothing uses %s of crates/%s/specs/%s.antt" % (d[2], d[0], d[1]))
        for d in self.rules.outside:
            if d not in t.defs:
                self.problems.append("rules.txt names %s/specs/%s.antt %s, which is not there" % d)

    def promises(self):
        for (crate, name), found in self.tree.laws.items():
            said = {d[2] for l in found for d in l.statement if d[0] == "promises"}
            if crate == "promises" and any(l.text in said for l in found) and (crate, name) not in self.by_law:
                self.problems.append("no rule reaches the promise " + name)
        text = tree.read(self.links.root, "docs", "PROMISES.md")
        named = {w for line in text.splitlines() if line.startswith("|") for w in re.findall(r"`([a-z][a-z0-9]*(?:-[a-z0-9]+)+)`", line)}
        for w in named - {n for _, n in self.by_law}:
            self.problems.append("docs/PROMISES.md names %s, which no rule has" % w)
        for part in re.findall(r"(?s)\*Rests on\.\*(.*?)\n\n", text):
            for names, crate, file in re.findall(r"([^;]*?) of `crates/(\w+)/specs/(?:(\w+)\.antt)?`", part):
                there = {d[2] for d in self.tree.defs if d[0] == crate and file in ("", d[1])}
                self.problems += ["docs/PROMISES.md: crates/%s/specs/%s does not define %s" % (crate, file and file + ".antt", w) for w in re.findall(r"`(\w+)`", names) if w not in there]

    def the_edits(self):
        for label, e in self.tree.edits.items():
            if e.problem:
                self.problems.append("crates/%s/must-fail/%s.edit: %s" % (e.crate, e.label, e.problem))
            if label not in self.by_edit and label not in self.links.contracts.cited:
                self.problems.append("neither docs/CONTRACTS.md nor a rule names the edit " + label)
