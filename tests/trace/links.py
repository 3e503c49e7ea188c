"""Each rule's cells, looked up in the tree, and what is wrong with them."""
import os

import contracts
import rules as book
import tree
import ways


class Links:
    def __init__(self, root, rules):
        self.root, self.rules, self.tree = root, rules, tree.Tree(root)
        self.contracts = contracts.Contracts(root, self.tree)
        self.ways = ways.Ways(root, rules)
        self.problems = list(self.contracts.gone)
        self.cells = {r.id: self.look(r) for r in rules.all() if not r.kind}

    def bad(self, rule, text):
        self.problems.append("%s: %s" % (rule.id, text))

    def look(self, rule):
        t = self.tree
        for d in rule.defs:
            if d not in t.defs:
                self.bad(rule, "%s/specs/%s.antt does not define %s" % d)
        for path, text in rule.code:
            full = os.path.join(self.root, path)
            if not os.path.exists(full) or text not in tree.read(full):
                self.bad(rule, "%s does not have: %s" % (path, text))
        cells = {
            "definition": rule.defs + rule.code,
            "contract": self.contract(rule),
            "theorem": self.theorems(rule),
            "edit": self.edits(rule),
        }
        cells["run"], wrong = self.ways.cell(rule)
        if rule.every:
            cells["run"].append("[tests/trace/run](../tests/trace/run) looks at every public function")
            wrong += self.bare()
        for w in wrong:
            self.bad(rule, w)
        for cell in book.CELLS:
            reason = rule.no.get(cell)
            if not cells[cell] and reason is None:
                self.bad(rule, "no %s, and no reason for it" % cell)
            if cells[cell] and reason is not None:
                self.bad(rule, "a reason for no %s, but there is one" % cell)
            if reason is not None and reason not in self.rules.reasons:
                self.bad(rule, "no such reason: " + reason)
        return cells

    def bare(self):
        """Public functions without a contract outside the crates that docs/CONTRACTS.md names as such, and crates that it names without need."""
        named, bare = self.contracts.without(), [f for f in self.tree.fns.values() if f.public and not f.clauses]
        for f in bare:
            if f.crate not in named:
                yield "%s::%s has no contract, and docs/CONTRACTS.md does not name its crate among those without" % (f.crate, f.name)
        for crate in named:
            if crate not in [f.crate for f in bare]:
                yield "docs/CONTRACTS.md names the crate %s among those without contracts, but no public function of it lacks one" % crate

    def contract(self, rule):
        """(function, clauses, roots): roots are the definitions in the clause from which the rule's own are reached, where none is cited itself."""
        t, found, wanted, met = self.tree, [], set(rule.defs), set()
        for name, asked in rule.fns:
            fn = t.fns.get(name)
            if fn is None or not fn.public or not fn.clauses:
                self.bad(rule, "no public function with a contract: " + name)
                continue
            clauses = {c: d for c, d in fn.clauses.items() if (not asked and (not wanted or t.reach(d) & wanted)) or c in asked}
            for c in asked:
                if c not in fn.clauses:
                    self.bad(rule, "%s has no clause %s" % (name, c))
            cited = set().union(*clauses.values()) if clauses else set()
            reached = t.reach(cited) & wanted
            met |= reached
            if wanted and cited and not reached:
                self.bad(rule, "the contract of %s does not rest on %s" % (name, ", ".join(d[2] for d in rule.defs)))
            indirect = reached - cited
            roots = sorted({c[2] for c in cited if t.reach([c]) & indirect}) if not reached & cited else []
            found.append((name, sorted(clauses), roots))
        said = set().union(*(law.statement for l in rule.laws for law in t.laws.get(l, [])), set())
        for d in wanted - met - t.reach(said):
            if d in t.defs and (rule.fns or rule.laws):
                self.bad(rule, "no contract or theorem named here rests on " + d[2])
        return found

    def theorems(self, rule):
        found = []
        for name, _ in rule.fns:
            law = name in self.tree.fns and contracts.decides(self.tree, self.tree.fns[name])
            if law:
                found.append(law)
            else:
                self.bad(rule, "no theorem of proofs/Sure.antt is stated over the contract of " + name)
        found = list(dict.fromkeys(found + rule.laws))
        for law in found:
            if law not in self.tree.laws:
                self.bad(rule, "no theorem %s in crates/%s/proofs" % (law[1], law[0]))
        return [l for l in found if l in self.tree.laws]

    def edits(self, rule):
        """Edits of the rule's definitions, of functions whose contracts cite them, and those it names itself."""
        t, found = self.tree, []
        for label, e in t.edits.items():
            fn = t.fns.get(e.place) if isinstance(e.place, str) else None
            cited = set().union(*fn.clauses.values()) if fn and fn.clauses else set()
            if not rule.only and not tree.exports(e.crate) and (e.place in rule.defs or cited & set(rule.defs)):
                found.append(label)
        for label in rule.edits:
            if label not in t.edits:
                self.bad(rule, "names the edit %s, which is not in the tree" % label)
            elif label not in found:
                found.append(label)
        return sorted(found, key=lambda l: (self.tree.crates.index(l.split("/")[0]), l))
