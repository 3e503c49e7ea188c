"""What runs: the gate's stored requests, the comparison with the Rust, the tests in C and in Rust, and files that a rule names."""
import os
import re

import tree


class Ways:
    def __init__(self, root, rules):
        self.root, self.doors, self.seen = root, rules.doors, set()
        asked = tree.read(root, "crates/ask/stdin").split("\n")
        told = tree.read(root, "crates/ask/stdout").split("\n")
        self.stored = dict(zip(asked, told))
        self.numbers = {(a.split(" ")[0], t.split(" ")[0]) for a, t in zip(asked, told)}
        self.words = {w for w, _ in self.numbers}
        folder = os.path.join(root, "tests/c")
        self.c = "".join(tree.read(folder, f) for f in os.listdir(folder) if f.endswith(".c"))
        self.rust = tree.read(root, "rust/tests/examples.rs")
        self.vectors = tree.read(root, "tests/differential/vectors.py")
        self.generated = tree.read(root, "tests/differential/generate.py")

    def of(self, name, seen=(), through=None):
        """(kind, word) for each way in which a function is run; `under` takes those of its callers, `through` those of these callers alone."""
        found = []
        for kind, *words in [["under", *through]] if through else self.doors.get(name, []):  # `none` has no words
            for word in words:
                found += self.of(word, seen + (name,)) if kind == "under" and word not in seen else [(kind, word)] if kind != "under" else []
        return list(dict.fromkeys(found))

    def pairs(self):
        """Every (operation, colour, alpha, result) of the stored lists of pixels."""
        if not self.seen:
            for request, answer in self.stored.items():
                op, src, out = (request + " ").split(" ")[:2] + [answer.partition(" ")[2]]
                if op[:4] in ("mul8", "div8") and answer.startswith("0 ") and out != "-":
                    src, out = src.split(","), out.split(",")
                    self.seen.update((op, src[k], src[k // 4 * 4 + 3], out[k]) for k in range(len(src)) if k % 4 != 3)
        return self.seen

    def missing(self, kind, word):
        there = {
            "ask": word in self.words,
            "diff": re.search(r"\b%s\b" % word, self.generated),
            "c": re.search(r"\b%s\b" % word, self.c),
            "rust": re.search(r"\b%s\b" % word, self.rust),
            "sheet": os.path.exists(os.path.join(self.root, "tests/sheet/cases.txt")),
            "vectors": '"%s ' % word in self.vectors,
        }
        return None if there[kind] else {"ask": "crates/ask/stdin has no request", "diff": "tests/differential/generate.py does not make",
                                         "c": "tests/c does not call", "rust": "rust/tests does not call", "sheet": "no file",
                                         "vectors": "tests/differential/vectors.py does not ask"}[kind] + " " + word

    def cell(self, rule):
        """The words of the cell, and what of it is not there."""
        wrong, shown = [], []
        ways = list(dict.fromkeys(w for name, _ in rule.fns for w in self.of(name, through=rule.through.get(name))))
        wrong += [m for m in (self.missing(*w) for w in ways) if m]
        wrong += ["no run of %s through %s" % (name, c) for name, callers in rule.through.items() for c in callers if not self.of(c)]
        asks = [w for k, w in ways if k == "ask"]
        for request, answer in rule.lines:
            if self.stored.get(request) != answer:
                wrong.append("crates/ask/stdin has no `%s` answered by `%s`" % (request, answer))
        for pixel in rule.pixels:
            if pixel not in self.pairs():
                wrong.append("no stored pixel: " + " ".join(pixel))
        if rule.answer is not None:
            asks = [w for w in asks if (w, rule.answer) in self.numbers]
            if not asks:
                wrong.append("no stored request is answered by No. " + rule.answer)
        if asks:
            said = " = " + rule.answer if rule.answer is not None else ""
            shown.append("[gate] " + ", ".join("`%s`" % w for w in asks) + said + (", this very request" if rule.lines or rule.pixels else ""))
        for kind, name in (("diff", "[diff]"), ("c", "[C]"), ("rust", "[Rust]"), ("sheet", "[sheets]"), ("vectors", "[vectors]")):
            if any(k == kind for k, _ in ways):
                shown.append(name)
        for path, text in rule.runs:
            full = os.path.join(self.root, path)
            if not os.path.exists(full):
                wrong.append("no file " + path)
            elif text not in tree.read(full):
                wrong.append("%s does not have: %s" % (path, text))
            shown.append("[%s](../%s)" % (path, path))
        return shown, wrong
