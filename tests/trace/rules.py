"""rules.txt: the only part that is written by hand. One record for each rule of document 01, in its order."""
import re

CELLS = ("definition", "contract", "theorem", "edit", "run")
KINDS = {"history": "tells what the Rust is or does", "explains": "tells how to read the rest", "left": "tells what is left out", "changed": "document 02 has changed it"}


class Rule:
    def __init__(self, ident, kind, label):
        self.id, self.kind, self.label = ident, kind, label
        self.defs, self.fns, self.laws, self.edits, self.code, self.runs, self.lines, self.pixels = [], [], [], [], [], [], [], []
        self.only, self.answer, self.no, self.but, self.every, self.through = False, None, {}, None, False, {}

    def add(self, key, rest):
        if key == "def":
            path, *names = rest.split()
            crate, file = re.match(r"(\w+)/specs/(\w+)\.antt$", path).groups()
            self.defs += [(crate, file, n) for n in names]
        elif key == "fn":
            told, _, through = rest.partition(" through ")
            name, *clauses = told.split()
            self.fns.append((name, clauses))
            if through:
                self.through[name] = through.split()
        elif key == "law":
            crate, *names = rest.split()
            self.laws += [(crate, n) for n in names]
        elif key == "edit":
            labels = rest.split()
            self.only = self.only or "only" in labels
            self.edits += [l for l in labels if l != "only"]
        elif key in ("code", "page", "run"):
            path, _, text = rest.partition(" ")
            (self.runs if key == "run" else self.code).append(("crates/" + path if key == "code" else path, text))
        elif key == "pixel":
            self.pixels.append(tuple(rest.split()))
        elif key == "line":
            self.lines.append(tuple(rest.split(" -> ")))
        elif key == "answer":
            self.answer = rest
        elif key == "every":
            self.every = True
        elif key == "but":
            self.but = rest
        elif key == "no":
            cells, _, reason = rest.rpartition(" ")
            self.no.update({c: reason for c in cells.split()})
        else:
            raise ValueError("%s: unknown key %s" % (self.id, key))


class Section:
    def __init__(self, title, item, prose, mark):
        self.title, self.item, self.prose, self.mark, self.rules = title, item, prose, mark, []


class Rules:
    def __init__(self, path):
        self.sections, self.doors, self.outside, self.reasons = [], {}, {}, {}
        for number, line in enumerate(open(path, encoding="utf-8"), 1):
            try:
                self.take(line.rstrip())
            except (ValueError, AttributeError, IndexError) as e:
                raise SystemExit("tests/trace/rules.txt:%d: %s" % (number, e or "not understood"))

    def take(self, line):
        if not line or line.startswith("#"):
            return
        if line.startswith(" "):
            key, _, rest = line.strip().partition(" ")
            self.sections[-1].rules[-1].add(key, rest)
            return
        key, _, rest = line.partition(" ")
        if key == "section":
            self.sections.append(Section(*[p.strip() for p in rest.split("|")]))
        elif key == "door":
            name, _, ways = rest.partition(": ")
            self.doors[name] = [w.split() for w in ways.split("; ")]
        elif key == "reason":
            name, _, text = rest.partition(": ")
            self.reasons[name] = text
        elif key == "outside":
            names, _, reason = rest.partition(": ")
            path, *names = names.split()
            crate, file = re.match(r"(\w+)/specs/(\w+)\.antt$", path).groups()
            self.outside.update({(crate, file, n): reason for n in names})
        else:
            ident, kind, label = re.match(r"(\w+ [\d.]+[a-z]?)(?: \((\w+)\))?: (.+)$", line).groups()
            self.sections[-1].rules.append(Rule(ident, kind, label))

    def all(self):
        return [r for s in self.sections for r in s.rules]
