"""Document 01 or 02 cut into sentences, table rows and list items, each with a number; they are not in this repository. A section of 01 has a heading, one of 02 opens with
`**W-2xx. Name.**`."""
import hashlib
import re


def sentences(text):
    return [s for s in re.split(r"(?<!\bNo\.)(?<=\.)\s+(?=\S)", text.strip()) if s]


class Paper:
    def __init__(self, path, sections):
        self.words = {s.title: (s.item, s.prose) for s in sections}
        self.units, self.titles, self.title, self.count, self.items = [], [], None, 0, 0
        self.held, self.item, self.code = [], None, None
        for line in open(path, encoding="utf-8"):
            self.take(line.rstrip("\n"))
        self.end()

    def unit(self, item, number, text):
        word = self.words.get(self.title, ("-", "-"))[0 if item else 1]
        self.units.append((self.title, "%s %s" % (word, number), text))

    def end(self):
        """A paragraph or an item is complete."""
        if self.item:
            number, text = self.item
            parts = sentences(text)
            for k, part in enumerate(parts, 1):
                self.unit(True, number if len(parts) == 1 else "%s.%d" % (number, k), part)
        for part in sentences(" ".join(self.held)):
            self.count += 1
            self.unit(False, self.count, part)
        self.held, self.item = [], None

    def take(self, line):
        item = re.match(r"(?:(\d+)\.|-) (.*)", line)
        if line.startswith("```"):
            self.end()
            if self.code is not None:
                self.count += 1
                self.unit(False, self.count, "\n".join(self.code))
            self.code = [] if self.code is None else None
        elif self.code is not None:
            self.code.append(line)
        elif line.startswith("#"):
            self.end()
            if line.startswith("## "):
                self.title, self.count, self.items = line[3:].strip(), 0, 0
                self.titles.append(self.title)
        elif line.startswith("**W-"):
            self.end()
            self.title, first = re.match(r"\*\*(W-\d+\. .*?)\.?\*\* ?(.*)", line).groups()
            self.count, self.items, self.held = 0, 0, [first]
            self.titles.append(self.title)
        elif item:
            self.end()
            self.items += 1
            self.item = (item.group(1) or str(self.items), item.group(2))
        elif line.startswith("|"):
            self.end()
            first, _, rest = line.strip("|").partition("|")
            if first.strip().isdigit():
                self.unit(True, first.strip(), rest)
        elif not line.strip():
            self.end()
        elif self.item:
            self.item = (self.item[0], self.item[1] + " " + line.strip())
        else:
            self.held.append(line)

    def mark(self, title):
        """A fingerprint of a section's words, so that a change of them is seen."""
        text = "\n".join(t for s, _, t in self.units if s == title)
        return hashlib.sha256(text.encode()).hexdigest()[:8]


def problems(path, rules):
    """Sentences without a rule, rules without a sentence, sections whose words have changed. Of document 02 only requests that have landed, that is have a section, are asked for."""
    paper = Paper(path, rules.sections)
    second = any(title.startswith("W-") for title in paper.titles)
    ours = {re.sub(r"[a-z]$", "", r.id) for r in rules.all()}
    theirs = {ident for _, ident, _ in paper.units}
    ask = [s for s in rules.sections if s.mark != "-" and s.title.startswith("W-") == second]
    for title in paper.titles:
        if title not in paper.words and not second:
            yield "section without a word in rules.txt: " + title
    for title, ident, text in paper.units:
        if ident not in ours and not (second and title not in paper.words):
            yield "no rule for %s: %s" % (ident, text.split("\n")[0][:100])
    for s in ask:
        for r in s.rules:
            if re.sub(r"[a-z]$", "", r.id) not in theirs:
                yield "no such sentence in the paper: " + r.id
        if s.title in paper.titles and paper.mark(s.title) != s.mark:
            yield "the words of %s have changed (%s, was %s): read its rules again" % (s.title, paper.mark(s.title), s.mark)
