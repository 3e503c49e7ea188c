"""What tests/book/run compares: compare.py COUNT BOOKS RUNNER EMULATOR PLUGIN.

BOOKS is books.c, compiled; RUNNER runs it (empty: it runs by itself); EMULATOR with PLUGIN, tests/speed/count.c, counts what it executes (no PLUGIN: nothing is counted)."""
import itertools
import os
import random
import subprocess
import sys
import tempfile

HERE = os.path.dirname(os.path.abspath(__file__))
ROOT = os.path.normpath(os.path.join(HERE, "..", ".."))
sys.dont_write_bytecode = True
sys.path[:0] = [os.path.join(HERE, "..", "reading"), os.path.join(HERE, "..", "differential")]
import book  # noqa: E402
import generate  # noqa: E402

SEED = 20261116


def expected(text):
    """The line of books.c."""
    found, byte = book.numbers(text)
    return "%d %s %d %s" % (found[-1], " ".join(map(str, found[:-1])), byte, book.lines(text).hex())


def asked(command, texts):
    done = subprocess.run(command, input="".join((t.hex() or "-") + "\n" for t in texts).encode(), stdout=subprocess.PIPE, check=True)
    return done.stdout.decode().split("\n")[:-1]


def random_texts(count):
    """Every beginning and every changed byte of three sheets, then texts of up to 5 sheets, and one in a hundred of up to 60."""
    for line in generate.every_book():
        yield bytes.fromhex(line.split(" ")[1].replace("-", ""))
    r = random.Random(SEED)
    for n in range(count):
        yield generate.book_text(r, 60 if n % 100 == 0 else 5)


def texts(count, command):
    """How many texts, how many differ, and how many of them are sheets to the end."""
    total = differ = whole = sheets = 0
    source = itertools.islice(random_texts(count), count)
    while True:
        part = list(itertools.islice(source, 5000))
        if not part:
            return total, differ, whole, sheets
        found = asked(command, part)
        differ += len(found) != len(part)
        for text, ours in zip(part, found):
            theirs = expected(text)
            total, whole, sheets = total + 1, whole + theirs.startswith("0 "), sheets + int(theirs.split(" ")[1])
            if ours != theirs:
                differ += 1
                print("text=%r\nport=%s\nreading=%s" % (text[:500], ours[:500], theirs[:500]))


def said_of(files):
    """What `./mirror book` says of files, of which each is a name and its bytes: standard output, status and standard error, by the reading. Bytes that are None: no such file."""
    read = b""
    for name, text in files:
        if text is None:
            return "unread=file why=unreadable\n", 2, "the file cannot be read: %s\n" % name
        if len(text) > 524288:
            return "unread=file why=long limit=524288\n", 2, "%s has more bytes than this program takes: 524288\n" % name
        read += text
        found, byte = book.numbers(text)
        if found[-1]:
            before = text[:byte]
            end = "and no sheet goes on so" if byte < len(text) else "where the file ends"
            place = (name, byte, before.count(b"\n") + 1, byte - (before.rfind(b"\n") + 1) + 1, end)
            return book.lines(read).decode(), 3, "no sheet in %s: it begins as one up to byte %d, line %d, column %d, %s\n" % place
    return book.lines(read).decode(), 0, ""


def lists_of_files():
    """Names and bytes: of each refusal one, beside good files before and after it; many files; then files by chance."""
    r = random.Random(SEED)
    one, two = generate.near_sheet(r), generate.flat_sheet(r)
    good = [("a.txt", one + two), ("b b.txt", b""), ("c.txt", two)]
    yield good
    yield [("empty", b"")]
    yield good + [("none.txt", None)]
    yield [("none.txt", None)] + good
    yield good + [("full.txt", one + b"\n" * (524288 - len(one)))]
    yield good + [("long.txt", one + b"\n" * (524289 - len(one)))] + good
    yield [("many.txt", one * (524288 // len(one)))] * 3
    yield good + [("bad.txt", one + two[:-1]), ("none.txt", None)]
    yield good + [("bad.txt", one + b"\n" + two)]
    yield [("x.txt", b"\0\xff")]
    yield [("%d.txt" % i, one if i % 3 else two) for i in range(1500)]
    for _ in range(40):
        yield [("%d.txt" % i, generate.book_text(r, 3) if r.random() < 0.4 else generate.near_sheet(r)) for i in range(r.randint(1, 6))]


def files():
    """How many calls of `./mirror book`, and how many differ."""
    total = differ = 0
    for some in lists_of_files():
        with tempfile.TemporaryDirectory() as folder:
            for name, text in some:
                if text is not None:
                    with open(os.path.join(folder, name), "wb") as f:
                        f.write(text)
            done = subprocess.run([os.path.join(ROOT, "mirror"), "book"] + [name for name, _ in some], cwd=folder, stdout=subprocess.PIPE, stderr=subprocess.PIPE)
        total += 1
        said, wanted = (done.stdout.decode(), done.returncode, done.stderr.decode()), said_of(some)
        if said != wanted:
            differ += 1
            print("files=%r\nport=%r\nreading=%r" % ([name for name, _ in some][:10], said, wanted))
    return total, differ


def executed(emulator, plugin, program, text, calls):
    done = subprocess.run([emulator, "-plugin", plugin, program, str(calls)], input=(text.hex() + "\n").encode(), stdout=subprocess.PIPE, stderr=subprocess.PIPE, check=True)
    return int([w for w in done.stderr.decode().split() if w.startswith("instructions=")][-1].split("=")[1]), done.stdout.decode().strip()


def linear(emulator, plugin, program):
    """Executed instructions of one call, four less three, for texts of 1,000 and 10,000 sheets, ten kinds in turn. Whether a byte costs the same in both, to one in a hundred, and the numbers are right."""
    r = random.Random(SEED)
    ten, costs, right = [(generate.near_sheet, generate.flat_sheet)[n % 2](r) for n in range(10)], [], True
    for sheets in (1000, 10000):
        text = b"".join(ten) * (sheets // 10)
        (four, said), (three, _) = (executed(emulator, plugin, program, text, calls) for calls in (4, 3))
        right = right and said == expected(text)
        costs.append((four - three) / len(text))
        print("sheets=%d bytes=%d instructions=%d each=%.2f" % (sheets, len(text), four - three, costs[-1]))
    return right and abs(costs[1] - costs[0]) <= costs[0] / 100


def main():
    count, program, runner, emulator, plugin = sys.argv[1:6]
    total, differ, whole, sheets = texts(int(count), ([runner] if runner else []) + [program])
    print("texts=%d differ=%d whole=%d sheets=%d" % (total, differ, whole, sheets))
    calls, amiss = files()
    print("files=%d differ=%d" % (calls, amiss))
    if plugin:
        even = linear(emulator, plugin, program)
        print("linear=%s" % ("yes" if even else "no"))
    else:
        even = True
        print("linear=not counted: no %s, or no compiler for its plugin" % emulator)
    sys.exit(1 if differ or amiss or not even else 0)


if __name__ == "__main__":
    main()
