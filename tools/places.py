#!/usr/bin/env python3
"""The places that docs/DESIGN-PASS.md counts, a number for each of its points: `tools/places.py` at the top of the repository, `tools/places.py -l 3` lists those of point 3.

It reads src/ (point 8: proofs/) as text, so each number is what the text shows and not a judgement; the page says which places stay and why."""
import collections
import glob
import re
import sys


def sources():
    for path in sorted(glob.glob('crates/*/src/*.rt')):
        lines = [line.split('//')[0].rstrip() for line in open(path)]
        yield path, '\n'.join('' if line.lstrip().startswith(('ghost use', 'use ', 'pub use')) else line for line in lines)


def functions(text):
    """Each function's head and body, and the line that it begins at."""
    for found in re.finditer(r'^( *)(?:pub(?:\(crate\))? )?(?:extern "C" )?fn (\w+)', text, re.M):
        rest = text[found.start():]
        end = re.search(r'^' + found.group(1) + r'\}$', rest, re.M)
        if not end or re.match(r'[^{]*;', rest):
            continue
        body = rest[:end.end()]
        yield found.group(2), body, text[:found.start()].count('\n') + 1


def enums(text):
    for found in re.finditer(r'^(?:pub(?:\(crate\))? )?enum (\w+) \{\n(.*?)^\}', text, re.M | re.S):
        variants = [line.strip().rstrip(',') for line in found.group(2).split('\n') if re.match(r'\s+[A-Z]', line)]
        yield found.group(1), variants, text[:found.start()].count('\n') + 1


def shaped():
    """1: an enum of two or three variants of which one or two hold something; a bool beside another field; a function that tells a refusal's number of its own."""
    for path, text in sources():
        for name, variants, line in enums(text):
            full = [v for v in variants if '(' in v]
            if full and len(variants) <= 3:
                yield f'{path}:{line}: enum {name}: {", ".join(variants)}'
        for found in re.finditer(r'^(?:pub(?:\(crate\))? )?struct (\w+) \{\n(.*?)^\}', text, re.M | re.S):
            fields = re.findall(r'^\s+(?:pub(?:\(crate\))? )?(\w+): ([^,\n]+)', found.group(2), re.M)
            for name, kind in fields:
                if kind == 'bool' and len(fields) > 1:
                    yield f'{path}:{text[:found.start()].count(chr(10)) + 1}: struct {found.group(1)}: the flag {name}'


def twins():
    """2: functions of three lines or more that are one another's text but for types of numbers, numerals and their own names."""
    shapes = collections.defaultdict(list)
    for path, text in sources():
        for name, body, line in functions(text):
            code = re.sub(r'\n\s*(?:requires|ensures)[^\n]*', '', body)
            if code.count('\n') < 3 or not code.rstrip().endswith('}'):
                continue
            shape = re.sub(r'\b(?:[iuf](?:8|16|32|64)|usize)\b', 'N', code)
            shape = re.sub(r'[0-9]+', '0', shape.replace(name, 'SELF'))
            shape = re.sub(r'\b(?:narrow|wide|across|down|short|long)\b', 'W', shape)
            shapes[re.sub(r'\s+', ' ', shape)].append(f'{path}:{line}: fn {name}')
    for places in shapes.values():
        if len(places) > 1:
            yield from (f'{place} (of {len(places)})' for place in places)


def loops():
    """3: loops that are not `for`."""
    for path, text in sources():
        for n, line in enumerate(text.split('\n'), 1):
            if re.match(r'\s*(?:while|loop)\b', line):
                yield f'{path}:{n}: {line.strip()}'


def conversions():
    """4: functions named as a conversion, an equality, an order or a copy, outside of an impl of a trait."""
    for path, text in sources():
        for name, body, line in functions(text):
            if re.match(r'(?:to_|from_|as_)\w+$|(?:eq|cmp|same|equal|clone|copy|fmt|show|print)$|\w+_(?:named|code|of_code)$', name):
                before = text[:text.index(body)]
                block = before.rfind('\nimpl ')
                if block >= 0 and ' for ' in before[block:].split('{')[0] and '\n}' not in before[block:]:
                    continue
                yield f'{path}:{line}: fn {name}'


def travelling():
    """5: functions that take the lists of starts and of sizes, and three further numbers or lists, one by one."""
    for path, text in sources():
        for name, body, line in functions(text):
            head = body.split('{')[0]
            if re.search(r'starts: &(?:mut )?\[u32\],\s*sizes: &(?:mut )?\[u32\]', head) and head.count(': ') >= 6:
                yield f'{path}:{line}: fn {name}'


def buffers():
    """6: functions that take bytes, and beside them the place or the length up to which they count."""
    for path, text in sources():
        for name, body, line in functions(text):
            head = body.split('{')[0]
            if re.search(r'\[u8\],\s*(?:n|len|end|count|length): usize|(?:n|len|end|count|length): usize,\s*\w+: &(?:mut )?\[u8\]', head):
                yield f'{path}:{line}: fn {name}'


def switches():
    """7: functions that are told by a bool which of two things to do."""
    for path, text in sources():
        for name, body, line in functions(text):
            head = body.split('{')[0]
            for flag in re.findall(r'\b(\w+): bool\b', head):
                yield f'{path}:{line}: fn {name}: {flag}'


def answers():
    """8: lines of 40 characters and more that stand four times or more in one file of answers."""
    for path in sorted(glob.glob('crates/*/proofs/**/Answers.antt', recursive=True)):
        counts = collections.Counter(line.strip() for line in open(path) if len(line.strip()) >= 40 and not line.startswith(('use ', '--')))
        for line, times in counts.items():
            if times >= 4:
                yield f'{path}: {times} times: {line[:100]}'


POINTS = {1: shaped, 2: twins, 3: loops, 4: conversions, 5: travelling, 6: buffers, 7: switches, 8: answers}
if len(sys.argv) == 3 and sys.argv[1] == '-l':
    print('\n'.join(POINTS[int(sys.argv[2])]()))
else:
    for point, places in POINTS.items():
        print(f'{point}: {len(list(places())):4}  {places.__doc__.split(":")[1].strip()}')
