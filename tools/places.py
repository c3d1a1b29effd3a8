#!/usr/bin/env python3
"""Lists the places in crates/*/src that docs/DESIGN-PASS.md counts, point by point, and how many there are.

    python3 tools/places.py           of the tree as it stands
    python3 tools/places.py COMMIT    of a commit

A place is a line, a struct or a function that has the shape which the point names. A shape is found by its text, so the list also has places that
the page keeps, with the reason; it is the same list at both commits."""
import collections, re, subprocess, sys

def sources(commit):
    if commit:
        names = subprocess.run(['git', 'ls-tree', '-r', '--name-only', commit, 'crates'], capture_output=True, text=True, check=True).stdout.split('\n')
        read = lambda n: subprocess.run(['git', 'show', f'{commit}:{n}'], capture_output=True, text=True, check=True).stdout
    else:
        names = subprocess.run(['git', 'ls-files', 'crates'], capture_output=True, text=True, check=True).stdout.split('\n')
        read = lambda n: open(n).read()
    return {n: read(n) for n in sorted(names) if re.search(r'/src/.*\.rt$', n)}, sorted(n for n in names if re.search(r'/proofs/.*\.antt$', n))

def bodies(text):
    """Name and body of each function, the body from its `{` on."""
    for m in re.finditer(r'^( *)(?:pub )?(?:extern "C" )?fn (\w+)', text, re.M):
        end = re.compile(r'^' + m.group(1) + r'\}', re.M).search(text, m.end())
        start = re.compile(r'^' + m.group(1) + r'\{|\{\n', re.M).search(text, m.end())
        yield m.group(2), text[start.end():end.start()] if start and end else ''

def lines(files, pattern):
    for name, text in files.items():
        for at, line in enumerate(text.split('\n'), 1):
            if re.search(pattern, line.split('//')[0]):
                yield f'{name}:{at}: {line.strip()}'

def structs(files):
    for name, text in files.items():
        for m in re.finditer(r'struct (\w+)(?:<[^>]*>)? \{\n(.*?)\n\}', text, re.S):
            yield name, m.group(1), re.findall(r'^ *(?:pub )?(\w+): ([^,\n]+),', m.group(2), re.M)

def main():
    files, proofs = sources(sys.argv[1] if len(sys.argv) > 1 else None)
    found = collections.OrderedDict()

    kinds = list(lines(files, r'enum Verdict|fn number\(self|-> (card::)?Verdict|verdict: Verdict|\.number\(\) != 0|refusal != 0|size == 0 \{|-> (Fault|Sent) *$'))
    kinds += list(lines(files, r'Card::NONE|\[32; 32\]|found: 32'))
    found['1 a verdict or a number beside or in place of a value, and values that stand for none'] = kinds

    shapes = collections.defaultdict(list)
    for name, text in files.items():
        for fn, body in bodies(text):
            words = re.sub(r'\b[a-z_][a-z_0-9]*\b', 'w', re.sub(r'\bu(8|16|32|64|size)\b', 'T', re.sub(r'\b\d[\w]*\b', '0', re.sub(r'//.*', '', body))))
            words = re.sub(r'\s+', ' ', words).strip()
            if len(words) > 60:
                shapes[words].append(f'{name}: {fn}')
    found['2 functions whose bodies differ in names, types and constants alone'] = [' = '.join(v) for v in shapes.values() if len(v) > 1]

    found['3 loops that count'] = list(lines(files, r'^\s*while |^\s*for \w+ in 0\.\.|^\s*for \w+ in .*\.\.'))

    by_hand = list(lines(files, r'\b256\b|\b65536\b|% 10\b|/ 10\b|fn wide|b\'0\'|48 \+'))
    by_hand += list(lines(files, r'^\s*(\w+): \1,'))
    found['4 conversions, printing and copies by hand'] = by_hand

    together = collections.Counter()
    for name, text in files.items():
        for m in re.finditer(r'fn (\w+)(?:<[^>]*>)?\(([^)]*)\)', text):
            names = tuple(sorted(re.findall(r'(\w+): ', m.group(2))))
            for a in range(len(names)):
                for b in range(a + 1, len(names)):
                    together[(name, names[a], names[b])] += 1
    found['5 pairs of parameters that three or more functions of a file take'] = [f'{n}: {a}, {b} ({k})' for (n, a, b), k in sorted(together.items()) if k >= 3]
    facts = collections.Counter()
    for name, text in files.items():
        for clause in re.findall(r'requires (?:\w+ )?\{ (.*) \}', text):
            for fact in re.split(r' × ', clause):
                facts[(name, fact.strip('() '))] += 1
    found['5 facts that three or more contracts of a file require'] = [f'{n}: {f} ({k})' for (n, f), k in sorted(facts.items()) if k >= 3]

    buffers = []
    for name, struct, fields in structs(files):
        arrays = [f for f, t in fields if t.startswith('[')]
        if arrays and any(f in ('len', 'end', 'from') and t.startswith('u') for f, t in fields):
            buffers.append(f'{name}: {struct} (a list with its length)')
        same = collections.Counter(t.split(';')[1] for f, t in fields if t.startswith('['))
        buffers += [f'{name}: {struct} ({k} lists of{n[:-1]})' for n, k in same.items() if k > 1]
    found['6 lists with a length beside them, and parallel lists'] = buffers

    found['7 switches on which step to run'] = list(lines(files, r'^\s*\w+ => \w+\(.*\),'))

    found['8 answer files'] = [p for p in proofs if p.endswith('/Answers.antt')]

    for point, places in found.items():
        print(f'{point}: {len(places)}')
        if not point.startswith('8'):
            for place in places:
                print('    ' + place)

main()
