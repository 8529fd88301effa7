#!/usr/bin/env python3
"""Counts the places in src/ that could be written in a later form, as docs/DESIGN-PASS.md speaks of them.

    python3 tools/places.py [COMMIT]

reads the tree of that commit, or the working tree, and prints for each point how many candidates it finds and where. A candidate
is a place to read, and not yet one to change: the page says of each what it is.
"""
import collections
import re
import subprocess
import sys

COMMENT = re.compile(r'^\s*//')
FUNCTION = re.compile(r'^\s*(?:pub(?:\([a-z]+\))? )?(?:final )?fn (\w+)')
LOOP = re.compile(r'\bfor \w+ in [^{]*\.\.|\bwhile\b|\bloop \{')
BY_HAND = re.compile(r'Some\((\w+)\) => Some\(|None => None|Err\((\w+)\) => Err\(|Err\((\w+)\) => return Err\(|'
                     r'Ok\((\w+)\) => \4,|let Some\((\w+)\) = \5 else \{$|if let Err\((\w+)\) = ')
NUMBER = re.compile(r'\) -> u8$|\(bool, bool\)|\b\w+: bool\b|\w+::\w+ => \d+,$')


def run(*command):
    return subprocess.run(command, check=True, capture_output=True, text=True).stdout


def sources(commit):
    names = run('git', 'ls-tree', '-r', '--name-only', commit or 'HEAD').split('\n') if commit else run(
        'git', 'ls-files').split('\n')
    for name in names:
        if re.match(r'crates/\w+/src/.*\.rt$', name):
            yield name, (run('git', 'show', f'{commit}:{name}') if commit else open(name).read())


def code(text):
    """The lines that are code, by number."""
    return [(i, line) for i, line in enumerate(text.split('\n'), 1) if line.strip() and not COMMENT.match(line)]


def functions(text):
    """Each function: its name, line, parameters and body."""
    lines = text.split('\n')
    i = 0
    while i < len(lines):
        found = FUNCTION.match(lines[i])
        if not found or lines[i].rstrip().endswith(';'):
            i += 1
            continue
        indent = len(lines[i]) - len(lines[i].lstrip())
        j = i
        while j < len(lines) and not (lines[j].startswith(' ' * indent + '}') and j > i) and not lines[j].endswith('{ }'):
            j += 1
        whole = lines[i:j + 1]
        opening = next((k for k, line in enumerate(whole) if line.strip() == '{' or line.rstrip().endswith('{')), None)
        if opening is not None:
            head = re.sub(r'\s+', ' ', ' '.join(whole[:opening + 1]))
            inside = re.search(r'\((.*?)\)(?: ->| requires| ensures| where| \{)', head)
            names = re.findall(r'(\w+): ', inside.group(1)) if inside else []
            yield found.group(1), i + 1, tuple(names), [line for line in whole[opening + 1:-1] if not COMMENT.match(line)]
        i = j + 1


def shape(body):
    """A body with its names, numbers and strings taken out."""
    text = re.sub(r'"[^"]*"', 's', ' '.join(body))
    return re.sub(r'\s+', ' ', re.sub(r'\b\w+\b', 'x', text)).strip()


def main():
    commit = sys.argv[1] if len(sys.argv) > 1 else None
    numbers, loops, hand, buffers = [], [], [], []
    shapes = collections.defaultdict(list)
    facts = collections.defaultdict(list)
    groups = collections.defaultdict(list)
    for name, text in sources(commit):
        crate = name.split('/')[1]
        for i, line in code(text):
            place = f'{name}:{i}'
            if NUMBER.search(line):
                numbers.append((place, line.strip()))
            if LOOP.search(line):
                loops.append((place, line.strip()))
            if BY_HAND.search(line):
                hand.append((place, line.strip()))
            for clause in re.findall(r'requires (?:\w+ )?\{ (.*) \}$', line):
                for fact in re.split(r' × ', clause):
                    facts[crate, re.sub(r'\.(old|now|entry)\b', '', fact).strip('() ')].append(place)
        for struct in re.findall(r'struct \w+[^{]*\{[^}]*\}', text):
            if re.search(r': (\[|Vec<|&)', struct) and re.search(r'\b(count|extent|objectives|len|length|used|size)\w*: (u|i)', struct):
                buffers.append((name, re.sub(r'\s+', ' ', struct)[:100]))
        for function, i, names, body in functions(text):
            if len(body) >= 3:
                shapes[shape(body)].append(f'{name}:{i} {function}')
            for k in range(3, 6):
                if len(names) >= k:
                    groups[crate, names[:k]].append(f'{name}:{i} {function}')
    twins = [places for places in shapes.values() if len(places) > 1]
    facts = {key: places for key, places in facts.items() if len(places) >= 3}
    groups = {key: places for key, places in groups.items() if len(places) >= 3}
    for title, found in (('1 numbers, flags', numbers), ('3 loops by number or condition', loops),
                         ('4 results and options by hand', hand), ('6 a buffer with a count beside it', buffers)):
        print(f'{title}: {len(found)}')
        for place, line in found:
            print(f'    {place}  {line}')
    print(f'2 bodies of one shape: {len(twins)} shapes, {sum(map(len, twins))} functions')
    for places in twins:
        print('    ' + ' ~ '.join(places))
    print(f'5 a fact in three requires or more: {len(facts)}')
    for (crate, fact), places in sorted(facts.items()):
        print(f'    {crate} {len(places)} {fact}')
    print(f'5 three parameters in front of three functions or more: {len(groups)}')
    for (crate, names), places in sorted(groups.items()):
        print(f'    {crate} {len(places)} {" ".join(names)}')


if __name__ == '__main__':
    main()
