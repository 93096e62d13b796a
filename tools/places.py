#!/usr/bin/env python3
"""Prints, for each point of docs/DESIGN-PASS.md, the lines of src/ among which its places are found.

    tools/places.py [COMMIT] [POINT]      HEAD and all seven points, if not said otherwise
"""
import collections
import re
import subprocess
import sys

PATTERNS = {
    # numbers for kinds, refusals, nobody and nothing; flags; options and results taken apart by hand
    1: r'\) -> u8$|^pub const [A-Z_]+: u8 =|\b[a-z_]+: bool[,)]|\blet (mut )?[a-z_]+ = (true|false);'
       r'|= .*\.is_(some|none|ok|err)\(\);|None => (Ok\(|Err\(|None)|-> Option<(CallFault|Layer)>'
       r'|let Some\(.*\) = .* else|(None|Ok\(_\)) => \d+,|: \[u8; 12\]|match .*code\(',
    # loops that go by a count
    3: r'^ *(while|loop)\b|^ *for [a-z_]+ in [^{]*\.\.',
    # comparisons, conversions and casts by hand
    4: r'\bas (u8|u16|u32|u64|usize|char)\b|\bfn (at_most|tied|number|number_of|code|layer_number|layer_of|layer_in'
       r'|kind|item|eight|joined|copy|stands)\b|let low = |\blow\[',
    # a length or a count beside a buffer, a search by hand
    6: r'\b(len|count|waiting|tail): usize|: \[u(8|16|32); \d+\]|\blet mut (low|high|before|count) = ',
    # one of several steps, each with the same before and after
    7: r'^ *tell\(rt, |^ *match byte_at\(|^ *match \*(request|reply)',
}


def git(*words):
    return subprocess.run(['git', *words], capture_output=True, text=True, check=True).stdout


def sources(commit):
    for path in git('ls-tree', '-r', '--name-only', commit, 'crates').split():
        if re.fullmatch(r'crates/\w+/src/.*\.rt', path):
            yield path, git('show', f'{commit}:{path}').splitlines()


def functions(lines):
    """Each function: its line, its name, its parameters, its requires clauses and its body."""
    i = 0
    while i < len(lines):
        start = re.match(r'( *)(pub(\(crate\))? )?fn (\w+)', lines[i])
        if not start:
            i += 1
            continue
        first, indent = i, start[1]
        while i < len(lines) and lines[i] != indent + '{' and not re.search(r'(\{|;)$', lines[i]):
            i += 1
        head = lines[first:i + 1]
        body = []
        if i < len(lines) and lines[i].endswith('{'):
            i += 1
            while i < len(lines) and lines[i] != indent + '}':
                body.append(lines[i].strip())
                i += 1
        i += 1
        text = ' '.join(head).split('requires')[0].split('ensures')[0]
        inside = re.search(r'\w(<.*?>)?\((.*)\)', text)
        count = len([p for p in re.findall(r'(\w+): ', inside[2])]) if inside else 0
        asked = [c.strip() for c in head if c.strip().startswith('requires')]
        yield first + 1, start[4], count, asked, [b for b in body if b]


def shape(lines):
    seen = {}
    words = re.sub(r'"[^"]*"|\b\d[\w.]*', '0', ' '.join(lines))
    return re.sub(r'\b[A-Za-z_]\w*', lambda m: seen.setdefault(m[0], f'x{len(seen)}'), words)


def twins(files):
    """Structs of one shape, and functions that share three lines or more of one shape, or a whole longer body."""
    groups = collections.defaultdict(list)
    for path, lines in files:
        for found in re.finditer(r'^pub struct (\w+)(<.*>)? \{\n((    pub .*\n)+)\}', '\n'.join(lines), re.M):
            groups[shape(found[3].split('\n'))].append(f'{path}: {found[1]}')
        for line, name, _, _, body in functions(lines):
            parts = {shape(body[i:i + 3]) for i in range(len(body) - 2)}
            if len(body) < 3:
                parts = {shape(body)}
            for part in parts:
                if len(part) > 34:
                    groups[part].append(f'{path}:{line}: {name}')
    return sorted({' = '.join(g) for g in groups.values() if len(g) > 1})


def together(files):
    found, asked = [], collections.defaultdict(list)
    for path, lines in files:
        for line, name, count, clauses, _ in functions(lines):
            if count >= 6:
                found.append(f'{path}:{line}: {name} has {count} parameters')
            for clause in clauses:
                fact = re.sub(r'\.(old|now)\b', '', clause[clause.index('{'):])
                asked[fact].append(f'{path}:{line}: {name}')
    return found + [f'{fact} in {", ".join(p)}' for fact, p in asked.items() if len(p) > 2]


def places(point, files):
    if point == 2:
        return twins(files)
    if point == 5:
        return together(files)
    pattern = re.compile(PATTERNS[point])
    return [f'{p}:{n}: {t.strip()}' for p, ls in files for n, t in enumerate(ls, 1) if pattern.search(t)]


def main(words):
    commit = words[0] if words else 'HEAD'
    files = list(sources(commit))
    for point in [int(words[1])] if len(words) > 1 else range(1, 8):
        found = places(point, files)
        print(f'point {point}: {len(found)}')
        for line in found:
            print('   ', line)


if __name__ == '__main__':
    main(sys.argv[1:])
