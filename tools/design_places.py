#!/usr/bin/env python3
"""Lists the places of crates/*/src that the points of docs/DESIGN-PASS.md speak of: design_places.py [-v] [POINT..]

Each point has patterns over single lines, but for twins, which are functions of the same shape: the same text once names, types and
numbers are taken out. A pattern finds places to look at; docs/DESIGN-PASS.md says what became of each."""
import collections
import pathlib
import re
import sys

FIELD = r'^\s+(pub(\(crate\))? )?'
PATTERNS = {
    '1 own Option or Result': [r'^(pub(\(crate\))? )?enum (?!Reason\b)'],
    '1 flag or status beside a value': [FIELD + r'(status|found|kept|more|good|once|animated|timed|positive): (u8|bool),$'],
    '1 flag beside a parameter': [r'\bis_given: bool'],
    '1 function that answers a refusal by number': [r'fn (\w*status\w*|record)\(.*-> u8$'],
    '1 refusal by number': [
        r'\b(\w*refused\w*|Refused|refusal)\(\s*[1-9][0-9]*\b', r'return [1-9][0-9]*;', r'\bstatus: [1-9][0-9]*,', r'read_nonzero\(.*, [0-9]+\)'],
    '3 loop by hand': [r'^\s*(while|loop)\b'],
    '4 equality, copying, conversion or zero by hand': [
        r'fn (zero_\w+|none|empty|nothing_waits|same_\w+|equal|copy|least|smaller|larger|remaining|wide|in_(64|32)_bits|is_zero|header_zero|'
        r'at_most_16|big_endian|passed|missing|broken|cut_short|\w*refused\w*)\('],
    '6 buffer with a length beside': [FIELD + r'(len|count|entry_count): (usize|u32),$'],
    '7 switch on a step': [r'\bsizing: bool'],
}


def sources(root):
    return [f for f in sorted(root.glob('crates/*/src/**/*.rt'))]


def matches(root, patterns):
    found = []
    for file in sources(root):
        for number, line in enumerate(file.read_text().splitlines(), 1):
            if not line.lstrip().startswith('//') and any(re.search(p, line) for p in patterns):
                found.append(f'{file.relative_to(root)}:{number}: {line.strip()}')
    return found


def functions(file):
    """The functions of a file: name, line, and the text from the parameters to the closing brace, without clauses and comments."""
    lines = file.read_text().splitlines()
    start = None
    for k, line in enumerate(lines):
        begun = re.match(r'\s*(?:#\[.*\] )?(?:pub(?:\(crate\))? )?(?:extern "C" )?fn (\w+)', line)
        if begun:
            start, name = k, begun.group(1)
        if start is not None and re.match(r'\s*\}$', line) and len(line) - len(line.lstrip()) == len(lines[start]) - len(lines[start].lstrip()):
            yield name, start + 1, [t for t in lines[start:k + 1] if not re.match(r'\s*(//|requires|ensures|#\[)', t)]
            start = None


def shape(text):
    words = re.sub(r'\bu(8|16|32|64|size)\b', 'T', ' '.join(text))
    keep = {'fn', 'let', 'mut', 'if', 'else', 'while', 'for', 'in', 'loop', 'return', 'match', 'as', 'T', 'true', 'false', 'break', 'continue'}
    words = re.sub(r'\b[A-Za-z_]\w*\b', lambda m: m.group(0) if m.group(0) in keep else 'x', words)
    return re.sub(r'\s+', ' ', re.sub(r'\b[0-9][0-9_a-fx]*\b', '0', words)).replace('pub ', '')


def twins(root):
    groups = collections.defaultdict(list)
    for file in sources(root):
        # what is exported to C is one function for each call by its nature
        if file.parts[-3].endswith(('_export_c', 'bpg_export', 'loop_player_export')):
            continue
        for name, line, text in functions(file):
            if len(text) >= 3:
                groups[shape(text)].append(f'{file.relative_to(root)}:{line}: {name}')
    return [' ~ '.join(group) for group in groups.values() if len(group) > 1]


def repeated_requires(root):
    counts = collections.Counter()
    for file in sources(root):
        for clause in re.findall(r'requires(?: \w+)? (\{.*\})', file.read_text()):
            counts[clause] += 1
    return [f'{n} times {clause}' for clause, n in counts.most_common() if n >= 3]


def main():
    root = pathlib.Path(__file__).resolve().parent.parent
    wide = '-v' in sys.argv
    points = [a for a in sys.argv[1:] if a != '-v']
    rows = {name: matches(root, patterns) for name, patterns in PATTERNS.items()}
    rows['2 functions of one shape'] = twins(root)
    rows['5 requirement in three or more contracts'] = repeated_requires(root)
    rows['8 proof of a function as one walk'] = [str(f.relative_to(root)) for f in sorted(root.glob('crates/*/proofs/**/Proof.antt'))]
    for name in sorted(rows):
        if not points or name[0] in points:
            print(f'{len(rows[name]):4}  {name}')
            if wide:
                for place in rows[name]:
                    print(f'        {place}')


main()
