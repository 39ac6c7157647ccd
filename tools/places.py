#!/usr/bin/env python3
"""The places of the design pass (docs/DESIGN-PASS.md), counted in src/ of every crate.

    tools/places.py [COMMIT] [--list]

counts the tree as it stands, or the one of COMMIT; --list prints the places too. A pattern finds what may be a place: what is kept has its reason
beside it in the code or in docs/DESIGN-PASS.md.
"""
import collections
import re
import subprocess
import sys

# point, what is counted, a pattern for one line
PATTERNS = [
    ('1', 'own enums', r'^\s*(pub(\(crate\))? )?enum \w'),
    ('1', 'a flag or an answer beside the value it judges', r'^\s*(pub )?(right: bool|answer: (Answer|Result<\(\), Question>)),'),
    ('1', 'numbers for refusals', r'(Refused|Record|refused)\((u64|\d+)\)|const BAD_\w+: u64|Bad\(usize\)|return (refused|self\.refused)\(\d'),
    ('1', 'numbers for a flag', r'(marks|used|named): (&mut )?\[(u8|usize); (SLOTS|64)\]'),
    ('1', 'numbers for nothing', r'NOWHERE: usize|other: usize|Unknown,$|Unknown => |Absent,$'),
    ('3', 'loops that count by hand', r"^\s*('\w+: )?while "),
    ('4', 'equality, order, copies and numbers by hand',
     r'fn (same|same_\w+|number|number_of|least|first_of|is_there|part_at|copy_\w+|write_bytes|is_digit|hex_digit|strip_prefix)\b'),
    ('5', 'columns of a list lent one by one', r"^\s*(codes|styles|names|kinds|payloads): &|codes: &'a"),
    ('5', 'a table of names lent by its parts', r'(sources|rest): &'),
    ('6', 'arrays with a length beside', r'\[\w+; (CAPACITY|NAMED|64)\],$|rest: \[usize; NAMED\]|sources: \[usize; 64\]'),
    ('6', 'indices in place of a slice', r'(part|name|value)_(from|to): usize|from: usize, to: usize|input: &.*from: usize'),
    ('7', 'an argument that says which step to run', r'\b(keyed: bool|role: Role|empty: Next|named: bool|yes: bool)'),
]

# what is counted, and two patterns: of a function's parameters one fits each
TOGETHER = [
    ('cells and area of a record lent one by one', r'\w*(cells|prepared|list|whole)\w*: &\[u64\]', r'(area|spec|call): &(\'\w+ )?\[u8\]'),
    ('cells and head of a call lent one by one', r'cells: &\[u64\]', r'\w+: Head'),
    ('a list and its area lent one by one', r'\w+: &(Parameters|ParametersSpec)(<.*>)?', r'(area|spec): &(\'\w+ )?\[u8\]'),
    ('the areas and the board of a bound call lent one by one', r'call: &(\'\w+ )?\[u8\]', r'board: &(\'\w+ )?\[u64\]'),
    ('an input and its columns lent one by one', r'input: &(\'\w+ )?\[u8\]', r'columns: Columns'),
    ('a place in an output beside the output', r'(at|next|text): usize', r'(out|area|cells|board): &mut \[u(8|64)\]'),
]


def sources(commit):
    if commit:
        names = subprocess.run(['git', 'ls-tree', '-r', '--name-only', commit, 'crates'], capture_output=True, text=True, check=True).stdout
    else:
        names = subprocess.run(['git', 'ls-files', 'crates'], capture_output=True, text=True, check=True).stdout
    for name in names.split('\n'):
        if re.fullmatch(r'crates/\w+/src/.*\.rt', name):
            if commit:
                yield name, subprocess.run(['git', 'show', f'{commit}:{name}'], capture_output=True, text=True, check=True).stdout
            else:
                yield name, open(name, encoding='utf-8').read()


def functions(text):
    """Each function's name, its parameters and its `requires` facts."""
    for m in re.finditer(r'\bfn (\w+)(?:<[^>]*>)?\(([^{]*?)\)(?:\s*->[^{\n]*)?\s*((?:(?:requires|ensures)[^\n]*\s*)*)\{', text):
        parameters = [p for p in m.group(2).split(',') if ':' in p or 'self' in p]
        facts = []
        for clause in re.findall(r'requires (?:\w+ )?\{ (.*) \}', m.group(3)):
            facts += [f[1:-1] if f.startswith('(') and f.endswith(')') else f for f in clause.split(' × ')]
        yield m.group(1), parameters, facts


def main():
    commit = next((a for a in sys.argv[1:] if not a.startswith('-')), None)
    show = '--list' in sys.argv
    found = collections.OrderedDict((p[:2], []) for p in PATTERNS)
    wide, facts = [], collections.defaultdict(set)
    together = collections.OrderedDict((what, []) for what, _, _ in TOGETHER)
    for name, text in sources(commit):
        for number, line in enumerate(text.split('\n'), 1):
            if line.lstrip().startswith('//'):
                continue
            for point, what, pattern in PATTERNS:
                if re.search(pattern, line):
                    found[(point, what)].append(f'{name}:{number}: {line.strip()}')
        for function, parameters, asked in functions(text):
            if len(parameters) >= 8:
                wide.append(f'{name}: {function} ({len(parameters)})')
            for what, one, other in TOGETHER:
                if all(any(re.fullmatch(pattern, p.strip()) for p in parameters) for pattern in (one, other)):
                    together[what].append(f'{name}: {function}')
            for fact in asked:
                facts[fact].add(f'{name} {function}')
    found[('5', 'functions with eight parameters or more')] = wide
    found[('5', 'a fact that three functions or more require')] = [
        f'{len(who)} times: {fact}' for fact, who in sorted(facts.items(), key=lambda x: -len(x[1])) if len(who) >= 3]
    for what, places in together.items():
        found[('5', what)] = places
    for (point, what), places in sorted(found.items()):
        print(f'{point}  {len(places):3}  {what}')
        if show:
            for place in places:
                print(f'          {place}')


main()
