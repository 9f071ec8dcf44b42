#!/usr/bin/env python3
# places.py: prints the places in crates/*/src that docs/DESIGN-PASS.md counts, under the number of each point.
import glob
import re

FILES = sorted(glob.glob('crates/*/src/*.rt'))
KEPT = ('if', 'else', 'while', 'loop', 'for', 'in', 'let', 'mut', 'return', 'match', 'as', 'true', 'false')


def show(point, what, found):
    print(f'{point}: {what}: {len(found)}')
    for line in found:
        print(f'    {line}')


def lines(pattern):
    """The lines that a pattern is found in."""
    found = []
    for name in FILES:
        for at, line in enumerate(open(name), 1):
            if re.search(pattern, line):
                found.append(f'{name}:{at}: {line.strip()}')
    return found


def functions():
    """Each function: its file, name, parameters and body."""
    for name in FILES:
        text = re.sub(r'//.*', '', open(name).read())
        for m in re.finditer(r'^( *)(?:pub(?:\(crate\))? )?(?:extern "C" )?fn (\w+)(?:<[^>]*>)?\(([^)]*)\)[^\n]*\n(?: +(?:requires|ensures)[^\n]*\n)*\1\{\n(.*?)\n\1\}', text, re.M | re.S):
            yield name, m.group(2), m.group(3), m.group(4)


def index_loops():
    """Loops whose condition tests a variable that the body steps by one."""
    found = []
    for name in FILES:
        text = open(name).read().split('\n')
        for at, line in enumerate(text):
            m = re.match(r"(\s*)(?:'\w+: )?while (.*) \{$", line)
            if not m:
                continue
            end = at + 1
            while not text[end].startswith(m.group(1) + '}'):
                end += 1
            stepped = re.findall(r'\b(\w+) [+-]= 1;', '\n'.join(text[at:end]))
            if any(re.search(rf'\b{v}\b', m.group(2)) for v in stepped):
                found.append(f'{name}:{at + 1}: {line.strip()}')
    return found


def twins():
    """Functions whose bodies are the same but for names and literals."""
    shapes = {}
    for name, function, _, body in functions():
        shape = re.sub(r"\bb?'[^']*'|\bb\"[^\"]*\"|\b\d+\b", '0', body)
        shape = re.sub(r'\b[A-Za-z_]\w*\b', lambda m: m.group(0) if m.group(0) in KEPT else 'x', shape)
        shape = re.sub(r'\s+', ' ', shape)
        if len(shape) > 40:
            shapes.setdefault(shape, []).append(f'{name.split("/")[1]}::{function}')
    return [', '.join(names) for names in shapes.values() if len(names) > 1]


def together():
    """Pairs of parameters that stand in ten functions or more."""
    pairs = {}
    for _, _, parameters, _ in functions():
        named = re.findall(r'(\w+): ', parameters)
        for i, a in enumerate(named):
            for b in named[i + 1:]:
                pairs[a, b] = pairs.get((a, b), 0) + 1
    return [f'{a}, {b}: {n}' for (a, b), n in sorted(pairs.items(), key=lambda p: -p[1]) if n >= 10]


show(1, 'enums', lines(r'^(pub |pub\(crate\) )?enum '))
show(1, 'flags of a value that may be missing', lines(r'\b(closed|failed): bool'))
show(1, 'numbers for kinds', lines(r'const [A-Z0-9_]+: u(8|16) = '))
show(1, 'functions that answer a number', lines(r'fn .*-> u8$'))
show(2, 'bodies that differ in names and literals', twins())
show(3, 'loops that are no for', lines(r"^ *('\w+: )?(while|loop) ?"))
show(3, 'of these, loops that count an index', index_loops())
show(4, 'comparing, copying and clipping by hand', lines(r'fn (same_bytes|is_between|is_digit|is_upper|is_upper_or_digit|is_plain|is_number|is_text|shuts_out|is_some|is_there|has_tables|copy|clipped|joined|bumped|place_after|at_most_ten|byte_at|last_byte|number_at|place_at|link_at|start_at|column_of|wide|low_byte|kind_of|relation_of|refusal|lower|higher)\b'))
show(5, 'parameters that travel together', together())
show(6, 'a count beside an array, and parallel slices', lines(r'^ *(pub )?count: usize|starts: &mut \[u16\]'))
show(7, 'switches on what to run', lines(r'match asked'))
