#!/usr/bin/env python3
"""Lists the places in src/ that an older form of Rattle would have made so, by the points of docs/DESIGN-PASS.md.

    python3 tools/places.py            all points, with a count for each
    python3 tools/places.py 2 5        these points alone
"""
import difflib
import glob
import re
import sys
from collections import defaultdict

FILES = sorted(path for path in glob.glob('crates/*/src/**/*.rt', recursive=True) if not path.endswith('/tests.rt'))

HANDED_ON = re.compile(r'(None|Err\([a-z_]+\)) => (return )?(None|Err|false)|Some\([a-z_]+\) => (Ok|Some)\('
                       r'|Ok\([a-z_()]*\) => (Ok|Some)\(|else \{ None \}|^ +None,?$')
KINDS = re.compile(r': bool\b|numbered: u8|owners: (&mut )?\[u8|(owner|lane|number): u8|serial: u32')
DUMMY = re.compile(r'fn \w+(<[^>]*>)?\(\) -> (u8|bool)$')
LOOPS = re.compile(r"^\s*('[a-z]+: )?(while|loop)\b|for \w+ in \(?[\w.]+\.\.")
BY_HAND = re.compile(r'fn (number|of_lane|report|layer_name|kind_name|duty_name|refusal_line|is_below|over|better|better_of'
                     r'|cell|factors_of|station_of|edges_of|padded|laid|kept)\b')
FIXED = re.compile(r'^(?!\s*//).*\[[\w<>]+; (8|64|300|301|7224|[A-Z_]{3,})\]')
SWITCH = re.compile(r'if (tail\.turns\.|field\.is_word|drawn)|^\s*(Verb|Setter|Rater|Turn|Call)::\w+.*=>')


def lines():
    for path in FILES:
        for number, line in enumerate(open(path), 1):
            yield path, number, line.rstrip('\n')


def matching(pattern):
    return [f'{p}:{n}: {t.strip()}' for p, n, t in lines() if pattern.search(t)]


def functions():
    """(path, line, name, parameters, clauses, body) of each function."""
    for path in FILES:
        text = open(path).read()
        for m in re.finditer(r'^( *)(pub(\(crate\))? )?(const )?fn (\w+)', text, re.M):
            indent = m.group(1)
            end = re.search(r'^' + indent + r'\}$|;$', text[m.end():], re.M)
            item = text[m.start():m.end() + (end.end() if end else 0)]
            head, _, rest = item.partition(')')
            clauses = re.findall(r'^\s*(?:requires|ensures)\s*\w* \{ (.*) \}$', item, re.M)
            body = re.sub(r'^\s*(requires|ensures).*$', '', item, flags=re.M)
            yield path, text[:m.start()].count('\n') + 1, m.group(5), head.partition('(')[2], clauses, body


def twins():
    """Pairs of functions whose text is the same but for some names and numbers."""
    shapes = []
    for path, number, name, _, _, body in functions():
        words = re.findall(r'\w+|[^\w\s]', re.sub(r'//.*', '', body))
        if len(words) >= 20:
            shapes.append((path, number, name, words))
    found = []
    for i, (p, n, a, x) in enumerate(shapes):
        for q, m, b, y in shapes[i + 1:]:
            s = difflib.SequenceMatcher(None, x, y, autojunk=False)
            if s.quick_ratio() >= 0.9 and s.ratio() >= 0.9:
                found.append(f'{p}:{n}: {a} ~ {q}:{m}: {b} ({s.ratio():.2f})')
    return found


def travelling():
    """Runs of three parameters that stand in three functions or more, and clauses that do."""
    runs = defaultdict(list)
    facts = defaultdict(list)
    for path, number, name, parameters, clauses, _ in functions():
        names = [re.sub(r'\s+', ' ', x.strip()) for x in parameters.split(',') if ':' in x]
        for i in range(len(names) - 2):
            runs[', '.join(names[i:i + 3])].append(f'{path}:{number}: {name}')
        for clause in set(clauses):
            for part in clause.split(' × '):
                part = part.strip('() ')
                if len(part) > 8 and 'result' not in part:
                    facts[part].append(f'{path}:{number}: {name}')
    out = []
    for what, where in list(runs.items()) + list(facts.items()):
        if len(where) >= 3:
            out.append(f'{what}\n        ' + '\n        '.join(where))
    return out


POINTS = {
    '1': lambda: matching(HANDED_ON) + matching(DUMMY) + matching(KINDS),
    '2': twins,
    '3': lambda: matching(LOOPS),
    '4': lambda: matching(BY_HAND),
    '5': travelling,
    '6': lambda: matching(FIXED),
    '7': lambda: matching(SWITCH),
    '8': lambda: [p for p in sorted(glob.glob('crates/*/proofs/**/Answers.antt', recursive=True))],
}


def main():
    for point in sys.argv[1:] or POINTS:
        places = POINTS[point]()
        print(f'== point {point}: {len(places)}')
        for place in places:
            print('    ' + place)


main()
