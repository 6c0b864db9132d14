#!/usr/bin/env python3
"""forms.py [TREE] [POINT]..: places in crates/*/src whose form has a plainer one in today's Rattle, by the points of docs/DESIGN-PASS.md.

A row is a place to look at, not a fault: what stands for a reason has it beside it in the source, or in that page.
"""
import pathlib
import re
import sys
from collections import defaultdict

tree = pathlib.Path(sys.argv[1] if len(sys.argv) > 1 else '.')
only = set(sys.argv[2:])
FN = re.compile(r'^(\s*)(?:pub(?:\([a-z]+\))? )?(?:const )?(?:extern "C" )?fn (\w+)')
TYPE = re.compile(r'^(?:pub )?(struct|enum) (\w+)')
PARAMS = re.compile(r'fn \w+(?:<.*?>)?\((.*?)\)(?: ->| requires| ensures| where| \{|;|$)')
CONVERSION = re.compile(r'(_in|_out|_number|_mark|flag_of|mark_of|rule_of|factor|from_word|to_word|bits_of|not_zero|from_fields)$')
BY_HAND = re.compile(r'^\s*impl.* (PartialEq|Eq|PartialOrd|Ord|Clone|Copy)\b.* for ')

sources, functions, types = {}, [], []
rows = defaultdict(list)


def begins_body(line):
    """Is it the line on which a function's body begins, or on which a declaration ends?"""
    text = line.strip()
    clause = text.startswith(('ensures', 'requires'))
    return text == '{' or (text.endswith('{') and not clause) or text.endswith(';')


def code(lines):
    return [x.strip() for x in lines if x.strip() and not x.strip().startswith('//')]


def add(point, name, line, what):
    rows[point].append(f'{name}:{line}: {what}')


def shape(lines):
    """The lines with names and numbers folded."""
    return re.sub(r'[A-Za-z_]\w*', 'x', re.sub(r'\d\w*', '0', ' '.join(lines)))


def is_for_c(name):
    return '/c_' in name


for path in sorted(tree.glob('crates/*/src/**/*.rt')):
    name = str(path.relative_to(tree))
    lines = sources[name] = path.read_text().split('\n')
    at = 0
    while at < len(lines):
        function, kind = FN.match(lines[at]), TYPE.match(lines[at])
        if function:
            first = at
            while not begins_body(lines[at]):
                at += 1
            last = at
            while last < len(lines) and lines[last] != function.group(1) + '}':
                last += 1
            head = ' '.join(x.strip() for x in lines[first:at + 1])
            inside = PARAMS.search(head)
            parameters = re.split(r',\s*(?![^\[<(]*[\]>)])', inside.group(1)) if inside else []
            parameters = [p.strip() for p in parameters if p.strip()]
            functions.append((name, first + 1, function.group(2), parameters, head, code(lines[at + 1:last])))
        elif kind:
            last = at
            while lines[last] != '}' and not lines[last].endswith(';'):
                last += 1
            types.append((name, at + 1, kind.group(1), kind.group(2), [x.rstrip(',') for x in code(lines[at + 1:last])]))
        at += 1

# 1: enums with a value in a case, or of two cases; flags beside other fields; numbers that stand for an answer
for name, line, kind, called, body in types:
    if kind == 'enum' and (any('(' in x for x in body) or len(body) == 2):
        add('1 enums', name, line, f'{called}: ' + ' '.join(body))
    if kind == 'struct' and len(body) > 1:
        for x in body:
            if re.search(r': bool$', x):
                add('1 flags', name, line, f'{called}: {x}')
            if re.match(r'(pub )?(answer|rule|status): u8$', x):
                add('1 numbers', name, line, f'{called}: {x}')
for name, line, called, parameters, head, body in functions:
    if re.search(r'-> u8( |$)', head) and not is_for_c(name):
        add('1 numbers', name, line, f'{called} answers u8')

# 2: functions alike but for names, types and numbers; types likewise
alike = defaultdict(list)
for name, line, called, parameters, head, body in functions:
    if not is_for_c(name) and len(' '.join(body)) > 20:
        alike['2 functions', len(parameters), shape(body)].append(f'{name}:{line} {called}')
for name, line, kind, called, body in types:
    fields = [re.sub(r'^pub ', '', x) for x in body]
    if kind == 'enum':
        fields = [re.sub(r'\(\w+\)', '(_)', x) for x in fields]
    else:
        fields = [re.sub(r'\w+: ', '', x) for x in fields]
    if len(fields) > 1:
        alike['2 types', kind, tuple(sorted(fields))].append(f'{name}:{line} {called}')
for key, places in alike.items():
    if len(places) > 1:
        rows[key[0]].append(' ~ '.join(places))

# 3: loops that count
for name, lines in sources.items():
    for line, text in enumerate(lines, 1):
        if re.match(r'\s*(while |for \w+ in \d+\.\.)', text):
            add('3 loops', name, line, text.strip())

# 4: conversions, printing and equality by functions of their own
for name, line, called, parameters, head, body in functions:
    if CONVERSION.search(called) and not is_for_c(name):
        add('4 conversions', name, line, called)
    if called.startswith('print_') or re.search(r'&impl Print', head):
        add('4 printing', name, line, called)
for name, lines in sources.items():
    for line, text in enumerate(lines, 1):
        if BY_HAND.match(text):
            add('4 equality', name, line, text.strip())

# 5: parameters that travel together through three functions or more; facts asked by three or more
pairs, facts = defaultdict(set), defaultdict(set)
for name, line, called, parameters, head, body in functions:
    named = [p for p in parameters if ':' in p and not p.startswith('rt:')]
    for pair in zip(named, named[1:]):
        pairs[pair].add((name, line))
for name, lines in sources.items():
    for line, text in enumerate(lines, 1):
        asked = re.match(r'\s*requires (?:\w+ )?\{ (.*) \}$', text)
        for part in re.split(r' × ', asked.group(1)) if asked else []:
            facts[part.strip('() ')].add((name, line))
for pair, places in sorted(pairs.items(), key=lambda x: -len(x[1])):
    if len(places) >= 3:
        rows['5 parameters'].append(f'({pair[0]}, {pair[1]}): {len(places)} functions')
for fact, places in sorted(facts.items(), key=lambda x: -len(x[1])):
    if len(places) >= 3:
        rows['5 facts'].append(f'{fact}: {len(places)} contracts')

# 6: a count beside its places, arrays beside arrays, a buffer handed on with a place in it
for name, line, kind, called, body in types:
    fields = ' '.join(body)
    counts = re.search(r'(length|made|have|len): usize', fields)
    if kind == 'struct' and (counts or len(re.findall(r': \[\w+; ', fields)) > 1):
        add('6 beside', name, line, f'{called}: {fields}')
for name, lines in sources.items():
    arrays = re.findall(r'^const (\w+): \[', '\n'.join(lines), re.M)
    if len(arrays) > 1:
        add('6 beside', name, 1, 'constant arrays ' + ', '.join(arrays))
    for line, text in enumerate(lines, 1):
        if re.search(r'struct \w+\(.*\[\w+; ', text):
            add('6 beside', name, line, text.strip())
for name, line, called, parameters, head, body in functions:
    lent = any(p.startswith(('out: &mut [u8]', 'page: &')) for p in parameters)
    if lent and any(p in ('at: usize', 'made: usize') for p in parameters):
        add('6 beside', name, line, f'{called}: a buffer and a place in it')

# 7: a flag handed in that says which way to go
for name, line, called, parameters, head, body in functions:
    for p in parameters:
        if re.search(r': bool$', p):
            add('7 switches', name, line, f'{called}({p})')

for point in sorted(rows):
    if not only or point.split()[0] in only:
        print(f'== {point}: {len(rows[point])}')
        for row in rows[point]:
            print('   ' + row)
