#!/usr/bin/env python3
"""Counts the places in crates/*/src that could take a newer form, by what the text shows. Usage: tools/places.py [--list] [--root DIR] [KIND ..]

A place is a line (or a pair of functions, a clause, a constant). The counts find candidates: docs/DESIGN-PASS.md says of each kind
what became of it. Test crates and programs count too."""
import collections, pathlib, re, sys

ROOT = pathlib.Path(__file__).resolve().parent.parent
if '--root' in sys.argv:
    i = sys.argv.index('--root')
    ROOT = pathlib.Path(sys.argv[i + 1])
    del sys.argv[i:i + 2]
LIST = '--list' in sys.argv
ALL = ['options', 'twins', 'loops', 'derives', 'facts', 'buffers', 'switches']
KINDS = [a for a in sys.argv[1:] if a in ALL] or ALL

FILES = {p.relative_to(ROOT / 'crates'): p.read_text() for p in sorted((ROOT / 'crates').glob('*/src/**/*.rt'))}


def strip(line):
    return re.sub(r'//.*', '', line)


def lines(pattern, exclude=None):
    found = []
    for path, text in FILES.items():
        for number, line in enumerate(text.split('\n'), 1):
            bare = strip(line)
            if re.search(pattern, bare) and not (exclude and re.search(exclude, bare)):
                found.append((f'{path}:{number}', line.strip()))
    return found


def show(title, found):
    print(f'  {title}: {len(found)}')
    if LIST:
        for place, text in found:
            print(f'      {place}  {text[:110]}')


FUNCTION = re.compile(r'^( *)(?:pub(?:\(crate\))? )?fn (\w+)[^;{]*?\((.*?)\)( -> [^\n{;]*)?', re.M | re.S)


def functions():
    for path, text in FILES.items():
        for m in FUNCTION.finditer(text):
            yield path, m


def enums(text):
    for m in re.finditer(r'enum (\w+)[^{]*\{', text):
        depth, i, cases = 1, m.end(), 0
        while depth and i < len(text):
            if depth == 1 and re.match(r'\n\s+[A-Z]\w*', text[i:]):
                cases += 1
            depth += {'{': 1, '(': 1, '}': -1, ')': -1}.get(text[i], 0)
            i += 1
        yield m.group(1), cases


if 'options' in KINDS:
    print('options: Option, Result, enums')
    show('an optional refusal in place of a Result', [(f'{p}', m.group(2)) for p, m in functions()
         if m.group(4) and re.search(r'Option<\w*(Refusal|Fault)>', m.group(4))])
    show('a match arm for None', lines(r'^\s*None => '))
    show('a match arm for Err', lines(r'^\s*Err\((_|\w+)\) => '))
    show('let .. else that only returns None or one error', [(f'{p}', m.group(0).replace('\n', ' ')) for p, t in FILES.items()
         for m in re.finditer(r'let Some\(\w+\) = [^;{]*? else \{\s*return (None|Err\([^;]*\));\s*\}', t)])
    show('an enum of two cases', [(f'{p}', name) for p, t in FILES.items() for name, cases in enums(t) if cases == 2])
    show('a number for a kind (fields kind, class, side)', lines(r'^\s*(pub )?(kind|class|side): u(8|16),'))
    show('two flags in one struct', [(f'{p}', m.group(1)) for p, t in FILES.items() for m in re.finditer(r'struct (\w+)[^{;]*\{([^}]*)\}', t)
         if len(re.findall(r': bool,', m.group(2))) >= 2])

if 'twins' in KINDS:
    print('twins')
    consts = collections.defaultdict(list)
    for path, text in FILES.items():
        for m in re.finditer(r'^(?:pub )?const (\w+): (\w+) = ([^;]*);', text, re.M):
            value = m.group(3).replace('_', '')
            consts[(m.group(1), value.lower() if value[0].isdigit() else value)].append((f'{path}', m.group(1)))
    show('a constant that stands more than once', [p for v in consts.values() if len(v) > 1 for p in v])
    values = collections.defaultdict(list)
    for path, text in FILES.items():
        for m in re.finditer(r'^(?:pub )?const (\w+): (\[[^=]+)= ([^;]*\][^;]*);', text, re.M):
            values[re.sub(r'\s+', '', m.group(3))].append((f'{path}', m.group(1)))
    show('a table that stands more than once', [p for v in values.values() if len(v) > 1 for p in v])
    bodies = collections.defaultdict(list)
    for path, text in FILES.items():
        for m in FUNCTION.finditer(text):
            start = m.end() if text[m.end():].lstrip(' ').startswith('{') else text.find('\n' + m.group(1) + '{\n', m.end())
            end = text.find('\n' + m.group(1) + '}', start)
            if start < 0 or end < 0:
                continue
            body = text[start:end]
            # the shape: names of types, constants, strings and numbers do not count
            shape = re.sub(r'"[^"]*"', 'T', body)
            shape = re.sub(r'\b\d[\d_]*\b', '0', shape)
            shape = re.sub(r'\b[A-Z]\w*(::\w+)?', 'N', shape)
            shape = re.sub(r'\s+', ' ', shape)
            if len(shape) > 40:
                bodies[shape].append((f'{path}', m.group(2)))
    show('a function whose body has the shape of another (types, constants, texts and numbers apart)',
         [p for v in bodies.values() if len(v) > 1 for p in v])
    structs = collections.defaultdict(list)
    for path, text in FILES.items():
        for m in re.finditer(r'struct (\w+)[^{;]*\{([^}]*)\}', text):
            fields = tuple(re.findall(r'^\s+(?:pub )?(\w+: [^,{]+),', m.group(2), re.M))
            if fields:
                structs[fields].append((f'{path}', m.group(1)))
    show('a struct with the fields of another', [p for v in structs.values() if len(v) > 1 for p in v])

if 'loops' in KINDS:
    print('loops')
    show('while', lines(r'\bwhile\b'))
    show('for over a range', lines(r'\bfor \w+ in [^{]*\.\.'))
    indexed = []
    for path, text in FILES.items():
        for m in re.finditer(r'for (\w+) in [^{]*\.\.[^{]*\{', text):
            depth, i = 1, m.end()
            while depth and i < len(text):
                depth += {'{': 1, '}': -1}.get(text[i], 0)
                i += 1
            if m.group(1) != '_' and re.search(r'\[[^\]]*\b%s\b[^\]]*\]|\.nth\([^)]*\b%s\b' % (m.group(1), m.group(1)), text[m.end():i]):
                indexed.append((f'{path}:{text.count(chr(10), 0, m.start()) + 1}', m.group(0)))
    show('for over a range that only indexes', indexed)
    show('a counter by hand', lines(r'\w+ \+= 1;'))
    show('push in a loop or after', lines(r'\.push\('))

if 'derives' in KINDS:
    print('derives: equality, order, copying, conversion, printing')
    show('impl Drop by hand', lines(r'^impl.* Drop for '))
    show('codes compared in place of actions', lines(r'\.code\(\) ==|== \w+\.code\(\)'))
    show('fields compared one by one', lines(r'\w+\.left == .*&& .*\.right ==|\w+\.first == .*&& '))
    show('a value unpacked into locals to print it', lines(r'^\s*let (number|place|side|k|left|right|sweeps|name|row|round|question|design|node|s|t|taken|dropped|proposed|socket|equal|nanos) = \w+\.\w+(\(\))?(\.\w+)?;$'))
    show('a free function from an enum to its number or place', [(f'{p}', m.group(2)) for p, m in functions()
         if m.group(1) == '' and re.match(r'\w+: \w*(Refusal|Fault)\b', m.group(3)) and m.group(4)])
    show('From by hand', lines(r'^impl From<'))
    show('Display', lines(r'^impl.*Display for'))

if 'facts' in KINDS:
    print('facts in contracts, parameters that go together')
    clauses = collections.defaultdict(list)
    for path, text in FILES.items():
        for m in re.finditer(r'^\s+requires(?: \w+)? \{ (.*) \}$', text, re.M):
            shape = re.sub(r'\b(left|right|mine|other|ms|ks|s|t|n1|n2|cells|self|first|second)\b', '_', m.group(1))
            shape = re.sub(r'\b[STLRP]\.', '.', shape)
            clauses[shape].append((f'{path}:{text.count(chr(10), 0, m.start()) + 1}', m.group(1)))
    show('a requires that stands in three or more functions', [p for v in clauses.values() if len(v) >= 3 for p in v])
    groups = collections.defaultdict(set)
    for path, m in functions():
        params = [re.sub(r'\s+', ' ', x.strip()) for x in re.split(r',\s*(?![^<(]*[>)])', m.group(3)) if ':' in x]
        names = [x.split(':')[0].strip() for x in params]
        if len(names) >= 5:
            groups[tuple(names)].add((f'{path}', m.group(2)))
    show('a function of five or more parameters', sorted(p for v in groups.values() for p in v))
    pairs = [(f'{p}', m.group(2)) for p, m in functions() if re.search(r'\bleft: ', m.group(3)) and re.search(r'\bright: ', m.group(3)) and '&' in m.group(3)]
    show('a function of a left and a right system', pairs)
    show('a function of a system and a state', [(f'{p}', m.group(2)) for p, m in functions()
         if re.search(r'(system|mine|other|below): &', m.group(3)) and re.search(r'\b[st]: usize', m.group(3))])

if 'buffers' in KINDS:
    print('buffers: parallel arrays, arenas')
    show('an array of a fixed length', lines(r'\[[\w:. ()]+; [A-Z0-9]\w*\]', r'^\s*(pub )?const '))
    show('a struct with two Vecs', [(f'{p}', m.group(1)) for p, t in FILES.items() for m in re.finditer(r'struct (\w+)[^{;]*\{([^}]*)\}', t)
         if len(re.findall(r': Vec<', m.group(2))) >= 2])
    show('bytes with a place beside them', [(f'{p}', m.group(2)) for p, m in functions() if re.search(r'bytes: &\[u8\], at: usize|bytes: &\[u8\],\s+at: usize', m.group(3))])
    show('rows and how many of them are filled', [(f'{p}', m.group(2)) for p, m in functions() if re.search(r'rows: &mut \[', m.group(3))])

if 'switches' in KINDS:
    print('switches')
    show('a flag that chooses a step', lines(r'\bif \w+\.(flipped|inside)\b|\bif (flipped|inside)\b'))
    show('a match on an enum of steps', lines(r'\bmatch (self|change|operation|request|\*self)\b'))
