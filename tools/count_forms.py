#!/usr/bin/env python3
"""Counts, point by point, the places in crates/*/src that docs/DESIGN-PASS.md speaks of.

    python3 tools/count_forms.py [--list] [ROOT]

It reads text only. A place is a type, a function or a clause; what each point counts stands beside its function.
"""
import pathlib, re, sys
from collections import defaultdict

KEYWORDS = set('''as break const continue crate else enum extern false fn for if impl in let loop match mod move mut pub ref return self
Self static struct super trait true type unsafe use where while usize u8 u16 u32 u64 i32 bool str Some None Ok Err'''.split())


def functions(path):
    """Every function of a file: name, line, parameters, clauses, body."""
    lines = path.read_text().split('\n')
    out = []
    for k, line in enumerate(lines):
        m = re.match(r'^(\s*)(?:pub(?:\([a-z]+\))? )?(?:const )?(?:extern "C" )?fn (\w+)', line)
        if not m:
            continue
        indent = m.group(1)
        end = k
        if not line.rstrip().endswith('}') or line.count('{') != line.count('}'):
            while end < len(lines) and not (lines[end].startswith(indent + '}') and end > k):
                end += 1
        text = '\n'.join(lines[k:end + 1])
        clauses = re.findall(r'^\s*requires(?: \w+)? \{ (.*) \}$', text, re.M)
        body_at = re.search(r'^' + indent + r'\{$|\{$', text, re.M)
        head = text[:body_at.end()] if body_at else text
        body = text[body_at.end():] if body_at else ''
        sig = re.search(r'\((.*?)\)(?: ->|\s*$|\s*\{|\n)', head + '\n', re.S)
        params = []
        if sig:
            for p in re.split(r',\s*(?![^<\[]*[>\]])', re.sub(r'\s+', ' ', sig.group(1)).strip().rstrip(',')):
                if ':' in p:
                    params.append(p.strip())
        result = re.search(r'\) -> ([^\n{]+)', head)
        out.append((m.group(2), k + 1, params, clauses, body, result.group(1).strip() if result else ''))
    return out


def shape(body):
    body = re.sub(r'//.*', '', body)
    words = re.findall(r'\w+|[^\w\s]', re.sub(r'b"[^"]*"|"[^"]*"', 'TEXT', body))
    return ' '.join(w if w in KEYWORDS or not re.match(r'\w', w) else '_' for w in words)


def main():
    show = '--list' in sys.argv
    rest = [a for a in sys.argv[1:] if not a.startswith('--')]
    root = pathlib.Path(rest[0] if rest else '.')
    files = sorted(root.glob('crates/*/src/**/*.rt'))
    text = {f: f.read_text().split('\n') for f in files}
    name = lambda f: str(f.relative_to(root / 'crates'))
    funs = [(f, *x) for f in files for x in functions(f)]
    crate = lambda f: f.relative_to(root / 'crates').parts[0]
    points = {n: [] for n in '1a 1b 1c 2 3 4a 4b 5a 5b 6 7'.split()}

    def grep(key, pattern):
        for f in files:
            for k, line in enumerate(text[f], 1):
                if re.search(pattern, re.sub(r'\s*//.*', '', line)):
                    points[key].append(f'{name(f)}:{k}: {line.strip()[:110]}')

    # 1a: enums of ours. 1b: a flag in a struct. 1c: numbers for kinds or refusals: a field, parameter, constant or comparison.
    grep('1a', r'^\s*(pub(\(crate\))? )?enum ')
    grep('1b', r'^\s+(pub(\(crate\))? )?\w+: bool,$')
    grep('1c', r'Refused\(\w*number|Refused\(\w*usize|Refused\(\d|refuse\(\d|\b(kind|table|count|no|letter): (usize|u8),|^(pub(\(crate\))? )?const (MORE|NUMBER|BYTE|HIDDEN|COUNT|BODY|AMOUNT|TOKEN): usize|\bfn gate\(.*-> usize|\bfn width\(prefix: usize\) -> usize|\bnumber: usize[,)]')
    # 2: functions of one shape (names, numbers and texts aside; three lines at least), in any file
    groups = defaultdict(list)
    for f, n, k, ps, cl, body, r in funs:
        if body.count('\n') >= 3:
            groups[shape(body)].append(f'{name(f)}:{k}: {n}')
    for g in groups.values():
        if len(g) > 1:
            points['2'] += [f'{x}   ({len(g)} of this shape)' for x in g]
    # 3: loops that are no `for`
    grep('3', r'^\s*(while|loop)\b')
    # 4a: a function whose body is one conversion, and the smaller things that a library has. 4b: printing by hand.
    for f, n, k, ps, cl, body, r in funs:
        flat = re.sub(r'\s+', ' ', body).strip().rstrip('}').strip()
        if re.fullmatch(r'\w+(\[\w+\])? as \w+', flat) or re.fullmatch(r'(least|minus|same|same_bytes|digit|half|amount|small_number|all|marked|count|spread|copied|packed|unpacked|taken_head|is_dash|is_help|either)', n):
            points['4a'].append(f'{name(f)}:{k}: {n}')
        if re.fullmatch(r'refused|words|line|answer|print|show|row|spaced|told|fail|complain|number|flags|place|prefix', n) and ('text(' in body or 'io::' in body):
            points['4b'].append(f'{name(f)}:{k}: {n}')
    # 5a: a requires that stands in three functions of a crate or more. 5b: three parameters or more that travel together through three functions.
    same = defaultdict(list)
    for f, n, k, ps, cl, body, r in funs:
        for c in cl:
            same[crate(f), c].append(f'{name(f)}:{k}: {n}')
    for (c, clause), g in sorted(same.items()):
        if len(g) >= 3:
            points['5a'] += [f'{x}   {{ {clause} }}' for x in g]
    for f, n, k, ps, cl, body, r in funs:
        names = [re.sub(r'^mut ', '', p).split(':')[0] for p in ps]
        if {'inputs', 'outputs', 'items'} <= set(names) or {'i', 'o', 'n'} <= set(names) or {'ins', 'outs', 'stacks'} <= set(names):
            points['5b'].append(f'{name(f)}:{k}: {n}')
    # 6: an array with a count beside it, in a struct or handed on
    grep('6', r'^\s+(pub(\(crate\))? )?(all|text): \[u8; \d+\],|text: &mut \[u8; \d+\]|-> \[u8; 10\]|^\s+(pub(\(crate\))? )?(source|wanted): \[u8; 907\]')
    # 7: which step to run, by a number
    grep('7', r'match (stage|form|kind|table|letter|self\.letter|edit\.letter|e\.letter)\b|if (table|form|kind|count) == ')
    for key, places in points.items():
        print(f'point {key}: {len(places)}')
        if show:
            for p in places:
                print('   ', p)
    answers = sorted(root.glob('crates/*/proofs/**/*.antt'))
    per = defaultdict(lambda: [0, 0])
    for a in answers:
        per[a.relative_to(root / 'crates').parts[0]][0] += 1
        per[a.relative_to(root / 'crates').parts[0]][1] += a.read_text().count('\n')
    print('point 8: files and lines of proofs: ' + ', '.join(f'{c} {n} {l}' for c, (n, l) in sorted(per.items())))


main()
