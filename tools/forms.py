#!/usr/bin/env python3
"""Lists the places in src/ that may want a plainer form, a heading for each kind. Run at the top: python3 tools/forms.py
It goes by text: each place that it lists is looked at by hand."""
import collections, glob, re, sys

ROOT = sys.argv[1] if len(sys.argv) > 1 else '.'

def sources():
    for path in sorted(glob.glob(ROOT + '/crates/*/src/**/*.rt', recursive=True)):
        yield path[len(ROOT) + 1:] if ROOT != '.' else path[2:], open(path).read()

def functions():
    """Each function: path, name, the text of its parameters, its clauses, its body."""
    for path, text in sources():
        for m in re.finditer(r'^( *)(?:pub(?:\(crate\))? )?fn (\w+)', text, re.M):
            rest = text[m.end():]
            end = re.search(r'^%s\}' % m.group(1), rest, re.M)
            semi = rest.find(';\n')
            opened = re.search(r'(?:^%s\{|\) *(?:-> [^\n{]*)?\{)\n' % m.group(1), rest, re.M)
            if not end or not opened or opened.start() > end.start() or (0 <= semi < opened.start() and '{' not in rest[:semi]):
                continue
            head, body = rest[:opened.end()], rest[opened.end():end.start()]
            params = head[head.find('('):head.find(')\n') if ')\n' in head else head.find(') ')]
            yield path, m.group(2), params, re.findall(r'requires (?:\w+ )?\{ (.*) \}', head), body

def lines(title, pattern):
    found = []
    for path, text in sources():
        for n, line in enumerate(text.split('\n'), 1):
            if re.search(pattern, line) and not line.strip().startswith('//') and 'ghost ' not in line and 'ensures' not in line:
                found.append('%s:%d: %s' % (path, n, line.strip()))
    show(title, found)

def show(title, found):
    print('%s: %d' % (title, len(found)))
    for f in found:
        print('    ' + f)

def shape(body):
    tokens = re.findall(r'\w+|[^\w\s]', re.sub(r'//.*', '', body))
    keep = {'match', 'if', 'else', 'for', 'in', 'while', 'let', 'mut', 'return', 'Some', 'None', 'Ok', 'Err'}
    return ' '.join(t if t in keep or not re.match(r'\w', t) else '_' for t in tokens)

def twins():
    groups = collections.defaultdict(list)
    for path, name, _, _, body in functions():
        s = shape(body)
        if len(s.split()) >= 14:
            groups[s].append('%s %s' % (path, name))
    show('2 functions of one shape, groups', [', '.join(g) for g in groups.values() if len(g) > 1])

def together():
    facts, pairs = collections.defaultdict(set), collections.defaultdict(set)
    for path, name, params, requires, _ in functions():
        for r in requires:
            facts[r].add(name)
        ps = sorted(set(re.findall(r'(\w+): (&?(?:mut )?(?:\'\w+ )?[\w\[\]; <>]+)', params)))
        for i, p in enumerate(ps):
            for q in ps[i + 1:]:
                pairs[(path, p, q)].add(name)
    show('5 facts required in three or more functions', ['%s: %s' % (f, ', '.join(sorted(n))) for f, n in sorted(facts.items()) if len(n) > 2])
    show('5 parameters together in three or more functions', ['%s: %s: %s and %s: %s: %s' % (k[0], *k[1], *k[2], ', '.join(sorted(n))) for k, n in sorted(pairs.items()) if len(n) > 2])

def fields():
    found = []
    for path, text in sources():
        for name, body in re.findall(r'^(?:pub )?struct (\w+)[^;{]*\{\n(.*?)^\}', text, re.M | re.S):
            rows = [f.strip() for f in body.split('\n') if re.match(r' +(?:pub(?:\(crate\))? )?\w+: ', f) and 'ghost' not in f]
            if any('[' in f for f in rows):
                found.append('%s %s { %s }' % (path, name, ' '.join(rows)))
    show('6 structs that hold arrays or slices', found)

lines('1 a fault or a flag beside a value, or in an Option', r'fault: Option<|^ *(pub(\(crate\))? )?fn \w+.*-> Option<(usize|\w+Fault)>$|: bool,$')
lines('1 numbers for kinds, for refusals, for what is not there, or for nothing', r'number: u8|TOO_MUCH: |None => 0|first: 0,|unwrap_or\(0\)|\(\) -> u8$')
twins()
lines('3 loops over a range, by `while`, and counts by hand', r'for \w+ in .*\.\.|while |\+= 1')
lines('4 conversions by hand', r'/ 256|% 256|\* 256| as (u8|u16|u32|usize)\b|None => None')
lines("4 words and sentences of cases, and printing by hand", r"-> &'static str|fn (print|show)_\w+")
lines('4 equality by hand', r'fn same_\w+|impl.* PartialEq|impl.* Clone')
together()
fields()
lines('6 arrays as parameters', r'fn .*: &(mut )?\[\w+; ')
lines('7 functions in tables, switches on a step', r'fn\(|\[fn|dyn |Box<')
