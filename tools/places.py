#!/usr/bin/env python3
"""Places of older forms in crates/*/src, by point of docs/DESIGN-PASS.md.

    tools/places.py [FOLDER]

prints, for each point, the places that its pattern finds, and their count. A pattern finds candidates: what stays as it
is stands in the page with its reason.
"""
import collections, glob, os, re, sys

root = sys.argv[1] if len(sys.argv) > 1 else '.'
files = sorted(f for f in glob.glob(root + '/crates/*/src/**/*.rt', recursive=True) if not f.endswith('tests.rt'))
texts = {f: open(f).read() for f in files}
short = lambda f: os.path.relpath(f, root + '/crates')

def code(text):
    return re.sub(r'//[^\n]*', '', text)

def found(pattern, flags=re.M):
    for f in files:
        for m in re.finditer(pattern, code(texts[f]), flags):
            line = code(texts[f])[:m.start()].count('\n') + 1
            yield '%s:%d: %s' % (short(f), line, ' '.join(m.group(0).split())[:90])

def functions():
    for f in files:
        for m in re.finditer(r'fn (\w+)(<[^(]*>)?\(([^)]*)\)([^{;]*?)(?=\n\s*(requires|ensures)|\s*[{;])((?:\n\s*(?:requires|ensures)[^\n]*)*)', code(texts[f])):
            yield f, m.group(1), m.group(3), m.group(4), m.group(6) or ''

def flags_beside_values():
    for f, name, params, result, _ in functions():
        if re.search(r'\bbool\b', result) and re.search(r'(?<!&)&(\'\w+ )?mut (?!self)', params):
            yield '%s: fn %s' % (short(f), name)

def index_loops():
    """Loops over a range whose variable is an index or ends at a length, and loops that move an index by hand."""
    for f in files:
        text = code(texts[f])
        for m in re.finditer(r'^\s*(for (\w+) in ([^{]*\.\.[^{]*)|while [^{]*|loop )\{', text, re.M):
            depth, end = 1, m.end()
            while depth:
                depth += {'{': 1, '}': -1}.get(text[end], 0)
                end += 1
            body = text[m.start():end]
            moved = set(re.findall(r'\b(\w+) [-+]= ', body)) | set(re.findall(r'^\s*(\w+) = ', body, re.M)) | {m.group(2)}
            names = moved - {None, '_'}
            indexed = any(re.search(r'\b%s\b' % v, a) for v in names for a in re.findall(r'\[([^\]]*)\]', body))
            passed = any(re.search(r'\b(entries|area|bytes|records), %s\b' % v, body) for v in names)
            counted = m.group(3) and re.search(r'\.len\(\)|count', m.group(3))
            if indexed or passed or counted:
                yield '%s:%d: %s' % (short(f), text[:m.start()].count('\n') + 2, ' '.join(m.group(1).split()))

def repeated(kind):
    seen = collections.defaultdict(set)
    for f, name, params, _, clauses in functions():
        crate = short(f).split('/')[0]
        if kind == 'params':
            named = [' '.join(p.split()) for p in params.split(',') if ':' in p]
            for i, a in enumerate(named):
                for b in named[i + 1:]:
                    seen[crate, a + ', ' + b].add(name)
        else:
            for clause in re.findall(r'requires(?: \w+)? \{ (.*) \}', clauses):
                for fact in re.split(r' × ', clause.replace('(', ' ').replace(')', ' ')):
                    seen[crate, ' '.join(fact.split())].add(name)
    for (crate, what), names in sorted(seen.items()):
        if len(names) >= 3:
            yield '%s: %s in %s' % (crate, what, ', '.join(sorted(names)))

points = [
    ('1 a flag with a value beside it', list(flags_beside_values()) + list(found(r'^\s*(pub )?\w+: bool,|let mut \w+ = (true|false);'))),
    ('1 a match that only hands a value, its lack or an error on', list(found(
        r'Ok\((\w+)\) => Some\(\1\)|Some\((\w+)\) => Ok\(\2\)|Err\((\w+)\) => Err\(\3\)|Err\(\w+\) => return Err|Err\(_\) => Err\('
        r'|let (Ok|Some)\(\w+\) = [^;]*? else \{\s*return (None|Err\([^;]*\));|Some\((\w+)\) => Some\(\6\)|Some\((\w+)\) => \7\b(?![.(])'
        r'|if [^{}]*\{\s*Some\(\w+\)\s*\} else \{\s*None\s*\}'))),
    ('1 numbers for kinds', list(found(r'\b(method|n[1-6]): (u8|usize)\b|fn of\(number: u8\)|\bbalances\[\d\]'))),
    ('2 twins', list(found(
        r'pub struct (SupplyCode|ParticipantCode|Holidays|Spans|EnergyField|InvoiceField|BilledFields|Line)\b|pub enum (Origin|Method)\b'
        r'|fn (same_code|ascii_text|checked_add|period_20\w*)\b|pub(\(\w+\))? enum Alphabet|trait Class\b|struct (Digit|Visible)\b'))),
    ('3 loops that count an index', list(index_loops())),
    ('4 equality and order by hand', list(found(r'fn (compare\w*|same_\w+|by_number|is_after|higher)\('))),
    ('4 conversion by hand', list(found(r'pub fn (of|read|new|in_wh|number|flag|text|letter|day|date|hour|label)\((self|number: u\d+|text: &\[u8\]|text: &str)\)[^{]*?-> [^\n]*'))),
    ('4 printing by hand', list(found(r'fn (write_bytes|label_fields|method_fields|date_part|three_digits|digit_count|last_digit|ascii_text|code_text)\b|struct (Digits|TwoDigits|Picture)\b'))),
    ('5 a fact that three functions or more require', list(repeated('facts'))),
    ('5 parameters that travel together in three functions or more', list(repeated('params'))),
    ('6 a length beside a buffer', list(found(r'^\s*(pub )?(len|count|used|periods|from): usize,'))),
    ('6 a search by hand', list(found(r'let middle = '))),
    ('7 a switch on which step to run', list(found(r'match name \{|enum (PeriodTest|Alphabet)\b'))),
]
for point, places in points:
    print('## %s: %d' % (point, len(places)))
    for place in places:
        print('   ', place)
