#!/usr/bin/env python3
"""Counts the places of older forms in crates/*/src and the proof files beside it.

    python3 tools/count_forms.py [--list] [FOLDER]

  two-case   1  enums of two cases: the shape of Option or Result
  codes      1  constants of numbers that name a kind, a form, an opcode, a feature, a table
  passed-on  1  an `if let` or an arm of a match that hands a refusal on as it stands
  width      2  functions that differ in the width of a cell (fn .._u32, .._u64)
  alike      2  functions of one crate whose text is the same but for names and numbers
  index      3  loops that count an index by hand (`while`, and `loop` with a place)
  own-words  4  functions that do by hand what a derive or the library does
  lent       5  functions with three or more of the lent tables side by side
  paired     6  functions with two lists that always travel together (dense and sparse, bases and claims)
  answers    8  answer files, and their lines
"""
import glob, os, re, sys

args = [a for a in sys.argv[1:] if not a.startswith('--')]
top = args[0] if args else os.path.join(os.path.dirname(os.path.abspath(__file__)), '..')
listed = '--list' in sys.argv
KINDS = ['two-case', 'codes', 'passed-on', 'width', 'alike', 'index', 'own-words', 'lent', 'paired']
NO_CODE = re.compile(r'^(MAX_|HALF_|MOST_|FEW_|NO_)|_CELLS$|^(KINDS|NAMES|OPCODES|MODES|TYPE_FORMS)$')
OWN = ('same|is_tile|same_number|wide|least|rest|narrow|copy_u64|clear_u32|clear_u64|number_or|is_absent|has_left|same_product|size')
FN = re.compile(r'^( *)(?:pub )?(?:extern "C" )?fn (\w+)(?:<[^>]*>)?\(((?:[^()]|\([^()]*\))*)\)', re.M)
found = {kind: [] for kind in KINDS}
WORD = re.compile(r"[A-Za-z_]\w*|\d+|[^\w\s]")
KEEP = set('if else match while for in let mut return fn pub as true false loop break None Some Ok Err u64 u32 u8 usize bool i64'.split())


def shape(text):
    names, out = {}, []
    for w in WORD.findall(text):
        if w[0].isdigit():
            out.append('0')
        elif re.match(r'[A-Za-z_]', w) and w not in KEEP:
            out.append('x%d' % names.setdefault(w, len(names)))
        else:
            out.append(w)
    return ' '.join(out)


for path in sorted(glob.glob(top + '/crates/*/src/**/*.rt', recursive=True)):
    text = re.sub(r'//.*', '', open(path).read())
    crate = os.path.relpath(path, top).split('/')[1]

    def note(kind, at, what):
        found[kind].append((crate, os.path.relpath(path, top), text.count('\n', 0, at) + 1, what.strip()[:90]))

    for m in re.finditer(r'^(?:pub )?enum (\w+) \{\n(.*?)^\}', text, re.M | re.S):
        cases = re.findall(r'^    (\w+)', m.group(2), re.M)
        if len(cases) == 2:
            note('two-case', m.start(), f'{m.group(1)}: {", ".join(cases)}')
    for m in re.finditer(r'^(?:pub )?const (\w+): u64', text, re.M):
        if not NO_CODE.search(m.group(1)):
            note('codes', m.start(), m.group(1))
    for m in re.finditer(r'(?:\w+::)?(?:Refused|Err|Deep|Bad)\((\w+)\)(?: = [^;{]*\{\s*return| => (?:\{\s*return )?)\s*'
                         r'(?:\w+::)?(?:Refused|Err|Deep|Bad)\(\1\)', text):
        note('passed-on', m.start(), m.group(0))
    for m in re.finditer(r'^\s*(while .*|loop \{)$', text, re.M):
        note('index', m.start(), m.group(1))
    for m in FN.finditer(text):
        if re.search(r'_u(32|64)$', m.group(2)):
            note('width', m.start(), m.group(2))
        if re.fullmatch(OWN, m.group(2)):
            note('own-words', m.start(), m.group(2))
        if len(re.findall(r"\b[tvoabrfl]: &(?:'a )?(?:mut )?\[u(?:32|64)\]", m.group(3))) >= 3:
            note('lent', m.start(), m.group(2))
        params = set(re.findall(r'(\w+):', m.group(3)))
        if {'dense', 'sparse'} <= params or {'bases', 'claims'} <= params:
            note('paired', m.start(), m.group(2))
        start = text.find('\n' + m.group(1) + '{\n', m.end())
        end = text.find('\n' + m.group(1) + '}\n', start)
        body = re.sub(r'(ensures|requires)[^\n]*', '', text[m.end():start]) + text[start:end]
        if len(WORD.findall(body)) >= 25:
            found['alike'].append((crate, os.path.relpath(path, top), text.count('\n', 0, m.start()) + 1,
                                   (shape(m.group(3) + body), m.group(2))))

groups = {}
for crate, path, line, (key, name) in found['alike']:
    groups.setdefault((crate, key), []).append((crate, path, line, name))
found['alike'] = [place for group in groups.values() if len(group) > 1 for place in group]

for kind in KINDS:
    print(f'{kind:10} {len(found[kind])}')
    if listed:
        for _, path, line, what in found[kind]:
            print(f'    {path}:{line}  {what}')
files = [f for f in glob.glob(top + '/crates/*/proofs/**/Answers.antt', recursive=True)]
print(f'answers    {len(files)} files, {sum(len(open(f).read().splitlines()) for f in files)} lines')
