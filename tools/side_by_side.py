#!/usr/bin/env python3
"""Prints, for two trees of this repository, what changed of the public signatures and clauses, types and definitions, and of the theorems that
README or docs/ name, old and new side by side, as Markdown: python3 tools/side_by_side.py OLD_FOLDER [NEW_FOLDER]
"""
import glob, os, re, sys

old_top = sys.argv[1]
new_top = sys.argv[2] if len(sys.argv) > 2 else os.path.join(os.path.dirname(os.path.abspath(__file__)), '..')


def squeeze(text):
    return re.sub(r'\s+', ' ', text).replace('( ', '(').replace(' )', ')').replace(',)', ')').strip()


def rust_items(top):
    items = {}
    for path in sorted(glob.glob(top + '/crates/*/src/**/*.rt', recursive=True)):
        crate = os.path.relpath(path, top).split('/')[1]
        owner = ''
        lines = open(path).read().split('\n')
        i = 0
        while i < len(lines):
            line = lines[i]
            m = re.match(r"^impl(?:<[^>]*>)? (?:(\w+)(?:<[^>]*>)? for )?(\w+)", line)
            if m:
                owner = (m.group(1) + ' for ' if m.group(1) else '') + m.group(2) + '::'
            elif line == '}':
                owner = ''
            m = re.match(r'^( *)pub (?:extern "C" )?fn (\w+)', line)
            if m:
                j = i
                while lines[j] != m.group(1) + '{' and not lines[j].endswith(' {'):
                    j += 1
                text = lines[i:j + 1]
                text = ' '.join(text)
                head, *clauses = re.split(r' (?=ensures|requires)', squeeze(text).rstrip('{').strip())
                items[(crate, owner + m.group(2))] = [head] + clauses
                i = j
            m = re.match(r'^pub (struct|enum|trait|type) (\w+)', line)
            if m:
                j = i
                while lines[j] != '}' and not lines[j].endswith(';'):
                    j += 1
                items[(crate, m.group(2))] = [squeeze('\n'.join(l for l in lines[i:j + 1] if not l.strip().startswith('//')))]
                i = j
            i += 1
    return items


def antt_items(top):
    items = {}
    files = glob.glob(top + '/crates/*/specs/**/*.antt', recursive=True) + glob.glob(top + '/crates/*/proofs/*.antt')
    for path in sorted(files):
        rel = os.path.relpath(path, top).split('/')
        place = rel[1] + ' ' + '/'.join(rel[2:])[:-5]
        stated = rel[2] == 'proofs'
        around = []
        lines = open(path).read().split('\n')
        i = 0
        while i < len(lines):
            line = lines[i]
            depth = len(line) - len(line.lstrip(' '))
            if line.strip() and not line.lstrip().startswith('--'):
                while around and around[-1][0] >= depth:
                    around.pop()
            m = re.match(r'^( *)(?:pub )?module _ (.*) where$', line)
            if m:
                around.append((depth, m.group(2)))
            m = re.match(r'^( *)(?:abbrev |unfoldable |type )?pub (?:record |data )?(\S+) ', line)
            if m and not line.lstrip().startswith('pub mod') and not line.lstrip().startswith('pub use'):
                j = i + 1
                while j < len(lines) and (not lines[j].strip() or len(lines[j]) - len(lines[j].lstrip(' ')) > depth
                                          or re.match(r'^ {%d}(%s)(?![\w-])' % (depth, re.escape(m.group(2))), lines[j])
                                          or re.match(r'^ {%d}unfolding ' % depth, lines[j])):
                    j += 1
                body = lines[i:j]
                if stated:
                    # of a theorem its statement alone
                    k = 1
                    while k < len(body) and not re.match(r'^ {%d}(%s(?![\w-])|unfolding )' % (depth, re.escape(m.group(2))), body[k]):
                        k += 1
                    body = body[:k]
                text = squeeze(' '.join(l for l in body if not l.strip().startswith('--')))
                head = ' '.join(a for _, a in around)
                items[(place, m.group(2))] = [squeeze((head + ' ⊢ ' if head else '') + text)]
                i = j
                continue
            i += 1
    return items


def named(top):
    words = set()
    for page in glob.glob(top + '/docs/*.md') + [top + '/README.md']:
        if os.path.basename(page) not in ('PORT.md', 'DESIGN-PASS.md'):
            words |= set(re.findall(r'`([\w-]+)`', open(page).read()))
    return words


def show(title, old, new):
    keys = sorted(set(old) | set(new))
    out = []
    for key in keys:
        a, b = old.get(key), new.get(key)
        if a is None or a == b:
            continue
        if b is None:
            name = key[1].split('::')[-1]
            other = [k for k in new if k[0] == key[0] and k[1].split('::')[-1] == name and k not in old]
            if len(other) == 1:
                b = new[other[0]]
                if a == b:
                    continue
        out.append((key, a, b))
    print(f'### {title}: {len(out)}\n')
    print('```')
    for (place, name), a, b in out:
        print(f'{place} {name}')
        for x in a:
            print('  old  ' + x)
        for x in (b or ['(gone: see "Gone")']):
            print('  new  ' + x)
    print('```\n')


ro, rn = rust_items(old_top), rust_items(new_top)
ao, an = antt_items(old_top), antt_items(new_top)
def split(items, kind):
    return {x: v for x, v in items.items() if x[0].split()[1].startswith(kind)}


words = named(old_top)
show('Public functions and types', ro, rn)
show('Definitions', split(ao, 'specs'), split(an, 'specs'))
show('Theorems that README or docs/ name', {k: v for k, v in split(ao, 'proofs').items() if k[1] in words}, split(an, 'proofs'))
