#!/usr/bin/env python3
"""Brings the names of this repository's own definitions and lemmas to Rattle's spelling, after port.py: words in snake case, types in
upper camel case. Run once at the top of a checkout in which port.py has just run. It touches specs/, proofs/, the clauses and `ghost use`
lines of src/, the edits, and names in backticks in the pages. Names that Rattle makes keep their dashes, and so do names from src/."""
import collections
import os
import re
import subprocess
import sys

ROOT = sys.argv[1] if len(sys.argv) > 1 else '.'
NAME = r"[^\s(){}\[\];,.\"`@]+"
WORD = r'(?:pub |abbrev |unfoldable |data |record |infix |infixl |infixr )*'

# What Rattle makes and an old proof declares under the same name.
MADE = re.compile(r'^(invariant|decreases|loop|returns|overflow|bounds|slice|shared|add|sub|mul|in|copy|Need|After|At)-(loop|result|read|write|slice|init|smaller|preserved|[a-z]+-requires|requires)|-requires(-\d+)?$')

# Names that would fall together with another, or that port.py left half turned.
GIVEN = {
    # the types, beside the rules t_int and t_bool
    'tInt': 'ty_int', 'tBool': 'ty_bool', 'tUnit': 'ty_unit',
    # port.py takes these for words
    "while_do'_done": "while◌do'◌done", '◌overflows-at◌': '◌overflows_at◌', 'overflows-at': 'overflows_at',
    # a lemma beside a definition whose name it would have
    'all-stand': 'all_stand_lem', 'bit-or': 'bit_of_or', 'digits_of': 'digits_of_lem', 'form-any': 'form_any_lem', 'last_line': 'last_line_lem',
    'leaf-any': 'leaf_any_lem', 'moment-text': 'moment_text_lem', 'node-bytes': 'node_bytes_lem', 'opening_of': 'opening_of_lem',
    'opens-of': 'opens_of_lem', 'read-tree': 'read_tree_lem', 'value_after': 'value_after_lem', 'word-by': 'word_by_lem',
    # a definition beside another
    'head-of': 'head_with', 'joint-of': 'joint_with', 'leaf-of': 'leaf_with', 'ran-of': 'ran_and_store',
    # made by Rattle, and declared once by hand
    '-': '-',
}


def camel(name):
    return ''.join(p[:1].upper() + p[1:] for p in name.split('-'))


def snake(name):
    name = name.replace('′', "'").replace('-', '_')
    name = re.sub(r'([a-z0-9])([A-Z])', lambda m: m[1] + '_' + m[2], name)
    return re.sub(r'_[A-Z]', lambda m: m[0].lower(), name)


def respelled(name, types=()):
    if name in GIVEN:
        return GIVEN[name]
    if name.startswith(('+', 'μ-')) or '◌' in name or name in types and not name[0].islower():
        return name
    if MADE.search(name):
        return name
    if name in types:
        return camel(name)
    if name[0].isupper():
        return camel(name) if '-' in name else name
    return snake(name)


def antt_files():
    for at, _, files in os.walk(os.path.join(ROOT, 'crates')):
        if '/out' in at:
            continue
        for f in sorted(files):
            if f.endswith('.antt'):
                yield os.path.join(at, f)


def declared():
    names, types, kit = set(), set(), collections.defaultdict(set)
    for p in antt_files():
        text = open(p).read()
        for m in re.finditer(r'^use ([^\n{]*)\.\{([^}]*)\}', text, re.M):
            path = m[1]
            if not path.startswith('Rattle.') or re.match(r'Rattle\.(std|core)\.', path) or re.search(r'\.(Goals|Given|declared|contracts|Statement)\b', path):
                for n in m[2].split(','):
                    kit[n.strip().split(' as ')[0].strip()].add(path)
        for line in text.split('\n'):
            bare = line.strip()
            if bare.startswith('--') or line.startswith('use '):
                continue
            m = re.match(r'(\s*)' + WORD + r'((?:' + NAME + r' )+)(?:[({].*)?:(?: |$)', line)
            if m:
                for n in m[2].split():
                    names.add(n)
                    if re.search(r'(→|:) Type [01]\s*$', line) and len(m[2].split()) == 1 and not re.match(r'\s*(pub )?(data|record)', line):
                        types.add(n)
    return names, types, kit


def turn_antt(text, table):
    def one(line):
        code, mark, note = line.partition('-- ') if line.lstrip().startswith('--') or ' -- ' in line or line.startswith('--') else (line, '', '')
        code = re.sub(NAME, lambda m: table.get(m[0], m[0]), code)
        note = re.sub(r'`([^`]*)`', lambda m: '`' + re.sub(NAME, lambda n: table.get(n[0], n[0]), m[1]) + '`', note)
        return code + mark + note
    return '\n'.join(one(line) for line in text.split('\n'))


def turn_rt(text, table):
    name = r"[A-Za-z_◌'][A-Za-z0-9_◌'\-]*"

    def code(s):
        return re.sub(name, lambda m: table.get(m[0], m[0]), s)

    def one(line):
        parts = re.split(r'("(?:\\.|[^"\\])*"|//.*$)', line)
        out = []
        for k, s in enumerate(parts):
            if k % 2 == 0:
                out.append(code(s))
            elif s.startswith('//'):
                out.append(re.sub(r'`([^`]*)`', lambda m: '`' + code(m[1]) + '`', s))
            else:
                out.append(s)
        return ''.join(out)
    return '\n'.join(one(line) for line in text.split('\n'))


def turn_page(text, final, types):
    def name(m):
        n = m[0]
        c = GIVEN.get(n) or respelled(n, types)
        return c if n not in final and c in final else n

    def span(m):
        return '`' + re.sub(NAME, name, m[1]) + '`'
    fenced = text.split('```')
    return '```'.join(re.sub(r'`([^`\n]+)`', span, s) if k % 2 == 0 else s for k, s in enumerate(fenced))


def main():
    names, types, kit = declared()
    table, said = {}, []
    for n in sorted(names):
        if n in kit and n not in GIVEN:
            if respelled(n, types) != n:
                said.append(f'kept, a name of Rattle too: {n} {sorted(kit[n])}')
            continue
        new = respelled(n, types)
        if new != n:
            table[n] = new
    table['overflows-at'] = GIVEN['overflows-at']  # as it is written between its arguments
    goals = collections.defaultdict(set)
    for n, new in table.items():
        goals[new].add(n)
    for new, olds in sorted(goals.items()):
        if len(olds) > 1 or new in names or new in kit:
            said.append(f'falls together: {sorted(olds)} -> {new}' + (' (declared)' if new in names else '') + (f' (Rattle: {sorted(kit[new])})' if new in kit else ''))
    for p in antt_files():
        text = open(p).read()
        tokens = set(re.findall(NAME, text))
        for n in tokens & set(table):
            if table[n] in tokens:
                said.append(f'both in {p}: {n}, {table[n]}')
    print('\n'.join(said))
    print(len(names), 'names,', len(table), 'respelled')
    if '--dry' in sys.argv:
        return
    for p in antt_files():
        text = open(p).read()
        new = turn_antt(text, table)
        if new != text:
            open(p, 'w').write(new)
    final = (names - set(table)) | set(table.values())
    for at, dirs, files in os.walk(ROOT):
        if '/out' in at or '/.git' in at:
            continue
        for f in files:
            p = os.path.join(at, f)
            if f.endswith('.rt'):
                text = open(p).read()
                new = turn_rt(text, table)
            elif f.endswith('.md'):
                text = open(p).read()
                new = turn_page(text, final, types)
            elif f.endswith('.edit'):
                text = open(p).read()
                in_antt = re.search(r'^file: .*\.antt', text, re.M)

                def word(m):
                    n = m[0].replace('′', "'") if in_antt else m[0]
                    c = respelled(n, types)
                    return c if n not in final and c in final else n
                new = '\n'.join(re.sub(NAME if in_antt else r"[A-Za-z_][A-Za-z0-9_\-]*", word, line) if re.match(r'(old|new):', line) else line for line in text.split('\n'))
            else:
                continue
            if new != text:
                open(p, 'w').write(new)


main()
