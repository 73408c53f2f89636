#!/usr/bin/env python3
"""Brings the repository's own definitions and lemmas to today's spelling, once, after the toolchain's own script.

A word is in snake case, a type or a fact that is defined in camel case. Names that a dash joined become `sum_in` and
`TableValues`. What Rattle makes of a function (its goals, steps and invariants) and what the library defines keep
their names: only names that a file of specs/ or proofs/ defines are taken. Run at the top of the repository."""
import glob
import re
import sys

WORD = re.compile(r'[^\s(){}\[\],.;|"`]+')
HEAD = re.compile(r'\s*((?:abbrev|unfoldable|pub|record|data|ruleset)\s+)*([^\s(){}\[\],.;|:=]+)(?=\s|$|:)')
# what Rattle names in the files of a function's proof
MADE = re.compile(r'(loop|returns|invariant|decreases|overflow|overflow_\w+|slice-bounds|slice_bounds|bounds|in-err|in-ok|then|else|if)-|.*-(requires|preserved|init|smaller)(-\d+)?$')


def own_files():
    top = glob.glob('crates/*/specs/*.antt') + glob.glob('crates/*/proofs/*.antt')
    below = [f for f in glob.glob('crates/*/proofs/**/*.antt', recursive=True) if f not in top]
    return sorted(top), sorted(below)


def statement(lines, i):
    """The declaration that begins at line i, with the lines that are indented below it."""
    text = lines[i]
    indent = len(text) - len(text.lstrip())
    for line in lines[i + 1:]:
        if not line.strip() or len(line) - len(line.lstrip()) <= indent:
            break
        text += line
    return text


def defined(files):
    """The names with a dash that the files define, and which of them are types or facts."""
    words, types = set(), set()
    for name in files:
        lines = open(name, encoding='utf-8').read().splitlines(keepends=True)
        for i, line in enumerate(lines):
            if line.lstrip().startswith('--'):
                continue
            for bound in re.findall(r'(?:\blet\s+|λ\s+|[({]\s*|∀\s+)((?:[^\s(){}\[\],.;|:"]+\s+)*?[^\s(){}\[\],.;|:"]+)\s*[:.=]', line):
                words.update(w for w in bound.split() if '-' in w)
            for binder in re.findall(r'λ ([^.]*?)\.', line):
                words.update(w for w in WORD.findall(binder) if '-' in w)
            for pattern in re.findall(r'\blet \(([^)]*)\) =', line):
                words.update(w for w in WORD.findall(pattern) if '-' in w)
            for later in re.findall(r'[;{]\s*([^\s(){}\[\],.;|:=]+)\s*=(?=\s)', line):
                if '-' in later:
                    words.add(later)
            head = HEAD.match(line)
            if not head or '-' not in head.group(2):
                continue
            word = head.group(2)
            words.add(word)
            prefix = line[:head.start(2)]
            whole = statement(lines, i)
            if re.search(r'\b(record|data)\s+$', prefix) or re.match(r'\s*[^=]*:[^=]*Type 0\s*$', whole.split('\n')[0]):
                types.add(word)
    words = {w for w in words if '◌' not in w and re.fullmatch(r'[^-]+(-[^-]+)+', w)}
    return words, types & words


# where the plain spelling is another definition's
APART = {'Lead-gcd': 'GcdOfLeads'}


def crates():
    return {line.split(':')[0].strip() for line in open('crates.txt') if ':' in line and not line.startswith('#')}


def library(text, own):
    """The names that a file brings in from elsewhere than this repository's crates: there they are the library's."""
    names = set()
    for path, items in re.findall(r'\buse ([\w.]+)\.\{([^}]*)\}', text):
        parts = path.split('.')
        if parts[0] != 'Rattle' or parts[1] not in own:
            names.update(item.split(' as ')[0].strip() for item in items.split(','))
    return names


def spelled(word, types):
    if word in APART:
        return APART[word]
    if word in types:
        first, *rest = word.split('-')
        return first + ''.join(part[:1].upper() + part[1:] for part in rest)
    return word.replace('-', '_')


def main():
    top, below = own_files()
    words, types = defined(top)
    words = {w for w in words if not MADE.match(w)}
    more, more_types = defined(below)
    words |= {w for w in more if not MADE.match(w)}
    types |= more_types & words
    own = crates()
    new = {w: spelled(w, types) for w in words}
    there = set()
    for name in top + below:
        there.update(WORD.findall(open(name, encoding='utf-8').read()))
    targets = {}
    for w, n in new.items():
        targets.setdefault(n, []).append(w)
    for n, olds in sorted(targets.items()):
        if len(olds) > 1 or n in there:
            print('fall together:', n, olds, '(there already)' if n in there else '')
    if '--dry' in sys.argv:
        print(len(new), 'names;', len(types), 'types:', ' '.join(sorted(types)))
        return

    def turn(text):
        kept = library(text, own)
        return WORD.sub(lambda m: m.group(0) if m.group(0) in kept else new.get(m.group(0), m.group(0)), text)

    for name in top + below + glob.glob('crates/*/src/**/*.rt', recursive=True) + glob.glob('crates/*/must-fail/*.edit'):
        old = open(name, encoding='utf-8').read()
        text = turn(old)
        if text != old:
            open(name, 'w', encoding='utf-8').write(text)
    for name in glob.glob('docs/*.md') + ['README.md']:
        old = open(name, encoding='utf-8').read()
        text = re.sub(r'`[^`\n]+`', lambda m: turn(m.group(0)), old)
        if text != old:
            open(name, 'w', encoding='utf-8').write(text)
    print(len(new), 'names')


main()
