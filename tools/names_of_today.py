#!/usr/bin/env python3
"""Brings the project's own definitions and lemmas to today's spelling: words in snake case, facts in upper camel case.

Run at the top, after the kit's own script of the port; it changes the crates, the must-fail edits and the pages and tools that name
definitions. First the words in lower camel case: functions, fields, constants and exported names keep their spelling, since none of
them is in lower camel case but `isNeu`, a variable of the manual; the manual's events keep the manual's names. Then the lemmas, record
fields and names of imports whose words a dash joins: a dash stays only beside a name in snake case, and between a function of the
library on lists and a definition, and a lemma that would get the name of a definition gets `_lem`. What is in today's spelling already
stays, so that it can be run again.
"""
import glob
import re
import sys

WORD = re.compile(r"[A-Za-z_][A-Za-z0-9_']*")

# Names that are the manual's or were made by the older kit.
KEPT = {'isNeu', 'tN', 'in_List', 'mut_Tells', 'not_T', 'shr_slice_Tells', 'uint_Makes', 'uint_Tells', 'walk_Meets'}

# Statements, which are spelled as types, and names that would fall together with a parameter or a lemma.
CHOSEN = {
    'byCode': 'ByCode',
    'statedAt': 'StatedAt',
    'phaseEnd': 'phase_end_of',
    'stageEnd': 'stage_end_of',
}

# Where a name would fall together with another one in a single file: file, the other one, old, new.
IN_FILE = [
    ('crates/manual/proofs/Places.antt', 'stageTime', 'stageTime', 'stage_time_of'),
    ('crates/shiftlist_extend/proofs/EndLaws.antt', 'isOpen', 'is_open', 'is_open_lem'),
    ('crates/shiftlist_extend/proofs/FreshLaws.antt', 'isOpen', 'is_open', 'is_open_lem'),
]


def snake(word):
    """A lower camel word in snake case."""
    return re.sub(r'(?<=[a-z0-9])[A-Z]', lambda m: '_' + m.group(0).lower(), word).lower()


def is_camel(word):
    return re.match(r'[a-z]', word) and re.search(r'[a-z0-9][A-Z]', word) and word not in KEPT


def today(word):
    return CHOSEN.get(word) or snake(word)


def code_files():
    return [
        path
        for shape in ('src/**/*.rt', 'specs/**/*.antt', 'proofs/**/*.antt', 'must-fail/*.edit')
        for path in sorted(glob.glob('crates/*/' + shape, recursive=True))
    ]


def page_files():
    pages = ['README.md', 'CONTRIBUTING.md'] + sorted(glob.glob('docs/**/*.md', recursive=True)) + ['docs/phases.svg']
    tools = [p for folder in ('sheet', 'second', 'tests', 'bin') for p in sorted(glob.glob(folder + '/*'))]
    return [p for p in pages + tools if not p.endswith(('.steps', '.table'))]


def rewrite(path, change):
    try:
        with open(path, encoding='utf-8') as file:
            old = file.read()
    except (UnicodeDecodeError, IsADirectoryError, FileNotFoundError):
        return
    new = WORD.sub(lambda m: change(m.group(0)), old)
    if new != old:
        with open(path, 'w', encoding='utf-8') as file:
            file.write(new)


TOKEN = re.compile(r"[^\s(){}\[\],;.:=`\"«»|]+")
DECLARED = re.compile(r"^ *(?P<kind>(?:(?:abbrev|unfoldable|pub|data|record) +)*)(?P<name>[^\s:(){}=,;.]+)(?: *(?:[({].*)?:(?!=)| *$)")
WORDS = {'use', 'let', 'λ', 'in', 'open', 'module', 'mod', 'unfolding', 'elim', '--'}
# Functions of the library on lists, between which and a definition a dash stays.
LIBRARY = {'length', 'take', 'drop', 'append', 'sets', 'replicate', 'paste'}
# Fields of records of statements, which share a name with a parameter or another record's field and do not meet it.
FIELDS = {
    'phase-time', 'stage-time', 'request-time', 'failed-phase', 'plain-open', 'error-open', 'plain-close', 'error-close',
}
DASHED = re.compile(r"^(?=.*[a-z])[A-Za-z0-9'_→]+(?:-[A-Za-z0-9'_→]+)+$")


def proof_files():
    return [
        path for shape in ('specs/**/*.antt', 'proofs/**/*.antt') for path in sorted(glob.glob('crates/*/' + shape, recursive=True))
    ]


def is_answer(path):
    """Whether a file answers the goals of one function, whose steps and goals have names that Rattle makes."""
    return path.endswith(('/Answers.antt', '/Invariants.antt', '/Proof.antt'))


def own_names(texts):
    """The dashed names that the project declares, and the names of its definitions."""
    dashed, definitions = set(), set()
    for text in texts.values():
        for line in text.split('\n'):
            found = DECLARED.match(line)
            if found and found['name'] not in WORDS and 'goal.' not in line and 'tie.' not in line:
                if DASHED.match(found['name']):
                    dashed.add(found['name'])
                elif re.search('abbrev|unfoldable|data|record', found['kind']):
                    definitions.add(found['name'])
            if line.startswith('use '):
                dashed |= {name for name in re.findall(r" as ([^\s;,}]+)", line) if DASHED.match(name)}
    return dashed, definitions


def plain_names(texts):
    """The dashed names with those of today."""
    dashed, definitions = own_names(texts)
    known = definitions | LIBRARY
    joined = {n for n in dashed if '_' in n or (set(n.split('-')) & LIBRARY and set(n.split('-')) <= known)}
    names = {n: n.replace('-', '_') for n in dashed - joined}
    for text in texts.values():
        tokens = set(TOKEN.findall(re.sub(r"(?m)^ *--.*$|\.[\w']+|^use .*\.proofs\..* as .*$", ' ', text)))
        for name in names.keys() & tokens:
            if names[name] in tokens and name not in FIELDS:
                names[name] = name.replace('-', '_') + '_lem'
    return names


def renamed_line(line, names, answers):
    """A line of a proof or a definition in today's names; behind `c.` and `w.` stand the steps of a function."""
    if line.lstrip().startswith('--'):
        return re.sub(r'`([^`]+)`', lambda m: '`' + names.get(m.group(1), m.group(1)) + '`', line)

    def change(found):
        word = found.group(0)
        before = line[: found.start()]
        if answers and re.search(r"(?<![\w'-])(?:c|w|goal|tie)\.$", before):
            return word
        return names.get(word, word)

    return TOKEN.sub(change, line)


def plain():
    texts = {}
    for path in proof_files():
        with open(path, encoding='utf-8') as file:
            texts[path] = file.read()
    names = plain_names(texts)
    for path, text in texts.items():
        new = '\n'.join(renamed_line(line, names, is_answer(path)) for line in text.split('\n'))
        if new != text:
            with open(path, 'w', encoding='utf-8') as file:
                file.write(new)
    for path in sorted(glob.glob('crates/*/must-fail/*.edit')):
        with open(path, encoding='utf-8') as file:
            old = file.read()
        new = '\n'.join(renamed_line(l, names, False) if l.startswith(('old:', 'new:')) else l for l in old.split('\n'))
        if new != old:
            with open(path, 'w', encoding='utf-8') as file:
                file.write(new)
    for path in [p for p in page_files() if p.endswith('.md')]:
        with open(path, encoding='utf-8') as file:
            old = file.read()
        new = re.sub(r'`([^`\n]+)`', lambda m: '`' + names.get(m.group(1), m.group(1)) + '`', old)
        if new != old:
            with open(path, 'w', encoding='utf-8') as file:
                file.write(new)
    return names


def main():
    own = {}
    renamed = set()
    for path in code_files():
        with open(path, encoding='utf-8') as file:
            words = set(WORD.findall(file.read()))
        renamed |= {word for word in words if is_camel(word)}
        own[path] = {old: new for p, other, old, new in IN_FILE if p == path and other in words}
    for path in code_files():
        mine = own.get(path, {})
        rewrite(path, lambda word: mine.get(word) or (today(word) if word in renamed else word))
    for path in page_files():
        rewrite(path, lambda word: today(word) if word in renamed else word)
    for word in sorted(renamed):
        print(word, today(word))
    for old, new in sorted(plain().items()):
        print(old, new)
    return 0


sys.exit(main())
