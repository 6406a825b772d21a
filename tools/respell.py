#!/usr/bin/env python3
"""Respells this repository's own definitions, fields of statements and lemmas in snake case, once, after the kit's port.py.

usage: python3 tools/respell.py [ROOT]     rewrites every .rt and .antt file below ROOT/crates, and prints each name with the new one

A name is respelled where a file of specs/ or a file of lemmas in proofs/ defines it: kindNotOn becomes kind_not_on, and first-of first_of.
Types, facts and modules keep their capitals, and so does what Rattle source names. Where two names would fall together, or a name would
fall on one of the source's fields, constants or parameters or on one of the library's, the later one gets _lem. The commit that is checked
out is to be the one before port.py: comments are taken from it, since port.py takes words of them for names."""
import os, re, subprocess, sys

ROOT = sys.argv[1] if len(sys.argv) > 1 else '.'
WORD = r"[^\W\d][\w'′-]*"
TOKEN = re.compile(r"(?<![\w'′-])" + WORD)
RESERVED = set('''data record deriving module where use mod pub package open as unfoldable abbrev axiom unfold unfolding ruleset mutual infix infixl
infixr elim let in do coe fcoe tcoe hcom com search omega grind simp rw cc assumption ground first_of hlevel refl result'''.split())


def files(ends):
    for folder, dirs, names in os.walk(os.path.join(ROOT, 'crates')):
        dirs[:] = [d for d in dirs if d != 'out']
        for name in sorted(names):
            if name.endswith(ends):
                yield os.path.join(folder, name)


def of_function(path):
    """Whether a file is the proof of a function."""
    return os.path.basename(path) == 'Proof.antt'


def snake(name):
    name = name.replace("′", "'").replace('-', '_')
    name = re.sub(r'([a-z0-9])([A-Z])', r'\1_\2', name)
    name = re.sub(r'([A-Z])([A-Z][a-z])', r'\1_\2', name)
    return name.lower()


def defined():
    """Every name that a signature, a field or a constructor gives."""
    found = []
    paths = [path for path in files('.antt') if not of_function(path)]
    for path in sorted(paths, key=lambda path: '/specs/' not in path):
        for line in open(path, encoding='utf-8'):
            m = re.match(r"\s*(?:abbrev |unfoldable |pub )*(" + WORD + r")\s*:\s", line + ' ')
            if m and not line.lstrip().startswith('--'):
                found.append(m[1])
            m = re.match(r"\s*(?:abbrev |unfoldable |pub )*ruleset (" + WORD + ")", line)
            if m:
                found.append(m[1])
    return list(dict.fromkeys(found))


def of_library():
    """Every name that a file takes from the kit's library."""
    found = set()
    for path in files(('.antt', '.rt')):
        for m in re.finditer(r'use ([\w.]+)\.\{([^}]*)\}', open(path, encoding='utf-8').read()):
            if not os.path.isdir(os.path.join(ROOT, 'crates', m[1].split('.')[1] if m[1].startswith('Rattle.') else '-')):
                found |= {word.split(' as ')[-1].strip() for word in m[2].split(',')}
    return found


def of_source():
    """Fields, constants and parameters of the source."""
    found = set()
    for path in files('.rt'):
        text = open(path, encoding='utf-8').read()
        text = re.sub(r'//.*', '', text)
        found |= set(re.findall(r'\b([a-z_]\w*)\s*:(?!:)', text))
    return found


def table():
    names, taken, renamed = defined(), of_source(), {}
    kept = {n for n in names if n[0].isupper() or snake(n) == n}
    used = set(kept) | RESERVED | of_library()
    for n in names:
        if n in kept or n[0].isupper():
            continue
        new = snake(n)
        if new in used or new in taken:
            new += '_lem'
        while new in used:
            new += '_2'
        used.add(new)
        renamed[n] = new
    return renamed


def old_comments(path, text):
    """The text with its comments as they stood: port.py takes words of them for names."""
    old = subprocess.run(['git', 'show', 'HEAD:' + os.path.relpath(path, ROOT)], cwd=ROOT, capture_output=True, text=True).stdout
    said = [line for line in old.split('\n') if line.lstrip().startswith('-- ')]
    lines = text.split('\n')
    places = [i for i, line in enumerate(lines) if line.lstrip().startswith('-- ')]
    if len(said) == len(places):
        for i, line in zip(places, said):
            lines[i] = line
    return '\n'.join(lines)


def antt(line, put):
    """A line of antt with its names respelled, but for its comment and its quoted texts."""
    code, dashes, comment = line.partition('-- ')
    parts = re.split(r'("[^"]*")', code)
    return ''.join(part if part.startswith('"') else TOKEN.sub(put, part) for part in parts) + dashes + comment


def turn(path, renamed):
    text = open(path, encoding='utf-8').read()
    proof = of_function(path)

    def put(m):
        word = m[0]
        if word not in renamed:
            return word
        before = text[m.start() - 1] if m.start() else ''
        if proof and before == '.' and '-' in word:
            return word
        return renamed[word]

    if path.endswith('.rt'):
        # Clauses and ghost uses alone: the code keeps its names.
        def clause(m):
            return TOKEN.sub(lambda k: renamed.get(k[0], k[0]), m[0])

        new = re.sub(r'(?m)^ghost use [^;]*;', clause, text)
        new = re.sub(r'(?ms)^\s*(?:requires|ensures|ghost)\*?\s*\w*\s*(?:=|:)?\s*\{.*?\}(?=\n)', clause, new)
    else:
        new = '\n'.join(antt(line, put) for line in old_comments(path, text).split('\n'))
    if new != text:
        open(path, 'w', encoding='utf-8').write(new)


def main():
    renamed = table()
    for path in files(('.rt', '.antt')):
        turn(path, renamed)
    for old, new in sorted(renamed.items()):
        print(old, new)


main()
