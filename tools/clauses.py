#!/usr/bin/env python3
"""tools/clauses.py [CRATE[::WORD]]..: prints the contract of each public function: its sentence, its place, its words and its clauses, as they stand in the
sources. With a crate only those of this crate, with a word only those of which the name or the file has it. Without either, those of all crates.
tools/clauses.py --files [CRATE..]: prints the files of each crate with their first sentences."""
from __future__ import annotations

import contextlib
import glob
import os
import re
import sys
from dataclasses import dataclass

ROOT = os.path.dirname(os.path.dirname(os.path.abspath(__file__)))


@dataclass
class Function:
    """A public function, or a method of a public trait, as it stands in a source."""
    crate: str
    path: str
    line: int
    name: str
    told: str
    words: str
    clauses: list


def text(path):
    with open(os.path.join(ROOT, path), encoding='utf-8') as file:
        return file.read()


def crates():
    """The crates that the program is made of, and then those of tests, in the order of crates.txt."""
    return [line.split(':')[0] for line in text('crates.txt').splitlines() if not line.startswith('#')]


def files(crate, *parts):
    """The paths of the sources or definitions of a crate, from the top of the repository."""
    found = [path for part in parts for path in glob.glob(os.path.join(ROOT, 'crates', crate, part, '**', '*'), recursive=True) if os.path.isfile(path)]
    return sorted(os.path.relpath(path, ROOT) for path in found)


def first_sentence(path):
    """The sentence with which a file begins."""
    found = re.match(r'(?:(?:#!.*|\{-# .*|#!\[.*)\n)*((?:(?://!|--) .*\n?)+)', text(path))
    said = ' '.join(re.findall(r'^(?://!|--) (.*)', found[1], re.M)) if found else ''
    return (re.match(r'.*?\.(?=\s|$)', said) or [said])[0]


def braces(code, at):
    """The place behind the brace that closes the one at this place."""
    depth = 0
    for place in range(at, len(code)):
        depth += {'{': 1, '}': -1}.get(code[place], 0)
        if depth == 0:
            return place + 1
    raise ValueError('a brace stays open')


def contract(code):
    """The words of a function, from its name to what it returns, and its clauses."""
    code = re.sub(r'//.*', '', code)
    at = re.search(r'\{|;|\n\s*(?:requires|ensures)\b', code).start()
    words, clauses = code[:at], []
    while found := re.compile(r'\s*((?:requires|ensures)\b[^{]*)\{').match(code, at):
        at = braces(code, found.end() - 1)
        clauses.append(code[found.start(1):at])
    return [re.sub(r'\s+', ' ', part).strip() for part in (words, *clauses)]


def functions(crate):
    """The public functions of a crate, the methods of its public traits, and those of an `impl` of a trait that have a sentence of their own. It relies on the
    layout of `rt fmt`."""
    for path in files(crate, 'src'):
        lines, kind, of_trait = text(path).split('\n'), '', ''
        for place, line in enumerate(lines):
            if found := re.match(r'(?:pub )?(?:impl(?:<.*?>)? (?:.* for )?|trait )(\w+)', line):
                kind, of_trait = found[1] + '::', 'trait' if line.startswith('pub trait') else 'impl' if ' for ' in line else ''
            elif line == '}':
                kind, of_trait = '', ''
            if found := re.match(r'( *)(pub )?(?:const )?fn (\w+)', line):
                above = place
                while re.match(r' *(//|#\[)', lines[above - 1]):
                    above -= 1
                told = ' '.join(re.findall(r'^ */// ?(.*)', '\n'.join(lines[above:place]), re.M))
            if found and (found[2] or (found[1] and (of_trait == 'trait' or (of_trait == 'impl' and told)))):
                words, *clauses = contract('\n'.join(lines[place:]))
                yield Function(crate, path, place + 1, (kind if found[1] else '') + found[3], told, words, clauses)


def main(*given):
    names = [word for word in given if word != '--files']
    for crate in crates():
        asked = [name.partition('::')[2] for name in names if name.split('::')[0] == crate]
        if names and not asked:
            continue
        if '--files' in given:
            print(f'{crate}\n' + ''.join(f'  {path.split("/", 2)[2]}: {first_sentence(path)}\n' for path in files(crate, 'src', 'specs')))
            continue
        for one in functions(crate):
            if not asked or any(word in one.name or word in one.path for word in asked):
                print(f'{crate}::{one.name}, {one.path}:{one.line}\n  {one.told}\n  {one.words}' + ''.join(f'\n    {clause}' for clause in one.clauses) + '\n')


if __name__ == '__main__':
    with contextlib.suppress(BrokenPipeError):
        main(*sys.argv[1:])
