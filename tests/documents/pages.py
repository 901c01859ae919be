#!/usr/bin/env python3
"""tests/documents/pages.py: checks that the pages agree with the repository. It writes a line for each difference; the status is 0 only if there is none.

- Each link leads to a file or a heading that exists, and each source, definition or script that a page names exists. A name without a folder may be anywhere;
  one with a folder is looked for at the top and in the crates.
- Each file of `src` and `specs` begins with a sentence, and each public function has one.
- Each clause that docs/PROOF.md quotes stands in the sources, and each function of its table is there and has the clauses that it names.
- All pages together have at most 22,000 words, and none has a tenth more than it may."""
from __future__ import annotations

import glob
import os
import re
import sys

ROOT = os.path.dirname(os.path.dirname(os.path.dirname(os.path.abspath(__file__))))
sys.dont_write_bytecode = True
sys.path.append(os.path.join(ROOT, 'tools'))

from clauses import crates, files, first_sentence, functions

NAMED = re.compile(r'(?<![\w./*-])[\w./-]+\.(?:rt|antt|rattle|py|sh|c|rs)\b')
PROOF = 'docs/PROOF.md'
MOST_WORDS = 22000
WORDS = {'README.md': 900, 'docs/GUIDE.md': 2300, 'docs/RULES.md': 2600, 'docs/REFERENCE.md': 3400, 'docs/SESSION.md': 900, 'docs/EXPORT.md': 900,
         'docs/DIFFERENCES.md': 1900, 'docs/PERFORMANCE.md': 900, 'docs/PROOF.md': 1600, 'docs/ARCHITECTURE.md': 1700, 'docs/DECISIONS.md': 2200, 'docs/CAPACITY.md': 520, 'docs/AUDIT.md': 300}
OTHERS = 1800


def text(path):
    with open(os.path.join(ROOT, path), encoding='utf-8') as file:
        return file.read()


def tree():
    """The paths of all files, except those that are built."""
    for folder, inner, names in os.walk(ROOT):
        inner[:] = [name for name in inner if name not in ('out', '.git', '__pycache__')]
        yield from (os.path.relpath(os.path.join(folder, name), ROOT) for name in names)


FILES = sorted(tree())
PAGES = [path for path in FILES if path.endswith('.md')]


def anchors(page):
    """The headings of a page as links name them."""
    return [re.sub(r'[^\w\- ]', '', heading.lower()).replace(' ', '-') for heading in re.findall(r'^#+ (.*)$', text(page), re.M)]


def links(page):
    for to in re.findall(r'\]\(([^)\s]+)\)', text(page)):
        path, _, anchor = to.partition('#')
        path = os.path.normpath(os.path.join(os.path.dirname(page), path)) if path else page
        if not os.path.exists(os.path.join(ROOT, path)):
            yield f'{page}: no {to}'
        elif anchor and anchor not in anchors(path):
            yield f'{page}: no heading for {to}'


def named(page):
    """Lines about files that don't exist. A folder may be at the top, in a crate, or in a crate's sources, definitions or proofs."""
    for name in (re.sub(r'^(\.\./)+', '', name) for name in NAMED.findall(text(page))):
        form = rf'(.*/)?{re.escape(name)}' if '/' not in name else rf'(crates/(\w+/((src|specs|proofs)/)?)?)?{re.escape(name)}'
        if not any(re.fullmatch(form, path) for path in FILES):
            yield f'{page}: no {name}'


def told():
    """Lines about files and public functions without a sentence."""
    for crate in crates():
        yield from (f'{path} does not begin with a sentence' for path in files(crate, 'src', 'specs') if not path.endswith('Lib.antt') and not first_sentence(path))
        if not crate.endswith('_tests'):
            yield from (f'{one.path}:{one.line}: nothing is said of {one.name}' for one in functions(crate) if not one.told)


def proved():
    """Lines about clauses that the page of proofs quotes, or functions that it names, and that there are not."""
    page = text(PROOF)
    code = re.sub(r'\s+', ' ', ''.join(text(os.path.relpath(path, ROOT)) for path in glob.glob(os.path.join(ROOT, 'crates', '*', 'src', '**', '*.rt'), recursive=True)))
    for block in re.findall(r'^```rust\n(.*?)^```', page, re.M | re.S):
        if re.sub(r'\s+', ' ', block).strip() not in code:
            yield f'{PROOF}: no source has {block.splitlines()[0]}'
    have = {f'{crate}::{one.name}': one for crate in crates() for one in functions(crate)}
    for names, clauses in re.findall(r'^\|.*\| (`ac_.*`) \| ?(.*?) ?\|$', page, re.M):
        for name in re.findall(r'`([^`]*)`', names):
            said = ' '.join(have[name].clauses) if name in have else ''
            yield from [f'{PROOF}: no function {name}'] if name not in have else []
            yield from (f'{PROOF}: {name} has no clause {clause}' for clause in re.findall(r'`(\w+)`', clauses) if f'ensures {clause} ' not in said)


def counted():
    """Lines about pages that have too many words."""
    counts = {page: len(text(page).split()) for page in PAGES}
    counts['the other pages'] = sum(counts.pop(page) for page in list(counts) if page not in WORDS)
    for page, most in {**WORDS, 'the other pages': OTHERS}.items():
        if counts[page] > most * 1.1:
            yield f'{page}: {counts[page]} words, where it may have {most}'
    if sum(counts.values()) > MOST_WORDS:
        yield f'the pages have {sum(counts.values())} words, where they may have {MOST_WORDS}'


if __name__ == '__main__':
    said = [*(line for page in PAGES for line in (*links(page), *named(page))), *told(), *proved(), *counted()]
    print(''.join(line + '\n' for line in said), end='')
    sys.exit(1 if said else 0)
