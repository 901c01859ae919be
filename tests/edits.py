#!/usr/bin/env python3
"""tests/edits.py [--all] [--anew] [--until SECONDS] [--minutes N] [--base REVISION] [--crates FOLDER] [CRATE..]: tries the must-fail edits of each crate: wrong bodies that
the prover must refuse. It prints for each edit, as it comes, which function is refused, and by which goals.

An edit is refused if a goal of a function that it changes stays open, one of what the function ensures or requires of others, or of an invariant. If only names
of steps are gone that the function's proof file cites, or a sum may be too large, that shows nothing of a contract, and the edit counts as let through.

The gate tries crates/CRATE/must-fail/*.edit; with --all also those in must-fail/more. Edits of different functions are tried in one check, since the prover judges
each function by itself, and of the functions that it calls knows only the contracts. If an edit changes a definition, a line `refused: FUNCTION` in it names each
function that it is about. First come all edits of the crates that were changed since the revision, then for each other crate the first check, which has one edit
for each of its public functions, then the rest. With --until no check begins that would last past that time, in seconds since 1970; with --minutes none with which
all of them might take more than so many minutes of one processor: that leaves edits untried, and is no failure.

FOLDER is the top of a clone (by default this repository) below which everything that the crates stand on is built. What the prover said when it refused something
is kept on this machine by the sum of all that it read, and a check of the same is not run again; --anew runs all. The last line is `N passed, M failed`; the one
before says how many edits were tried."""
from __future__ import annotations

import argparse
import contextlib
import functools
import glob
import hashlib
import json
import os
import re
import resource
import shutil
import signal
import subprocess
import sys
import tempfile
import threading
import time
from concurrent.futures import ThreadPoolExecutor

ROOT = os.path.dirname(os.path.dirname(os.path.abspath(__file__)))
KEPT = os.path.join(os.environ.get('XDG_CACHE_HOME') or os.path.expanduser('~/.cache'), 'ac_cli', 'edits')
MOST_DAYS = 30
# A check that begins beside others needs so much free memory.
LEAST_FREE = 4 << 30
# How many seconds a check is expected to last before one has ended.
LONG_CHECK = 600.0
# The prover can't read the text of an edit.
UNREAD = re.compile(r'^(\./)?(src|specs)/\S+: error: .*(is not in scope|has no field|is no name|operand is missing|expected the end|cannot continue)', re.M)
# What a function's proof file cites is gone.
GONE = re.compile(r'has no (field|.* that can be named)|is not in scope')
# Goals that no clause asks for: that a number fits, that an index is in range, and so on.
SAFETY = re.compile(r'(overflow|underflow|index|divisor|shift|cast|slice|range|fits)[_-]')


def read(path):
    with open(path, encoding='utf-8') as file:
        return file.read()


def sum_of(folder):
    """The sum of all files below a folder, with their paths."""
    found = hashlib.sha256()
    for path in sorted(glob.glob(os.path.join(folder, '**'), recursive=True, include_hidden=True)):
        if os.path.isfile(path):
            found.update(f'{os.path.relpath(path, folder)} {os.path.getsize(path)}\n'.encode())
            with open(path, 'rb') as file:
                found.update(file.read())
    return found.hexdigest()


class Kept:
    """What the prover said in checks on this machine, by the sums of all that they read. A text is written apart and then renamed."""

    def __init__(self, folder, is_used):
        self.folder, self.is_used, self.given, self.made = folder, is_used, 0, 0
        with contextlib.suppress(OSError):
            os.makedirs(folder, exist_ok=True)
            for path in glob.glob(os.path.join(folder, '*')):
                if time.time() - os.path.getmtime(path) > MOST_DAYS * 86400:
                    os.remove(path)

    def get(self, key):
        try:
            path = os.path.join(self.folder, key)
            os.utime(path)
            return read(path) if self.is_used else None
        except OSError:
            return None

    def put(self, key, said):
        with contextlib.suppress(OSError):
            with tempfile.NamedTemporaryFile('w', encoding='utf-8', dir=self.folder, delete=False) as file:
                file.write(said)
            os.rename(file.name, os.path.join(self.folder, key))


class Edit:
    """A must-fail edit: texts to change, each of which must be in its file exactly once."""

    def __init__(self, folder, path):
        self.folder, self.name, self.changes, file, old = folder, os.path.basename(path).removesuffix('.edit'), [], '', ''
        named = set()
        for line in read(path).splitlines():
            word, _, text = line.partition(': ')
            if word == 'file':
                file = text
            elif word == 'old':
                old = text
            elif word.rstrip(':') == 'new':
                self.changes.append((file, old, text))
            elif word == 'refused':
                named.add(re.escape(text) + '$')
        self.functions = named or self.bodies()

    def made(self, texts):
        """These texts, by their files, after this edit too; None if it can't be made."""
        texts = dict(texts)
        for file, old, new in self.changes:
            text = texts.get(file) or self.text(file)
            if text.count(old) != 1:
                return None
            texts[file] = text.replace(old, new)
        return texts if self.changes else None

    def text(self, file):
        path = os.path.join(self.folder, file)
        return read(path) if os.path.isfile(path) else ''

    def bodies(self):
        """The functions whose bodies it changes, as patterns of their names; none if it changes anything else too."""
        found = {function_at(file, self.text(file), old) for file, old, _ in self.changes}
        return set() if None in found else found

    def among(self, names):
        """Those of the names whose functions it changes."""
        return sorted(name for name in names if any(re.match(function, name) for function in self.functions))


def heads(file, text):
    """The functions of a source: whether each is public, its line, its indent, and a pattern of its name. It relies on the layout of `rt fmt`."""
    module = re.sub(r'^src/|\.rt$', '', file).replace('/', '::')
    path, kind = '' if module in ('lib', 'main') else module + '::', ''
    for place, line in enumerate(text.split('\n')):
        if found := re.match(r'impl(?:<.*?>)? (?:.* for )?(\w+)', line):
            # a method is named after its type, wherever its `impl` stands
            kind = r'(\w+::)*' + found[1] + r'\w*::'
        if found := re.match(r'( *)(pub(?:\(\w+\))? )?fn (\w+)', line):
            yield found[2] == 'pub ', place, found[1], (kind if found[1] else path) + found[3] + '$'


def ending(pattern):
    """The end of the name that a pattern is of: that of a function, or of a method that is no trait's."""
    return re.sub(r'\\(.)', r'\1', pattern.replace(r'(\w+::)*', '').replace(r'\w*', '')).rstrip('$')


def function_at(file, text, old):
    """The function whose body has this text, as a pattern of its name, or None."""
    if not file.startswith('src/') or old not in text:
        return None
    lines, at = text.split('\n'), text[:text.index(old)].count('\n')
    before = [head for head in heads(file, text) if head[1] < at]
    if not before:
        return None
    _, head, indent, name = before[-1]
    opens = any(lines[place] == indent + '{' or lines[place].endswith(' {') and (place == head or lines[place].startswith(indent + ')'))
                for place in range(head, at))
    return name if opens and indent + '}' not in lines[head:at] else None


class Crate:
    """A crate, what it stands on below a folder, and its edits."""

    def __init__(self, top, name, libraries):
        self.name, self.libraries, self.turn, self.room = name, libraries, threading.Lock(), None
        self.folder, self.own = os.path.join(top, 'crates', name), os.path.join(ROOT, 'crates', name)

    def read_edits(self, with_more):
        """Lists of edits that are tried together, since no two of them change one function; the first has one for each public function that has any."""
        folders = ['must-fail', *(['must-fail/more'] if with_more else [])]
        edits = [[Edit(self.own, path) for path in sorted(glob.glob(os.path.join(self.own, folder, '*.edit')))] for folder in folders]
        public = {name for path in glob.glob(os.path.join(self.own, 'src', '**', '*.rt'), recursive=True)
                  for is_public, _, _, name in heads(os.path.relpath(path, self.own), read(path)) if is_public}
        for each in edits:
            each.sort(key=lambda edit: not edit.functions & public)
        self.edits = [edit for each in edits for edit in each]
        self.rounds = [one for each in edits for one in rounds([edit for edit in each if edit.made({})])]
        self.public = len(public), len(public & {name for edit in self.edits for name in edit.functions})

    def known(self):
        """The functions of this crate as its library names them; none if it is a program."""
        try:
            routines = json.loads(read(os.path.join(self.folder, 'out', 'rlib', f'{self.name}.rlib', 'toolchain', 'mir.json')))
            return {name.removeprefix(f'{self.name}::') for name, *_ in routines if name.startswith(f'{self.name}::') and not name.endswith('+decl')}
        except (OSError, ValueError, TypeError, AttributeError):
            return set()

    def asked(self, edits):
        """The names by which a check is asked about the functions of these edits."""
        known = self.known()
        return sorted({name for edit in edits for name in edit.among(known) or map(ending, edit.functions)})

    @functools.cached_property
    def rlib_sum(self):
        return sum_of(os.path.join(self.folder, 'out', 'rlib', f'{self.name}.rlib'))

    def words(self, kit, below):
        """The command that checks this crate over those below it."""
        root = 'src/main.rt' if os.path.exists(os.path.join(self.own, 'src', 'main.rt')) else 'src/lib.rt'
        words = [f'{kit}/bin/rattle', 'check', '--crate-name', self.name, root, '-L', f'dependency={kit}/rlibs', '--links', f'{self.name}=']
        for name in ['std', *self.libraries]:
            words += ['--extern', f'{name}={below[name].folder}/out/rlib/{name}.rlib' if name in below else f'{name}={kit}/rlibs/{name}.rlib']
        for crate in below.values():
            words += ['-L', f'dependency={crate.folder}/out/rlib']
        return [*words, '--antt-project', f'{kit}/rattle/logic/antt-project.json', '--logic-built', f'{kit}/logic_built', '--jobs', '1']


def rounds(edits):
    """Lists of edits to try together; each list with the texts that its edits make."""
    found = []
    for edit in edits:
        for together, texts in found:
            taken = {function for other in together for function in other.functions}
            made = edit.made(texts) if edit.functions and taken and not edit.functions & taken else None
            if made:
                together.append(edit)
                texts.update(made)
                break
        else:
            found.append(([edit], edit.made({})))
    return found


def below(crate, crates):
    """The crates of this repository that a crate stands on, by their names."""
    found = {}
    for name in crate.libraries:
        if name in crates:
            found |= below(crates[name], crates) | {name: crates[name]}
    return found


def goals(said, name):
    """For each function that isn't proved for a reason of its own: the goals that stay open. None of any if the prover couldn't read the texts."""
    if UNREAD.search(said) or not re.search(r'^(logic=not-proved|only=)', said, re.M):
        return {}
    found, noted = {}, []
    wrong = {name for name, why in re.findall(r'^\./proofs/\S+ error: `([^`]*)`: (.*)', said, re.M) if not GONE.search(why)}
    for path, goal, why in re.findall(r'^\./proofs/(\S+)/(?:Answers|Invariants)\.antt:\S+ error: `([^`]*)`: (.*)', said, re.M):
        found.setdefault(path.replace('/', '::'), set()).update([] if GONE.search(why) else [goal])
    for path, lemma, rest in re.findall(r'^\./proofs/(\S+)/Answers\.antt:\S+ error: .* on `([^`]*)`, which was not admitted, .*not checked: (.*)', said, re.M):
        found.setdefault(path.replace('/', '::'), set()).update(rest.split(', ') if lemma in wrong else [])
    for goal, path in re.findall(r'^note: `([^`]*)` of proofs/(\S+)/Answers\.antt must prove: ', said, re.M):
        found.setdefault(path.replace('/', '::'), set()).add(goal)
    for line in said.splitlines():
        if note := re.match(r'note: src/\S+: it is not proved .*\(`([^`]*)`\)', line):
            noted.append(note[1])
        elif told := re.match(rf'fn {name}::(\S+): (.*)', line):
            if told[2] != 'proved':
                found.setdefault(told[1], set()).update(noted)
            noted = []
    return {function: kept for function, open_goals in found.items() if (kept := sorted(goal for goal in open_goals if not SAFETY.match(goal)))}


def link(one, other):
    """Gives what was proved a second name: a check replaces such a file, and never writes into it."""
    try:
        if one.endswith('.oantt'):
            return os.link(one, other)
    except OSError:
        pass
    return shutil.copy2(one, other)


def free_memory():
    found = re.search(r'^MemAvailable: *(\d+) kB', read('/proc/meminfo'), re.M)
    return int(found[1]) << 10 if found else LEAST_FREE


class Gate:
    """Checks of edits side by side, one on each processor that is free and has memory."""

    def __init__(self, kept, until, minutes):
        self.kept, self.until, self.minutes, self.turn = kept, until, minutes, threading.Condition()
        self.longest, self.taken, self.begun, self.spared = LONG_CHECK if minutes is not None else 0.0, 0, [], False
        self.counts, self.tried, self.untried, self.said = {True: 0, False: 0}, 0, [], threading.Lock()

    @contextlib.contextmanager
    def lane(self):
        with self.turn:
            while self.taken and (self.taken >= (os.cpu_count() or 1) or free_memory() < LEAST_FREE):
                self.turn.wait(1)
            self.taken += 1
        try:
            yield
        finally:
            with self.turn:
                self.taken -= 1
                self.turn.notify_all()

    def is_late(self, began):
        """Whether a check that begins now might last too long, or take too much of the processors. What runs still is counted by the clock."""
        ended = resource.getrusage(resource.RUSAGE_CHILDREN)
        expected = ended.ru_utime + ended.ru_stime + sum(max(began - other, self.longest) for other in self.begun) + self.longest
        self.spared |= self.minutes is not None and expected > 60 * self.minutes
        return self.spared or self.until and began + self.longest > self.until

    def check(self, crate, texts, names, over):
        """What the prover says of these functions of the crate with these texts, or None if there is no time. It goes on from what is kept in the folder
        `over`, and keeps there what it proves. A check that is killed, most likely for memory, runs once more."""
        with tempfile.TemporaryDirectory(prefix='edit-') as room:
            for part in ('src', 'specs', 'proofs'):
                if os.path.isdir(os.path.join(crate.own, part)):
                    shutil.copytree(os.path.join(crate.own, part), os.path.join(room, part))
            for path, text in texts.items():
                with open(os.path.join(room, path), 'w', encoding='utf-8') as file:
                    file.write(text)
            key = hashlib.sha256(repr((crate.below_sum, crate.name, sum_of(room), names)).encode()).hexdigest()
            if said := self.kept.get(key):
                self.kept.given += 1
                return said
            only = [word for name in names for word in ('--only', name)]
            for _ in range(2):
                with self.lane():
                    began = time.time()
                    with self.turn:
                        if self.is_late(began):
                            return None
                        self.begun.append(began)
                    ran = subprocess.run([*crate.command, *only, '--incremental', over], cwd=room, stdin=subprocess.DEVNULL, stdout=subprocess.PIPE,
                                         stderr=subprocess.STDOUT, text=True, errors='replace')
                    with self.turn:
                        self.begun.remove(began)
                        self.longest = max(self.longest, time.time() - began)
                if ran.returncode != -signal.SIGKILL:
                    break
            self.kept.made += 1
        if goals(ran.stdout, crate.name):
            self.kept.put(key, ran.stdout)
        return ran.stdout

    def try_together(self, crate, edits, texts):
        """Tries edits in one check. The first check of a crate keeps what its functions stand on, and the others begin with a copy of that. An edit of a
        function that calls another one of them may be judged by that one alone, so what seems to be let through is tried by itself."""
        with tempfile.TemporaryDirectory(prefix='over-') as room:
            over = os.path.join(room, 'kept')
            with crate.turn:
                is_first = crate.room is None
                if is_first:
                    crate.room = tempfile.mkdtemp(prefix='kept-')
                    said = self.check(crate, texts, crate.asked(edits), crate.room)
            if not is_first:
                shutil.copytree(crate.room, over, copy_function=link)
                said = self.check(crate, texts, crate.asked(edits), over)
        if said is None:
            self.untried += [(crate, edit) for edit in edits]
            return
        found = goals(said, crate.name)
        for edit in edits:
            by = edit.among(found)
            if by or len(edits) == 1:
                error = next((line for line in said.splitlines() if 'error:' in line), said.strip().rpartition('\n')[2])
                why = '; '.join(f'{function} by {", ".join(found[function])}' for function in by) or f'let through, or refused by no goal: {error[:300]}'
                self.note(crate, edit, bool(by), why)
            else:
                self.try_together(crate, [edit], edit.made({}))

    def note(self, crate, edit, is_refused, why):
        with self.said:
            self.counts[is_refused] += 1
            self.tried += 1
            print(f'{crate.name}/{edit.name}: {"refused: " * is_refused}{why}', flush=True)


def changed_since(revision):
    """The crates with files that aren't as in this revision."""
    words = ['git', '-C', ROOT, 'diff', '--name-only', revision, '--', 'crates']
    said = subprocess.run(words, capture_output=True, text=True, check=False).stdout
    return set(re.findall(r'^crates/(\w+)/', said, re.M))


def main(given):
    parser = argparse.ArgumentParser()
    parser.add_argument('--all', action='store_true')
    parser.add_argument('--anew', action='store_true')
    parser.add_argument('--until', type=float)
    parser.add_argument('--minutes', type=float)
    parser.add_argument('--base')
    parser.add_argument('--crates', default=ROOT)
    parser.add_argument('names', nargs='*')
    given = parser.parse_args(given)
    kit, version = (subprocess.run(['rt', word], capture_output=True, text=True, check=True).stdout.strip() for word in ('doc', 'version'))
    lines = [line.partition(':') for line in read(os.path.join(ROOT, 'crates.txt')).splitlines() if not line.startswith('#')]
    crates = {name: Crate(given.crates, name, libraries.split()) for name, _, libraries in lines}
    for crate in crates.values():
        crate.read_edits(given.all)
    wanted = [crate for crate in crates.values() if crate.edits and (not given.names or crate.name in given.names)]
    missing = {name for crate in wanted for name, other in below(crate, crates).items() if not os.path.exists(f'{other.folder}/out/rlib/{name}.rlib')}
    if missing:
        sys.exit(f'tests/edits.py: not built below {given.crates}: {", ".join(sorted(missing))}')
    for crate in wanted:
        others = below(crate, crates)
        crate.command = crate.words(os.path.dirname(kit), others)
        crate.below_sum = version, [(name, other.rlib_sum) for name, other in sorted(others.items())]

    gate = Gate(Kept(KEPT, not given.anew), given.until, given.minutes)
    changed = changed_since(given.base) if given.base else set()
    # the heaviest crates begin
    wanted.sort(key=lambda crate: -len(crate.edits))
    phases = ([(crate, one) for crate in wanted if crate.name in changed for one in crate.rounds],
              [(crate, one) for crate in wanted if crate.name not in changed for one in crate.rounds[:1]],
              [(crate, one) for crate in wanted if crate.name not in changed for one in crate.rounds[1:]])
    try:
        for crate in wanted:
            for edit in crate.edits:
                if not edit.made({}):
                    gate.note(crate, edit, False, 'it has no text to change, or one that does not stand once in its file')
        for phase in phases:
            with ThreadPoolExecutor(max(1, len(phase))) as pool:
                list(pool.map(lambda each: gate.try_together(each[0], *each[1]), phase))
    finally:
        for crate in wanted:
            if crate.room:
                shutil.rmtree(crate.room, ignore_errors=True)

    first = {id(edit) for crate in wanted for edits, _ in crate.rounds[:1] for edit in edits}
    for crate in wanted:
        if not gate.spared and (lacking := [edit.name for other, edit in gate.untried if other is crate and (crate.name in changed or id(edit) in first)]):
            gate.counts[False] += 1
            print(f'{crate.name}: not tried for time, though {"the crate was changed" if crate.name in changed else "they are of public functions"}: {", ".join(lacking)}')
    every, have = (sum(crate.public[place] for crate in wanted) for place in (0, 1))
    print(f'checks of edits: {gate.kept.made} made in this run, {gate.kept.given} kept from earlier runs on this machine')
    print(f'edits: {gate.tried} of {sum(len(crate.edits) for crate in wanted)} tried ({have} of {every} public functions have one of their own'
          f'{"; all of " + ", ".join(sorted(changed & set(crates))) if changed & set(crates) else ""}); {len(gate.untried)} not tried for time')
    print(f'{gate.counts[True]} passed, {gate.counts[False]} failed')
    return 1 if gate.counts[False] else 0


if __name__ == '__main__':
    sys.exit(main(sys.argv[1:]))
