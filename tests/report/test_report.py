#!/usr/bin/env python3
"""tests/report/test_report.py [PROGRAM [TEST..]]: checks that the page of tools/report says what the commands write, and nothing that a name could bring in.

The page is read as HTML, and, where `chromium` and `chromedriver` are installed, as Chromium shows it: over clouds of 12, 300 and 3000 hosts, wide and as on
a phone. PROGRAM is the program that answers, ./ac_cli if none is named. A script in its place answers `audit`, with findings that are made here."""
from __future__ import annotations

import contextlib
import csv
import io
import json
import os
import re
import shutil
import subprocess
import sys
import tempfile
import unittest
from html.parser import HTMLParser
from urllib.request import Request, urlopen

sys.dont_write_bytecode = True
ROOT = os.path.dirname(os.path.dirname(os.path.dirname(os.path.abspath(__file__))))
sys.path += [os.path.join(ROOT, 'tests'), os.path.join(ROOT, 'tests', 'documents')]

from drawing import folder_of
from notation import full

PROGRAM = os.path.abspath(sys.argv[1] if len(sys.argv) > 1 else os.path.join(ROOT, 'ac_cli'))
TOOL = os.path.join(ROOT, 'tools', 'report')
PRIVATE = os.path.join(ROOT, 'examples', 'private')
FLAVORS = os.path.join(ROOT, 'examples', 'flavors.csv')
VOID = {'meta'}
SIGN_OF = {'yes': '✓', 'root traits': 'R', 'no inventory': '–', 'units': 'U', 'traits': 'T', 'aggregates': 'A', 'tree': 'P', 'room': '×',
           'required traits': 'Q', 'together': '+'}
SCRIPT, QUOTED = '<script>alert(1)</script>', 'a"b&c\'d'
# Names that HTML could take for its own, none, and two that are sorted as numbers; each lacks something else.
CLOUD = '''P1 | | VCPU total 8; MEMORY_MB total 512 | CUSTOM_A | A1
P2 | | VCPU total 4, used 3; MEMORY_MB total 512 | CUSTOM_A | A1, A2
P3 | | MEMORY_MB total 512 | CUSTOM_A | A2
P4 | | VCPU total 8; MEMORY_MB total 512, max_unit 64 | CUSTOM_A
P5 | | VCPU total 8; MEMORY_MB total 512 | COMPUTE_STATUS_DISABLED | A2
P6 | | VCPU total 8; MEMORY_MB total 512
P7 | P1 | VCPU total 1'''
NAMES = {'P1': SCRIPT, 'P2': QUOTED, 'P3': '', 'P4': 'host-10', 'P5': 'host-9', 'P6': '--><!--'}
QUERIES = f'''flavor,query,wanted
{SCRIPT},"resources=VCPU:2,MEMORY_MB:128&required=CUSTOM_A&root_required=!COMPUTE_STATUS_DISABLED",20
"a""b&c",resources1=VCPU:5&resources2=VCPU:5&group_policy=none,1
,"resources=VCPU:1&member_of={full('A2')}",0
'''
HEAD = 'kind,provider,name,detail\n'
FINDINGS = full(f'''{HEAD}over capacity,P2,"a""b&c'd",VCPU: 20 used of 16
never fits,P1,{SCRIPT},"VCPU: min_unit 300, max_unit 64, step_size 1, capacity 16"
name twice,P3,,2 providers have it
no usage,,,
''')
# What is read of a page: the same by Python and in a browser.
READ = '''
const texts = (found) => [...found].map((one) => one.textContent);
const lines = (table) => [...table.tBodies[0].rows].map((row) => texts(row.cells));
const tables = Object.fromEntries([...document.querySelectorAll('table')].map((table) => [table.id, lines(table)]));
const flavors = [...document.querySelectorAll('#hosts details')].map((part) => ({
  summary: part.querySelector('summary').textContent.trim(),
  legend: texts(part.querySelectorAll('.legend b')).map(Number),
  zones: texts(part.querySelectorAll('h3')),
  squares: [...part.querySelectorAll('.squares')].map((zone) => [...zone.children].map((square) => [square.className, square.title])),
}));
return { tables, flavors };
'''


class Page(HTMLParser):
    """What stands on a page, and whether each element ends where it should."""

    def __init__(self, text):
        super().__init__()
        self.text, self.inside, self.tables, self.flavors, self.commands, self.links, self.ids, self.styles = text, [], {}, [], [], [], [], {}
        self.feed(text)
        self.close()
        assert not self.inside, self.inside

    def handle_starttag(self, tag, attrs):
        attrs = dict(attrs)
        assert not {'src', 'srcset', 'style', 'action', 'data'} & set(attrs) and not any(name.startswith('on') for name in attrs), attrs
        if tag not in VOID:
            self.inside.append((tag, attrs.get('class', '')))
        self.links += [attrs['href']] if 'href' in attrs else []
        self.ids += [attrs['id']] if 'id' in attrs else []
        if tag == 'table':
            self.tables[attrs['id']] = self.rows = []
        elif tag == 'tr':
            self.rows.append([])
        elif tag in ('td', 'th'):
            assert (tag == 'th') == (attrs.get('scope') in ('col', 'row')), attrs
            self.rows[-1].append('')
        elif tag == 'details':
            self.flavors.append({'summary': '', 'legend': [], 'zones': [], 'squares': []})
        elif tag == 'h3':
            self.flavors[-1]['zones'].append('')
        elif tag == 'ol':
            self.flavors[-1]['squares'].append([])
        elif tag == 'code':
            self.commands.append('')
        elif tag == 'li' and 'title' in attrs:
            self.flavors[-1]['squares'][-1].append([attrs['class'], attrs['title']])

    def handle_startendtag(self, tag, attrs):
        assert tag == 'rect', tag

    def handle_endtag(self, tag):
        assert self.inside and self.inside.pop()[0] == tag, tag

    def handle_data(self, data):
        tags = [tag for tag, _ in self.inside]
        if 'style' in tags:
            self.styles.update(re.findall(r'^\.([a-z])::before \{ content: "(.)"; \}$', data, re.M))
        if 'td' in tags or 'th' in tags:
            self.rows[-1][-1] += data
        elif 'h3' in tags:
            self.flavors[-1]['zones'][-1] += data
        elif 'summary' in tags:
            self.flavors[-1]['summary'] += data
        elif 'code' in tags:
            self.commands[-1] += data
        elif tags[-1:] == ['b'] and ('ul', 'legend') in self.inside:
            self.flavors[-1]['legend'].append(int(data))

    def read(self):
        """The same as READ."""
        flavors = [{**flavor, 'summary': flavor['summary'].strip()} for flavor in self.flavors if flavor['legend']]
        return {'tables': {name: rows[1:] for name, rows in self.tables.items()}, 'flavors': flavors}


def rows(text):
    return list(csv.DictReader(io.StringIO(text, newline='')))


def ran(*words):
    return subprocess.run(words, capture_output=True, encoding='utf-8', check=False)


@contextlib.contextmanager
def audited(findings=HEAD, status=None):
    """A program that answers `audit` with these findings, and else as the real one."""
    with tempfile.TemporaryDirectory() as folder:
        program, said = os.path.join(folder, 'program'), os.path.join(folder, 'said')
        with open(said, 'w', encoding='utf-8') as file:
            file.write(findings)
        ends = f'cat {said} >&2; exit {status}' if status else f'cat {said}; exit {int(findings != HEAD)}'
        with open(program, 'w', encoding='utf-8') as file:
            file.write(f'#!/bin/sh\nif [ "$1" = audit ]; then {ends}; fi\nexec {PROGRAM} "$@"\n')
        os.chmod(program, 0o755)
        yield program


@contextlib.contextmanager
def made():
    """The folder and the table of flavors of the cloud above."""
    with folder_of(CLOUD, NAMES) as folder:
        flavors = os.path.join(folder, 'flavors.csv')
        with open(flavors, 'w', encoding='utf-8') as file:
            file.write(QUERIES)
        yield folder, flavors


@contextlib.contextmanager
def large(hosts):
    with tempfile.TemporaryDirectory() as folder:
        ran(sys.executable, '-B', os.path.join(ROOT, 'bench', 'make_tables.py'), folder, '--shape', 'private', '--hosts', str(hosts), '--traits', '6')
        yield folder


def told(row):
    """The tooltip of a row of `hosts`."""
    label = row['name'] or row['root']
    if row['fits'] == 'yes':
        return f'{label} fits'
    lack = {'no inventory': 'an inventory', 'together': 'all of it together'}.get(row['lacks'], row['lacks'])
    slot = f': slot {row["slot"]} {row["asks"]}' if row['slot'] else ''
    detail = row['detail'] if ',' in row['asks'] else re.sub('^' + re.escape(row['asks'].split(':')[0]) + ': ', '', row['detail'])
    return f'{label} lacks {lack}{slot}' + (f'{", " if slot else ": "}{detail}' if detail not in ('', 'nobody here') else '')


def in_order(found):
    """The rows of `hosts` in the order of names, in which 9 comes before 10, and which come before none."""
    def place(row):
        return not row['name'], [int(part) if at % 2 else part for at, part in enumerate(re.split('([0-9]+)', row['name']))], row['root']
    return sorted(found, key=place)


class Checks(unittest.TestCase):
    """What the tests compare."""
    maxDiff = 2000

    def page(self, folder, flavors, program, *words):
        ended = ran(sys.executable, '-B', TOOL, folder, flavors, '--program', program, *words)
        self.assertEqual((ended.stderr, ended.returncode), ('', 0))
        return Page(ended.stdout)

    def asked(self, program, *words):
        ended = ran(program, *words)
        self.assertIn(ended.returncode, (0, 1), ended.stderr)
        return ended.stdout

    def compare(self, read, styles, folder, flavors, program, *words):
        """What was read of a page with what the commands write."""
        tables = '--tables', folder, *words
        capacity = rows(self.asked(program, 'capacity', flavors, *tables))
        self.assertEqual(read['tables']['capacity'], [[row['flavor'] or '(no name)', *list(row.values())[1:]] for row in capacity])
        findings = [[row['kind'], row['name'], row['detail'], row['provider']] for row in rows(self.asked(program, 'audit', *tables))]
        self.assertEqual(read['tables'].get('audit', []), findings)
        with open(flavors, encoding='utf-8', newline='') as file:
            queries = [row['query'] for row in csv.DictReader(file)]
        self.assertEqual(len(read['flavors']), len(queries))
        for row, query, part in zip(capacity, queries, read['flavors']):
            hosts = in_order(rows(self.asked(program, 'hosts', query, *tables)))
            squares = [square for zone in part['squares'] for square in zone]
            self.assertEqual([title for _, title in squares], list(map(told, hosts)))
            self.assertEqual([styles[kind] for kind, _ in squares], [SIGN_OF[host['lacks'] or 'yes'] for host in hosts])
            self.assertRegex(part['summary'], f'fits at {row["hosts"]} of {len(hosts)} hosts?$')
            sums = [int(one['hosts']) for one in rows(self.asked(program, 'hosts', '--sum', query, *tables))]
            self.assertEqual(sorted(part['legend']), sorted(number for number in sums if number))


class Written(Checks):
    """The page as it is written."""

    def inward(self, page):
        """The page leads only to its own parts, and fetches nothing."""
        self.assertNotRegex(page.text, r'https?:|src=|url\(|@import')
        self.assertLessEqual({link.removeprefix('#') for link in page.links}, set(page.ids))
        self.assertEqual(len(page.ids), len(set(page.ids)))
        self.assertEqual(page.text.count('<script'), 1)

    def test_private(self):
        page = self.page(PRIVATE, FLAVORS, PROGRAM)
        self.compare(page.read(), page.styles, PRIVATE, FLAVORS, PROGRAM)
        self.inward(page)
        self.assertIn(', '.join(' '.join(line.split()[::-1]) for line in self.asked(PROGRAM, 'check', '--tables', PRIVATE).splitlines()), page.text)
        self.assertIn(self.asked(PROGRAM, '--version').strip().replace("'", '&#x27;'), page.text)

    def test_names(self):
        with made() as (folder, flavors), audited(FINDINGS) as program:
            page = self.page(folder, flavors, program)
            self.compare(page.read(), page.styles, folder, flavors, program)
            self.inward(page)
            self.assertNotIn('alert(1)</script>', page.text)

    def test_commands(self):
        """Each command on the page runs as it stands there, and gives what the page has of it."""
        with audited() as program, tempfile.TemporaryDirectory() as room:
            folder = shutil.copytree(PRIVATE, os.path.join(room, '<b>a\'s & "b"'))
            page = self.page(folder, FLAVORS, program)
            self.assertEqual([command.split()[1] for command in page.commands], ['check', 'capacity', *6 * ['hosts'], 'audit'])
            for command, part in zip(page.commands[2:], page.read()['flavors']):
                found = rows(ran('sh', '-c', f'ac_cli() {{ {program} "$@"; }}; {command}').stdout)
                self.assertEqual([title for _, title in part['squares'][0]], list(map(told, in_order(found))))

    def test_changes(self):
        """All is asked of what changes leave, and they stand there."""
        with tempfile.NamedTemporaryFile('w', suffix='.txt') as changes:
            changes.write('remove cmp-az1-000\n# <b>\n')
            changes.flush()
            page = self.page(PRIVATE, FLAVORS, PROGRAM, '--change', changes.name)
            self.compare(page.read(), page.styles, PRIVATE, FLAVORS, PROGRAM, '--change', changes.name)
            self.inward(page)
            self.assertEqual(page.text.count('cmp-az1-000'), 1)
            self.assertIn('<dd>remove cmp-az1-000</dd>\n<dd># &lt;b&gt;</dd>', page.text)

    def test_date(self):
        """The export is as old as the newest of its tables."""
        with audited() as program, made() as (folder, flavors):
            for days, name in enumerate(('aggregates', 'traits', 'inventories', 'usages', 'providers')):
                os.utime(os.path.join(folder, name + '.csv'), (0, (1 - days) * 86400))
            self.assertIn('<time datetime="1970-01-02T00:00Z">1970-01-02 00:00 UTC</time>', self.page(folder, flavors, program).text)

    def test_zones(self):
        with made() as (folder, flavors), audited() as program:
            with open(os.path.join(folder, 'aggregate-names.csv'), 'w', encoding='utf-8') as file:
                file.write(full('uuid,name\nA2,az2\nA9,az9\n'))
            page = self.page(folder, flavors, program, f'--zone={full("A1")}=<b>one', '--zone=az2', '--zone=az9=nobody')
            part = page.read()['flavors'][2]
            self.assertEqual(part['zones'], ['<b>one fits at 1 of 2 hosts', 'az2 fits at 2 of 3 hosts', 'nobody fits at 0 of 0 hosts',
                                             'in no zone fits at 0 of 2 hosts'])
            labels = [[re.sub(' (fits|lacks)( .*)?$', '', title) for _, title in zone] for zone in part['squares']]
            self.assertEqual(labels, [[SCRIPT, QUOTED], [QUOTED, 'host-9', full('P3')], [], ['--><!--', 'host-10']])
            self.assertEqual(page.commands[-3:], [f'ac_cli audit --tables {folder} --zone {full(zone)}' for zone in ('A1', 'A2', 'A9')])

    def refused(self, says, status, *words):
        ended = ran(sys.executable, '-B', TOOL, *words)
        self.assertEqual((ended.stdout, ended.returncode), ('', status))
        self.assertIn(says, ended.stderr)

    def test_refused(self):
        with audited() as program, made() as (folder, flavors):
            self.refused('report: check: providers: Unreadable\n', 3, os.path.join(folder, 'absent'), flavors, '--program', program)
            self.refused('report: capacity: flavors: Unreadable\n', 4, folder, os.path.join(folder, 'absent.csv'), '--program', program)
            self.refused('report: capacity: flavors: record 1: MissingColumn\n', 4, folder, os.path.join(folder, 'usages.csv'), '--program', program)
            self.refused("report: no_such_program can't be run (No such file or directory)\n", 70, folder, flavors, '--program', 'no_such_program')
            self.refused("report: --zone: 'az1' isn't a UUID, nor the name of one aggregate\n", 2, folder, flavors, '--zone', 'az1')
            self.refused('required: DIR, FLAVORS', 2)
            for status in 2, 7:
                with audited('first line\nsecond line\n', status) as failing:
                    self.refused('report: audit: first line\n', status, folder, flavors, '--program', failing)
            with audited('kind\nstrange\n') as strange:
                self.refused("report: what the program wrote can't be read\n", 1, folder, flavors, '--program', strange)
            full_device = ran('sh', '-c', 'exec python3 -B "$@" >/dev/full', 'report', TOOL, folder, flavors, '--program', program)
            self.assertEqual((full_device.stderr, full_device.returncode), ("report: the page can't be written (No space left on device)\n", 1))


class Browser:
    """Chromium without a window, as the driver at this address steers it."""

    def __init__(self, at):
        self.at = at
        options = {'args': ['--headless=new', '--no-sandbox', '--disable-dev-shm-usage']}
        self.at += '/' + self.call('POST', '', capabilities={'alwaysMatch': {'goog:chromeOptions': options}})['sessionId']

    def call(self, method, path, **body):
        request = Request(self.at + path, json.dumps(body).encode() if method == 'POST' else None, {'Content-Type': 'application/json'}, method=method)
        with urlopen(request, timeout=60) as answer:
            return json.load(answer)['value']

    def run(self, script):
        return self.call('POST', '/execute/sync', script=script, args=[])

    def develop(self, command, **words):
        return self.call('POST', '/goog/cdp/execute', cmd=command, params=words)

    def click(self, path):
        found, = self.call('POST', '/element', using='css selector', value=path).values()
        self.call('POST', f'/element/{found}/click')

    def show(self, text, width):
        self.develop('Emulation.setDeviceMetricsOverride', width=width, height=800, deviceScaleFactor=1, mobile=width < 600)
        with tempfile.NamedTemporaryFile('w', suffix='.html', encoding='utf-8') as file:
            file.write(text)
            file.flush()
            self.call('POST', '/url', url='file://' + file.name)


@contextlib.contextmanager
def browsing():
    with subprocess.Popen(['chromedriver', '--port=0'], stdout=subprocess.PIPE, stderr=subprocess.DEVNULL, text=True) as driver:
        try:
            port = next(found[1] for line in driver.stdout if (found := re.search(r'successfully on port (\d+)', line)))
            browser = Browser(f'http://127.0.0.1:{port}/session')
            try:
                yield browser
            finally:
                browser.call('DELETE', '')
        finally:
            driver.terminate()


@unittest.skipUnless(shutil.which('chromium') and shutil.which('chromedriver'), 'chromium or chromedriver is not installed')
class Shown(Checks):
    """The page as a browser shows it."""

    def shown(self, browser, folder, flavors, findings, width):
        """The page as the browser has it: it says what the commands write, and fits on the screen."""
        with audited(findings) as program:
            page = self.page(folder, flavors, program)
            browser.show(page.text, width)
            self.assertEqual(browser.run('return performance.getEntriesByType("resource").length'), 0)
            self.assertLessEqual(browser.run('return document.documentElement.scrollWidth'), width)
            self.assertTrue(browser.run('return [...document.querySelectorAll(".wide")].every((part) => part.scrollWidth <= part.clientWidth)'))
            self.compare(browser.run(READ), page.styles, folder, flavors, program)
            return page

    def sorted_by(self, browser, column):
        """The cells of a column of flavors, after a click on its head."""
        browser.click(f'#capacity th:nth-child({column}) button')
        return [row[column - 1] for row in browser.run(READ)['tables']['capacity']]

    def test_private(self):
        with browsing() as browser:
            self.shown(browser, PRIVATE, FLAVORS, FINDINGS, 1200)
            self.assertEqual(self.sorted_by(browser, 3), ['0', '0', '4', '7', '88', '382'])
            self.assertEqual(self.sorted_by(browser, 3), ['382', '88', '7', '4', '0', '0'])
            self.assertEqual(self.sorted_by(browser, 1), ['bm.gold', 'c1.pinned', 'g1.vgpu', 'm1.large', 'm1.small', 'n1.router'])
            self.assertEqual(browser.run('return document.querySelectorAll("#capacity [aria-sort]").length'), 1)
            browser.click('#hosts .squares li:last-child')
            self.assertRegex(browser.run('return document.querySelector("output").textContent'), '^cmp-az3-003 ')

    def test_names(self):
        with made() as (folder, flavors), browsing() as browser:
            self.shown(browser, folder, flavors, FINDINGS, 390)

    def test_sizes(self):
        with browsing() as browser:
            for hosts in 300, 3000:
                with large(hosts) as folder:
                    page = self.shown(browser, folder, FLAVORS, HEAD, 390)
                    self.assertLess(len(page.text), 600 * (hosts + 300))
                    self.assertEqual(browser.run('return document.querySelectorAll("#hosts details[open]").length'), 0)
                    browser.click('#capacity tbody tr:nth-child(2) a')
                    opened = browser.run('return [...document.querySelectorAll("#hosts details")].map((part) => part.open)')
                    self.assertEqual(opened, [False, True, *4 * [False]])
                    self.assertLessEqual(browser.run('return document.documentElement.scrollWidth'), 390)

    def test_print(self):
        """In print all is open, also without the page's script."""
        with audited() as program, large(300) as folder, browsing() as browser:
            browser.show(re.sub('<script>.*?</script>', '', self.page(folder, FLAVORS, program).text, flags=re.DOTALL), 1200)
            shown = 'return [...document.querySelectorAll(".squares li")].filter((square) => square.checkVisibility()).length'
            self.assertEqual(browser.run(shown), 0)
            browser.develop('Emulation.setEmulatedMedia', media='print')
            self.assertEqual(browser.run(shown), 6 * 303)


if __name__ == '__main__':
    unittest.main(argv=[sys.argv[0], *sys.argv[2:]], verbosity=2)
