"""The files of examples/gabbi: what each asks, which of its tests fail on a service, and a stand-in that answers by the program what a service should.

tools/try_with_service.py tries them. gabbi-run, which reads them, is in Debian's python3-gabbi."""
from __future__ import annotations

import contextlib
import glob
import http.server
import json
import os
import re
import shutil
import subprocess
import threading

ROOT = os.path.dirname(os.path.dirname(os.path.abspath(__file__)))
FOLDER = os.path.join(ROOT, 'examples', 'gabbi')
RUNNER = 'gabbi-run'


def can_run():
    return shutil.which(RUNNER) is not None


def file_of(heading):
    """The name of the file for this heading of docs/DIFFERENCES.md."""
    return re.sub(r'[^a-z0-9]+', '-', heading.lower()).strip('-') + '.yaml'


def every():
    """The names of the files that there are."""
    return sorted(os.path.basename(path) for path in glob.glob(os.path.join(FOLDER, '*.yaml')))


def text_of(name):
    with open(os.path.join(FOLDER, name), encoding='utf-8') as file:
        return file.read()


def queries(name):
    """What a file asks for allocation candidates, in its order."""
    return re.findall(r'^  GET: /allocation_candidates\?(.*)$', text_of(name), re.M)


def providers(name):
    """The UUIDs of the resource providers that a file creates."""
    return re.findall(r'\{uuid: ([0-9a-f-]+), name', text_of(name))


def of_mistake(tests):
    """Those of a file's tests that a service with the mistake fails. Their names say what it should do; gabbi-run writes them so."""
    return [test for test in tests if test.startswith('should_')]


def run(name, url, token):
    """The tests of a file on the service at this URL, by name, each with whether it passed; and all that was said. The token stands in the file."""
    text = text_of(name).replace('x-auth-token: admin', f'x-auth-token: {token}')
    known = {word: value for word, value in os.environ.items() if word != 'GABBI_FORCE_COLOR'}
    ran = subprocess.run([RUNNER, url], env={**known, 'PYTHONIOENCODING': 'utf-8'}, input=text.encode(), stdout=subprocess.PIPE, stderr=subprocess.STDOUT,
                         check=False)
    said = ran.stdout.decode(errors='replace')
    return {test: sign == '✓' for sign, test in re.findall(r'^\.\.\. (\S) gabbi-runner\.input_(.*)$', said, re.M)}, said


@contextlib.contextmanager
def stand_in(service, candidates):
    """The URL of a server that passes all on to the service, but answers what is asked for allocation candidates by this function of the query: it gives the
    status and the body."""

    class Handler(http.server.BaseHTTPRequestHandler):
        """One request."""

        def answer(self):
            length = int(self.headers.get('Content-Length') or 0)
            body = json.loads(self.rfile.read(length)) if length else None
            path, _, query = self.path.partition('?')
            status, told = candidates(query) if path == '/allocation_candidates' else service.ask(self.command, self.path, body)
            self.send_response(status)
            if status != 204:
                data = json.dumps(told).encode()
                self.send_header('Content-Type', 'application/json')
                self.send_header('Content-Length', str(len(data)))
            self.end_headers()
            if status != 204:
                self.wfile.write(data)

        do_GET = do_POST = do_PUT = do_DELETE = answer

        def log_message(self, *_):
            """Nothing is logged."""

    with http.server.ThreadingHTTPServer(('127.0.0.1', 0), Handler) as server:
        thread = threading.Thread(target=server.serve_forever)
        thread.start()
        try:
            yield f'http://127.0.0.1:{server.server_port}'
        finally:
            server.shutdown()
            thread.join()
