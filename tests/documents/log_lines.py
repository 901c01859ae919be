"""Lines of logs that hold a query, as servers write them, and parts of such lines as people copy them: what `ac_cli` reads of each."""
from __future__ import annotations

QUERY = 'limit=1000&resources=VCPU%3A12&root_required=%21COMPUTE_STATUS_DISABLED'
URL = '/placement/allocation_candidates?' + QUERY
OWN = '/allocation_candidates?' + QUERY

APACHE = f'10.0.0.5 - - [28/Nov/2026:02:35:48 +0000] "GET {URL} HTTP/1.1" 200 53'
IDS = 'req-11111111-2222-3333-4444-555555555555 req-3c9bf737-fba1-4169-ba21-bc40457bb741'
PLACEMENT = (f'2026-11-28 02:42:33.569 5897 INFO placement.requestlog [{IDS} admin admin - - - -] 127.0.0.1 "GET {OWN}" status: 200 len: 13595 '
             'microversion: 1.36')
PLACEMENT_DEBUG = (f'2026-11-28 02:42:33.476 5897 DEBUG placement.requestlog [{IDS} - - - - - -] Starting request: 127.0.0.1 "GET {OWN}" __call__ '
                   '/usr/lib/python3/dist-packages/placement/requestlog.py:55')
UWSGI = (f'[pid: 5897|app: 0|req: 355/355] 127.0.0.1 () {{30 vars in 640 bytes}} [Sat Nov 28 02:42:33 2026] GET {OWN} => generated 13595 bytes in 94 msecs '
         '(HTTP/1.1 200) 7 headers in 279 bytes (1 switches on core 0)')
CURL = 'curl -g -i -X GET '
CONTROLLER = 'http://10.0.0.11:8778' + OWN
HAPROXY = ('haproxy[12]: 10.0.0.1:34340 [28/Nov/2026:02:35:48.123] placement_api placement_api/ctl1 0/0/0/23/23 200 490 - - ---- 12/1/0/0/0 0/0 '
           f'"GET {OWN} HTTP/1.1"')

# The query is found in each.
FOUND = {
    'the query': QUERY,
    'behind its mark': '?' + QUERY,
    'behind its path': URL,
    'a URL': 'http://controller:8778' + URL,
    'a URL by TLS, without a prefix': 'https://placement.example.org' + OWN,
    'with the method': 'GET ' + URL,
    'with method and protocol': f'GET {URL} HTTP/1.1',
    'the request in quotes': f'"GET {URL} HTTP/1.1"',
    'method and URL in quotes': f'"GET {URL}"',
    'the request in quotes, and the status': f'"GET {URL} HTTP/1.1" status: 200',
    'the request in quotes, and a short status': f'"GET {URL} HTTP/1.1" 200 - len: 53',
    'a common line of Apache': APACHE,
    'a combined line of Apache': APACHE + ' "-" "nova-scheduler keystoneauth1/5.0.0 python-requests/2.28.1 CPython/3.11.2"',
    'a line of Apache, cut behind the URL': APACHE.partition(' HTTP')[0],
    'a line of Placement': PLACEMENT,
    'a line of Placement, cut at the status': PLACEMENT.partition(' status:')[0],
    'the quoted part of a line of Placement': f'"GET {OWN}"',
    'the same without the quotes': 'GET ' + OWN,
    'a line of Placement, cut at the quote': PLACEMENT.partition('" status')[0],
    'a line for debugging': PLACEMENT_DEBUG,
    'a line for debugging, cut at the quote': PLACEMENT_DEBUG.partition('" __call__')[0],
    'a line of uWSGI': UWSGI,
    'a line of uWSGI, cut behind the URL': UWSGI.partition(' =>')[0],
    'a line of uWSGI in the journal': 'Nov 28 02:42:33 ctl1 placement-api[5897]: ' + UWSGI.partition(' =>')[0],
    "keystoneauth's call": f'GET call to placement for {CONTROLLER} used request id req-3c9bf737-fba1-4169-ba21-bc40457bb741',
    "keystoneauth's curl": f'REQ: {CURL}{CONTROLLER} -H "Accept: application/json" -H "OpenStack-API-Version: placement 1.36" -H "User-Agent: nova-scheduler"',
    'curl, cut behind the URL': CURL + CONTROLLER,
    'curl with quotes': f'{CURL}"{CONTROLLER}"',
    'with a newline behind it': URL + '\n',
    'with a blank behind it': URL + ' ',
    'with a blank before it': ' ' + URL,
    'with a quote behind it': URL + '"',
    "with a quote and a comma behind it, as Python writes it": URL + "',",
    'between single quotes': f"'{URL}'",
    'a line of HAProxy': HAPROXY,
}

GROUP = 'RequestGroup(aggregates=[],forbidden_traits=set([]),in_tree=None,provider_uuids=[],resources={VCPU=12},use_same_provider=False)'

# In others it can't be told: what is said then, and what --detail says below it.
REFUSED = {
    'behind other pairs': (f'time="2026-11-28T02:42:33Z" level=info msg="GET {URL}"', 'pair 1: UnknownParameter', None),
    'behind other pairs, cut': (f'level=info msg=GET {URL}', 'pair 1: UnknownParameter', None),
    'behind an ampersand': (f'a&b {URL}', 'pair 1: UnknownParameter', None),
    'as JSON writes it': (URL.replace('&', '\\u0026'), 'pair 1: BadValue',
                          '  limit="1000\\x5cu0026resources=VCPU:12\\x5cu0026root_required=!COMPUTE_STATUS_D"..: the log wrote \\u0026 for &: put & in its place\n'),
    'as HTML writes it': (URL.replace('&', '&amp;'), 'pair 2: UnknownParameter', '  "amp;resources": the log wrote &amp; for &: put & in its place\n'),
    "Nova's error": ('Failed to retrieve allocation candidates from placement API for filters: ' + GROUP, 'pair 1: UnknownParameter', None),
    'a group for debugging': (f"{GROUP} (suffix '') returned 8 matches", 'pair 1: UnknownParameter', None),
}
