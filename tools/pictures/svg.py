"""Pieces of SVG. All letters are equally wide, so it is known how much room a text takes."""
from __future__ import annotations

import html
import re
import textwrap
import unicodedata
from string import digits

# The widest of these fonts has letters of 0.602 times their size.
FONTS = 'DejaVu Sans Mono,Liberation Mono,Menlo,Consolas,Courier New,monospace'
LETTER = 0.61
GREY = '#5b6770'


def plain(words):
    """Words on one line. What can't be printed is a blank there; bytes that weren't text have a mark in their place."""
    words = words.encode('utf-8', 'surrogateescape').decode('utf-8', 'replace')
    return re.sub(r'\s+', ' ', ''.join(letter if letter.isprintable() else ' ' for letter in words)).strip()


def natural(words):
    """By this key `host-9` comes before `host-10`."""
    return [(len(part), part) if at % 2 else part for at, part in enumerate(re.split(r'0*([0-9]+)', words))]


def escaped(words):
    return html.escape(plain(words))


def cells(letter):
    """How many letters' room a letter takes: an East Asian one that of two, and one that stands upon another none."""
    return 0 if unicodedata.combining(letter) else 2 if unicodedata.east_asian_width(letter) in 'WF' else 1


def width_of(words, size):
    return sum(map(cells, words)) * LETTER * size


def cut(words, most):
    """Words on one line, which ends where it would have more letters than this, or before the number there."""
    words = plain(words)
    if len(words) <= most:
        return words
    begin = words[:most - 1]
    return (begin.rstrip(digits) if words[most - 1] in digits else begin) + '…'


def lines_of(words, width, size):
    """Words, broken into lines of this width."""
    return textwrap.wrap(plain(words), max(int(width / (LETTER * size)), 20), break_on_hyphens=False)


def number(value):
    return f'{value:.1f}'.rstrip('0').rstrip('.')


def title(words):
    """What a browser shows where the pointer is."""
    return f'<title>{escaped(words)}</title>'


def text(x, y, words, size, align='start', bold=False, told=''):
    weight = ' font-weight="bold"' if bold else ''
    inside = title(told) if told else ''
    return f'<text x="{number(x)}" y="{number(y)}" font-size="{size}" text-anchor="{align}"{weight}>{inside}{escaped(words)}</text>'


def rectangle(kind, x, y, width, height, fill, told='', **more):
    others = ''.join(f' {name}="{value}"' for name, value in more.items())
    end = f'>{title(told)}</rect>' if told else '/>'
    return f'<rect class="{kind}" x="{number(x)}" y="{number(y)}" width="{number(width)}" height="{number(height)}" fill="{fill}"{others}{end}'


def line(kind, points, colour, told='', dashes=''):
    """A line through these points. One of which something is told has an arrow at its end."""
    path = 'M' + ' L'.join(f'{number(x)},{number(y)}' for x, y in points)
    dashed = f' stroke-dasharray="{dashes}"' if dashes else ''
    end = f' marker-end="url(#{arrow_of(colour)})">{title(told)}</path>' if told else '/>'
    return f'<path class="{kind}" d="{path}" fill="none" stroke="{colour}" shape-rendering="crispEdges"{dashed}{end}'


def arrow_of(colour):
    return 'arrow-' + colour.lstrip('#')


def arrow(colour):
    """What the ends of lines in this colour look like."""
    return (f'<marker id="{arrow_of(colour)}" viewBox="0 0 8 8" refX="8" refY="4" markerWidth="7" markerHeight="7" orient="auto">'
            f'<path d="M0,0 L8,4 L0,8 z" fill="{colour}"/></marker>')


def document(width, height, parts):
    """A picture of this size, on white."""
    size = f'width="{number(width)}" height="{number(height)}"'
    yield f'<svg xmlns="http://www.w3.org/2000/svg" {size} viewBox="0 0 {number(width)} {number(height)}" font-family="{FONTS}">'
    yield f'<rect {size} fill="white"/>'
    yield from parts
    yield '</svg>'
