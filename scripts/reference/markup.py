"""The frame of a page, and its links."""
import html
import pathlib
import re
import urllib.parse

from reference.sources import Item

# By the name of a page: its title, and what it says first.
PAGES = {
    'sections': ('RFC sections', '''Each section that a comment of the sources cites, with what cites it. Where it is a file, the
        comment at its head cites the section, for all in it. The number leads to the text of the standard.'''),
    'functions': ('Functions', '''Each public function with its contract, and each call of a public trait: the crates from the
        lowest up, each file with the comment at its head. A contract is proved for every input. Its names lead to their
        definitions.'''),
    'inside': ('Functions inside', '''Functions that no other crate can call. The contracts of the public ones are proved from
        theirs.'''),
    'types': ('Types', '''Types and constants of the code. Below a type is its view, which is what contracts say of its
        values, and its invariant, which holds for each of them between calls.'''),
    'laws': ('Laws', '''A law is a function that changes nothing and returns nothing. Its contract is a theorem about every input,
        proved from the definitions, and a caller of the function may rely on it. Each is here with what its contract says.'''),
    'definitions': ('Definitions', 'What contracts are made of, file by file, and what names each.'),
    'wrong-bodies': ('Wrong bodies', '''Each is an edit that the prover must refuse, because a clause or a law says
        otherwise.'''),
    'cases': ('Cases and tests', 'Scripts with what the program must print, texts of two sockets, and tests in Rattle and in C.'),
}
escape = html.escape


def page(title: str, first: str, body: str) -> str:
    """A whole page; `first` is HTML, and comes under the title."""
    parts = pathlib.Path(__file__).parent
    style, script = ((parts / name).read_text(encoding='utf-8') for name in ('page.css', 'page.js'))
    links = [link('index.html', 'Reference'), *(link(f'{name}.html', title) for name, (title, _) in PAGES.items())]
    return f'''<!doctype html>
<html lang="en"><meta charset="utf-8"><meta name="viewport" content="width=device-width">
<title>{title}</title>
<style>
{style}</style>
<nav>{''.join(links)}<input type="search" placeholder="filter this page" aria-label="filter this page"></nav>
<h1>{title}</h1>
<p>{first}</p>
{body}
<script>
{script}</script></html>
'''


def url(href: str) -> str:
    return escape(urllib.parse.quote(href, safe='/.#:'))


def link(href: str, text: str) -> str:
    return f'<a href="{url(href)}">{escape(text)}</a>'


def source(path: str, line: int = 0) -> str:
    """A link to a file of the sources, with the line as words: a browser can't go to it."""
    return f'<a class="{"place" if line else "file"}" href="../../{url(path)}">{escape(path)}{f":{line}" if line else ""}</a>'


def link_of(item: Item) -> str:
    """A link to an item by its name; to a file by its path, which may be broken at slashes."""
    if item.kind not in ('file', 'other'):
        return link(item.href, item.name)
    words = escape(re.sub(r'^crates/(dcsctp_)?', '', item.path)).replace('/', '/<wbr>')
    return f'<a href="{url(item.href if item.kind == "file" else "../../" + item.path)}">{words}</a>'


def links_of(items: list[Item]) -> str:
    return ', '.join(map(link_of, items))


def section(anchor: str, head: str, *parts: str) -> str:
    return f'<section id="{escape(anchor)}"><h4>{head}</h4>{"".join(parts)}</section>\n'


def small(words: str) -> str:
    return f'<p class="small">{words}</p>' if words else ''
