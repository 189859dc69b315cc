#!/usr/bin/env python3
"""Writes out/reference/*.html, read off the sources: functions with their contracts, types, laws, definitions, sections
of the RFCs, wrong bodies, cases and tests, all names linked. Fails with a line for each link that leads nowhere, for each
name that means nothing or two things, for a wrong body that changes nothing, and for what is wrong in the documents: see
scripts/reference/documents.py.

It needs Python 3.10 or later, and nothing else.

    reference.py            writes the pages, and checks
    reference.py --check    only checks
    reference.py --words    prints how many words each document has
"""
import collections
import html
import re
import sys
import urllib.parse

sys.dont_write_bytecode = True
from reference import documents, edits, pages, tree  # noqa: E402
from reference.model import Model  # noqa: E402

OUT = tree.TOP / 'out' / 'reference'


def made(model: Model) -> dict[str, str]:
    """The pages by their names."""
    writer = pages.Writer(model, documents.mentions({edit.name for edit in model.edits}))
    counts = counts_of(model)
    bodies = {name: getattr(writer, name.replace('-', '_'))() for name in pages.PAGES}
    return {'index': writer.index({name: counts[name] for name in pages.PAGES}), **bodies}


def counts_of(model: Model) -> dict[str, str]:
    """What each page has, in words."""
    functions = model.of_kind('function')
    return {
        'functions': f'{sum(item.page == "functions" for item in functions):,} public functions',
        'inside': f'{sum(item.page == "inside" and bool(item.clauses) for item in functions):,} private functions with contracts',
        'types': f'{len(model.of_kind("type")):,} types and constants',
        'laws': f'{sum(item.is_law for item in functions):,} laws',
        'definitions': f'{len(model.of_kind("definition")):,} definitions',
        'sections': f'{len(model.cited):,} sections',
        'wrong-bodies': f'{len(model.edits):,} wrong bodies',
        'cases': f'{len(model.of_kind("case")):,} cases and tests',
    }


def dangling(written: dict[str, str]) -> tuple[int, list[str]]:
    """How many links the pages have, and those that lead nowhere."""
    anchors = {name: collections.Counter(map(html.unescape, re.findall(r' id="([^"]*)"', text)))
               for name, text in written.items()}
    faults = [f'out/reference/{name}.html:1: {count} times the anchor {anchor}'
              for name, found in anchors.items() for anchor, count in found.items() if count > 1]
    count = 0
    for name, text in written.items():
        for number, line in enumerate(text.split('\n'), 1):
            for href in re.findall(r'href="([^"]*)"', line):
                count += 1
                if not leads_somewhere(urllib.parse.unquote(html.unescape(href)), name, anchors):
                    faults.append(f'out/reference/{name}.html:{number}: leads nowhere: {html.unescape(href)}')
    return count, faults


def leads_somewhere(href: str, name: str, anchors: dict[str, collections.Counter]) -> bool:
    if href.startswith('https://'):
        return True
    if href.startswith('../../'):
        return href[6:] in documents.paths_of_the_tree()
    page, _, anchor = href.partition('#')
    page = page.removesuffix('.html') or name
    return page in anchors and (not anchor or anchor in anchors[page])


def main(words: list[str]) -> int:
    if words == ['--words']:
        counts = {path: documents.words_of(path) for path in documents.pages()}
        print(*(f'{count:6} {path}' for path, count in counts.items()), f'{sum(counts.values()):6} in all', sep='\n')
        return 0
    if words not in ([], ['--check']):
        print(__doc__, file=sys.stderr)
        return 2
    model = Model()
    written = made(model)
    links, faults = dangling(written)
    lost = len(faults)
    faults += model.faults + [fault for edit in model.edits for fault in edits.faults_of(edit)]
    faults += documents.faults({edit.name for edit in model.edits}, {f'out/reference/{name}.html' for name in written})
    if not words:
        OUT.mkdir(parents=True, exist_ok=True)
        for name, text in written.items():
            (OUT / f'{name}.html').write_text(text, encoding='utf-8')
    for fault in faults:
        print(f'reference: {fault}')
    print(f'reference: {", ".join(counts_of(model).values())}; {links:,} links, {lost} dangling; '
          f'{len(documents.pages())} documents; {len(faults)} faults')
    return 1 if faults else 0


if __name__ == '__main__':
    sys.exit(main(sys.argv[1:]))
