"""The checks of the documents: names, paths, links, quotes, clauses in tables, and how many words there are."""
import functools
import posixpath
import re
from collections.abc import Iterator

from reference import tree

PAGES = r'(README|CHANGELOG|CONTRIBUTING|SECURITY)\.md|docs/.*\.md|bindings/README\.md|examples/(.*/)?README\.md'
# How many words a page may have, and all together.
LIMITS = {'README.md': 750, 'docs/design/differences.md': 5000}
LIMIT_OF_A_PAGE, LIMIT_OF_ALL = 2500, 20000
# Words of commands, and of upstream, that no file here need have.
LET_THROUGH = {'dcsctp', 'rt', 'ci', 'plant', 'tidy', 'git', 'clean', 'max-message-size'}
SOURCES = r'(crates|attacks|scripts|bindings|examples|include|tests|packaging|\.ci)/.*|Makefile|crates\.txt|HANDLES'
NAME = re.compile(r'[A-Za-z_][A-Za-z0-9_-]*')
PATH = re.compile(r'[A-Za-z0-9_.*/-]+')
CLAUSES, EDITS = {'Clause', 'Contract', 'Function'}, {'Refuses', 'Wrong body', 'Wrong bodies'}


def pages() -> list[str]:
    return tree.matching(PAGES)


def words_of(path: str) -> int:
    """As `wc -w` counts them."""
    return len((tree.TOP / path).read_bytes().split())


# ---- the lines of a page


def prose_of(path: str) -> Iterator[tuple[int, str]]:
    """The lines that are no code."""
    inside = False
    for number, line in enumerate(tree.lines_of(path), 1):
        if re.match(r' *```', line):
            inside = not inside
        elif not inside and not line.startswith('    '):
            yield number, line


def spans_of(path: str) -> Iterator[tuple[int, str]]:
    """What is in backticks, with its line."""
    for number, line in prose_of(path):
        for span in re.findall(r'`([^`]+)`', line):
            yield number, span


@functools.cache
def headings_of(path: str) -> set[str]:
    """The anchors of a page's headings, as GitHub makes them."""
    found: dict[str, int] = {}
    anchors = set(re.findall(r'<a (?:id|name)="([^"]+)"', tree.text_of(path)))
    for _, line in prose_of(path):
        if match := re.match(r'#+ (.*)', line):
            words = re.sub(r'\[([^]]*)\]\([^)]*\)', r'\1', match[1]).strip().lower()
            slug = re.sub(r'[^\w\- ]', '', words).replace(' ', '-')
            found[slug] = found.get(slug, -1) + 1
            anchors.add(f'{slug}-{found[slug]}' if found[slug] else slug)
    return anchors


# ---- names and paths


@functools.cache
def words_of_the_tree() -> set[str]:
    """Each word that the sources, or their paths, have."""
    words = set(LET_THROUGH)
    for path in set(tree.matching(SOURCES)) - set(pages()):
        words.update(NAME.findall(tree.text_of(path)))
        words.update(NAME.findall(re.sub(r'[/.]', '\n', path)))
    return words


@functools.cache
def paths_of_the_tree() -> set[str]:
    """The paths of files and folders, also without `crates/`, `crates/dcsctp_`, the crate, or the ending of a source."""
    found = set()
    for file in tree.files():
        parts = file.split('/')
        for path in ['/'.join(parts[:count]) for count in range(1, len(parts) + 1)]:
            found.add(path)
            if path.startswith('crates/') and path.count('/') >= 1:
                inner = path.partition('/')[2]
                of_crate = inner.partition('/')[2]
                found |= {inner, inner.removeprefix('dcsctp_'), of_crate, re.sub(r'\.(rt|antt)$', '', of_crate)}
    return found - {''}


def is_there(path: str) -> bool:
    path = path.rstrip('/')
    if '*' not in path:
        return path in paths_of_the_tree()
    pattern = re.compile(re.escape(path).replace(r'\*', '[^/]*'))
    return any(pattern.fullmatch(other) for other in paths_of_the_tree())


def missing_in(span: str) -> Iterator[str]:
    """The names and paths of a span in backticks that are nowhere."""
    for word in span.split():
        word = re.sub(r'[,;]$', '', word)
        is_path = '/' in word and '::' not in word and PATH.fullmatch(word)
        # A path of the system, or one to fill in, is nothing of the tree; what a build makes is known by its words.
        if re.search('NAME|PREFIX/', word) or is_path and word.startswith('/'):
            continue
        if is_path and not word.startswith('out/'):
            if not is_there(word):
                yield f'no such path: {word}'
            continue
        yield from (f'no such name: {name}' for name in NAME.findall(word) if name not in words_of_the_tree())


def check_names(path: str) -> Iterator[str]:
    for number, span in spans_of(path):
        for fault in missing_in(span):
            yield f'{path}:{number}: {fault}'
    for number, line in prose_of(path):
        for found in re.finditer(r'[a-z_]+/(?:src|specs|proofs)/[A-Za-z_/]+\.(?:rt|antt)', line):
            if not is_there(found[0]):
                yield f'{path}:{number}: no such path: {found[0]}'


def check_links(path: str, written: set[str]) -> Iterator[str]:
    """Links must lead to a file or folder here, or to a page that this script writes, and to a heading of it."""
    for number, line in prose_of(path):
        for target in re.findall(r'\]\(([^)\s]+)\)|^\[[^]]+\]: *(\S+)|(?:src|href)="([^"]+)"', line):
            target = ''.join(target)
            if re.match(r'[a-z]+:', target):
                continue
            file, _, anchor = target.partition('#')
            full = posixpath.normpath(posixpath.join(posixpath.dirname(path), file)) if file else path
            if full.startswith('out/reference/'):
                if full not in written:
                    yield f'{path}:{number}: no such page: {target}'
            elif full != '.' and full not in paths_of_the_tree():
                yield f'{path}:{number}: no such path: {target}'
            elif anchor and full.endswith('.md') and anchor not in headings_of(full):
                yield f'{path}:{number}: no such heading: {target}'


def check_quotes(path: str) -> Iterator[str]:
    """A block whose first line names a file has only lines of that file."""
    quoted = ''
    for number, line in enumerate(tree.lines_of(path), 1):
        if line.startswith('```'):
            quoted = (line.split() + ['', ''])[1]
        elif quoted and line.strip() and (quoted not in tree.files() or line not in tree.lines_of(quoted)):
            yield f'{path}:{number}: {quoted} has no such line: {line}'


# ---- tables


def cells_of(path: str) -> Iterator[tuple[int, str, str]]:
    """The cells of tables: line, column, and what is in it."""
    columns: list[str] = []
    for number, line in enumerate(tree.lines_of(path), 1):
        if not line.startswith('|'):
            columns = []
            continue
        cells = [cell.strip() for cell in line.replace(r'\|', '\1').split('|')[1:-1]]
        if not columns:
            columns = cells
        elif not re.fullmatch(r':?-+:?', cells[0]):
            for column, cell in zip(columns, cells):
                yield number, column, cell


def check_tables(path: str, edits: set[str]) -> Iterator[str]:
    for number, column, cell in cells_of(path):
        names = [name for span in re.findall(r'`([^`]+)`', cell) for name in span.split()]
        if column in CLAUSES and not names:
            yield f'{path}:{number}: no clause'
        if column in EDITS:
            if not names and not cell.startswith('none'):
                yield f'{path}:{number}: no wrong body'
            for name in names:
                if name not in edits:
                    yield f'{path}:{number}: there is no wrong body {name}'


# ---- words


def check_words() -> Iterator[str]:
    counts = {path: words_of(path) for path in pages()}
    for path, count in counts.items():
        limit = LIMITS.get(path, LIMIT_OF_A_PAGE)
        if count > limit:
            yield f'{path}:1: {count} words, and {limit} at most'
    if sum(counts.values()) > LIMIT_OF_ALL:
        yield f'docs:1: {sum(counts.values())} words in all documents, and {LIMIT_OF_ALL} at most'


def faults(edits: set[str], written: set[str]) -> list[str]:
    """What is wrong with the documents, a line each."""
    found = []
    for path in pages():
        for check in (check_names(path), check_links(path, written), check_quotes(path), check_tables(path, edits)):
            found += dict.fromkeys(check)
    if not any(column in CLAUSES for path in pages() for _, column, _ in cells_of(path)):
        found.append(f'docs:1: no table has a column {", ".join(sorted(CLAUSES))}')
    return found + list(check_words())


def mentions(edits: set[str]) -> dict[str, list[tuple[str, int]]]:
    """Where the documents name each edit."""
    found: dict[str, list[tuple[str, int]]] = {}
    for path in pages():
        for number, span in spans_of(path):
            if span in edits and (path, number) not in found.get(span, []):
                found.setdefault(span, []).append((path, number))
    return found
