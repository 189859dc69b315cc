"""The whole of the sources: all items, which name means which, who names whom, and what cites each section."""
import collections
import pathlib
import re

from reference import edits, sources, tree
from reference.sources import Item

WORD = re.compile(r"(?<![\w.'])[A-Za-z_][\w']*|>>=")
IMPORT = re.compile(r'use Rattle\.([\w.]+)\.\{([^}]*)\}')


class Model:
    """All that the sources have."""

    def __init__(self) -> None:
        self.items: list[Item] = []
        self.files: dict[str, Item] = {}
        self.faults: list[str] = []
        self.edits = edits.read_edits()
        for crate in tree.crates():
            self.read_crate(crate)
        for path in tree.matching(r'examples/[^/]+\.script|tests/c/\w+\.c'):
            self.add(sources.file_item(path, 'cases'), sources.items_of_tests(path) if path.endswith('.c') else [])
        for path in tree.matching(r'tests/c/channels/\w+\.text'):
            self.add(sources.file_item(path, 'cases'), sources.items_of_cases(path))
        self.named: dict[str, dict[str, list[Item]]] = collections.defaultdict(dict)  # by kind and name
        self.by_last_name: dict[str, list[Item]] = collections.defaultdict(list)  # functions, without their types
        self.constructors: dict[str, list[Item]] = collections.defaultdict(list)
        self.places: dict[str, list[Item]] = collections.defaultdict(list)  # by file
        self.index()
        self.scopes = {path: self.scope_of(path) for path in self.files if path.endswith(('.rt', '.antt'))}
        self.cited = self.citations()
        self.refusals: dict[str, list[edits.Edit]] = collections.defaultdict(list)  # by function: what it refuses
        for edit in self.edits:
            for item in self.refusing(edit)[:1]:
                self.refusals[item.href].append(edit)

    def index(self) -> None:
        """Files all items by their names. An anchor that a page has already is told apart by its place."""
        seen: dict[str, Item] = {}
        for item in self.items:
            if other := seen.get(item.href):
                if item.kind == 'definition':
                    self.faults.append(f'{item.path}:{item.line}: {item.name} is also defined in {other.path}')
                item.anchor += f'.{pathlib.PurePath(item.path).name}:{item.line}'
            seen[item.href] = item
            self.places[item.path].append(item)
            self.named[item.kind].setdefault(item.name, []).append(item)
            if item.kind == 'function':
                self.by_last_name[item.name.rpartition('::')[2]].append(item)
            for name in sources.constructors_of(item):
                self.constructors[name].append(item)

    def of_kind(self, kind: str) -> list[Item]:
        return [item for item in self.items if item.kind == kind]

    def read_crate(self, crate: str) -> None:
        for path in tree.matching(rf'crates/{crate}/specs/.*\.antt'):
            self.add(sources.file_item(path, 'definitions'), sources.items_of_definitions(path))
        for path in tree.matching(rf'crates/{crate}/src/.*\.rt'):
            if tree.is_test_crate(crate):
                self.add(sources.file_item(path, 'cases'), sources.items_of_tests(path))
            else:
                self.add(sources.file_item(path, 'functions'), sources.items_of_code(path))
        for path in tree.matching(rf'crates/{crate}/cases/.*\.(cases|text)'):
            self.add(sources.file_item(path, 'cases'), sources.items_of_cases(path))

    def add(self, file: Item, items: list[Item]) -> None:
        self.files[file.path] = file
        self.items += items

    # ---- names

    def scope_of(self, path: str) -> dict[str, Item]:
        """What each name means in a file: what it imports, and what it defines."""
        scope: dict[str, Item] = {}
        text = tree.text_of(path)
        for match in IMPORT.finditer(text):
            if match[1].split('.')[0] not in tree.crates():
                continue
            for name in match[2].replace('\n', ' ').split(','):
                name, _, alias = name.strip().partition(' as ')
                found = self.imported(match[1].split('.'), name) if name else None
                if found:
                    scope[(alias or name).strip('◌')] = found
                elif name:
                    line = text.count('\n', 0, match.start()) + 1
                    self.faults.append(f'{path}:{line}: no definition of {name} in {match[1]}')
        for item in self.places[path]:
            if item.kind == 'definition':
                scope[item.name.strip('◌')] = item
                for name in sources.constructors_of(item):
                    scope.setdefault(name, item)
        return scope

    def imported(self, module: list[str], name: str) -> Item | None:
        if 'declared' in module or 'contracts' in module:
            owners = [part for part in reversed(module) if part in self.named['type']]
            return self.nearest('type', owners[0], '/'.join(module)) if owners else None
        if name in self.named['definition']:
            return self.named['definition'][name][0]
        found = self.constructors.get(name, [])
        same = [item for item in found if item.path.endswith(f'/{module[-1]}.antt')]
        return (same or found or [None])[0]

    def nearest(self, kind: str, name: str, place: str) -> Item | None:
        """Of the items of a name the one whose file, or crate, this place names; the only one; or none."""
        found = self.named[kind].get(name, [])
        keys = (lambda item: item.path, lambda item: f'/{pathlib.PurePath(item.path).stem}/',
                lambda item: tree.crate_of(item.path))
        for key in keys:
            same = [item for item in found if key(item) in f'{place}/']
            if len(same) == 1:
                return same[0]
        return found[0] if len(found) == 1 else None

    def meaning(self, name: str, item: Item) -> Item | None:
        """What a name means in the text of an item."""
        found = self.scopes.get(item.path, {}).get(name)
        if not found and item.kind in ('function', 'type'):
            found = self.nearest('type', name, item.path)
        return found if found is not item else None

    def mentioned(self, name: str, item: Item) -> Item | None:
        """What a name in backticks means in the comment of an item: first what is of its type, and no parameter of it."""
        if re.search(rf'\b{re.escape(name)}: ', item.text):
            return None
        owner = item.name.split('::')[0]
        for full in (f'{owner}::{name}', name):
            for kind in ('function', 'type', 'definition'):
                found = self.nearest(kind, full, item.path)
                if found and (found.page != 'inside' or tree.crate_of(found.path) == tree.crate_of(item.path)):
                    return found if found is not item else None
        return self.nearest('type', name.split('::')[0], item.path) if '::' in name else None

    # ---- what refuses a wrong body

    def refusing(self, edit: edits.Edit) -> list[Item]:
        """The functions that its first line names: the first one is that whose proof fails."""
        found = []
        for name in sources.QUALIFIED.findall(edit.refused_by):
            item = self.refusing_function(name, edit)
            if item and item not in found:
                found.append(item)
        return found

    def refusing_function(self, name: str, edit: edits.Edit) -> Item | None:
        """The function of this name, perhaps without its type or after its module, that is nearest to what the edit changes."""
        highest = edits.HIGHEST.get(edit.folder, edit.folder)
        below = {*edits.below(highest), highest}
        module, _, last = name.rpartition('::')
        same = [item for item in self.by_last_name.get(last, []) if tree.crate_of(item.path) in below
                and (not module or item.name == name or module in item.path.split('/')[-1])]
        tests = (lambda item: item.path in places, lambda item: item.first <= places.get(item.path, 0) <= item.last,
                 lambda item: tree.crate_of(item.path) == edit.folder, lambda item: item.name == name,
                 lambda item: item.clauses, lambda item: item.page == 'functions')
        places = {file: tree.text_of(file).partition(old)[0].count('\n') + 1
                  for file, old, _ in reversed(edit.changes) if file in self.files}
        for test in tests:
            same = [item for item in same if test(item)] or same
        return same[0] if len({(item.name, item.path) for item in same}) == 1 else None

    # ---- sections

    def citations(self) -> dict[tuple[int, str], list[Item]]:
        """The items that cite each section, in the order of the sources; a file where the comment is of no item."""
        cited: dict[tuple[int, str], dict[str, Item]] = collections.defaultdict(dict)
        others = tree.matching(r'crates/\w+/proofs/.*\.antt|include/.*\.h|examples/c/.*\.[ch]')
        for path in [*self.files, *others]:
            for line, comment in sources.comments_of(path):
                for section in sources.sections_in(comment):
                    for item in self.at(path, line, comment, self.places[path]):
                        cited[section][item.href] = item
        return {section: list(cited[section].values()) for section in sorted(cited, key=order)}

    def at(self, path: str, line: int, comment: str, items: list[Item]) -> list[Item]:
        """The item whose comment or text this line is in; of a heading all definitions below it; else the file."""
        if path not in self.files:
            return [Item('other', path, path, line, path, '')]
        if comment.strip().startswith('----') and path.endswith('.antt'):
            later = [number for number, other in sources.comments_of(path) if number > line and other.strip().startswith('----')]
            return [item for item in items if line < item.line < (later + [10 ** 9])[0]] or [self.files[path]]
        inside = [item for item in items if item.first <= line <= item.last]
        return inside[-1:] or [self.files[path]]


def order(section: tuple[int, str]) -> tuple:
    """The order of sections: by RFC as this repository names them, then by number."""
    rfc = sources.KNOWN.split('|').index(str(section[0]))
    return rfc, [int(part) if part.isdigit() else 10 ** 6 + ord(part) for part in section[1].split('.') if part]
