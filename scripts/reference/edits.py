"""The wrong bodies: what each changes, what refuses it, and over which sources it was tried."""
import dataclasses
import hashlib
import re

from reference import tree

# The edits of these folders change definitions. This is the highest crate that may refuse one.
HIGHEST = {'definitions': 'dcsctp_theorem_association', 'delivery': 'dcsctp_delivery_sockets'}
TRIED = 'attacks/tried'


@dataclasses.dataclass
class Edit:
    """A wrong body: a text in place of another one, which no proof may accept."""
    path: str
    name: str
    folder: str  # a crate, or one of HIGHEST
    refused_by: str
    changes: list[tuple[str, str, str]]  # the file, the old text and the new one
    unread: list[int]  # the lines that begin with no word of an edit

    @property
    def anchor(self) -> str:
        return f'{self.folder}/{self.name}'

    @property
    def is_tried_always(self) -> bool:
        return '/must-fail/' in self.path


def read_edits() -> list[Edit]:
    return [read_edit(path) for path in tree.matching(r'(crates/\w+/must-fail|attacks/\w+)/[^/]+\.edit')]


def read_edit(path: str) -> Edit:
    folder = path.split('/')[1]
    edit = Edit(path, path.rpartition('/')[2][:-5], folder, '', [], [])
    file = old = ''
    for number, line in enumerate(tree.text_of(path).splitlines(), 1):
        word, _, rest = line.partition(': ')
        if word == 'refused by':
            edit.refused_by = rest.strip()
        elif word == 'file':
            file = rest if folder in HIGHEST else f'crates/{folder}/{rest}'
        elif word == 'old':
            old = rest
        elif word in ('new', 'new:'):
            edit.changes.append((file, old, rest))
        else:
            edit.unread.append(number)
    return edit


def faults_of(edit: Edit) -> list[str]:
    """Why it would be tried on nothing, or on less than it says: each line must begin with a word of an edit, each old text
    must be in its file exactly once, after the changes before it, and something must change."""
    found = [f'{edit.path}:{number}: it begins with none of file, old, new and refused by' for number in edit.unread]
    texts: dict[str, str] = {}
    for file, old, new in edit.changes:
        if file not in tree.files():
            found.append(f'{edit.path}:1: there is no file {file}')
            continue
        text = texts.get(file, tree.text_of(file))
        if text.count(old) != 1:
            found.append(f'{edit.path}:1: {text.count(old)} times in {file}: {old}')
        texts[file] = text.replace(old, new, 1)
    changes_something = any(text != tree.text_of(file) for file, text in texts.items())
    return found or ([] if changes_something else [f'{edit.path}:1: it changes nothing'])


# ---- which sources an edit is tried over

def below(crate: str) -> list[str]:
    """The crates below this one, lowest first."""
    found: list[str] = []
    for name in tree.crates()[crate][1]:
        if name in tree.crates() and name not in found:
            found += [it for it in [*below(name), name] if it not in found]
    return found


def crate_of_law(function: str) -> str | None:
    """The crate of the law with this name."""
    return next((tree.crate_of(path) for path in tree.matching(r'crates/\w+/src/(\w+/)*\w+\.rt')
                 if re.search(rf'^pub fn {function}\b', tree.text_of(path), re.M)), None)


def crates_of(edit: Edit) -> list[str]:
    """The crates that are checked, lowest first: from the lowest one that it changes to the one that refuses it."""
    if edit.folder not in HIGHEST:
        return [edit.folder]
    edited = {tree.crate_of(file) for file, _, _ in edit.changes}
    said = re.search(r'dcsctp_\w+', edit.refused_by)
    top = said[0] if said else crate_of_law(edit.refused_by.split(':')[0]) or HIGHEST[edit.folder]
    return [it for it in [*below(top), top] if edited & {it, *below(it)}]


def sum_of(edit: Edit) -> str:
    """The sum of the edit and of the sources of these crates."""
    crates = '|'.join(crates_of(edit))
    total = hashlib.sha256()
    for path in [edit.path, *tree.matching(rf'crates/(?:{crates})/(?:src|specs|proofs)/.*')]:
        total.update(path.encode() + b'\0' + tree.text_of(path).encode() + b'\0')
    return total.hexdigest()[:16]


def tried() -> dict[str, str]:
    """What attacks/tried has: of each edit that was refused, the sum then."""
    path = tree.TOP / TRIED
    return dict(line.split() for line in path.read_text(encoding='utf-8').splitlines()) if path.exists() else {}


def status_of(edit: Edit, last: dict[str, str]) -> str:
    """In a few words: when it was tried."""
    if edit.is_tried_always:
        return 'tried at each run of the gate'
    if edit.anchor not in last:
        return 'no try is recorded'
    return f'refused over {"the present" if last[edit.anchor] == sum_of(edit) else "earlier"} sources'
