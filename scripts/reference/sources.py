"""What the sources have: functions with their contracts, types, definitions, cases and tests, and the sections they cite."""
import dataclasses
import re

from reference import tree

# How a line of a comment begins, by the ending of a file.
MARKS = {'rt': r'\s*//[/!]?', 'antt': r'\s*--', 'cases': '#', 'script': '#', 'text': '//', 'c': r'\s*/?\*+/?', 'h': r'\s*/?\*+/?'}
KNOWN = '9260|6525|3758|8260|9653|8831|8832|6458'
NUMBER = r'\d+(?:\.\d+)*'
LIST = rf'{NUMBER}(?:(?:, and |, | and | to ){NUMBER}(?![\d^]))*'
CITATION = re.compile(rf'RFC (?P<rfc>{KNOWN})|\bsections? (?P<sections>{LIST})|\bappendix (?P<appendix>[A-Z])\b')

QUALIFIED = re.compile(r'[A-Za-z_]\w*(?:::\w+)*')
CLAUSE = re.compile(r'(?m)^\s+(requires|ensures)(?: (\w+))? (?=\{)')


@dataclasses.dataclass
class Item:
    """One thing of the sources, with a place in the reference."""
    kind: str  # function, type, definition, file, group, case
    name: str
    path: str
    line: int
    page: str
    anchor: str
    note: str = ''  # its comment
    first: int = 0  # where that begins
    last: int = 0
    text: str = ''
    clauses: dict[str, str] = dataclasses.field(default_factory=dict)  # requires and ensures, by label
    is_law: bool = False

    @property
    def href(self) -> str:
        return f'{self.page}.html#{self.anchor}'


def mark_of(path: str) -> str:
    return MARKS[path.rpartition('.')[2]]


def note_above(lines: list[str], index: int, mark: str) -> tuple[int, str]:
    """Where the comment above this line begins, and what it says."""
    first = index
    while first and re.match(rf'(?!//!){mark}(?!\s*----)|\s*#!?\[|infix', lines[first - 1]):
        first -= 1
    said = [re.sub(rf'^{mark} ?', '', line) for line in lines[first:index] if re.match(mark, line)]
    return first, '\n'.join(said)


def file_item(path: str, page: str) -> Item:
    """A file, with the comment at its head."""
    lines, mark = tree.lines_of(path), mark_of(path)
    last = next((index for index, line in enumerate(lines) if not re.match(mark, line)), len(lines))
    note = '\n'.join(re.sub(rf'^{mark} ?', '', line) for line in lines[:last])
    return Item('file', path, path, 1, page, path, note, 1, last)


# ---- code


def head_of(text: str) -> str:
    """The signature of a function with its contract: all up to its body, or to the semicolon."""
    depth, brackets, since = 0, 0, 0
    for place, sign in enumerate(text):
        if sign in '([':
            brackets += 1
        elif sign in ')]':
            brackets -= 1
        elif sign == ';' and not depth and not brackets:
            return text[:place]
        elif sign == '{':
            if not depth and not re.search(r'\b(requires|ensures)(\s+\w+)?\s*$', text[since:place]):
                return text[:place].rstrip()
            depth += 1
        elif sign == '}':
            depth, since = depth - 1, place + 1
    return text


def clauses_of(head: str) -> dict[str, str]:
    """The clauses of a contract by their labels; what has none is a clause on the result."""
    parts = CLAUSE.split(head)
    return {label_of(word, label): what.strip() for word, label, what in zip(parts[1::3], parts[2::3], parts[3::3])}


def label_of(word: str, label: str | None) -> str:
    return label or 'result' if word == 'ensures' else f'requires.{label or ""}'.rstrip('.')


def end_of(lines: list[str], index: int) -> int:
    """The last line of the item that begins at this one: where a bracket closes at its depth, or a constant ends."""
    indent = re.match(r'\s*', lines[index])[0]
    is_value = re.match(r'(pub )?(const|static|type) (?!fn\b)', lines[index])
    for last in range(index, len(lines)):
        is_whole = (last == index or is_value) and lines[last].endswith((';', '}'))
        if is_whole or re.match(rf'{indent}(\}}|\{{\}}|\];|\);)', lines[last]):
            return last
    return len(lines) - 1


def is_law(signature: str, clauses: dict[str, str]) -> bool:
    """Does it return and change nothing, so that its contract is a theorem?"""
    return '->' not in signature and '&mut' not in signature and any(not label.startswith('requires') for label in clauses)


def items_of_code(path: str) -> list[Item]:
    """The functions and types of a file."""
    lines, found, owner, is_trait = tree.lines_of(path), [], '', False
    types, models = {}, []
    for index, line in enumerate(lines):
        if match := re.match(r'(impl|(?:pub )?trait)\b(?:<.*?>)? (?:(?:\w+::)*(\w+)(?:<[^{]*?>)? for )?&?(?:\w+::)*(\w+)', line):
            is_trait, owner = match[1] == 'pub trait', match[3]
            if match[2] == 'Model':
                models.append((owner, index))
        elif line.startswith('}'):
            is_trait, owner = False, ''
        if match := re.match(r'\s*(pub |pub\(\w+\) )?(?:(?:const|unsafe|extern "C") )*fn (\w+)', line):
            found.append(function_at(path, index, f'{owner}::{match[2]}'.removeprefix('::'), is_trait or match[1] == 'pub '))
        elif match := re.match(r'(?:pub(?:\(\w+\))? )?(?:struct|enum|trait|type|const|static) (?!fn\b)(\w+)', line):
            types[match[1]] = type_at(path, index, match[1])
    for owner, index in models:
        if owner in types:
            block = [line for line in lines[index:end_of(lines, index) + 1] if line.strip() and 'ghost use' not in line]
            types[owner].text += '\n\n' + '\n'.join(block)
    return found + list(types.values())


def function_at(path: str, index: int, name: str, is_public: bool) -> Item:
    lines = tree.lines_of(path)
    first, note = note_above(lines, index, mark_of(path))
    head = head_of('\n'.join(lines[index:]))
    after = index + head.count('\n')
    last = after if lines[after].endswith(';') else end_of(lines, index)
    clauses = clauses_of(head)
    return Item('function', name, path, index + 1, 'functions' if is_public else 'inside', f'{tree.crate_of(path)}.{name}',
                note, first + 1, last + 1, head, clauses,
                is_public and '::' not in name and is_law(CLAUSE.split(head)[0], clauses))


def type_at(path: str, index: int, name: str) -> Item:
    """A type, or a constant; of a trait the first line alone, of a long constant the first ones."""
    lines = tree.lines_of(path)
    first, note = note_above(lines, index, mark_of(path))
    last = index if re.match('(pub )?trait', lines[index]) else end_of(lines, index)
    text = [lines[index].rstrip(' {')] if last == index else lines[index:last + 1]
    if last > index + 20 and re.match(r'.*\b(const|static) ', lines[index]):
        text[4:-1] = ['    ..']
    anchor = f'{tree.crate_of(path)}.{name}'
    return Item('type', name, path, index + 1, 'types', anchor, note, first + 1, last + 1, '\n'.join(text))


# ---- definitions


def items_of_definitions(path: str) -> list[Item]:
    """The definitions of a file of specs."""
    lines, found = tree.lines_of(path), []
    heads = [(index, match[1]) for index, line in enumerate(lines)
             if (match := re.match(r'(?:(?:abbrev|unfoldable|pub|record|data) )+(?!(?:use|mod) )([^\s:({]+)', line))]
    for (index, name), (after, _) in zip(heads, heads[1:] + [(len(lines), '')]):
        first, note = note_above(lines, index, MARKS['antt'])
        last = note_above(lines, after, MARKS['antt'])[0] if after < len(lines) else after
        last = next((place for place in range(index, last) if lines[place].startswith('-- ----')), last)
        text = '\n'.join(lines[index:last]).rstrip()
        end = index + text.count('\n') + 1
        found.append(Item('definition', name, path, index + 1, 'definitions', name, note, first + 1, end, text))
    return found


def constructors_of(item: Item) -> list[str]:
    """The names that a definition of data brings besides its own."""
    is_data = item.kind == 'definition' and re.match(r'(pub )?data ', item.text)
    return re.findall(r'(?m)^\s+(?:pub )?([^\s:({]+) :', item.text) if is_data else []


# ---- cases and tests


def items_of_cases(path: str) -> list[Item]:
    """The cases of a file of scripts, under its headings."""
    lines, mark, found = tree.lines_of(path), mark_of(path), []
    for index, line in enumerate(lines):
        if match := re.match(rf'{mark} ---- (.*)|== (.*)', line):
            first, note = note_above(lines, index, mark) if match[2] else (index, '')
            if found:
                found[-1].last = first
            kind, name = ('case', match[2]) if match[2] else ('group', match[1])
            found.append(Item(kind, name, path, index + 1, 'cases', f'{path}:{index + 1}', note, first + 1, len(lines)))
    return found


def items_of_tests(path: str) -> list[Item]:
    """The tests of a file in Rattle, or in C: there the functions that `main` calls."""
    lines, found = tree.lines_of(path), []
    main = tree.text_of(path).partition('\nint main(')[2]
    for index, line in enumerate(lines):
        match = re.match(r'static (?:void|int|bool) (\w+)\(' if path.endswith('.c') else r'\s*fn (\w+)', line)
        if match and (re.search(rf'\b{match[1]}\b', main) if path.endswith('.c') else lines[index - 1].strip() == '#[test]'):
            first, note = note_above(lines, index, mark_of(path))
            last = end_of(lines, index)
            found.append(Item('case', match[1], path, index + 1, 'cases', f'{path}:{index + 1}', note, first + 1, last + 1))
    return found


# ---- citations


def comments_of(path: str) -> list[tuple[int, str]]:
    """The comments of a file: the line where each begins, and its words."""
    mark, found, open_at = mark_of(path), [], -2
    for number, line in enumerate(tree.lines_of(path), 1):
        if match := re.match(mark, line) or re.search(r'//|/\*', line):
            if number != open_at + 1 or '----' in line:
                found.append((number, ''))
            found[-1] = (found[-1][0], f'{found[-1][1]} {line[match.end():].strip()}')
            open_at = number
    return found


def sections_in(comment: str) -> list[tuple[int, str]]:
    """The sections that a comment cites: those after an RFC are of that RFC."""
    cited, rfc = [], None
    for match in CITATION.finditer(comment):
        if match['rfc']:
            rfc = int(match['rfc'])
            if not re.match(r',? (sections?|appendix)\b', comment[match.end():]):
                cited.append((rfc, ''))
        elif rfc:
            cited += [(rfc, number) for number in spread(match['sections'] or match['appendix'])]
    return cited


def spread(numbers: str) -> list[str]:
    """`7.2.1 to 7.2.3` as three numbers."""
    found = []
    for word in re.findall(rf'to {NUMBER}|{NUMBER}|[A-Z]', numbers):
        if word.startswith('to '):
            stem, _, end = word[3:].rpartition('.')
            begin = found[-1].rpartition('.')
            if begin[0] == stem:
                found += [f'{stem}.{part}'.lstrip('.') for part in range(int(begin[2]) + 1, int(end) + 1)]
            else:
                found.append(word[3:])
        else:
            found.append(word)
    return found
