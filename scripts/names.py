#!/usr/bin/env python3
"""Looks for definitions whose names are outside the grammar, for relations of more than seven arguments, and for clauses
wider than 100 columns. Fails with a line for each. The grammar:

- a relation is a verb phrase in the third person about what happens: `ReceivesSack`, `SendsIfOpen`
- a fact has Is, Are, Has or Have, or their past: `IsBeyond`, `WasHeld`
- a value is a noun: `drawn_pairs`; one by cases names what it goes by: `timer_of_socket`, `flush_if_allowed`
- none is a participle alone, and none ends in a preposition without its object, or in `where`
- none has a word of the list below: the RFCs' word, or report, record, again, handle and continue are said

    names.py            checks the definitions in crates/*/specs, and the clauses in crates/*/src
"""
import re
import sys

sys.dont_write_bytecode = True
from reference import tree  # noqa: E402

OPEN_ENDS = {'in', 'at', 'by', 'where', 'into', 'off'}
POOR_WORDS = {'told', 'anew', 'noted', 'noting', 'worked', 'works', 'heed', 'heeds', 'heeded'}
IRREGULAR = set('sent made kept held left taken given told begun gone drawn cut met seen shown known lost done found read '
                'brought said grown built written heard paused'.split())
# Each with its reason.
EXCEPTIONS = {
    'u16_at': 'its object follows, a place in a list of bytes', 'u32_at': 'the same', 'u64_at': 'the same',
    'tsn_at': 'its object follows, a place among the items in flight',
    'stream_at': 'its object follows, a place in the list of streams',
    'phase_with_t2_told': 'the phase has a field `t2_told`',
    'missed_if_told': 'what a SACK tells of, in the words of RFC 9260, section 7.2.4',
    'Cut': 'a noun: where a reset parts a stream',
    'backed_off': 'the term of RFC 9260, section 6.3.3, rule E3',
}


def words_of(name: str) -> list[str]:
    """The words of a name, in small letters."""
    found = re.findall(r'[A-Z][a-z0-9]*|[A-Z]+', name) if name[0].isupper() else name.split('_')
    return [it.lower() for it in found if it]


def is_participle(word: str) -> bool:
    return word in IRREGULAR or word.endswith('ed') and word not in ('need', 'speed', 'seed', 'red')


def fault_of(name: str) -> str | None:
    """What is wrong with a name, if something is."""
    words = words_of(name)
    if name in EXCEPTIONS or not words:
        return None
    if words[-1] in OPEN_ENDS:
        return f'ends in "{words[-1]}"'
    if poor := POOR_WORDS & set(words):
        return f'has the word "{min(poor)}"'
    if len(words) == 1 and is_participle(words[0]):
        return 'is a participle alone'
    return None


def split_outside(text: str, separator: str) -> list[str]:
    """The parts of a text between separators that are in no bracket."""
    parts, depth, start = [], 0, 0
    for at, letter in enumerate(text):
        depth += (letter in '({[') - (letter in ')}]')
        if letter == separator and depth == 0:
            parts.append(text[start:at])
            start = at + 1
    return [*parts, text[start:]]


def argument_count(binders: str) -> int:
    """How many arguments stand in brackets, as in `(old new : Stage) {A : Type 0}`; those in braces don't count."""
    return sum(len(it.split(':')[0].split()) for it in re.findall(r'\(((?:[^()]|\([^()]*\))*)\)', binders) if ':' in it)


def relation_arguments(signature: str) -> int:
    """How many arguments a relation takes, by its signature; 0 for a value."""
    before, *types = split_outside(signature, ':')
    steps = split_outside(':'.join(types).split(' where')[0], '→')
    if not steps[-1].strip().startswith('Type'):
        return 0
    each = [argument_count(it) if it.strip().startswith('(') and ':' in it else not it.strip().startswith('{') for it in steps[:-1]]
    return argument_count(before) + sum(each)


def wide_clauses(lines: list[str]) -> list[int]:
    """The numbers of the lines of clauses that are wider than 100 columns."""
    found, depth, inside = [], 0, False
    for number, line in enumerate(lines, 1):
        inside = inside or re.match(r'\s*(ensures|requires)\b', line) is not None
        if inside:
            found += [number] if len(line) > 100 else []
            depth += line.count('{') - line.count('}')
            inside = depth > 0
    return found


def definition_faults(path: str) -> tuple[int, list[str]]:
    """How many definitions a file has, and what is wrong with them."""
    lines = list(tree.lines_of(path))
    count, faults = 0, []
    for number, line in enumerate(lines, 1):
        found = re.match(r'(?:abbrev pub|unfoldable pub|pub record|pub data|abbrev|record|data) ([^\W\d][\w\'-]*)(.*)', line)
        if not found:
            continue
        count += 1
        if fault := fault_of(found[1]):
            faults.append(f'{path}:{number}: {found[1]} {fault}')
        signature, after = found[2], number
        while after < len(lines) and (len(split_outside(signature, ':')) < 2 or lines[after].lstrip().startswith('→')):
            signature, after = signature + ' ' + lines[after].strip(), after + 1
        if (given := relation_arguments(signature)) > 7:
            faults.append(f'{path}:{number}: {found[1]} takes {given} arguments')
    return count, faults


def main() -> int:
    faults, count = [], 0
    for path in tree.matching(r'crates/\w+/specs/.*\.antt'):
        more, wrong = definition_faults(path)
        count += more
        faults += wrong
    for path in tree.matching(r'crates/\w+/src/.*\.rt'):
        faults += [f'{path}:{number}: a clause is wider than 100 columns' for number in wide_clauses(list(tree.lines_of(path)))]
    print(*faults, sep='\n', end='\n' if faults else '')
    print(f'names: {count:,} definitions, {len(EXCEPTIONS)} exceptions, {len(faults)} faults')
    return 1 if faults else 0


if __name__ == '__main__':
    sys.exit(main())
