#!/usr/bin/env python3
"""Gives the functions of a module in LLVM's text the hints on inlining that the sources have, as `rt lib` does and
`rt try` doesn't. A function is known by its crate and its own name. scripts/unproved.sh calls this.

    hints.py MODULE FOLDER ..      each FOLDER has the sources of crates: FOLDER/CRATE/src
"""
import pathlib
import re
import sys

# The attributes of LLVM for those of Rust.
ATTRIBUTES = {'inline(always)': 'alwaysinline', 'inline': 'inlinehint', 'inline(never)': 'noinline', 'cold': 'cold'}
HINTED = re.compile(
    r'#\[(inline\(always\)|inline\(never\)|inline|cold)\]\s*'
    r'(?:(?:#\[[^\n]*\]|//[^\n]*)\s*)*'
    r'(?:pub(?:\([a-z ]+\))? )?(?:const )?(?:unsafe )?fn (\w+)')


def hints_of(folders):
    """The attribute of each function that has a hint, by crate and name."""
    return {(file.relative_to(folder).parts[0], found[2]): ATTRIBUTES[found[1]]
            for folder in map(pathlib.Path, folders)
            for file in folder.glob('*/src/**/*.rt')
            for found in HINTED.finditer(file.read_text(encoding='utf-8'))}


def hinted(lines, hints):
    """The module's lines, with a group of attributes for each hint in place of the common group #0."""
    common = next(line for line in lines if line.startswith('attributes #0 '))
    groups = {attribute: 90 + at for at, attribute in enumerate(sorted(set(ATTRIBUTES.values())))}
    for line in lines:
        name = re.match(r'define internal [^"]*@"([^"]*)"', line)
        path = re.sub('::<.*', '', name[1]).split('::') if name else ['', '']
        attribute = hints.get((path[0], path[-1]))
        yield line.replace(') #0 {', f') #{groups[attribute]} {{') if attribute else line
    for attribute, group in groups.items():
        yield common.replace('#0', f'#{group}').replace('{ ', f'{{ {attribute} ', 1)


def main():
    module = pathlib.Path(sys.argv[1])
    lines = module.read_text(encoding='utf-8').split('\n')
    module.write_text('\n'.join([*hinted(lines, hints_of(sys.argv[2:])), '']), encoding='utf-8')


main()
