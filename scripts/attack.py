#!/usr/bin/env python3
"""Tries the wrong bodies of attacks/: edits that the prover must refuse, too many for each run of the gate.

The first line of an edit names what refuses it. `refused by: FUNCTION: CLAUSE` has that function checked alone, and
`refused by: CRATE: WHAT` a whole crate. An edit in attacks/definitions or attacks/delivery changes a definition: each crate
from there up to the one that refuses it is checked. Edits of a crate that change the bodies of different functions, and
nothing else, are tried together, since the proof of one function needs no body of another. attacks/tried keeps, for each
edit that was refused, the sum of the edit and of the sources of these crates.

    attack.py NAME..     tries a folder of attacks, or one edit: folder/edit
    attack.py --all      tries all
    attack.py --stale    tries none: says how many were last tried over other sources, and fails if one that a document
                         names was never tried, or if docs/proof/promises.md has another number of them

Folders are tried side by side, as many as there are processors (or JOBS), over the libraries that `make prove` leaves in
crates/*/out (or LIBRARIES, a folder with one for each crate). KIT names the kit's folder. Work is kept in out/attacks.
"""
import concurrent.futures
import os
import pathlib
import re
import shutil
import subprocess
import sys
import tempfile
import threading

sys.dont_write_bytecode = True
from reference import documents, edits, sources, tree  # noqa: E402

KIT = pathlib.Path(os.environ.get('KIT') or pathlib.Path(shutil.which('rt') or '/').resolve().parents[1])
LIBRARIES = os.environ.get('LIBRARIES')
JOBS = int(os.environ.get('JOBS') or os.cpu_count() or 1)
KEPT = tree.TOP / 'out' / 'attacks'
PARTS = ('src', 'specs', 'proofs')
MOST_TOGETHER = 12
PROMISES = 'docs/proof/promises.md'
ANSWER = re.compile(r'^(only=(\d+) proved=(\d+)|logic=(proved|not-proved))', re.M)
ABOUT = re.compile(r'^fn (\S+): (proved|not proved|no proof|could not tell)', re.M)
REFUSED = {'not proved', 'no proof'}
ERROR = re.compile(r'^(?:\./)?(\S+?):\d+:\d+: error: (`[^`]*`: )?(.*)', re.M)
UNREADABLE = re.compile(r'is not in scope|has no field|is no name|operand is missing|expected the end|cannot continue')
printing = threading.Lock()


# ---- trying one

def library(crate: str, own: dict[str, pathlib.Path]) -> pathlib.Path:
    folder = f'{LIBRARIES}/{crate}' if LIBRARIES else tree.TOP / 'crates' / crate / 'out' / 'rlib'
    return own.get(crate) or pathlib.Path(folder) / f'{crate}.rlib'


def rattle(verb: str, crate: str, folder: pathlib.Path, own: dict[str, pathlib.Path], *flags: str) -> str:
    """What rattle says of the crate in this folder, over the libraries below it."""
    kept = KEPT / crate
    kept.mkdir(parents=True, exist_ok=True)
    root = 'src/main.rt' if (folder / 'src/main.rt').exists() else 'src/lib.rt'
    words = [str(KIT / 'bin' / 'rattle'), verb, '--crate-name', crate, root, '--jobs', '1', '--incremental', str(kept)]
    for name in [*tree.crates()[crate][1], 'std']:
        words += ['--extern', f'{name}={library(name, own) if name in tree.crates() else KIT / "rlibs" / f"{name}.rlib"}']
    for name in edits.below(crate):
        words += ['-L', f'dependency={library(name, own).parent}']
    words += ['-L', f'dependency={KIT}/rlibs', '--antt-project', f'{KIT}/rattle/logic/antt-project.json']
    words += ['--logic-built', f'{KIT}/logic_built', '--links', f'{crate}=', *flags]
    return subprocess.run(words, cwd=folder, stdin=subprocess.DEVNULL, stdout=subprocess.PIPE, stderr=subprocess.STDOUT,
                          text=True, errors='replace', check=False).stdout


def apply(chosen: list[edits.Edit], room: pathlib.Path, crates: list[str]) -> None:
    """Copies the crates into the room, with these edits."""
    for crate in crates:
        for part in PARTS:
            if (tree.TOP / 'crates' / crate / part).is_dir():
                shutil.copytree(tree.TOP / 'crates' / crate / part, room / 'crates' / crate / part)
    for file, old, new in (change for edit in chosen for change in edit.changes):
        path = room / file
        path.write_text(path.read_text(encoding='utf-8').replace(old, new, 1), encoding='utf-8')


def function_of(edit: edits.Edit) -> str:
    """The function that its first line names, if it names no crate."""
    name = edit.refused_by.split(':' if '::' not in edit.refused_by else ': ')[0]
    return '' if name in tree.crates() or ' ' in name else name


def verdict(edit: edits.Edit, said: str) -> str:
    """What rattle's answer means: 'proved', 'refused: ' and by what, or 'BAD EDIT: ' and why."""
    changed = {file.split('/', 2)[-1] for file, _, _ in edit.changes}
    for file, name, text in ERROR.findall(said):
        if (file in changed or file.startswith(('src/', 'specs/'))) and (not name or UNREADABLE.search(text)):
            return f'BAD EDIT: it cannot be read: {file}: {text[:120]}'
    answers = ANSWER.findall(said)
    if not answers:
        return f'BAD EDIT: no verdict: {said.rstrip().rpartition(chr(10))[2][:160]}'
    _, asked, proved, whole = answers[-1]
    is_proved = whole == 'proved' if whole else asked == proved
    if is_proved:
        return 'proved'
    by = [*(name for name, answer in ABOUT.findall(said) if answer in REFUSED), *(file for file, _, _ in ERROR.findall(said))]
    return 'refused: ' + ', '.join(by[:2]) if by else 'BAD EDIT: the prover could not tell'


def try_on(edit: edits.Edit, crate: str, is_top: bool, room: pathlib.Path, own: dict[str, pathlib.Path]) -> str:
    """Checks one crate; one below the top is built, for those above it."""
    folder = room / 'crates' / crate
    if is_top:
        only = ['--only', function_of(edit)] if function_of(edit) else []
        return verdict(edit, rattle('check', crate, folder, own, *only))
    built = room / 'libraries' / crate / f'{crate}.rlib'
    built.parent.mkdir(parents=True)
    answer = verdict(edit, rattle('build', crate, folder, own, '-o', str(built)))
    own[crate] = built
    return answer


def try_edit(edit: edits.Edit) -> str:
    """Tries it on each of its crates, lowest first, until one refuses it."""
    if faults := edits.faults_of(edit):
        return f'BAD EDIT: {faults[0]}'
    crates, own, answer = edits.crates_of(edit), {}, 'proved'
    if lacking := [it for it in edits.below(crates[-1]) if it not in crates and not library(it, {}).is_dir()]:
        return f'BAD EDIT: there is no library of {lacking[0]}: make prove'
    with tempfile.TemporaryDirectory() as name:
        room = pathlib.Path(name)
        apply([edit], room, crates)
        for crate in crates:
            answer = try_on(edit, crate, crate == crates[-1], room, own)
            if answer != 'proved':
                break
    return answer


# ---- trying several

def is_in_one_body(edit: edits.Edit) -> bool:
    """Does it change nothing but the body of the function that it names?"""
    name = function_of(edit).rpartition('::')[2]
    for file, old, _ in edit.changes:
        if not name or not file.endswith('.rt') or old not in tree.text_of(file):
            return False
        first = tree.text_of(file).partition(old)[0].count('\n') + 1
        bodies = [(it.line + it.text.count('\n'), it.last) for it in sources.items_of_code(file)
                  if it.kind == 'function' and it.name.rpartition('::')[2] == name]
        if not any(begin <= first and first + old.count('\n') <= end for begin, end in bodies):
            return False
    return edit.folder not in edits.HIGHEST


def in_groups(folder: list[edits.Edit]) -> list[list[edits.Edit]]:
    """Those that can be tried together, and each other one alone."""
    groups: list[list[edits.Edit]] = []
    for edit in folder:
        name = function_of(edit).rpartition('::')[2]
        fitting = [group for group in groups if len(group) < MOST_TOGETHER and is_in_one_body(group[0]) and is_in_one_body(edit)
                   and name not in {function_of(it).rpartition('::')[2] for it in group}]
        if fitting:
            fitting[0].append(edit)
        else:
            groups.append([edit])
    return groups


def try_group(group: list[edits.Edit]) -> list[str]:
    """Tries these together, and again alone each of which that says nothing."""
    crate, said = group[0].folder, ''
    if len(group) > 1 and not any(edits.faults_of(it) for it in group):
        with tempfile.TemporaryDirectory() as name:
            apply(group, pathlib.Path(name), [crate])
            only = [word for edit in group for word in ('--only', function_of(edit))]
            said = rattle('check', crate, pathlib.Path(name) / 'crates' / crate, {}, *only)
    answers = []
    for edit in group:
        found = {answer for name, answer in ABOUT.findall(said) if f'::{name}'.endswith(f'::{function_of(edit)}')}
        is_clear = found and found <= REFUSED and ANSWER.search(said)
        answers.append(f'refused: {function_of(edit)}' if is_clear else try_edit(edit))
    return answers


# ---- all of them

def remember(edit: edits.Edit) -> None:
    """Records that it was refused over the present sources."""
    tried = {**edits.tried(), edit.anchor: edits.sum_of(edit)}
    (tree.TOP / edits.TRIED).write_text(''.join(f'{name} {total}\n' for name, total in sorted(tried.items())), encoding='utf-8')


def try_folder(folder: list[edits.Edit]) -> int:
    """Tries these, group by group, and returns how many weren't refused."""
    failed = 0
    for group in in_groups(folder):
        for edit, answer in zip(group, try_group(group)):
            is_refused = answer.startswith('refused')
            failed += not is_refused
            with printing:
                print(f'attack: {edit.anchor}: {answer if answer != "proved" else "NOT REFUSED"}', flush=True)
                if is_refused:
                    remember(edit)
    return failed


def try_all(chosen: list[edits.Edit]) -> int:
    folders: dict[str, list[edits.Edit]] = {}
    for edit in chosen:
        folders.setdefault(edit.folder, []).append(edit)
    with concurrent.futures.ThreadPoolExecutor(JOBS) as pool:
        failed = sum(pool.map(try_folder, sorted(folders.values(), key=len, reverse=True)))
    print(f'attack: {len(chosen) - failed} refused, {failed} not')
    return 1 if failed else 0


def stale(attacks: list[edits.Edit]) -> int:
    """Says how many were last tried over other sources, and which that a document names were never tried."""
    tried, named = edits.tried(), documents.mentions({it.name for it in attacks})
    old = [it for it in attacks if it.anchor in tried and tried[it.anchor] != edits.sum_of(it)]
    never = [it for it in attacks if it.anchor not in tried]
    print(f'attack: of {len(attacks)} {len(old)} were last tried over other sources, {len(never)} never')
    lacking = [it.anchor for it in never if named.get(it.name)]
    for anchor in lacking:
        print(f'attack: a document names {anchor}, which was never tried')
    is_counted = f'the {len(attacks)} in `attacks/`' in tree.text_of(PROMISES)
    if not is_counted:
        print(f'attack: {PROMISES} has another number than {len(attacks)}')
    return 1 if lacking or not is_counted else 0


def main(words: list[str]) -> int:
    attacks = [it for it in edits.read_edits() if not it.is_tried_always]
    if words == ['--stale']:
        return stale(attacks)
    chosen = attacks if words == ['--all'] else [it for it in attacks if {it.folder, it.anchor} & {*words}]
    if not chosen:
        print(__doc__)
        return 2
    return try_all(chosen)


if __name__ == '__main__':
    sys.exit(main(sys.argv[1:]))
