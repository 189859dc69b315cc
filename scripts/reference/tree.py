"""The files of this repository, and what they say."""
import functools
import pathlib
import re
import subprocess

TOP = pathlib.Path(__file__).resolve().parents[2]
FOLDERS = 'crates attacks scripts bindings examples include tests packaging docs .ci'.split()


def git(*words: str) -> str:
    """What git answers here; nothing where there is no git or no repository."""
    try:
        done = subprocess.run(['git', '-C', str(TOP), *words], capture_output=True, text=True, check=False)
    except FileNotFoundError:
        return ''
    return done.stdout if done.returncode == 0 else ''


@functools.cache
def files() -> tuple[str, ...]:
    """The paths of all files, sorted: by git, or in an unpacked archive all that no build has made."""
    listed = git('ls-files', '-z', '--cached', '--others', '--exclude-standard').split('\0')
    if listed == ['']:
        folders = [TOP / name for name in FOLDERS]
        found = [*TOP.glob('*'), *(path for folder in folders for path in folder.rglob('*'))]
        listed = [str(path.relative_to(TOP)) for path in found if not {'out', 'target', '__pycache__'} & set(path.parts)]
    return tuple(sorted(path for path in set(listed) if (TOP / path).is_file()))


def matching(pattern: str) -> list[str]:
    """The paths that match a regular expression from end to end."""
    return [path for path in files() if re.fullmatch(pattern, path)]


@functools.cache
def text_of(path: str) -> str:
    return (TOP / path).read_text(encoding='utf-8', errors='replace')


def lines_of(path: str) -> list[str]:
    return text_of(path).split('\n')


@functools.cache
def crates() -> dict[str, tuple[str, list[str]]]:
    """The crates in the order of crates.txt, lowest first: the heading of each one's layer, and the crates that it names."""
    order, layer = {}, ''
    for line in lines_of('crates.txt'):
        if line.startswith('#'):
            layer = line.lstrip('# ')
        elif match := re.match(r'(\w+)[ a-z]*:(.*)', line):
            order[match[1]] = (layer, match[2].split())
    return order


def crate_of(path: str) -> str:
    return path.split('/')[1] if path.startswith('crates/') else ''


def is_test_crate(crate: str) -> bool:
    return crates()[crate][0].startswith('Tests')
