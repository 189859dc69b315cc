"""The pages: HTML for each thing of the model, all names linked."""
import collections
import html
import itertools
import re
from collections.abc import Callable, Iterable

from reference import edits, sources, tree
from reference.markup import PAGES, escape, link, link_of, links_of, page, section, small, source
from reference.model import WORD, Model
from reference.sources import Item

INDEX = '''<h2>How to read it</h2>
<ul>
<li>Begin at a function: <a href="functions.html#dcsctp_world.World::run">World::run</a> says what two sockets promise each
    other, <a href="functions.html#dcsctp_api.DcSctpSocket::handle_input">DcSctpSocket</a> what each call of a socket does.</li>
<li><code>requires</code> is what a caller must ensure, <code>ensures</code> what then holds. A clause may have a label; one
    without is about the result.</li>
<li>In a contract <code>self.old</code> is the value before the call, and <code>self.new</code> after it. What contracts say
    of a type is with <a href="types.html">the type</a>.</li>
<li>A definition with several equations is a table: the first equation that fits counts. A <code>record</code> holds if each
    of its fields holds.</li>
<li>Or begin at a section of a standard, and go to the definition that states it. Or at a wrong body, and go to the clause that
    refuses it.</li>
</ul>
<p>The promises in plain words, their premises, and what they don't say, are in <a href="../../docs/proof/promises.md">docs/proof/promises.md</a>.</p>
<h2>Crates, lowest first</h2>
'''
ATTACKS = '''{first} Those in <code>must-fail</code> are tried at each run of the gate. Those in <code>attacks</code> are tried by
<code>scripts/attack.py</code>. <code>attacks/tried</code> records over which sources each was refused. Of {count} now:'''
SECTIONS = '<tr><th>Section</th><th>Code and laws</th><th>Definitions</th><th>Cases, tests and computed examples</th></tr>'


def grouped(things: Iterable, group_of: Callable, heading: Callable, entry: Callable) -> str:
    """Entries under a heading for each group; things of a group come one after another."""
    return ''.join(heading(group) + ''.join(map(entry, members)) for group, members in itertools.groupby(things, group_of))


def heading_of_crate(crate: str) -> str:
    return f'<h2 id="{crate or "other"}">{crate or "In C, and examples"}</h2>\n'


class Writer:
    """Makes the pages of a model."""

    def __init__(self, model: Model, mentions: dict[str, list[tuple[str, int]]]) -> None:
        self.model = model
        self.mentions = mentions  # where a document names an edit
        self.tried = edits.tried()
        # Functions that no page shows: a link leads to their file.
        self.hidden = {item.href for item in model.of_kind('function')
                       if item.page == 'inside' and not item.clauses and item.href not in model.refusals}
        self.users: dict[str, dict[str, Item]] = collections.defaultdict(dict)
        for item in model.items:
            text = item.text if item.kind != 'function' else '\n'.join(item.clauses.values())
            for word in set(WORD.findall(re.sub(r'(?m)^\s*(--|//).*', '', text))):
                if (found := model.meaning(word, item)) and item.href not in self.hidden:
                    self.users[found.href][item.href] = item

    # ---- texts

    def text(self, item: Item) -> str:
        """The text of an item: each name a link, each clause of a contract with an anchor."""
        lines = item.text.split('\n')
        indent = min((len(line) - len(line.lstrip()) for line in lines if line.strip()), default=0)
        out, in_signature = [], item.kind == 'function'
        for line in lines:
            clause = sources.CLAUSE.match(line)
            in_signature = in_signature and not clause
            said = self.line(line[indent:], item, in_signature)
            out.append(f'<span id="{escape(item.anchor)}.{sources.label_of(*clause.groups())}">{said}</span>' if clause else said)
        return '<pre>' + '\n'.join(out) + '</pre>'

    def line(self, line: str, item: Item, in_signature: bool) -> str:
        if line.lstrip().startswith(('--', '//')):
            return f'<i>{escape(line)}</i>'
        out, end = [], 0
        for match in WORD.finditer(line):
            found = self.model.meaning(match[0], item)
            # A parameter may have the name of a definition.
            if found and found.href not in self.hidden and not (in_signature and found.kind != 'type'):
                out.append(escape(line[end:match.start()]) + link(found.href, match[0]))
                end = match.end()
        return ''.join(out) + escape(line[end:])

    def note(self, item: Item) -> str:
        """The comment of an item, with links at names in backticks and at sections."""
        paragraphs = re.split(r'\n\s*\n', item.note.strip())
        return ''.join(f'<p>{self.prose(words, item)}</p>' for words in paragraphs if words)

    def prose(self, words: str, item: Item) -> str:
        def name(match: re.Match) -> str:
            said = html.unescape(match[1])
            found = self.model.mentioned(said.removesuffix('()'), item)
            return f'<code>{link(found.href, said) if found and found.href not in self.hidden else match[1]}</code>'

        def cited(match: re.Match) -> str:
            is_there = (int(match[1]), match[2]) in self.model.cited
            return f'<a href="sections.html#rfc{match[1]}-{match[2]}">{match[0]}</a>' if is_there else match[0]
        done = re.sub(r'`([^`]+)`', name, escape(words, quote=False))
        return re.sub(rf'RFC ({sources.KNOWN}),\s+(?:sections?|appendix)\s+({sources.NUMBER}|[A-Z])', cited, done)

    def entry(self, item: Item) -> str:
        """One item: its name, place, comment and text, who names it, and which wrong bodies it refuses."""
        users = links_of(list(self.users[item.href].values())) if item.kind != 'function' else ''
        edited = self.model.refusals.get(item.href, [])
        refused = ', '.join(link(f'wrong-bodies.html#{edit.anchor}', edit.name) for edit in edited)
        return section(item.anchor, f'{escape(item.name)} {source(item.path, item.line)}', self.note(item), self.text(item),
                       small(users and f'named by: {users}'), small(refused and f'refuses: {refused}'))

    def by_file(self, name: str, items: list[Item]) -> str:
        """A page of entries under crates and files; files whose page this is have their comment, and are all there."""
        groups: dict[str, list[Item]] = {path: [] for path, file in self.model.files.items() if file.page == name}
        for item in items:
            groups.setdefault(item.path, []).append(item)

        def of_file(path: str) -> str:
            is_home = self.model.files[path].page == name
            head = f'<h3 id="{escape(path)}">' if is_home else '<h3>'
            note = self.note(self.model.files[path]) if is_home else ''
            return f'{head}{source(path)}</h3>{note}\n' + ''.join(map(self.entry, groups[path]))
        return page(*PAGES[name], grouped(groups, tree.crate_of, heading_of_crate, of_file))

    # ---- pages

    def functions(self) -> str:
        return self.by_file('functions', [item for item in self.model.of_kind('function') if item.page == 'functions'])

    def inside(self) -> str:
        functions = [item for item in self.model.of_kind('function') if item.page == 'inside']
        return self.by_file('inside', [item for item in functions if item.href not in self.hidden])

    def types(self) -> str:
        return self.by_file('types', self.model.of_kind('type'))

    def definitions(self) -> str:
        return self.by_file('definitions', self.model.of_kind('definition'))

    def laws(self) -> str:
        laws = [item for item in self.model.of_kind('function') if item.is_law]
        return page(*PAGES['laws'], grouped(laws, lambda law: tree.crate_of(law.path), heading_of_crate, self.law))

    def law(self, law: Item) -> str:
        """A law with its contract, and the definitions whose names are its clauses."""
        stated = [self.model.meaning(clause.strip('{} '), law) for clause in law.clauses.values()]
        texts = [self.text(law), *(self.text(found) for found in stated if found and found.kind == 'definition')]
        bare = re.sub(r' id="[^"]*"', '', ''.join(texts))
        return section(law.anchor, f'{link_of(law)} {source(law.path, law.line)}', self.note(law), bare)

    def sections(self) -> str:
        def rfc(number: int) -> str:
            head = link(f'https://www.rfc-editor.org/rfc/rfc{number}', f'RFC {number}')
            return f'<tbody><tr id="rfc{number}"><th colspan="4">{head}</th></tr></tbody>\n'
        rows = grouped(self.model.cited, lambda cited: cited[0], rfc, lambda cited: self.section(*cited))
        return page(*PAGES['sections'], f'<table class="wide"><thead>{SECTIONS}</thead>{rows}</table>')

    def section(self, rfc: int, number: str) -> str:
        """The row of a section, or of an RFC that is cited as a whole."""
        columns: dict[str, dict[str, Item]] = {'code': {}, 'definitions': {}, 'shown': {}}
        for item in self.model.cited[rfc, number]:
            shown = self.model.files[item.path] if item.href in self.hidden else item
            columns[self.column(shown)][shown.href] = shown
        kind = 'appendix' if number.isalpha() else 'section'
        head = link(f'https://www.rfc-editor.org/rfc/rfc{rfc}#{kind}-{number}', f'{kind} {number}') if number else 'as a whole'
        cells = ''.join(f'<td>{links_of(list(items.values()))}</td>' for items in columns.values())
        return f'<tbody><tr id="rfc{rfc}-{number or "whole"}"><td>{head}{self.near(rfc, number)}</td>{cells}</tr></tbody>\n'

    def near(self, rfc: int, number: str) -> str:
        """Links to the sections that this one is part of, and to its parts: what is of it may cite those alone."""
        above = [whole for other, whole in self.model.cited if other == rfc and number.startswith(f'{whole}.') and whole]
        below = [part for other, part in self.model.cited if other == rfc and part.rpartition('.')[0] == number and number]
        links = ', '.join(link(f'#rfc{rfc}-{other}', other) for other in above + below)
        return small(links and f'see also {links}')

    @staticmethod
    def column(item: Item) -> str:
        if item.kind == 'definition' or item.page == 'definitions':
            return 'definitions'
        return 'shown' if item.page == 'cases' or '/proofs/' in item.path else 'code'

    def wrong_bodies(self) -> str:
        def folder_of(edit: edits.Edit) -> str:
            return edit.path.rpartition('/')[0]
        every = sorted(self.model.edits, key=lambda edit: (not edit.is_tried_always, edit.path))
        counts = collections.Counter(edits.status_of(it, self.tried) for it in every).most_common()
        first = ATTACKS.format(first=PAGES['wrong-bodies'][1], count=len(every))
        said = ''.join(f'<li>{count}: {escape(status)}</li>' for status, count in counts)
        body = grouped(every, folder_of, lambda folder: f'<h2 id="{folder}">{folder}</h2>\n', self.edit)
        return page(PAGES['wrong-bodies'][0], first, f'<ul>{said}</ul>{body}')

    def edit(self, edit: edits.Edit) -> str:
        named = ', '.join(source(path, line) for path, line in self.mentions.get(edit.name, []))
        refused = f'<p>Refused by {self.refused_by(edit)}.</p>' if edit.refused_by else ''
        return section(edit.anchor, f'{escape(edit.name)} {source(edit.path, 1)}', refused, self.changes(edit),
                       small(edits.status_of(edit, self.tried)), small(named and f'named in {named}'))

    def refused_by(self, edit: edits.Edit) -> str:
        """What refuses an edit, with links to the clause, to functions, and to files of computed examples."""
        refusing = self.model.refusing(edit)
        clauses = refusing[0].clauses if refusing else {}
        items = {item.name.rpartition('::')[2]: item for item in reversed(refusing) if item.href not in self.hidden}
        label = re.match(r'[\w:]+: (\w+)(?=$|[,;])', edit.refused_by)

        def name(match: re.Match) -> str:
            word = match[0]
            if label and match.start() == label.start(1) and word in clauses:
                return link(f'{refusing[0].href}.{word}', word)
            item = items.get(word.rpartition('::')[2]) or re.search('[A-Z_]', word) and self.model.nearest('definition', word, '')
            if item:
                return link(item.href, word)
            facts = tree.matching(rf'crates/\w+/proofs/(.*/)?{word}\.antt') if word.endswith('Facts') else []
            return f'<a href="../../{facts[0]}">{word}</a>' if facts else word
        return sources.QUALIFIED.sub(name, escape(edit.refused_by))

    def changes(self, edit: edits.Edit) -> str:
        """The old and the new lines, by files."""
        def file(path: str) -> str:
            old = next(old for file, old, _ in edit.changes if file == path)
            text = tree.text_of(path) if path in tree.files() else ''
            return small(f'in {source(path, text.partition(old)[0].count(chr(10)) + 1)}')
        return grouped(edit.changes, lambda change: change[0], file, lambda change:
                       f'<pre class="change"><del>{escape(change[1])}</del>\n<ins>{escape(change[2])}</ins></pre>')

    def cases(self) -> str:
        def of_file(path: str) -> str:
            note = self.note(self.model.files[path])
            cases = ''.join(map(self.case, self.model.places[path]))
            if not cases and not note:
                return ''
            return f'<section id="{escape(path)}"><h3>{source(path)}</h3>{note}<ul>{cases}</ul></section>\n'
        paths = [path for path, file in self.model.files.items() if file.page == 'cases']
        return page(*PAGES['cases'], grouped(paths, tree.crate_of, heading_of_crate, of_file))

    @staticmethod
    def case(item: Item) -> str:
        name = f'<b>{escape(item.name)}</b>' if item.kind == 'group' else escape(item.name)
        return f'<li id="{escape(item.anchor)}">{name} <span class="place">line {item.line}</span></li>'

    def index(self, counts: dict[str, str]) -> str:
        rows = ''.join(f'<tr><td>{link(f"{name}.html", title)}</td><td>{counts[name]}</td></tr>'
                       for name, (title, _) in PAGES.items())
        homes = {tree.crate_of(path): file.page for path, file in self.model.files.items() if file.page != 'definitions'}
        crates = grouped([crate for crate in tree.crates() if crate in homes], lambda crate: tree.crates()[crate][0],
                         lambda layer: f'<h4>{escape(layer)}</h4>',
                         lambda crate: f'<div>{link(f"{homes[crate]}.html#{crate}", crate)}</div>')
        first = '''An SCTP association whose code is proved to do what its contracts say. These pages are made from the sources
            by <code>make reference</code>.'''
        return page('dcsctp: reference', first, f'<table>{rows}</table>{INDEX}{crates}')
