"""Makes docs/DEFINITIONS.md and its pages: every definition that a public contract reaches, in reading order."""
import re

import sources
from walk import PROGRAM, Walk, contracts, is_walked, one_contract

# The one call that the program makes, and what tells each command's meaning apart: one case for each command.
TOP_CRATE, TOP_CALL = 'mt_shell', 'run'
CASES = ('mt_session_spec', 'Meanings', ('meaning', 'question'))
SPELLED = {'Load': 'open'}
SHARED = ('unbuilt', 'asking')

HEAD = '''# What a reader has to believe

The contracts say what the code does in the words of definitions. Who believes that these definitions mean what they should, and trusts the toolchain, can rely on every reply.
The pages below list all of them: each definition that a public contract reaches, each on one page, the lowest first, with the comment that stands above it. A type of the code that a definition names is listed as `src/..`.

This page and those below it are made by `tools/docs`, and the gate checks that they are. Nothing in them is written by hand.
'''


# What is listed where

class Pages:
    """The pages in reading order: each a title, what is told above it, and the definitions that no page before it has."""

    def __init__(self):
        self.pages = []
        self.where = {}
        self.others = {}

    def add(self, name, title, about, walk):
        """Adds a page of what a walk has reached and no page before has."""
        used = {self.where[place] for place in walk.found if place in self.where}
        own = [definition for place, definition in walk.found.items() if place not in self.where]
        self.where.update({definition.place: name for definition in own})
        for key, names in walk.others.items():
            self.others.setdefault(key, set()).update(names)
        if own:
            self.pages.append((name, title, about, own, used))


def collect():
    """All pages: of the run, of each command, of each crate."""
    pages = Pages()
    pages.add('run', 'The run of a script', f'What `{TOP_CALL}` of `{TOP_CRATE}` says of every script, whatever its commands.', run_walk())
    for command, walk in command_walks():
        pages.add(f'command-{command}', f'The command `{command}`', f'What `{command}` means, beside the definitions of [the run](run.md).', walk)
    for crate in filter(is_walked, sources.reading_order()):
        walk = Walk()
        for words, imports in contracts(crate):
            walk.take_words(sources.plain(words, '//'), imports)
        pages.add(crate, f'The crate `{crate}`', f'What the public contracts of `{crate}` speak of, beside the pages before.', walk)
    return pages


def run_walk():
    """What the contract of the one call reaches, the cases of commands apart."""
    walk = Walk(skipped=set(CASES[2]))
    words, imports = one_contract(TOP_CRATE, TOP_CALL)
    walk.take_words(sources.plain(words, '//'), imports)
    for _, meant in cases():
        if meant.startswith(SHARED):
            walk.take_inside(*CASES[:2], meant)
    return walk


def case_module():
    """The file that tells commands apart."""
    return sources.module_of(*CASES[:2])


def cases():
    """Each case of a command or question: its constructor, and what it means."""
    for name in CASES[2]:
        clauses = re.sub(r'\n\s+', ' ', case_module().definitions[name].text)
        for line in re.findall(rf'^{name} .*$', clauses, re.M):
            found = re.match(r'.*?(?:\((\w+)[^()]*\)|(\w+)) = (.*)', line)
            if not found:
                raise SystemExit(f'{CASES[1]}: this case of {name} is of no form that tools/docs knows: {line}')
            yield found.group(1) or found.group(2), found.group(3)


def command_walks():
    """Each command that is built, with a walk from its case."""
    for constructor, meant in cases():
        if not meant.startswith(SHARED):
            walk = Walk(skipped=set(CASES[2]))
            walk.take_inside(*CASES[:2], meant)
            yield SPELLED.get(constructor, constructor.lower()), walk


# The pages

def in_order(definitions):
    """The definitions, by crate, by file and by their place in the file."""
    order = {crate: at for at, crate in enumerate(sources.reading_order())}
    files = {}
    for definition in definitions:
        files.setdefault((definition.place.crate, definition.place.module), []).append(definition)
    for crate, module in sorted(files, key=lambda key: (order[key[0]], depth(*key), key[1])):
        found = files[crate, module]
        if not module.startswith('src/'):
            at = list(sources.module_of(crate, module).definitions)
            found.sort(key=lambda definition: at.index(definition.place.name))
        yield crate, module, found


def depth(crate, module):
    """How many files of its crate a file stands on, one below the other."""
    if module.startswith('src/'):
        return 0
    below = {path for other, path, _ in sources.module_of(crate, module).imports.values() if other == crate and not path.startswith('declared.')}
    return 1 + max((depth(crate, path) for path in below - {module}), default=0)


def page(title, about, definitions, used, titles):
    """The text of a page."""
    lines = [f'# {title}', '', about]
    if used:
        lines += ['', 'It also uses definitions of ' + ', '.join(f'[{titles[name]}]({name}.md)' for name in titles if name in used) + '.']
    for crate, module, found in in_order(definitions):
        lines += section(crate, module, found)
    return '\n'.join(lines) + '\n'


def section(crate, module, found):
    """The lines of one file on a page."""
    if module.startswith('src/'):
        head = [f'## `{crate}`, `{module}.rt`', '', 'Types of the code.']
    else:
        about = sources.module_of(crate, module).about
        head = [f'## `{crate}`, [`{module}`](../../crates/{crate}/specs/{module.replace(".", "/")}.antt)', '', about]
    return ['', *head, '', '| Definition | What it says |', '|---|---|'] + [row(definition) for definition in found]


def row(definition):
    """The line of one definition."""
    said = definition.comment or (f'{definition.heading}: ' if definition.heading else '') + f'`{statement(definition)}`'
    return f'| `{definition.place.name}` | {said.replace("|", chr(92) + "|")} |'


def statement(definition):
    """What a definition says by itself: the fields of a record, the forms of a type, else what stands behind the name."""
    first, *others = definition.text.split('\n')
    if re.match(r'(pub )?(record|data) ', first):
        return '; '.join(re.sub(r'^ +(pub )?', '', line) for line in others if re.match(r'^  (pub )?\w+ :', line))
    return re.sub(r'^(abbrev |unfoldable )?(pub )?[\w\'-]+ : ', '', re.sub(r' →$', '', first))


def titles_of(pages):
    """What each page is called where others speak of it."""
    return {name: title[0].lower() + title[1:] for name, title, *_ in pages.pages}


def index(pages):
    """The text of docs/DEFINITIONS.md."""
    lines = [HEAD, '## What the program does', '', '| Page | Definitions |', '|---|---|']
    lines += [index_row(entry) for entry in pages.pages if is_of_run(entry[0])]
    lines += ['', 'So to rely on the reply to a command one reads the first page and the page of the command, with those that it names. What a source, a sink and a shelf owe is said by the traits of `mt_outside`, whose page is below.', '',
              '## What the crates do', '', 'Each page has what the contracts of one crate speak of, and no page before it.', '', '| Page | What the crate is | Definitions |', '|---|---|---|']
    lines += [crate_row(entry) for entry in pages.pages if not is_of_run(entry[0])]
    lines += ['', '## Words of other libraries', '', 'These words are defined in the standard library and in crates of the kit. `rt lemma NAME` shows each.', '', '| Library, file | Words |', '|---|---|']
    lines += [f'| `{crate}`, `{path}` | {", ".join(f"`{escaped(name)}`" for name in sorted(names, key=str.lower) if name)} |' for (crate, path), names in sorted(pages.others.items())]
    return '\n'.join(lines) + '\n'


def escaped(name):
    """A name as it stands in a table."""
    return name.replace('|', '\\|')


def is_of_run(name):
    """Whether a page is of the run or of a command."""
    return name == 'run' or name.startswith('command-')


def index_row(entry):
    """The line of a page of the run or of a command."""
    name, title, _, own, _ = entry
    return f'| [{title}](definitions/{name}.md) | {len(own)} |'


def crate_row(entry):
    """The line of a page of a crate."""
    name, _, _, own, _ = entry
    return f'| [`{name}`](definitions/{name}.md) | {sources.what_it_is(name)} | {len(own)} |'


def without_comment(pages):
    """What is reached and has no comment, in the crates where each needs one."""
    for _, _, _, own, _ in pages.pages:
        for definition in own:
            if not definition.comment:
                yield f'crates/{definition.place.crate}/specs/{definition.place.module}.antt: {definition.place.name} has no comment'


def files():
    """The pages by their names below docs/, and what is wrong with the definitions."""
    pages = collect()
    titles = titles_of(pages)
    made = {'DEFINITIONS.md': index(pages)}
    for name, title, about, own, used in pages.pages:
        made[f'definitions/{name}.md'] = page(title, about, own, used, titles)
    return made, list(without_comment(pages))
