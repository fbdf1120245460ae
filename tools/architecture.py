"""Makes the tables of crates of docs/ARCHITECTURE.md, and checks what the pages and the sources say of crates against crates.txt."""
import re

import sources
from walk import PROGRAM

BEGIN, END = '<!-- The tables of crates are made by tools/docs. -->', '<!-- The end of the tables. -->'
PAGES = ('README.md', 'docs/ARCHITECTURE.md', 'docs/DECISIONS.md', 'docs/NEW_COMMAND.md')


def tables():
    """The crates of the program, and the others."""
    own = all_below(PROGRAM) | {PROGRAM}
    order = sources.reading_order()
    return '\n\n'.join([
        'Of these the program is made, the lowest first. Each stands on the crates that are named, and on those below them.', table([crate for crate in order if crate in own]),
        'These are not in the program: what no command uses yet, and the tests and measurements.', table([crate for crate in order if crate not in own]),
    ])


def table(crates):
    """A table of crates."""
    rows = [f'| `{crate}` | {sources.what_it_is(crate)} | {stands_on(crate)} |' for crate in crates]
    return '\n'.join(['| Crate | What it is | Stands on |', '|---|---|---|'] + rows)


def stands_on(crate):
    """The crates that a crate stands on, without those on which these stand."""
    direct = sources.crates()[crate]
    through = {below for one in direct for below in all_below(one)}
    return ', '.join(f'`{one}`' for one in direct if one not in through) or 'the standard library'


def all_below(crate):
    """All that a crate stands on, however far below."""
    direct = sources.crates().get(crate, [])
    return set(direct).union(*(all_below(one) for one in direct))


def architecture_page():
    """The page with the table in its place."""
    text = (sources.TOP / 'docs' / 'ARCHITECTURE.md').read_text(encoding='utf-8')
    if text.count(BEGIN) != 1 or text.count(END) != 1:
        raise SystemExit('docs/ARCHITECTURE.md has no place for the table of crates')
    before, rest = text.split(BEGIN)
    return f'{before}{BEGIN}\n\n{tables()}\n\n{END}{rest.split(END)[1]}'


def unlisted_citations():
    """Each citation of a crate on which crates.txt does not let the citing crate stand."""
    known = set(sources.crates())
    for crate, below in sources.crates().items():
        for path in sorted((sources.TOP / 'crates' / crate).rglob('*')):
            if path.suffix in ('.rt', '.antt') and 'out' not in path.parts:
                cited = set(re.findall(r'^\s*(?:pub )?(?:ghost )?use (?:Rattle\.)?(\w+)[.:]', path.read_text(encoding='utf-8'), re.M))
                for name in sorted(cited & known - set(below) - {crate}):
                    yield f'{path.relative_to(sources.TOP)} cites {name}, and crates.txt does not say that {crate} stands on it'


def silent_crates():
    """Each crate whose root file says nothing of it."""
    for crate in sources.crates():
        if not sources.what_it_is(crate):
            yield f'{sources.root_file(crate).relative_to(sources.TOP)} does not say what the crate is'


def unknown_names():
    """Each name of a crate on a page that crates.txt does not have, and each crate that is no folder, or the other way round."""
    folders = {path.name for path in (sources.TOP / 'crates').iterdir() if path.is_dir()}
    for crate in sorted(folders ^ set(sources.crates())):
        yield f'{crate} is a folder of crates/ or a line of crates.txt, and not both'
    for page in PAGES:
        named = set(re.findall(r'\bmt_\w+', (sources.TOP / page).read_text(encoding='utf-8')))
        for name in sorted(named - set(sources.crates())):
            yield f'{page} names {name}, which is no crate'


def files():
    """The page, and what is wrong."""
    wrong = [*unknown_names(), *unlisted_citations(), *silent_crates()]
    return {'ARCHITECTURE.md': architecture_page()}, wrong
