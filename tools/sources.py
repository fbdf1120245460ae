"""Reads the sources of the crates as far as the pages of docs/ need it: crates.txt, definitions (.antt) and public contracts (.rt)."""
import functools
import pathlib
import re
from dataclasses import dataclass, field

TOP = pathlib.Path(__file__).resolve().parent.parent

IMPORT = re.compile(r'\buse\s+Rattle\.([\w.]+?)(?:\.\{([^}]*)\}|\s+as\s+(\w+))')
NAME = re.compile(r'(?<![\w.«])[A-Za-z_][\w\']*(?:-[A-Za-z][\w]*)*(?:\.[A-Za-z_]\w*)*')
DEFINITION = re.compile(r'^(?:(?:abbrev|unfoldable)\s+(?:pub\s+)?|pub\s+)(?:record\s+|data\s+)?(\w[\w\'-]*)|^(?:record|data)\s+(\w[\w\'-]*)|^(\w[\w\'-]*) : ')
ITEM = re.compile(r'^(?:pub(?:\([^)]*\))?\s+)?(?:const fn|fn|struct|enum|trait|const|impl|mod|use|type|ghost use)\b')
FUNCTION = re.compile(r'^( *)(?:pub(?:\([^)]*\))? )?(?:const )?fn (\w+)')

# A sentence with fewer characters tells too little by itself.
SHORT = 30

# Members of traits that are proofs.
PROOFS = {'laws', 'total', 'inverse', 'matches_eq', 'matches_partial_cmp', 'respects_eq'}


@dataclass(frozen=True)
class Place:
    """Where a definition stands: its crate, its file by the path below specs/, its name."""
    crate: str
    module: str
    name: str


@dataclass
class Definition:
    """A definition of specs/, or a type of the code that a definition names."""
    place: Place
    text: str
    comment: str
    heading: str = ''
    parts: list = field(default_factory=list)


@dataclass
class Module:
    """A file of specs/: what it is about, its definitions in order, what it imports."""
    path: pathlib.Path
    about: str
    definitions: dict
    imports: dict

    def definition_of(self, name):
        """The definition of this name, or the one that has it as a constructor."""
        if name in self.definitions:
            return self.definitions[name]
        return next((d for d in self.definitions.values() if name in d.parts), None)


@functools.lru_cache(maxsize=None)
def crates():
    """The crates of crates.txt, each with those that it stands on, in the order of the file."""
    lines = (line.split('#')[0].strip() for line in (TOP / 'crates.txt').read_text(encoding='utf-8').split('\n'))
    pairs = (line.split(':') for line in lines if line)
    return {head.split()[0]: tail.split() for head, tail in pairs}


@functools.lru_cache(maxsize=None)
def reading_order():
    """The crates, each behind those that it stands on, else as in crates.txt."""
    order = []

    def visit(crate):
        if crate in crates() and crate not in order:
            for below in crates()[crate]:
                visit(below)
            order.append(crate)

    for crate in crates():
        visit(crate)
    return order


def imports_of(text):
    """What the imports of a text bring in: name -> (crate, path, name there), or (crate, path, None) for a whole file."""
    found = {}
    for path, names, alias in IMPORT.findall(text):
        crate, _, rest = path.partition('.specs')
        rest = rest.lstrip('.')
        if alias:
            found[alias] = (crate, rest, None)
        for entry in filter(None, (part.strip() for part in names.split(','))):
            there, _, here = entry.partition(' as ')
            found[(here or there).strip()] = (crate, rest, there.strip())
    return found


def plain(text, comment):
    """A text without its comments and quoted words."""
    return re.sub(r'"[^"\n]*"', '""', re.sub(comment + r'.*', '', text))


def targets(text, imports, local):
    """The places that the names of a text stand for, and the names at each."""
    for chain in NAME.findall(text):
        first, *others = chain.split('.')
        if first in imports:
            crate, path, name = imports[first]
            if name is not None:
                yield crate, path, name
            elif others:
                yield crate, path, others[0]
        elif local and first in local[2]:
            yield local[0], local[1], first


# Definitions

def said(lines):
    """The words of comment lines."""
    return ' '.join(re.sub(r'^\s*--\s*(##\s*)?', '', line).strip() for line in lines)


def constructors(text):
    """The constructors of a `data`, each with the comment above it."""
    found, comment = {}, []
    for line in text.split('\n')[1:]:
        if re.match(r'^  +--', line):
            comment.append(line)
        else:
            named = re.match(r'^  (\w+) :', line)
            if named:
                found[named.group(1)] = said(comment)
            comment = []
    return found


def blocks(lines):
    """Cuts a file into (first line, line behind the last) of each definition; what lies between are comments, blank lines and imports."""
    start = None
    for number, line in enumerate(lines + ['--']):
        begins = DEFINITION.match(line)
        if start is not None and (begins or line.startswith(('--', 'use '))):
            end = number
            while not lines[end - 1]:
                end -= 1
            yield start, end
            start = None
        if begins:
            start = number


def about(lines):
    """The comment at the head of a file."""
    head = []
    for line in lines:
        if not line.startswith('--'):
            break
        head.append(line)
    return said(head)


def opened(text):
    """The lines of a file of specs/: those that stand in a module with parameters, moved out to the margin, and the words of its head."""
    outside, head, inside = re.match(r'(?s)(.*?)(?:^(module _ .*? where)\n(.*))?\Z', text, re.M).groups(default='')
    return outside.split('\n') + [re.sub(r'^  ', '', line) for line in inside.split('\n') if inside], head


@functools.lru_cache(maxsize=None)
def module_of(crate, module):
    """The file of this path below the specs/ of a crate."""
    path = TOP / 'crates' / crate / 'specs' / (module.replace('.', '/') + '.antt')
    text = path.read_text(encoding='utf-8')
    lines, head = opened(text)
    found, heading, last = {}, '', 0
    for start, end in blocks(lines):
        between = lines[last:start]
        heading = next((said([line]) for line in reversed(between) if line.startswith('-- ## ')), heading)
        above = own_comment(between)
        block = '\n'.join(lines[start:end])
        name = next(filter(None, DEFINITION.match(lines[start]).groups()))
        definition = Definition(Place(crate, module, name), block + '\n' + head, above, heading)
        if re.match(r'^(pub )?data ', lines[start]):
            inner = constructors(block)
            definition.parts = list(inner)
            definition.comment = above or told_by_parts(inner)
        found[name] = definition
        last = end
    return Module(path, about(lines), found, imports_of(text))


def told_by_parts(inner):
    """What the comments of all constructors tell, where no other comment does."""
    if not all(inner.values()):
        return ''
    return '; '.join(f'`{name}`: {comment}' for name, comment in inner.items())


def own_comment(between):
    """The comment that stands directly above a definition."""
    lines = []
    for line in reversed(between):
        if not line.startswith('--') or line.startswith('-- ## '):
            break
        lines.insert(0, line)
    return said(lines)


def code_type(crate, path, name):
    """A type of the code that a definition names: its own words are the comment above it."""
    parts = path.split('.')
    if 'TheVariants' in parts:
        name = parts[parts.index('TheVariants') - 1]
    source = TOP / 'crates' / crate / 'src' / ('/'.join(p for p in parts[1:] if p not in ('TheVariants', name)) + '.rt')
    if not source.exists():
        source = TOP / 'crates' / crate / 'src' / 'lib.rt'
    lines = source.read_text(encoding='utf-8').split('\n')
    at = next(i for i, line in enumerate(lines) if re.match(rf'^pub(\([^)]*\))? (struct|enum) {name}\b|^(struct|enum) {name}\b', line))
    return Definition(Place(crate, 'src/' + source.stem, name), '', doc_above(lines, at))


def doc_above(lines, at):
    """The doc comment above an item of the code."""
    words = []
    while at > 0 and re.match(r'^\s*(///|#\[)', lines[at - 1]):
        at -= 1
        if lines[at].lstrip().startswith('///'):
            words.insert(0, lines[at].lstrip()[3:].strip())
    return ' '.join(words)


# Contracts

def items(text):
    """Cuts a file of code into its items."""
    found, item = [], []
    for line in text.split('\n'):
        if ITEM.match(line):
            found.append(item)
            item = []
        item.append(line)
    return [part for part in found[1:] + [item] if part]


def headers(lines):
    """The functions among these lines: each with its signature and clauses, without its body."""
    number = 0
    while number < len(lines):
        begin = FUNCTION.match(lines[number])
        if begin:
            end = header_end(lines, number, begin.group(1))
            yield begin.group(2), lines[number].lstrip().startswith('pub '), '\n'.join(lines[number:end])
            number = end
        number += 1


def header_end(lines, number, indent):
    """The line at which the body of a function begins, or behind its declaration."""
    for at in range(number, len(lines)):
        line = lines[at].rstrip()
        at_indent = line.startswith(indent) and not line.startswith(indent + ' ')
        if line == indent + '{' or (at_indent and line.endswith(' {')):
            return at + (line != indent + '{')
        if line.endswith(';') or (at_indent and line.endswith('}')):
            return at + 1
    return len(lines)


def model_value(lines):
    """Of a model what the value is seen as; how it is kept is no part of a contract."""
    kept, on = [], False
    for line in lines:
        if re.match(r'^    (ghost|fn) ', line):
            on = line.startswith(('    ghost Value', '    ghost use'))
        if on:
            kept.append(line)
    return '\n'.join(kept)


def contract_of(item, names, everything):
    """The words of a contract in one item of the code, where it is public."""
    head = item[0]
    if head.startswith('impl'):
        return implementation(item, names, everything)
    named = re.match(r'^(pub )?(?:const )?(fn|trait|struct|enum|const)\s+(\w+)', head)
    if not named or not (everything or named.group(3) in names):
        return ''
    if named.group(2) == 'trait':
        return '\n'.join(item)
    return '\n'.join(text for _, _, text in headers(item)) if named.group(2) == 'fn' else ''


def implementation(item, names, everything):
    """The contracts of the methods of a public type."""
    head = ' '.join(item).split('{')[0]
    of_trait = ' for ' in head
    owner = re.sub(r'<.*', '', head.split(' for ')[-1] if of_trait else re.sub(r'^impl(<[^>]*>)? ?', '', head)).strip()
    if not (everything or owner in names):
        return ''
    if re.match(r'^impl(<[^>]*>)? Model\b', head):
        return model_value(item)
    ghosts = meanings(item) if of_trait else []
    return '\n'.join(ghosts + [text for _, public, text in headers(item) if public or of_trait or everything])


def meanings(item):
    """What the implementation of a trait says that the trait's words mean; its proofs are no part of a contract."""
    kept, on = [], False
    for line in item:
        begins = re.match(r'^    (?:ghost )?(\w+)', line)
        if begins:
            on = line.startswith('    ghost ') and begins.group(1) not in PROOFS
        if on:
            kept.append(line)
    return kept


def sources_of(crate):
    """The files of the code of a crate, tests apart."""
    folder = TOP / 'crates' / crate / 'src'
    return [path for path in sorted(folder.rglob('*.rt')) if 'tests' not in (path.stem, path.parent.name)] if folder.exists() else []


def root_file(crate):
    """The root file of the code of a crate."""
    folder = TOP / 'crates' / crate / 'src'
    return folder / ('lib.rt' if (folder / 'lib.rt').exists() else 'main.rt')


def what_it_is(crate):
    """The first sentence of a crate's own words, and the second where that is short."""
    words = ' '.join(re.findall(r'^//! ?(.*)$', root_file(crate).read_text(encoding='utf-8'), re.M))
    first, *others = re.split(r'(?<=\.)\s+', words.strip())
    if others and len(first) < SHORT:
        return f'{first} {others[0]}'
    defined = re.match(r'(\w)(.*): definitions (?:alone, which|that) the contracts of .* cite\.$', first)
    return f'Definitions: {defined.group(1).lower()}{defined.group(2)}.' if defined else first


def public_names(crate):
    """What a crate lets out: the names of its `pub use`, and the stems of its public files."""
    text = (TOP / 'crates' / crate / 'src' / 'lib.rt').read_text(encoding='utf-8')
    names = set()
    for braces, single in re.findall(r'^pub use [\w:]+::(?:\{([^}]*)\}|(\w+))', text, re.M):
        names |= {name.strip() for name in (braces or single).split(',')}
    names |= set(re.findall(r'^pub (?:const )?(?:fn|struct|enum|trait|const) (\w+)', text, re.M))
    return names, set(re.findall(r'^pub mod (\w+)', text, re.M))
