"""Walks from the public contracts of the crates to every definition that they reach."""
import re

import sources

PROGRAM = 'mt_prog'


def is_walked(crate):
    """The crates whose contracts are listed: all but the programs and tests that only try others."""
    folder = sources.TOP / 'crates' / crate / 'src'
    return crate == PROGRAM or (folder / 'lib.rt').exists()


def contracts(crate):
    """The words of the public contracts of a crate, each with the imports of its file: (text, imports)."""
    everything = crate == PROGRAM
    names, modules = (set(), set()) if everything else sources.public_names(crate)
    for path in sources.sources_of(crate):
        text = path.read_text(encoding='utf-8')
        imports = sources.imports_of('\n'.join(re.findall(r'^ghost use [^;]*;', text, re.M)))
        for item in sources.items(text):
            words = sources.contract_of(item, names, everything or path.stem in modules)
            if words:
                yield without_imports(words), {**imports, **sources.imports_of(words)}


def without_imports(words):
    """These words without the imports among them."""
    return re.sub(r'ghost use [^;]*;', '', words)


def one_contract(crate, name):
    """The words of the contract of one function, with the imports of its file."""
    for path in sources.sources_of(crate):
        text = path.read_text(encoding='utf-8')
        for item in sources.items(text):
            if re.match(rf'pub fn {name}\b', item[0]):
                return sources.contract_of(item, {name}, False), sources.imports_of(text)
    raise SystemExit(f'{crate} has no public function {name}')


class Walk:
    """What was reached: definitions of the repository by their places, and words of other libraries. Of those that are skipped only the first line is followed."""

    def __init__(self, skipped=()):
        self.skipped = skipped
        self.found = {}
        self.others = {}

    def take(self, crate, path, name):
        """Takes what an import names, and all that it reaches."""
        if crate not in sources.crates():
            self.others.setdefault((crate, path), set()).add(name)
        elif path.startswith('declared.'):
            definition = sources.code_type(crate, path, name)
            self.found[definition.place] = definition
        else:
            module = sources.module_of(crate, path)
            definition = module.definition_of(name)
            if definition is None and name in module.imports:
                # a name that the file hands on by `pub use`
                self.take(*module.imports[name])
                return
            if definition is None:
                raise SystemExit(f'{crate}, {path}: there is no definition {name}')
            if definition.place not in self.found:
                self.found[definition.place] = definition
                self.follow(definition)

    def follow(self, definition):
        """Takes all that a definition names."""
        text = definition.text.split('\n')[0] if definition.place.name in self.skipped else definition.text
        self.take_inside(definition.place.crate, definition.place.module, text)

    def take_inside(self, crate, path, text):
        """Takes all that these words of a file of specs/ name."""
        module = sources.module_of(crate, path)
        names = set(module.definitions) | {part for definition in module.definitions.values() for part in definition.parts}
        self.take_words(sources.plain(text, '--'), module.imports, (crate, path, names))

    def take_words(self, text, imports, local=None):
        """Takes all that these words name."""
        for crate, path, name in sources.targets(text, imports, local):
            self.take(crate, path, name)
