"""The laws and lemmas that have no sentence above them, though readers of other crates meet them.

A law is the contract of a function of `src/laws.rt`. A sentence has to be above the function, above
each definition that one of its clauses states, above each answer, and above each lemma that an
answer cites. One has to be above each lemma that another crate cites, too, also if it cites the
lemma by way of a `pub use`.
"""
import os
import re
from typing import Dict, Iterator, List, NamedTuple, Optional, Set, Tuple

NAME = r'[^\s(){}\[\],;:.@=|]+'
KINDS = r'(?:(?:abbrev|unfoldable|opaque|pub|data|record|type) )*'
HEAD = re.compile(r' *(%s)(%s)(?: [^:=]*)? : ' % (KINDS, NAME))
MODULE = re.compile(r' *(?:pub )?module ')
USE = re.compile(r'(?m)^ *(pub |ghost )?use Rattle\.(\w+)\.(specs|proofs)((?:\.\w+)*)\.?'
                 r'(?:\{([^}]*)\}| as (\w+))?')
LAW = re.compile(r'(?ms)^pub fn (\w+)[^\n]*\n(.*?)^\{\}')
STATED = re.compile(r'ensures (?:\w+ )?\{ ([A-Z]\w*)\b')

# a crate, `specs` or `proofs`, a module, and a name
Key = Tuple[str, str, str, str]


class Item(NamedTuple):
    """Where an item stands, whether it is a definition, and whether a sentence is above it."""
    path: str
    line: int
    is_definition: bool
    has_sentence: bool


class Use(NamedTuple):
    """A `use` line: the names that it takes from a module, and whether it passes them on."""
    passes_on: bool
    crate: str
    kind: str
    module: str
    names: List[str]
    alias: str

    def key(self, name: str) -> Key:
        return self.crate, self.kind, self.module, name


def uses_of(text: str) -> Iterator[Use]:
    """The `use` lines of a text, also one over several lines."""
    for more, crate, kind, module, names, alias in USE.findall(text):
        listed = [name.strip().split(' as ')[0] for name in names.split(',') if name.strip()]
        yield Use(more == 'pub ', crate, kind, module[1:], listed, alias or module.split('.')[-1])


def has_sentence(lines: List[str], index: int) -> bool:
    """Whether a comment is above a line; a bar, which heads several items, is none."""
    above = lines[index - 1].strip() if index else ''
    return above.startswith(('-- ', '/// ')) and not above.startswith('-- ----')


def items_of(path: str, lines: List[str]) -> Iterator[Tuple[str, Item]]:
    """The items of a file, by name: its own, and those of the modules within it."""
    depths = [0]
    for index, line in enumerate(lines):
        depth = len(line) - len(line.lstrip())
        if not line.strip() or line.lstrip().startswith('--'):
            continue
        while len(depths) > 1 and depth < depths[-1]:
            depths.pop()
        head = HEAD.match(line)
        if MODULE.match(line):
            depths.append(depth + 2)
        elif depth == depths[-1] and head:
            is_definition = head.group(1) not in ('', 'pub ')
            yield head.group(2), Item(path, index + 1, is_definition, has_sentence(lines, index))


class Sources:
    """The `.antt` and `.rt` files of a repository's crates."""

    def __init__(self, top: str) -> None:
        self.texts: Dict[str, str] = {}
        self.items: Dict[Key, Item] = {}
        self.passed_on: Dict[Key, Key] = {}
        for path in sorted(paths_of(top)):
            with open(os.path.join(top, path), encoding='utf-8') as file:
                self.texts[path] = file.read()
            if path.endswith('.antt'):
                self.add(path)

    def add(self, path: str) -> None:
        _, crate, kind, rest = path.split('/', 3)
        module = rest[:-len('.antt')].replace('/', '.')
        for name, item in items_of(path, self.texts[path].split('\n')):
            self.items.setdefault((crate, kind, module, name), item)
        for use in uses_of(self.texts[path]):
            if use.passes_on:
                self.passed_on.update({(crate, kind, module, name): use.key(name) for name in use.names})

    def item(self, key: Key) -> Optional[Item]:
        while key in self.passed_on:
            key = self.passed_on[key]
        return self.items.get(key)

    def cited(self, path: str) -> Iterator[Tuple[Key, Item]]:
        """The items that a file names in its `use` lines, or by the name of a module that it uses."""
        text = self.texts[path]
        for use in uses_of(text):
            names = use.names or re.findall(r'(?<![\w.])%s\.(%s)' % (use.alias, NAME), text)
            for key in map(use.key, names):
                item = self.item(key)
                if item:
                    yield key, item

    def lemmas_cited(self) -> Set[Item]:
        """The items of `proofs`, and the lemmas of `specs`, that another crate cites."""
        return {item for path in self.texts for key, item in self.cited(path)
                if key[0] != path.split('/')[1] and (key[1] == 'proofs' or not item.is_definition)}

    def laws(self) -> Iterator[Set[Item]]:
        """Each law, as the items that need a sentence: the first is its function."""
        for path, text in self.texts.items():
            if not path.endswith('/src/laws.rt'):
                continue
            lines, crate = text.split('\n'), path.split('/')[1]
            stated = {key[3]: item for key, item in self.cited(path)}
            for law in LAW.finditer(text):
                index = text.count('\n', 0, law.start())
                function = Item(path, index + 1, False, has_sentence(lines, index))
                clauses = {stated[name] for name in STATED.findall(law.group(2)) if name in stated}
                yield {function} | clauses | self.answers(crate, law.group(1))

    def answers(self, crate: str, law: str) -> Set[Item]:
        """The answers to a law's clauses, and the lemmas that they cite."""
        prefix = 'laws.%s.' % law
        answers = {item for key, item in self.items.items()
                   if key[:2] == (crate, 'proofs') and key[2].startswith(prefix)}
        files = {item.path for item in answers}
        return answers | {item for path in files for key, item in self.cited(path) if key[1] == 'proofs'}


def paths_of(top: str) -> Iterator[str]:
    for folder, folders, names in os.walk(os.path.join(top, 'crates')):
        folders[:] = [name for name in folders if name not in ('out', 'must-fail')]
        for name in names:
            if name.endswith(('.antt', '.rt')):
                yield os.path.relpath(os.path.join(folder, name), top)


def check_laws(top: str, faults: List[str]) -> None:
    """Adds each law, and each lemma that another crate cites, that has no sentence above it."""
    sources = Sources(top)
    laws = list(sources.laws())
    if not laws:
        faults.append('crates: no law is found in any src/laws.rt')
    for item in sorted(sources.lemmas_cited().union(*laws)):
        if not item.has_sentence:
            faults.append('%s:%d: a law, or a lemma that another crate cites, has no sentence above it'
                          % (item.path, item.line))
