"""Which definitions a contract rests on: those that it cites, and those that these cite.

A definition's words are those of its signature and its lines, without the sentences above it. What
a type of Rust declares is named by its file, what another library defines by its module.
"""
import os
import re

NAME = r"[^\s(){}\[\],;:.@=|]+"
# a definition begins with its name and its type, perhaps in a module within the file
HEAD = re.compile(r"( {0,2})(?:(?:abbrev|unfoldable|opaque|pub|data|record) )*(%s)(?: [^:]*)? : "
                  % NAME)
FIELD = re.compile(r"(?m)^ +(?:pub )?(%s) : " % NAME)
USE = re.compile(r"(?:pub |ghost )*use Rattle\.([\w.]+?)\.?(?:\{([^}]*)\}| as (\w+))?;?\s*$")


class Use:
    """A `use` line: the crate and module, and what names it brings in, or None for the module."""

    def __init__(self, path, names, alias):
        self.crate, _, self.module = path.partition(".specs.")
        listed = [name.strip() for name in (names or "").split(",") if name.strip()]
        pairs = [(name.split(" as ")[-1], name.split(" as ")[0]) for name in listed]
        self.names = dict(pairs) if names else None
        self.alias = alias or path.rsplit(".", 1)[-1]


def uses_of(text):
    """The `use` lines of a text."""
    found = (USE.match(line.strip()) for line in text.split("\n"))
    return [Use(*match.groups()) for match in found if match]


class Module:
    """A file of definitions: what it uses, and each definition's text, without comments."""

    def __init__(self, text):
        self.uses, self.texts, self.owners = uses_of(text), {}, {}
        name = indent = None
        for line in text.split("\n"):
            bare = line.strip()
            if bare.startswith("--") or USE.match(bare):
                continue
            if re.match(r"(?:pub )?(?:module|infix\w*) ", bare):
                name = None
                continue
            head = HEAD.match(line)
            if not bare:
                name = None
            elif head and (name is None or head.group(1) == indent):
                indent, name = head.groups()
                self.texts[name] = self.texts.get(name, "") + line + "\n"
            elif name is not None:
                self.texts[name] += line + "\n"
        for name, body in self.texts.items():
            if re.match(r" *(?:pub )?(?:data|record) ", body):
                self.owners.update({field: name for field in FIELD.findall(body)})

    def owner(self, name):
        """The definition that has a name: itself, or the type of which it is a field or a case."""
        return name if name in self.texts else self.owners.get(name)


def words_in(text):
    """The words of a text, also the parts of one with points."""
    found = set(re.findall(r"[^\s(){}\[\],;]+", text))
    return found | {part for word in found for part in word.split(".")}


class Definitions:
    """All files of definitions of the crates under a folder."""

    def __init__(self, top):
        self.top, self.modules = top, {}

    def module(self, crate, name):
        """A file of definitions, or None where there is none."""
        if (crate, name) not in self.modules:
            file_name = name.replace(".", "/") + ".antt"
            path = os.path.join(self.top, "crates", crate, "specs", file_name)
            self.modules[crate, name] = None
            if os.path.isfile(path):
                with open(path, encoding="utf-8") as file:
                    self.modules[crate, name] = Module(file.read())
        return self.modules[crate, name]

    def cited(self, text, uses):
        """What a text cites by its `use` lines, as (crate, module, name)."""
        words = words_in(text)
        for use in uses:
            if use.names is None:
                found = {word.split(".")[1] for word in words if word.startswith(use.alias + ".")}
                yield from ((use.crate, use.module, name) for name in found)
                continue
            for here in words & set(use.names):
                name = use.names[here]
                inner = "%s.%s" % (use.module, name) if use.module else name
                if self.module(use.crate, inner) and not self.has(use.crate, use.module, name):
                    found = {word.split(".")[1] for word in words if word.startswith(here + ".")}
                    yield from ((use.crate, inner, other) for other in found)
                else:
                    yield use.crate, use.module, name

    def has(self, crate, module, name):
        found = self.module(crate, module)
        return bool(found) and found.owner(name) is not None

    def closure(self, text, uses):
        """What a contract rests on: definitions, as (crate, module, name); other modules."""
        open_ones, seen, others = list(self.cited(text, uses)), set(), set()
        while open_ones:
            crate, module, name = open_ones.pop()
            found = self.module(crate, module)
            if found is None:
                others.add((crate, module))
                continue
            owner = found.owner(name)
            if owner is None or (crate, module, owner) in seen:
                continue
            seen.add((crate, module, owner))
            body = found.texts[owner]
            open_ones += self.cited(body, found.uses)
            own = {found.owner(word) for word in words_in(body)} - {None, owner}
            open_ones += [(crate, module, word) for word in own]
        return seen, others

    def words(self, crate, module, name):
        return len(self.module(crate, module).texts[name].split())
