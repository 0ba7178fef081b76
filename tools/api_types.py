"""A type as docs/API.md shows it: its declaration, its calls with what they ask, and its traits. It stands on
declared.py.
"""
import collections
import re

from declared import (
    beyond, common, first_paragraph, layer_blocks, layer_traits, named, names_below, parameters_in, signature, stated,
    tight, with_where, without_links, without_modules,
)
from source import TOP, sources, spaced, without_lifetimes

CRATES = ["ordered_multimap", "set_ordered_multimap", "ascii_caseless", "multimap_tool", "multimap_walks"]
# Traits that only proofs use.
PROOF_TRAITS = {"Model"}
UNNAMED = names_below(CRATES)


def words(text):
    return set(re.findall(r"\w+", text))


def summary(comment):
    """The first paragraph of a comment, and what to call with a query where the call takes none."""
    text, whole = (without_links(" ".join(it)) for it in (first_paragraph(comment), comment))
    return " ".join([text, *re.findall(r"For a query see [^.]*\.", whole)])


def link(name, source):
    return f"[`{name}`](../{source.path.relative_to(TOP)})"


def calls_in(crate):
    """The public calls of a crate, functions and methods of types, that callers can name."""
    for source in sources(crate):
        for function in (it for it in source.functions if it.seen == "pub"):
            block = function.block if function.indent else None
            is_method = block and not block.trait and not block.is_trait and block.type in named(crate)
            if is_method or not block and function.name in named(crate):
                yield source, function


class Outside:
    """A type that a crate passes on from outside of the layers, with the paths by which both crates name it."""

    kind, crate, calls, common = "use", None, [], {}

    def __init__(self, path, outside):
        self.path, self.outside, self.name = path, outside, path.split("::")[-1]

    def head(self):
        return f"Passed on from `{self.outside.rpartition('::')[0]}`."

    def text(self):
        return f"pub use {self.outside};"

    all_text = text

    def unknown(self, *_given):
        return set()

    traits = implements = converts = implementors = unknown


class Type:
    """A type, a trait or an alias, with the path that imports it."""

    def __init__(self, path, declaration):
        self.path, self.declaration = path, declaration
        self.name, self.kind, self.crate = declaration.name, declaration.kind, declaration.crate
        of_type = (it for it in calls_in(declaration.crate) if it[1].indent and it[1].block.type == self.name)
        self.calls = [it for it in of_type if not words(signature(it[1])) & UNNAMED]
        self.hidden = [it.name for it in declaration.parameters if self.hides(it)]
        # What all calls ask.
        self.common = common([self.asked(it.block, {}) for _, it in self.calls])

    @staticmethod
    def hides(parameter):
        """Whether a parameter is left out, since users can name no argument for it."""
        return parameter.default and words(" ".join(parameter.bounds)) & UNNAMED

    def bare(self, text):
        """A text without the arguments for hidden parameters."""
        for name in self.hidden:
            text = re.sub(rf", {name}(?=[,>])", "", text)
        return text

    def asked(self, block, base):
        """What an impl asks beyond a base."""
        found = beyond(self.declaration.asked(block), base)
        return {name: bounds for name, bounds in found.items() if name not in self.hidden}

    def signature(self, function):
        return self.bare(with_where(signature(function), self.asked(function.block, self.common)))

    def head(self):
        said = summary(self.declaration.comment())
        return f"{link(self.name, self.declaration.source)}: {said}"

    def text(self):
        return self.bare(self.declaration.text(self.hides))

    def all_text(self):
        return "\n".join([self.text(), *(self.signature(it) for _, it in self.calls)])

    def traits(self):
        """The names of the traits that the type derives or that an impl gives to it."""
        return {*self.declaration.derived(), *(it.trait for it in self.declaration.blocks() if it.trait)}

    def impl(self, block):
        """A trait as an impl gives it to the type, or to a reference to the type."""
        trait, item = tight(without_modules(block.by)), re.search(r"^    type Item = (.*?);", block.text(), re.M | re.S)
        if item and block.trait in ("Iterator", "IntoIterator"):
            trait += f"<Item = {spaced(item[1])}>"
        lent = re.match(r"&\s*(?:'\w+ )?(?:mut )?", block.of)
        given = without_lifetimes(block.of.partition("<")[2].removesuffix(">"))
        own = [it.name for it in self.declaration.parameters if not it.name.startswith("'")]
        of = f" for {lent[0]}Self" if lent else f" for {tight(block.of)}" if given != own else ""
        return self.bare(trait + of)

    def needs(self, block):
        """What an impl of a trait asks beyond the declaration, but for the trait itself, which a derive asks too."""
        base = {it.name: it.bounds for it in self.declaration.parameters}
        for name, bounds in self.asked(block, base).items():
            some = [it for it in map(without_modules, bounds) if it != block.trait and not it.startswith("'")]
            if some:
                yield stated(name, some)

    def implements(self, shown):
        """The traits of the type, but for those of the layers that aren't shown: in a line those that need the same."""
        unseen = PROOF_TRAITS | layer_traits() - set(shown)
        needs = dict.fromkeys(self.declaration.derived(), "")
        for block in (it for it in self.declaration.blocks() if it.trait and it.trait not in unseen):
            needs[self.impl(block)] = ", ".join(self.needs(block))
        for need in sorted({*needs.values()}):
            names = ", ".join(f"`{it}`" for it in sorted(needs) if needs[it] == need)
            yield f"{names} where `{need}`" if need else names

    def converts(self):
        """What `?` makes of the type."""
        for block in layer_blocks():
            if block.trait == "From" and re.match(rf"From<{self.name}\b", block.by):
                yield tight(block.of)

    def implementors(self):
        """What implements a trait, in a line for each type where the trait has arguments."""
        found = collections.defaultdict(list)
        for block in (it for it in layer_blocks() if it.trait == self.name):
            bounds = next((it.bounds for it in parameters_in(block.given) if it.name == block.of), None)
            found[stated(block.of, bounds) if bounds else tight(block.of)].append(tight(block.by))
        if all(it == [self.name] for it in found.values()):
            return [", ".join(f"`{it}`" for it in found)] if found else []
        return [f"`{of}`: {', '.join(f'`{it}`' for it in found[of])}" for of in sorted(found)]
