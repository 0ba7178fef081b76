"""What callers can name: the types, traits and functions that the public modules of a crate declare or pass on, by
the path that imports them; how a type is declared, as callers see it; and what impls ask of its parameters.
"""
import collections
import functools
import re

from source import (
    CLAUSE, LAYERS, TOP, angles, module_of, passed_on, public_files, sources, spaced, split_outside, without_lifetimes,
)

DECLARED = re.compile(r"pub (struct|enum|trait|type) (\w+)")
NAMED = re.compile(r"^pub (?:const )?(?:unsafe )?(?:struct|enum|trait|type|fn|const|static) (\w+)", re.M)
OWN_TYPE = re.compile(r"^(?:pub(?:\([a-z]+\))? )?(?:struct|enum|trait) (\w+)", re.M)
MOST_COLUMNS = 100
Parameter = collections.namedtuple("Parameter", "name bounds default")


def attributes_over(lines, at):
    """The line on which the attributes over a line begin."""
    while at and (lines[at - 1].lstrip().startswith("#[") or lines[at - 1].strip() in (")]", "]")):
        at -= 1
    return at


def comment_over(lines, at, mark="///"):
    """The comment over a line, behind its attributes: its lines without their marks."""
    at = first = attributes_over(lines, at)
    while first and lines[first - 1].lstrip().startswith(mark):
        first -= 1
    return [re.sub(r"^\s*///? ?", "", it) for it in lines[first:at]]


def first_paragraph(comment):
    return comment[: comment.index("")] if "" in comment else comment


def without_links(text):
    return re.sub(r"\[(`[^`]*`)\](\([^)]*\))?", r"\1", text)


def without_modules(text):
    """A trait or a bound without the modules before its name."""
    return re.sub(r"\b(?:[a-z_]\w*::)+", "", text)


def tight(text):
    """A text without the blanks that broken lines left inside brackets."""
    return re.sub(r",? ([)>])", r"\1", re.sub(r"([(<]) ", r"\1", text))


def is_balanced(text):
    return text.count("{") == text.count("}") and text.count("(") == text.count(")")


def signature(function):
    """A function's head on one line, without its clauses."""
    said, depth = [], 0
    for line in function.lines[function.first : (function.opens or function.first) + 1]:
        bare = line.partition(" // ")[0].strip()
        if depth or CLAUSE.match(line) and line is not function.lines[function.first]:
            depth += line.count("{") - line.count("}")
        elif not bare.startswith("//"):
            said.append(bare)
    text = spaced(" ".join(said)).removesuffix("{}").removesuffix("{").strip().removesuffix(" where")
    return tight(text.removeprefix("pub ")).rstrip(",;")


def parameters_in(given):
    """The parameters in angle brackets, each with its bounds and its default."""
    for part in split_outside(given):
        head, *default = split_outside(part, "=")
        name, *bounds = re.split(r"(?<!:):(?!:)", head, maxsplit=1)
        yield Parameter(name.strip(), split_outside("".join(bounds), "+"), "".join(default))


def parameter_text(parameter):
    bounds = f": {' + '.join(parameter.bounds)}" if parameter.bounds else ""
    return parameter.name + bounds + (f" = {parameter.default}" if parameter.default else "")


@functools.cache
def named(crate):
    """The names that callers of a crate can import, each with its shortest path."""
    found = {}
    for file in public_files(crate):
        text, modules = file.read_text(), [crate, *module_of(TOP / "crates" / crate, file)]
        for name in [*NAMED.findall(text), *(it.split("::")[-1] for it in passed_on(text))]:
            path = "::".join([*modules, name])
            found[name] = min(found.get(name, path), path, key=lambda it: it.count("::"))
    return found


@functools.cache
def declarations(crate):
    """The types, traits and aliases of a crate that are `pub`, whether or not callers can name them."""
    found = ((source, at) for source in sources(crate) for at, line in enumerate(source.lines) if DECLARED.match(line))
    return {it.name: it for it in (Declaration(crate, source, at) for source, at in found)}


def names_below(crates):
    """What only the layers that aren't among these crates let callers name."""
    return {name for crate in LAYERS if crate not in crates for name in named(crate)}


def origin(crate, name):
    """The crate that declares what a crate names, or none and the path that it is from outside of the layers."""
    if name in declarations(crate):
        return crate, None
    own = {it.path.stem for it in sources(crate)}
    paths = (it for source in sources(crate) for it in passed_on(source.text) if it.endswith(f"::{name}"))
    path = next((it for it in paths if it.split("::")[0] not in own), None)
    if not path:
        return crate, None
    first = path.split("::")[0]
    return origin(first, name) if first in LAYERS else (None, path)


@functools.cache
def types_of(crate):
    """The types and traits that a crate declares, for callers or not."""
    return {name for source in sources(crate) for name in OWN_TYPE.findall(source.text)}


def layer_blocks():
    return (it for crate in LAYERS for source in sources(crate) for it in source.blocks)


def layer_traits():
    """The traits that the layers declare, for callers or not."""
    return {it.type for it in layer_blocks() if it.is_trait}


def is_argument(bounds):
    """Whether what is asked of a parameter is one argument."""
    return bool(bounds) and bounds[0].startswith("=")


def stated(name, bounds):
    """What is asked of a parameter, as a `where` says it."""
    return f"{name} {bounds[0]}" if is_argument(bounds) else f"{name}: {' + '.join(bounds)}"


def beyond(asked, base):
    """What is asked of each parameter beyond a base."""
    return {name: [it for it in bounds if it not in base.get(name, [])] for name, bounds in asked.items()}


def common(asked):
    """The bounds that all of these ask of a parameter, but for those that ask for one argument."""
    found = {}
    for name in asked[0] if asked else []:
        bounds = [it.get(name, []) for it in asked if not is_argument(it.get(name))]
        found[name] = [it for it in bounds[0] if all(it in others for others in bounds)] if bounds else []
    return found


def with_where(text, asked):
    """A signature whose `where` has also what its impl asks."""
    head, _, own = text.partition(" where ")
    merged = dict(asked)
    for it in parameters_in(own):
        before = merged.get(it.name, [])
        merged[it.name] = [*before, *(bound for bound in it.bounds if bound not in before)]
    said = ", ".join(stated(name, bounds) for name, bounds in merged.items() if bounds)
    return f"{head} where {said}" if said else head


class Declaration:
    """A type, a trait or an alias: its parameters, what stands behind them up to its body, and its members."""

    def __init__(self, crate, source, first):
        self.crate, self.source, self.first = crate, source, first
        lines = source.lines
        self.kind, self.name = DECLARED.match(lines[first]).groups()
        is_end = (lines[at][:1].strip() and lines[at].endswith(("}", ";")) for at in range(first, len(lines)))
        self.last = first + list(is_end).index(True)
        self.opens = next((at for at in range(first, self.last) if lines[at].endswith("{")), None)
        head = spaced(" ".join(lines[first : self.last + 1])).partition(" {")[0]
        given, self.rest = angles(head[DECLARED.match(head).end() :])
        self.parameters = list(parameters_in(given))

    def comment(self):
        return comment_over(self.source.lines, self.first)

    def derived(self):
        """The traits that are derived."""
        text = " ".join(self.source.lines[attributes_over(self.source.lines, self.first) : self.first])
        for some in re.findall(r"#\[derive(?:_where)?\(([^;)]*)", text):
            yield from (without_modules(it) for it in split_outside(some))

    def blocks(self):
        """The impls of the type in all layers."""
        for crate in LAYERS:
            if crate == self.crate or self.name not in types_of(crate):
                blocks = (it for source in sources(crate) for it in source.blocks)
                yield from (it for it in blocks if it.type == self.name and not it.is_trait)

    def members(self):
        """Each member: the first paragraph of the comment over it, and what callers see of it, or None."""
        lines, at = self.source.lines, (self.opens or self.last) + 1
        while at < self.last:
            first, text = at, lines[at].strip()
            at += 1
            if not text or text.startswith(("//", "#[")):
                continue
            while at < self.last and not (text.endswith((",", ";")) and is_balanced(text)):
                text += f" {lines[at].strip()}"
                at += 1
            yield first_paragraph(comment_over(lines, first, "//")), self.seen(first, text)

    def seen(self, first, text):
        """What callers see of a member: of a struct's public fields alone, of a trait's ghost member its name."""
        if self.kind == "struct" and not text.startswith("pub ") or text.startswith("ghost use"):
            return None
        ghost = re.match(r"ghost \w+", text)
        function = next((it for it in self.source.functions if it.first == first), None)
        return f"{ghost[0]}: {{ .. }};" if ghost else f"{signature(function)};" if function else tight(spaced(text))

    def text(self, is_hidden):
        """The declaration, without the parameters that are hidden."""
        shown = [parameter_text(it) for it in self.parameters if not is_hidden(it)]
        members, seen = list(self.members()), []
        for comment, text in ((comment, text) for comment, text in members if text):
            seen += [*(f"    /// {without_links(it)}" for it in comment), f"    {text}"]
        head, body = f"pub {self.kind} {self.name}", "" if self.opens is None else " {" if seen else " { .. }"
        line = head + (f"<{', '.join(shown)}>" if shown else "") + self.rest + body
        if len(line) > MOST_COLUMNS:
            line = "\n".join([f"{head}<", *(f"    {it}," for it in shown), f">{self.rest}{body}"])
        if seen and self.kind == "struct" and not all(text for _, text in members):
            seen.append("    ..")
        return "\n".join([line, *seen, "}"]) if seen else line

    def asked(self, block):
        """What an impl of the type asks of the type's parameters, and of its own ones: of each its bounds, or `=` and
        the one argument."""
        given = without_lifetimes(block.of.partition("<")[2].removesuffix(">"))
        own = {it.name: it.bounds for it in parameters_in(block.given) if not it.name.startswith("'")}
        for it in parameters_in(block.where):
            own[it.name] = [*own.get(it.name, []), *it.bounds]
        found = {}
        for at, parameter in enumerate(it for it in self.parameters if not it.name.startswith("'")):
            argument = given[at] if at < len(given) else parameter.default
            is_own = argument in own
            found[argument if is_own else parameter.name] = own.pop(argument) if is_own else [f"= {argument}"]
        return found | own
