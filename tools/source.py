"""The sources of the crates: files, the blocks in them, functions with their clauses, and the names that the
prover gives them, for the scripts beside this file. All files are in the layout of `rt fmt`.
"""
import functools
import pathlib
import re

TOP = pathlib.Path(__file__).resolve().parent.parent
LAYERS = ["multimap_slots", "multimap_table", "multimap_walks", "ordered_multimap", "set_ordered_multimap", "ascii_caseless", "multimap_tool"]
PROGRAMS = ["program_parts", "group_report", "header_store", "config_reader", "query_fields", "multimap"]
BLOCK = re.compile(r"(?:pub(?:\([a-z]+\))? )?(?:unsafe )?(impl|trait)\b")
HEAD = re.compile(r'( *)(pub(?:\([a-z]+\))? )?(?:const )?(?:unsafe )?(?:extern "C" )?fn (\w+)')
CLAUSE = re.compile(r"\s*(ensures\*?|requires)(?!\w)\s*(\w*)")


def files_of(crate, parts, *endings, top=TOP):
    """The files of a crate's folders with these endings, folder by folder."""
    for part in parts:
        yield from (it for it in sorted((top / "crates" / crate / part).rglob("*")) if it.suffix in endings)


def spaced(text):
    return " ".join(text.split())


def split_outside(text, mark=","):
    """The parts of a text between the marks that stand in no bracket; an arrow's `>` is no bracket."""
    parts, depth = [""], 0
    for at, letter in enumerate(text):
        depth += letter in "<([" or -(letter in ")]" or letter == ">" and text[at - 1 : at] not in ("-", "="))
        if letter == mark and not depth:
            parts.append("")
        else:
            parts[-1] += letter
    return [it.strip() for it in parts if it.strip()]


def angles(text):
    """What stands in the angle brackets that a text begins with, and what stands behind them."""
    if not text.startswith("<"):
        return "", text
    depth = 0
    for at, letter in enumerate(text):
        depth += (letter == "<") - (letter == ">" and text[at - 1] not in "-=")
        if not depth:
            return text[1:at], text[at + 1 :]
    return text[1:], ""


class Block:
    """An impl or a trait: its lines, and the type and the trait that it is of, without their paths and
    parameters. A trait is a type here."""

    def __init__(self, lines, first):
        self.first, self.lines = first, lines
        self.last = next(at for at in range(first, len(lines)) if lines[at] == "}" or lines[at].endswith("{}"))
        self.header = spaced(" ".join(lines[first : self.last + 1]).partition(" {")[0])
        found = BLOCK.match(self.header)
        self.is_trait, rest = found[1] == "trait", self.header[found.end() :].strip()
        self.given, rest = angles(rest) if not self.is_trait else ("", rest)
        self.parameters = [re.match(r"(?:const )?([\w']+)", it)[1] for it in split_outside(self.given)]
        rest, _, self.where = (it.strip() for it in rest.partition(" where "))
        trait, _, self.of = rest.rpartition(" for ") if not self.is_trait else ("", "", rest)
        self.by = trait.strip()
        self.type = re.match(r"[&\s]*(?:'\w+ )?(?:mut )?(?:\w+::)*(\w*)", self.of)[1]
        self.trait = re.match(r"(?:\w+::)*(\w*)", self.by)[1] or None

    def text(self):
        return "\n".join(self.lines[self.first : self.last + 1])

    def members(self):
        """The names of the ghost members of the block, and their texts."""
        return re.findall(r"^    ghost (\w+) = (\{.*?\});$", self.text(), re.M | re.S)


class Clause:
    """A clause, on one line: `requires`, `ensures` or `ensures*`, its label or none, and the whole."""

    def __init__(self, text):
        self.text = spaced(text).rstrip(";")
        self.kind, self.label = CLAUSE.match(self.text).groups()
        self.bare = re.sub(r"^(ensures\*?|requires)\s*\w*", "", self.text)


class Function:
    """A function: its head, its clauses and its body, as numbers of lines, and the block that it is in."""

    def __init__(self, lines, first, block):
        self.first, self.block, self.lines = first, block, lines
        indent, seen, self.name = HEAD.match(lines[first]).groups()
        self.indent, self.seen = indent, (seen or "").strip()
        self.opens = self.closes = None
        self.clauses = []
        at = first
        while at < len(lines):
            line = lines[at]
            if at > first and (HEAD.match(line) or line and not line.startswith(indent)):
                break
            if CLAUSE.match(line) and at > first:
                text = line
                while text.count("{") > text.count("}"):
                    at += 1
                    text += f" {lines[at]}"
                self.clauses.append(Clause(text))
                if text.endswith(";"):
                    break
            elif line in (f"{indent}{{", f"{indent}{{}}") or (at == first or line.startswith(f"{indent})")) and line.endswith((" {", " {}", ";")):
                self.ends_head(at)
                break
            at += 1

    def ends_head(self, at):
        """A body begins on this line, is empty on it, or there is none."""
        if self.lines[at].endswith("{"):
            self.opens, self.closes = at, self.lines.index(f"{self.indent}}}", at)

    def is_public(self):
        """Whether callers can name it: what an impl of a trait has they can, and what a public trait has."""
        in_trait = self.block and (self.block.trait or self.block.header.startswith("pub trait"))
        return self.seen == "pub" or bool(in_trait and not self.seen)

    def owner(self):
        """The type that it is a method of, and `+` with the trait, or nothing."""
        block = self.block if self.indent else None
        return "" if not block else block.type + (f"+{block.trait}" if block.trait else "")

    def body(self):
        """How many lines the body has."""
        return self.closes - self.opens - 1 if self.opens is not None else 0

    def labels(self):
        """The labels of what it ensures; (1) of one clause without a label and no other."""
        found = [it.label for it in self.clauses if it.kind.startswith("ensures")]
        return {"(1)"} if found == [""] else set(found) - {""}


class Source:
    """A file of src/: its blocks, and its functions in their order."""

    def __init__(self, path, text=None):
        self.path, self.text = path, text or path.read_text()
        self.lines = self.text.split("\n")
        self.blocks = [Block(self.lines, at) for at, line in enumerate(self.lines) if BLOCK.match(line)]
        self.functions = [self.function(at) for at, line in enumerate(self.lines) if HEAD.match(line)]

    def function(self, at):
        block = next((it for it in self.blocks if it.first <= at <= it.last), None)
        return Function(self.lines, at, block)

    def function_at(self, offset):
        """The function that a place of the text is in: the last one whose head begins before it."""
        line = self.text[:offset].count("\n")
        return next((it for it in reversed(self.functions) if it.first <= line), None)


@functools.cache
def sources(crate, top=TOP):
    return [Source(it) for it in files_of(crate, ["src"], ".rt", top=top)]


def public_files(crate, module="lib"):
    """The files of the modules that callers can name."""
    path = TOP / "crates" / crate / "src" / f"{module}.rt"
    if path.is_file():
        yield path
        for below in re.findall(r"^pub mod (\w+);", path.read_text(), re.M):
            yield from public_files(crate, below if module == "lib" else f"{module}/{below}")


def passed_on(text):
    """The paths that a file's `pub use` lines pass on."""
    for path, names in re.findall(r"^pub use ([\w:]+?)(?:::\{([^}]*)\})?;", text, re.M):
        yield from (f"{path}::{it}" for it in split_outside(names)) if names else [path]


def public_types(files):
    """The types that these files declare or pass on."""
    for text in (it.read_text() for it in files):
        yield from re.findall(r"^pub (?:struct|enum|trait) (\w+)", text, re.M)
        yield from (it.split("::")[-1] for it in passed_on(text))


def encoded(kind, parameters):
    """A type as the prover's names spell it: type parameters and lifetimes are left out."""
    kind = kind.strip()
    if kind.startswith("&"):
        found = re.match(r"&\s*(?:'\w+\s*)?(mut )?(.*)", kind, re.S)
        return "Ref" + ("Mut" if found[1] else "") + encoded(found[2], parameters)
    if kind.startswith("["):
        return "Slice" + encoded(kind[1:-1], parameters)
    if kind.startswith("("):
        parts = split_outside(kind[1:-1])
        return f"Tuple{len(parts)}" + "".join(encoded(it, parameters) for it in parts)
    if kind in parameters or kind.startswith("'"):
        return ""
    path, _, given = kind.partition("<")
    name = "".join(it[:1].upper() + it[1:] for it in path.split("::"))
    return name + "".join(encoded(it, parameters) for it in split_outside(given.removesuffix(">")))


def module_of(crate, path):
    """The module of a file, as the prover's names begin."""
    parts = path.relative_to(crate / "src").with_suffix("").parts
    return [it for it in parts if it not in ("lib", "main")]


def prover_name(folder, source, function):
    """The name that the prover gives a function of a crate, without the crate's: a method is named after its
    type, in the type's module; where its impl is of some such types alone, after these, in its own module; or
    after type and trait, in its own module."""
    block, path = function.block, module_of(folder, source.path)
    if not block or not function.indent:
        return "::".join([*path, function.name])
    kind, trait = block.of, block.by
    bare = kind.partition("<")[0]
    if block.is_trait:
        return "::".join([*path, block.type, function.name])
    if not trait or block.trait == "Drop":
        given = without_lifetimes(kind.partition("<")[2].removesuffix(">"))
        declared = declaring(folder, bare)
        is_whole = all(it in block.parameters for it in given) and (not declared or len(given) == parameters_of(declared, bare))
        if not is_whole:
            return "::".join([*path, "+".join([bare, *given]), function.name])
        return "::".join([*(module_of(folder, declared) if declared else path), bare, function.name])
    of = "Any" if kind in block.parameters else encoded(kind if kind[0] in "&[(" else bare, block.parameters)
    name, _, given = trait.partition("<")
    words = [encoded(it, block.parameters) for it in split_outside(given.removesuffix(">"))]
    shown = "".join(it for it in words if it != of)
    return "::".join([*path, of + name.split("::")[-1] + shown, function.name])


def declares(kind):
    return re.compile(rf"^(?:pub(?:\([a-z]+\))? )?(?:struct|enum) {kind}\b", re.M)


def declaring(folder, kind):
    """The file of a crate that declares a type."""
    return next((it for it in sorted((folder / "src").rglob("*.rt")) if declares(kind).search(it.read_text())), None)


def without_lifetimes(given):
    return [it for it in split_outside(spaced(given)) if not it.startswith("'")]


def parameters_of(file, kind):
    """How many parameters a type has that the file declares, but for lifetimes."""
    text = file.read_text()
    return len(without_lifetimes(angles(text[declares(kind).search(text).end() :])[0]))
