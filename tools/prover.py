"""The prover, its crates and what it says, for the scripts beside this file."""
import pathlib
import re
import shutil

from source import Source, prover_name

KIT = pathlib.Path(shutil.which("rt") or "/").resolve().parent.parent


class Crate:
    """A crate of crates.txt, in a tree."""

    def __init__(self, name, uses, folder):
        self.name, self.uses, self.folder = name, uses, folder

    def edits(self):
        return sorted((self.folder / "must-fail").glob("*.edit"))

    def lines(self, part, ending):
        return sum(len(it.read_bytes().splitlines()) for it in (self.folder / part).rglob(f"*{ending}"))

    def memory(self):
        """About the most bytes that a check of edits takes, in which most functions have no body."""
        proofs = self.lines("specs", ".antt") + self.lines("proofs", ".antt")
        return 1_000_000_000 + 120_000 * self.lines("src", ".rt") + 24_000 * proofs


def crates_in(top):
    found = {}
    for line in (top / "crates.txt").read_text().splitlines():
        head, _, uses = line.partition("#")[0].partition(":")
        if head.strip():
            name = head.split()[0]
            found[name] = Crate(name, uses.split(), top / "crates" / name)
    return found


def below(crate, crates):
    """The libraries of the tree below a crate."""
    found = []
    for name in crate.uses:
        if name in crates:
            found += [it for it in [*below(crates[name], crates), name] if it not in found]
    return found


FINDING = re.compile(r"note: src/\S+: .*\(`([^`]+)`\)")
VERDICT = re.compile(r"fn (\S+): (.*)")
UNCOVERED = re.compile(r"^note: the borrow checker has no part in the proof of `([^`]+)`", re.M)
ERROR = re.compile(r"\./proofs/(\S+)/(\w+\.antt):(\d+):\d+: error: `([^`]+)`")


class Report:
    """What a check says of each function: whether it is proved, and the goals of its own that are left."""

    def __init__(self, said, crate):
        self.verdicts, self.goals, self.crate = {}, {}, crate
        self.unknown = re.findall(r"^rattle: error: .* no function `([^`]+)`", said, re.M)
        self.uncovered = {it.removeprefix(f"{crate.name}::") for it in UNCOVERED.findall(said)}
        self.has_reached_the_prover = re.search(r"^(only=\d+ |rattle: no verdict)", said, re.M) is not None
        found = []
        for line in said.split("\n"):
            finding, verdict, error = FINDING.match(line), VERDICT.match(line), ERROR.match(line)
            if finding:
                found.append(label(finding[1]))
            elif error:
                self.add(error[1].replace("/", "::"), [self.label_at(error)])
            elif verdict:
                function = verdict[1].removeprefix(f"{crate.name}::")
                listed = re.findall(r"`([^`]+)`", verdict[2].partition("`search` did not prove ")[2])
                self.verdicts[function] = verdict[2]
                self.add(function, [*found, *(label(it) for it in listed if "::" not in it)])
                found = []

    def add(self, function, goals):
        self.goals[function] = list(dict.fromkeys([*self.goals.get(function, []), *goals]))

    def label_at(self, error):
        """What an answer that is refused shows: a clause, or, where it shows several, the outermost field that it is in."""
        path, file, line, goal = error.groups()
        if "clause-" in goal or file == "Proof.antt":
            return label(goal)
        field, indent = None, 1000
        lines = (self.crate.folder / "proofs" / path / file).read_text().split("\n")
        for text in reversed(lines[: int(line)]):
            found = re.match(r"( +)(\w+) = ", text)
            if found and len(found[1]) < indent:
                field, indent = found[2], len(found[1])
            if re.match(r"\S", text):
                break
        if not field:
            return goal
        return field if goal.startswith("returns") else f"{goal}.{field}"

    def of_closures(self, function):
        """The goals that are left of the closures in a function's body."""
        path = function.split("::")
        at = len(path) - (2 if path[-2:-1] and path[-2][:1].isupper() else 1)
        within = "::".join([*path[:at], "fn", *path[at:], ""])
        return [goal for name, goals in self.goals.items() if name.startswith(within) for goal in goals]

    def of(self, function):
        """'own', 'calls', 'proved' or 'unknown', and the goals that are left, those of its closures too."""
        names = [it for it in self.verdicts if it == function or it.endswith(f"::{function}")]
        if len(names) != 1:
            return "unknown", []
        verdict, goals = self.verdicts[names[0]], [*self.goals[names[0]], *self.of_closures(names[0])]
        if verdict == "proved":
            return "proved", []
        if "could not tell" in verdict:
            return "unknown", []
        return ("own" if goals else "calls"), goals


def label(goal):
    return goal.rpartition("clause-")[2]


def check_command(crate, crates, built, only):
    """The command that checks these functions of a crate, over the libraries that stand built."""
    root = "src/main.rt" if (crate.folder / "src/main.rt").exists() else "src/lib.rt"
    words = [KIT / "bin/rattle", "check", "--crate-name", crate.name, root]
    kits = ["std", *(it for it in crate.uses if it not in crates)]
    words += [it for name in kits for it in ("--extern", f"{name}={KIT}/rlibs/{name}.rlib")]
    words += ["-L", f"dependency={KIT}/rlibs"]
    folder_of = lambda name: built / "crates" / name / "out/rlib"
    own = [it for it in crate.uses if it in crates]
    words += [it for name in own for it in ("--extern", f"{name}={folder_of(name)}/{name}.rlib")]
    words += [it for name in below(crate, crates) for it in ("-L", f"dependency={folder_of(name)}")]
    words += ["--antt-project", KIT / "rattle/logic/antt-project.json", "--logic-built", KIT / "logic_built"]
    words += ["--links", f"{crate.name}=", "--jobs", "1", "--incremental", "out/incremental"]
    return [*words, *(it for name in sorted(only) for it in ("--only", name))]


ANSWER = """use Rattle.{}.Goals as goal

pub unreachable-requires : goal.unreachable-requires
unreachable-requires = ?
"""


def take_bodies_out(crate, kept):
    """Gives each function but those that are kept a body that no proof admits, with an answer that fails at once.

    The proof of a function stands on the contracts of what it calls, so this says the same of those that are kept.
    """
    for file in sorted((crate.folder / "src").rglob("*.rt")):
        source, made, at = Source(file), [], 0
        for function in source.functions:
            name = prover_name(crate.folder, source, function)
            if function.opens is None or name in kept or function.first < at:
                continue
            made += [*source.lines[at : function.opens + 1], f"{function.indent}    unreachable!()"]
            at = function.closes
            folder = crate.folder / "proofs" / name.replace("::", "/")
            for part in ("Proof", "Invariants"):
                (folder / f"{part}.antt").unlink(missing_ok=True)
            folder.mkdir(parents=True, exist_ok=True)
            (folder / "Answers.antt").write_text(ANSWER.format(".".join([crate.name, "proofs", *name.split("::")])))
        file.write_text("\n".join([*made, *source.lines[at:]]))
