"""Runs of config_reader on random settings, and on files of this machine's packages that git reads, and what git says of
them, for tools/beside.

A text that both read, both have to read alike, but for tabs within a value, which git reads as blanks before version
2.45. One that git refuses, config_reader refuses too. One that git reads it may refuse for a reason that docs/TOOLS.md
lists, since other readers take it otherwise.
"""
import pathlib
import subprocess
import tempfile

SECONDS = 60
ENDINGS = (".ini", ".cfg", ".conf", ".desktop")
# What config_reader says of lines that others read otherwise.
OTHERWISE = ("indented more than the setting above it", "# or ; in a word without quotes", "capital behind the dot of a section",
             "not a section or a setting", "not the name of a section", "no line behind a backslash", "not UTF-8")
SECTIONS = ["[a]", "[A]", "[b]", '[a "x"]', '[a "X y"]', '[a "q\\"r"]', "[b.c]", "[ a]", "[a", '[a""]', '[a "x" ]', "[]", "[d-1]", '[a "x.y"]', "[a]\tk = v"]
KEYS = ["k", "K", "key-2", "url", "k1", "k k", ""]
PIECES = ["v", "value", "1", " ", "  ", '"', '"a b"', '" # ; "', "\\\"", "\\\\", "\\n", "\\t", "\\b", "\\x", "\\", "#", " # c", " ; c", ";", "=", "'", "é", "\\\n",
          "\\\n  "]
NAMES = ["a.k", "A.K", "a.x.k", "a.X y.key-2", "b.url", "b.c.k", "d-1.k1", "a.x.y.k", "no.k"]
VALUES = ["v", "", " v ", "a b", '"', "a#b", "a;b", "\\", "x\ny", "é", "'", "=", "a\\nb"]


def text_of(draw):
    lines = []
    for _ in range(draw.randrange(1, 9)):
        kind = draw.randrange(10)
        if kind < 3:
            lines.append(draw.choice(SECTIONS if kind == 2 else SECTIONS[:5]))
        elif kind == 3:
            lines.append(draw.choice(["", "# c", "; c", "  ", "\t# c"]))
        else:
            key = draw.choice(KEYS if kind == 4 else KEYS[:5])
            sign = draw.choice([" = ", "=", " =", " = ", "", ": "] if kind == 5 else [" = ", "="])
            value = "".join(draw.choice(PIECES) for _ in range(draw.choice([0, 1, 1, 2, 3]))) if sign else ""
            lines.append(f"{draw.choice(['', '', chr(9), '  '])}{key}{sign}{value}")
    return "\n".join(lines) + draw.choice(["\n", "\n", ""])


class GitRun:
    """A run of config_reader, and the output and the status that git stands for, None where it refuses the file. Of a
    command that changes the file `judge` says what is wrong with the output, or None."""

    def __init__(self, words, text, wanted, judge=None):
        self.words, self.text, self.wanted, self.judge = words, text, wanted, judge

    def difference(self, program):
        """What differs in a run of the program, or None."""
        ran = subprocess.run([program, *self.words], input=self.text, capture_output=True, timeout=SECONDS)
        said, found = ran.stderr.decode(errors="replace").strip(), (ran.stdout, ran.returncode)
        is_refused = found == (b"", 2) and bool(said)
        if is_refused and any(it in said for it in OTHERWISE):
            return None
        if self.judge and ran.returncode == 0:
            wanted = self.judge(ran.stdout)
        else:
            wanted = None if is_refused and self.wanted is None or found == self.wanted else self.wanted or "a refusal"
        return wanted and f"words {self.words}, standard input {self.text.decode()!r}\n  found  {found} {said}\n  wanted {wanted}"


class Git:
    """git's config of a file with this text."""

    def __init__(self, text):
        self.folder = tempfile.TemporaryDirectory()
        self.file = pathlib.Path(self.folder.name) / "config"
        self.file.write_bytes(text)

    def say(self, *words):
        """What git prints, and its status."""
        ran = subprocess.run(["git", "config", "-f", self.file, *words], capture_output=True, timeout=SECONDS)
        return ran.stdout, ran.returncode

    def settings(self):
        """The settings, each with its value, or None where git refuses the file."""
        said, status = self.say("--list", "-z")
        return None if status else said


def others(settings, name):
    section, _, key = name.rpartition(".")
    word, dot, quoted = section.partition(".")
    called = f"{word.lower()}{dot}{quoted}.{key.lower()}".encode()
    return [it for it in settings.split(b"\0") if it.partition(b"\n")[0] != called]


def judge_set(before, name, value):
    """What is wrong with a text that config_reader wrote, as git reads it, or None."""

    def judge(text):
        git = Git(text)
        after = git.settings()
        if after is None:
            return "a text that git reads"
        if git.say("--get-all", "-z", name) != (value.encode() + b"\0", 0):
            return f"one value {value!r} of {name}, where git reads {git.say('--get-all', '-z', name)}"
        return None if others(after, name) == others(before, name) else f"the other settings {others(before, name)}, where git reads {others(after, name)}"

    return judge


def installed():
    """The texts of the files of settings that the machine's packages have, if git reads them."""
    for top in ("/usr/share", "/etc"):
        for file in sorted(pathlib.Path(top).rglob("*")):
            if (file.suffix in ENDINGS or file.name == "gitconfig") and file.is_file() and not file.is_symlink():
                text = file.read_bytes()
                settings = Git(text).settings()
                if settings is not None:
                    yield text, settings


def runs(draw, count):
    for text, settings in installed():
        yield GitRun(["-z", "-", "list"], text, (settings, 0 if settings else 1))
    for _ in range(count):
        text = text_of(draw).encode()
        git = Git(text)
        before = git.settings()
        if before is None:
            yield GitRun(["-z", "-", "list"], text, None)
            continue
        kind, name = draw.randrange(4), draw.choice(NAMES)
        if kind < 2:
            yield GitRun(["-z", "-", "list"], text, (before, 0 if before else 1))
        elif kind == 2:
            word, option = draw.choice([("get", "--get"), ("all", "--get-all")])
            yield GitRun(["-", word, name], text, git.say(option, name))
        else:
            value = draw.choice(VALUES)
            yield GitRun(["-", "set", name, value], text, "a change", judge_set(before, name, value))
