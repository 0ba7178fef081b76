"""Runs of ./install, repositories to run it on, what is in them, and the steps of GUIDE, for tools/installs."""
import pathlib
import re
import subprocess
import tempfile

TOP = pathlib.Path(__file__).resolve().parent.parent
SECONDS = 100


class Ran:
    """What a run of ./install gave: its status, and its text on standard output and on standard error."""

    def __init__(self, copy, words, **more):
        done = subprocess.run([copy / "install", *words], capture_output=True, text=True, timeout=SECONDS, **more)
        self.status, self.output, self.error = done.returncode, done.stdout, done.stderr

    def fault(self, status, *telling):
        """What is wrong in it, if it should have ended so, with these words on standard error."""
        lines = self.error.splitlines()
        is_plain = all(line.startswith(("install: ", "usage: ")) for line in lines) and bool(lines) == bool(status)
        if self.status != status or not is_plain or bool(self.output) == bool(status):
            return f"status {self.status}, where {status} was wanted: {self.output}{self.error}"
        return next((f"'{it}' isn't in: {self.error}" for it in telling if it not in self.error), None)


def contents(folder):
    """All that is in a folder: the mode of each, and what a file holds."""
    places = [folder, *folder.rglob("*")]
    return {str(it.relative_to(folder)): (it.lstat().st_mode, it.read_bytes() if it.is_file() else None) for it in places}


def others(wanted, found):
    """The names that aren't in both with the same value."""
    return sorted(it for it in {*wanted, *found} if it not in wanted or it not in found or wanted[it] != found[it])


def change(folder, before):
    """What is otherwise in a folder, or None."""
    changed = others(before, contents(folder))
    return f"{len(changed)} changed in the folder, as {changed[0]}" if changed else None


def files_of(crate, left_out=()):
    """The files of a crate, and what they hold, but for those in these of its folders."""
    places = {str(it.relative_to(crate)): it for it in crate.rglob("*") if it.is_file()}
    return {name: it.read_bytes() for name, it in places.items() if name.partition("/")[0] not in left_out}


def wanted_of(name):
    """What is to be installed of a crate of this repository."""
    return files_of(TOP / "crates" / name, ("must-fail", "out"))


def line_of(name):
    return next(line for line in (TOP / "crates.txt").read_text().splitlines(True) if line.startswith(f"{name}:"))


def new_repository(room, text=""):
    folder = pathlib.Path(tempfile.mkdtemp(dir=room)) / "mine"
    (folder / "crates").mkdir(parents=True)
    (folder / ".git").mkdir()
    (folder / "crates.txt").write_text(text)
    return folder


def installed(copy, room):
    """A new repository with the crates."""
    folder = new_repository(room)
    Ran(copy, [folder])
    return folder


def blocks_of_guide():
    """The blocks of GUIDE's section on installing: the mark, the block, and the text before it."""
    text = (TOP / "docs/GUIDE.md").read_text().partition("\n## Install\n")[2].partition("\n## ")[0]
    parts = re.split(r"^```(\w+)\n(.*?)^```\n", text, flags=re.M | re.S)
    return list(zip(parts[1::3], parts[2::3], parts[0::3]))


def script_of(steps, room):
    """The steps as a script, of which the last one alone writes to standard output, and the program's file, if it is named."""
    lines, place = [], None
    for number, (mark, block, before) in enumerate(steps, 1):
        if mark == "sh":
            lines.append(block if number == len(steps) else f"{{\n{block}}} >&2\n")
        else:
            found = re.search(r"`([\w/]+/main\.rt)`.*?`(#!\[.*?\])`", before, re.S)
            place, kept = found.groups() if found else (None, None)
            (room / "program").write_text(f"\n{block}")
            lines.append(f"grep -Fx '{kept}' {place} > {room}/main\ncat {room}/program >> {room}/main\ncp {room}/main {place}\n")
    return "".join(lines), place
