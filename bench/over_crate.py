"""Builds programs over the original crate, as Debian packages it."""
import contextlib
import fcntl
import pathlib
import re
import shutil
import subprocess
import sys

BENCH = pathlib.Path(__file__).resolve().parent
TOP = BENCH.parent
OUT = BENCH / "out"
SCRIPT = "/".join(pathlib.Path(sys.argv[0]).resolve().parts[-2:])


@contextlib.contextmanager
def alone():
    """Keeps other threads and scripts from the project and cargo's settings, while they are written and read."""
    OUT.mkdir(exist_ok=True)
    with open(OUT / "lock", "w") as lock:
        fcntl.flock(lock, fcntl.LOCK_EX)
        yield


def peers():
    with alone():
        return subprocess.run([BENCH / "peers"], capture_output=True, text=True)


def lacking():
    """What is missing where programs over the crate can't be built, and how to install it, or None."""
    if not shutil.which("cargo"):
        return "cargo is not on PATH"
    ran = peers()
    return ". ".join(ran.stderr.removeprefix("bench/peers: ").splitlines()) if ran.returncode else None


def release():
    """The crate's name and version. Where something is missing, this says what and ends the script."""
    lacked = lacking()
    if lacked:
        sys.exit(f"{SCRIPT}: {lacked}")
    return next(it for it in peers().stdout.strip().split(", ") if it.startswith("ordered-multimap "))


def blocks(page, heading, mark):
    """The code blocks of a page that have this mark, below this heading."""
    sections = re.split(r"^## ", (TOP / page).read_text(), flags=re.M)[1:]
    own = next((it for it in sections if it.startswith(f"{heading}\n")), "")
    return re.findall(rf"^```{mark}\n(.*?)^```$", own, re.M | re.S)


def write(file, text):
    """Writes a file that differs: cargo builds anew what was written."""
    if not file.exists() or file.read_text() != text:
        file.parent.mkdir(parents=True, exist_ok=True)
        file.write_text(text)


def compiled(name, text=None):
    """The program of that name in bench/original/, or of that text, built; and what cargo says if it can't be."""
    with alone():
        for file in (it for it in (BENCH / "original").rglob("*") if it.is_file()):
            write(OUT / "original" / file.relative_to(BENCH / "original"), file.read_text())
        if text is not None:
            write(OUT / f"original/src/bin/{name}.rs", text)
        said = run_cargo(name)
    return OUT / "target/debug" / name, said


def run_cargo(name):
    """Builds a program of the project, and gives what cargo says if it can't."""
    cargo = ["cargo", "--config", OUT / "peers.toml", "build", "--quiet", "--offline", "--target-dir", OUT / "target"]
    piped = {"stdout": subprocess.PIPE, "stderr": subprocess.STDOUT, "text": True, "errors": "replace"}
    try:
        ran = subprocess.run([*cargo, "--bin", name], cwd=OUT / "original", **piped)
    except OSError as error:
        sys.exit(f"{SCRIPT}: cargo: {error.strerror}")
    return ran.stdout if ran.returncode else None


def built(name, text=None):
    """That program. Where it can't be built, this says why and ends the script."""
    program, fault = compiled(name, text)
    if fault is not None:
        sys.exit(f"{SCRIPT}: the program {name} over the crate isn't built:\n{fault}")
    return program
