"""What `--in-place` leaves of a file, in good runs and in bad ones, for tools/cases.

A case is a text, the words of a command that changes it, the text that this should leave, and the words of a command
that only asks.
"""
import os
import pathlib
import resource
import shutil
import signal
import stat
import subprocess
import tempfile

NOBODY, SECONDS = 65534, 60


class Folder:
    """A folder with a file of this text, and with the program, which anyone may run."""

    def __init__(self, program, text):
        self.room = tempfile.TemporaryDirectory()
        self.path = pathlib.Path(self.room.name)
        self.path.chmod(0o755)
        self.bin = tempfile.TemporaryDirectory()
        pathlib.Path(self.bin.name).chmod(0o755)
        self.program = shutil.copy(program, self.bin.name)
        self.name = program.name.partition(".")[0]
        self.file = self.path / "file"
        self.file.write_bytes(text)
        self.file.chmod(0o640)

    def __enter__(self):
        return self

    def __exit__(self, *_):
        self.path.chmod(0o755)
        self.room.cleanup()
        self.bin.cleanup()

    def run(self, words, before=None, **variables):
        """The status of a run, what it wrote, and what it said on standard error."""
        ran = subprocess.run([self.program, *words], cwd=self.path, input=b"", capture_output=True, preexec_fn=before,
                             timeout=SECONDS, env={**os.environ, **variables})
        return ran.returncode, ran.stdout, ran.stderr.decode()

    def others(self):
        return sorted(it.name for it in self.path.iterdir() if it.name != "file")

    def differs(self, text, others=()):
        """What is wrong with the folder, where the file should have this text."""
        if self.file.read_bytes() != text:
            return f"the file is {self.file.read_bytes()!r:.200}"
        mode = stat.S_IMODE(self.file.stat().st_mode)
        if mode != 0o640:
            return f"the permissions are {mode:o}"
        return None if self.others() == sorted(others) else f"beside the file stands {self.others()}"


def small_files(action):
    """Lets the process write no file above 100 bytes. `action` is what it does on the signal that it gets then."""

    def before():
        signal.signal(signal.SIGXFSZ, action)
        resource.setrlimit(resource.RLIMIT_FSIZE, (100, 100))

    return before


def as_nobody():
    os.setgroups([])
    os.setgid(NOBODY)
    os.setuid(NOBODY)


def killer():
    """A library that ends the program where it would rename a file."""
    room = pathlib.Path(tempfile.mkdtemp())
    source = room / "kill.c"
    source.write_text("#include <signal.h>\n#include <unistd.h>\n"
                      "int rename(const char *from, const char *to) { kill(getpid(), SIGKILL); return from == to; }\n")
    subprocess.run(["cc", "-shared", "-fPIC", "-o", room / "kill.so", source], check=True)
    return room / "kill.so"


def good_run(folder, case):
    """The change goes into the file, and nothing to standard output; a symbolic link stays one."""
    text, words, changed, _ = case
    (folder.path / "link").symlink_to("file")
    for name in ("file", "link"):
        folder.file.write_bytes(text)
        said = folder.run(["-i", name, *words])
        if said != (0, b"", ""):
            return f"-i {name}: {said}"
        fault = folder.differs(changed, ["link"]) or (None if (folder.path / "link").is_symlink() else "the link is none")
        if fault:
            return f"-i {name}: {fault}"
    return None


def wrong_words(folder, case):
    """Without a file, or with a command that only asks, nothing is done."""
    text, words, _, asking = case
    for line in (["--in-place", "-", *words], ["-i", "file", *asking], ["-i"], ["--in-place=1", "file", *words]):
        status, written, said = folder.run(line)
        if (status, written) != (2, b"") or not said:
            return f"{line}: status {status}, {written!r}, {said!r}"
    return folder.differs(text)


def no_file(folder, case):
    """A folder or a device is not replaced."""
    text, words, _, _ = case
    (folder.path / "pipe").symlink_to("/dev/null")
    status, written, said = folder.run(["-i", "pipe", *words])
    if (status, written) == (0, b"") or not stat.S_ISCHR(os.stat("/dev/null").st_mode):
        return f"/dev/null: status {status}, {written!r}, {said!r}"
    return folder.differs(text, ["pipe"])


def full_disk(folder, case):
    """Where the disk is full, the old file stands whole, and nothing beside it."""
    text, words, _, _ = case
    status, written, said = folder.run(["-i", "file", *words], small_files(signal.SIG_IGN))
    if (status, written) != (4, b"") or "file" not in said:
        return f"status {status}, {written!r}, {said!r}"
    return folder.differs(text)


def no_permission(folder, case):
    """Nor where the folder takes no new file."""
    text, words, _, _ = case
    folder.file.chmod(0o644)
    folder.path.chmod(0o555)
    status, written, said = folder.run(["-i", "file", *words], as_nobody if os.geteuid() == 0 else None)
    folder.path.chmod(0o755)
    folder.file.chmod(0o640)
    if (status, written) != (4, b"") or "file" not in said:
        return f"status {status}, {written!r}, {said!r}"
    return folder.differs(text)


def killed(folder, case):
    """A run that is killed leaves the old file whole, and what it leaves beside it doesn't block the next run."""
    text, words, changed, _ = case
    left = [f"file.{folder.name}.tmp"]
    library = killer()
    ways = {"while it writes": (small_files(signal.SIG_DFL), {}), "before it renames": (None, {"LD_PRELOAD": str(library)})}
    for way, (before, variables) in ways.items():
        folder.file.write_bytes(text)
        status, _, said = folder.run(["-i", "file", *words], before, **variables)
        fault = f"status {status}, {said!r}" if status >= 0 else folder.differs(text, left)
        if fault:
            return f"killed {way}: {fault}"
        said = folder.run(["-i", "file", *words])
        fault = said if said != (0, b"", "") else folder.differs(changed)
        if fault:
            return f"after a run that was killed {way}: {fault}"
    shutil.rmtree(library.parent)
    return None


def fault_in(program, case):
    """What is wrong with the program's `--in-place`, or None."""
    for trial in (good_run, wrong_words, no_file, full_disk, no_permission, killed):
        with Folder(program, case[0]) as folder:
            fault = trial(folder, case)
            if fault:
                return f"{trial.__name__}: {fault}"
    return None
