"""Runs programs: their words, what they read, closed streams, limits, and what came of a run."""
import os
import shutil
import subprocess
from typing import NamedTuple

from harness.images import Folder

LIMIT = 60


class Ended(NamedTuple):
    """What came of a run: its status as a shell tells it, 128 and more where a signal ended it, and what it
    printed."""

    status: int
    out: str
    err: str


def status_of(code):
    """The status that a shell tells, of the one that subprocess has."""
    return code if code >= 0 else 128 - code


def run(words, text="", errors="strict", timeout=LIMIT, is_one_text=False, **how):
    """Runs a command with this text on standard input, and gives what came of it. Its errors are among its output where
    that is one text."""
    ended = subprocess.run(words, input=text.encode(), stdout=subprocess.PIPE, check=False, timeout=timeout,
                           stderr=subprocess.STDOUT if is_one_text else subprocess.PIPE, **how)
    out, err = ((raw or b"").decode(errors=errors) for raw in (ended.stdout, ended.stderr))
    return Ended(status_of(ended.returncode), out, err)


def run_to_files(words, folder, timeout=LIMIT):
    """Runs a command in a folder with nothing to read, and with files there as its output and its errors."""
    out, err = os.path.join(folder, "printed.out"), os.path.join(folder, "printed.err")
    with open(out, "wb") as stdout, open(err, "wb") as stderr:
        ended = subprocess.run(words, cwd=folder, stdin=subprocess.DEVNULL, stdout=stdout, stderr=stderr, check=False,
                               timeout=timeout)
    texts = []
    for path in out, err:
        with open(path, "rb") as file:
            texts.append(file.read().decode(errors="surrogateescape"))
    return Ended(status_of(ended.returncode), *texts)


def by_shell(script, words, after=""):
    """The words of a shell that runs a script, and becomes this command then, with these redirections."""
    return ["bash", "-c", f'{script} exec "$@" {after}', "-", *words]


def closing(streams):
    """The part of a script that closes these standard streams."""
    return "".join(f"exec {stream}{'<' if stream == '0' else '>'}&-; " for stream in streams)


def limiting(letter, most):
    """The part of a script that sets a limit: `n` for descriptors, `v` for KiB of memory."""
    return f"ulimit -{letter} {most}; "


def there(*names):
    """Whether all of these programs are installed."""
    return all(shutil.which(name) for name in names)


def set_environment():
    """Has tools of the system found, and their messages in English."""
    os.environ["PATH"] += ":/usr/sbin:/sbin"
    os.environ["LC_ALL"] = "C.UTF-8"


class Program(Folder):
    """A program, in a folder of its own."""

    def __init__(self, path, folder):
        super().__init__(folder)
        self.path = path

    def run(self, *words, **how):
        """Runs it with these words, and gives what came of it."""
        return run([self.path, *words], cwd=self.folder, **how)
