"""Runs a program under strace, and gives its writes and syncs of the image in their order.

Seen are write, pwrite64, writev, pwritev, fsync, fdatasync, syncfs and sync. Other ways to change
the image (mapped memory, io_uring, copies in the kernel, changes of length, descriptors that sync
by themselves) are told, and nothing is said of such a run. Holes are no writes: where one changed a
byte, the record does not replay to the image that the program left.
"""
import os
import re

from harness import runs
from harness.states import Write

CALLS = ("open,openat,openat2,creat,read,readv,write,pwrite64,writev,pwritev,pwritev2,lseek,"
         "ftruncate,truncate,fsync,fdatasync,sync,syncfs,msync,mmap,dup,dup2,dup3,fcntl,close,"
         "sendfile,copy_file_range,splice,io_uring_enter,io_submit")
UNSEEN = {"pwritev2", "ftruncate", "truncate", "msync", "sendfile", "copy_file_range", "splice"}
ASYNCHRONOUS = {"io_uring_enter", "io_submit"}
ENVIRONMENT = dict(os.environ, LC_ALL="C.UTF-8",
                   PATH=os.environ.get("PATH", "") + ":/usr/sbin:/sbin")
TEXT = re.compile(r'"((?:\\x[0-9a-f]{2})*)"')
CALL = re.compile(r"(\w+)\((.*)\)\s+= (-?\d+|0x[0-9a-f]+)(<.*>)?", re.S)


class Unseen(Exception):
    """The program did something to the image that is not recorded."""


def run(command, words=""):
    """Runs a command with these words to read. Its errors are among its output."""
    return runs.run(command, words, "replace", timeout=120, is_one_text=True, env=ENVIRONMENT)


def record(command, words, image, log):
    """Runs a command. Gives its status, what it printed, and its events on the image."""
    options = ["-f", "-y", "-xx", "-s", str(1 << 24), "-e", "trace=" + CALLS, "-e", "signal=none"]
    ended = run(["strace", *options, "-o", log, *command], words)
    with open(log, encoding="ascii", errors="replace") as file:
        events = Reader(image).events_of(file)
    return ended.status, ended.out, events


def plain(text):
    """The text of escaped bytes."""
    return bytes_of(text).decode("utf-8", "replace") if "\\x" in text else text


def bytes_of(text):
    """The bytes that strace wrote as hexadecimal digits."""
    return bytes.fromhex(text.replace("\\x", ""))


class Reader:
    """Reads a trace. Keeps for each descriptor of the image where it stands."""

    def __init__(self, image):
        self.image = image
        self.places = {}
        self.cut = {}
        self.events = []

    def events_of(self, lines):
        """The events of a trace."""
        for line in lines:
            process, _, call = line.rstrip("\n").partition(" ")
            call = self.whole(process, call.lstrip())
            match = CALL.match(call) if call else None
            if match and int(match[3], 0) >= 0:
                self.take(process, match[1], match[2], int(match[3], 0), match[4] or "")
        return self.events

    def whole(self, process, call):
        """A call that was cut in two, put together. Nothing for its first part."""
        if call.endswith("<unfinished ...>"):
            self.cut[process] = call[:-len("<unfinished ...>")]
            return None
        match = re.match(r"<\.\.\. \w+ resumed>(.*)$", call, re.S)
        return self.cut.pop(process, "") + match[1] if match else call

    def take(self, process, name, words, answer, opened):
        """Takes a call that did not fail."""
        if name == "sync":
            self.events.append("sync")
        elif name in ASYNCHRONOUS:
            raise Unseen(name)
        elif name in ("open", "openat", "openat2", "creat"):
            if plain(opened[1:-1]) == self.image:
                self.open(process, name, words, answer)
        elif self.is_of_image(words, name):
            self.take_of_image((process, words.split("<")[0]), name, words, answer)

    def open(self, process, name, words, descriptor):
        """Takes a descriptor of the image."""
        if name == "creat" or re.search("O_TRUNC|O_D?SYNC|O_APPEND", words):
            raise Unseen(name)
        self.places[process, str(descriptor)] = [0]

    def is_of_image(self, words, name):
        """Whether one of the descriptors of a call is of the image."""
        many = name in UNSEEN or name == "mmap"
        named = re.findall(r"(?:^|, )\d+<([^>]*)>", words if many else words.split(",")[0])
        return any(plain(path) == self.image for path in named) or (
            name == "truncate" and plain(TEXT.match(words)[1]) == self.image)

    def take_of_image(self, key, name, words, answer):
        """Takes a call that is about the image."""
        if name in UNSEEN or (name == "mmap" and "PROT_WRITE" in words and "MAP_SHARED" in words):
            raise Unseen(name)
        place = self.places.setdefault(key, [0])
        if name == "close":
            del self.places[key]
        elif name in ("dup", "dup2", "dup3") or "F_DUPFD" in words:
            self.places[key[0], str(answer)] = place
        elif name == "lseek":
            place[0] = answer
        elif name in ("read", "readv"):
            place[0] += answer
        elif name in ("write", "writev"):
            self.write(place[0], words, answer)
            place[0] += answer
        elif name in ("pwrite64", "pwritev"):
            self.write(int(words.rsplit(",", 1)[1], 0), words, answer)
        elif name in ("fsync", "fdatasync", "syncfs"):
            self.events.append(name)

    def write(self, at, words, count):
        """Takes a write."""
        data = b"".join(bytes_of(text) for text in TEXT.findall(words))
        self.events.append(Write(at, data[:count]))
