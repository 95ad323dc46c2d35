"""One disk, as the helpers have it: gptman_fd.h by the program driver.c, and the package for Python. Both have the
same calls, each with a limit of time, and calls of the system that fail.

A call gives the name of its answer. `read` gives a table of tests/harness/table.py with it.
"""
import contextlib
import errno
import os
import select
import shutil
import signal
import subprocess
import tempfile
import uuid

from harness import table
from built import TOP

LIMIT = 30
SANITIZED = ["-g", "-fsanitize=address,undefined", "-fno-sanitize-recover=all"]
HOWS = ("nothing", "part", "all", "garbage")


@contextlib.contextmanager
def quick_folder(program):
    """A folder in memory where there is one, as most of these tests sync often; else the program's."""
    is_there = os.access("/dev/shm", os.W_OK) and shutil.disk_usage("/dev/shm").free > 64 << 20
    folder = tempfile.mkdtemp(dir="/dev/shm" if is_there else program.folder)
    try:
        yield folder
    finally:
        shutil.rmtree(folder)


class OverC:
    """By gptman_fd.h, in the program driver.c."""

    name = "gptman_fd.h"

    def __init__(self, library, *flags):
        path = library.compile(os.path.join(TOP, "tests", "library", "driver.c"), "driver", *flags)
        self.process = subprocess.Popen([path], stdin=subprocess.PIPE, stdout=subprocess.PIPE)
        self.rest = b""

    def ask(self, *words):
        """The lines of an answer, and the answer's name."""
        line = " ".join(map(str, words)) + "\n"
        self.process.stdin.write(line.encode())
        self.process.stdin.flush()
        while b"\n\n" not in self.rest:
            if not select.select([self.process.stdout], [], [], LIMIT)[0]:
                self.process.kill()
                raise TimeoutError(f"{self.name} does not answer {line}")
            piece = os.read(self.process.stdout.fileno(), 1 << 16)
            if not piece:
                raise OSError(f"{self.name} ended at {line} with status {self.process.wait()}")
            self.rest += piece
        told, _, self.rest = self.rest.partition(b"\n\n")
        *lines, name = told.decode().split("\n")
        return lines, name

    def open(self, path, sector=512, mode="locked", over_dos=False):
        name = self.ask("open", path, sector, mode)[1]
        return self.ask("flags", int(over_dos))[1] if name == "Ok" else name

    def fail(self, kind="", number=-1, how="nothing"):
        """Has that call of write, sync, read or alloc fail, from now on. With no words none does."""
        self.ask("fail", kind or "none", number, how)

    def calls(self):
        """How many writes, syncs and requests for memory there were since then."""
        return [int(word) for word in self.ask("calls")[0][0].split()]

    def read(self):
        lines, name = self.ask("read")
        if name != "Ok":
            return name, None
        _, guid, first, last, count = lines[0].split()
        entries = {int(number): table.read_entry(bytes.fromhex(raw)) for number, raw in map(str.split, lines[1:])}
        return name, table.Table(table.guid_text(bytes.fromhex(guid)), int(first), int(last), int(count), entries)

    def check(self):
        lines, name = self.ask("check")
        return "".join(f"{line}\n" for line in lines) if name == "Ok" else f"fault: {name}\n"

    def write(self, number, entry):
        """Writes the table that was read last, with this entry."""
        raw = table.entry_bytes(entry)
        return self.ask("write", number, raw[:16].hex(), raw[16:32].hex(), entry.first, entry.last)[1]

    def same(self):
        return self.ask("same")[1]

    def fit(self):
        return self.ask("fit")[1]

    def new(self, path, sector, guid, count):
        return self.ask("new", table.guid_bytes(guid).hex(), count)[1]

    def mbr(self):
        return self.ask("plain")[1]

    def close(self):
        self.process.stdin.close()
        return self.process.wait(LIMIT)


class System:
    """The module os, of which calls fail."""

    def __init__(self):
        self.fail("", -1, "")

    def __getattr__(self, name):
        return getattr(os, name)

    def fail(self, kind, number, how):
        self.kind, self.number, self.how = kind, number, how
        self.counts = {"write": 0, "sync": 0, "read": 0}

    def fails(self, kind):
        self.counts[kind] += 1
        return self.kind == kind and self.counts[kind] == self.number + 1

    def pwrite(self, fd, data, at):
        if not self.fails("write"):
            return os.pwrite(fd, data, at)
        moved = {"nothing": b"", "all": data, "garbage": b"\x5a" * len(data)}.get(self.how, data[:len(data) // 2])
        os.pwrite(fd, moved, at)
        if self.how == "short":
            return len(moved)
        raise OSError(errno.EIO, "a write that fails")

    def pread(self, fd, length, at):
        if not self.fails("read"):
            return os.pread(fd, length, at)
        if self.how == "short":
            return os.pread(fd, max(length // 2, 1), at)
        raise OSError(errno.EIO, "a read that fails")

    def fsync(self, fd):
        if self.fails("sync"):
            if self.how != "drops":
                raise OSError(errno.EIO, "a sync that fails")
            os.pwrite(fd, b"what was never stored".ljust(512, b"\0"), 512)
            self.kind, self.number, self.how = "write", self.counts["write"], "garbage"
        os.fsync(fd)


class OverPython:
    """By the package for Python."""

    name = "Python"

    def __init__(self, gptman):
        self.gptman, self.system, self.disk, self.place = gptman, System(), None, None
        self.over_dos = False
        gptman._disk.os = self.system

    def answer(self, call, *words):
        """The name of what a call is refused with, or Ok."""
        def stop(*_):
            raise TimeoutError(f"{self.name} does not answer {call}")
        was = signal.signal(signal.SIGALRM, stop)
        signal.alarm(LIMIT)
        try:
            call(*words)
        except self.gptman.Fault as fault:
            return fault.name
        except OSError as error:
            if isinstance(error, TimeoutError):
                raise
            return "Io"
        finally:
            signal.alarm(0)
            signal.signal(signal.SIGALRM, was)
        return "Ok"

    def open(self, path, sector=512, mode="locked", over_dos=False):
        """Notes the disk, which a call opens that needs it; the module reads a table as it opens a disk."""
        self.shut()
        self.place, self.over_dos = (path, sector, mode), over_dos
        return "Ok"

    def opened(self):
        if self.disk is None:
            path, sector, mode = self.place
            self.disk = self.gptman.Disk(path, sector, mode != "reading", lock=mode == "locked", over_dos=self.over_dos)
            return True
        return False

    def fail(self, kind="", number=-1, how="nothing"):
        self.system.fail(kind, number, how)

    def calls(self):
        return [self.system.counts["write"], self.system.counts["sync"]]

    def read(self):
        name = self.answer(lambda: self.opened() or self.disk.read())
        return name, shown(self.disk) if name == "Ok" else None

    def check(self):
        def call():
            path, sector, _ = self.place
            found.append(self.disk.check() if self.disk else self.gptman.check(path, sector))
        found = []
        name = self.answer(call)
        if name != "Ok":
            return f"fault: {name}\n"
        primary, backup, same = found[0]
        lines = [f"{place} fault {fault}" if fault else f"{place} ok" for place, fault in (("primary", primary),
                                                                                       ("backup", backup))]
        return "".join(f"{line}\n" for line in lines + [f"same {('no', 'yes')[same]}"])

    def write(self, number, entry):
        def call():
            self.opened()
            self.disk.partitions[number] = self.gptman.Partition(
                uuid.UUID(entry.type), entry.first, entry.last, entry.name, entry.attributes, uuid.UUID(entry.guid))
            self.disk.write()
        return self.answer(call)

    def same(self):
        return self.answer(lambda: (self.opened(), self.disk.write()))

    def fit(self):
        return self.answer(lambda: (self.opened(), self.disk.fit()))

    def new(self, path, sector, guid, count):
        self.shut()

        def call():
            self.disk = self.gptman.Disk.create(path, sector, uuid.UUID(guid), count, over_dos=self.over_dos)
        return self.answer(call)

    def mbr(self):
        def call():
            path, sector, _ = self.place
            with self.gptman._disk._File(path, sector, True, False, self.over_dos) as file:
                file.write_mbr()
        return self.answer(call)

    def shut(self):
        if self.disk:
            self.disk.close()
        self.disk = None

    def close(self):
        self.shut()
        self.gptman._disk.os = os
        return 0


def shown(disk):
    """The table of an open disk."""
    entries = {number: table.Entry(str(p.type_guid), str(p.unique_guid), p.first_lba, p.last_lba, p.attributes, p.name)
               for number, p in disk.partitions.items()}
    return table.Table(str(disk.disk_guid), disk.first_usable_lba, disk.last_usable_lba, disk.entry_count, entries)


def both(library, gptman):
    """The two ways."""
    return OverC(library), OverPython(gptman)
