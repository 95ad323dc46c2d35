"""Who holds a lock: on file systems whose device is not that of the file, by the first process of a container, and
where a lock needs an opening for writing; where root may mount, else a line says so."""
import fcntl
import os
import struct
import subprocess
import time

from harness.runs import there
from commands import MIB
from locks import limited
from makers import IMAGE
from uses import NAME, start


class Mounted:
    """A file system in a file, mounted in the folder of the program. `images` is a folder in it for images; what was
    mounted is undone in the end."""

    def __init__(self, program, kind):
        self.program, self.kind, self.at = program, kind, program.file(kind)
        self.images = os.path.join(self.at, "images")
        self.undo = []

    def __enter__(self):
        os.makedirs(self.at)
        if self.kind == "overlay":
            self.is_there = self.mount("-t", "tmpfs", "none", self.at) and self.overlay()
        else:
            self.is_there = there("mkfs.btrfs", "btrfs") and self.btrfs()
        return self

    def call(self, *words):
        """Runs a command, and says whether it succeeded."""
        return subprocess.run(words, stdout=subprocess.DEVNULL, stderr=subprocess.DEVNULL, check=False).returncode == 0

    def mount(self, *words):
        """Mounts something, until the end, and says whether it succeeded."""
        self.undo.insert(0, words[-1])
        return self.call("mount", *words)

    def btrfs(self):
        """Btrfs with a subvolume for the images."""
        with open(self.at + ".fs", "wb") as file:
            file.truncate(160 * MIB)
        return self.call("mkfs.btrfs", "-q", self.at + ".fs") and self.mount("-o", "loop", self.at + ".fs", self.at) \
            and self.call("btrfs", "subvolume", "create", self.images)

    def overlay(self):
        """An overlay with a folder for the images in its upper layer."""
        lower, upper, work = (os.path.join(self.at, name) for name in ("lower", "upper", "work"))
        for folder in lower, upper, work, self.images:
            os.makedirs(folder)
        layers = f"lowerdir={lower},upperdir={upper},workdir={work}"
        return self.mount("-t", "overlay", "-o", layers, "none", self.images)

    def __exit__(self, *_):
        for at in self.undo:
            self.call("umount", at)


def record_lock(file, kind):
    """Locks a part of a file, as qemu does."""
    record = struct.pack("hhqqi4x", kind, os.SEEK_SET, 100, 1, 0)
    fcntl.fcntl(file, fcntl.F_OFD_SETLK, record)


def try_file_systems(tally, program):
    """Locks where the list of locks has another device than the file: in a subvolume of Btrfs, and on overlayfs."""
    if os.geteuid() or not there("mount", "flock"):
        return "only root may mount: left out"
    for kind in "btrfs", "overlay":
        with Mounted(program, kind) as mounted:
            if not mounted.is_there:
                print(f"        {kind} is not to be had here, left out")
                continue
            inner = type(program)(program.path, mounted.images)
            start(inner)
            try_record_lock(tally, inner, kind)
            began = time.monotonic()
            words = ["flock", inner.file(IMAGE), "sh", "-c", 'exec "$0" set disk.img 1 --name z', program.path]
            tally.equals(f"{kind}: the lock of an ancestor", 4, limited(words, inner.folder)[0])
            tally.holds(f"{kind}: it is not waited for", time.monotonic() - began < 3)
            with open(inner.file(IMAGE), "r+b") as file:
                path = f"/dev/fd/{file.fileno()}"
                record_lock(file, fcntl.F_RDLCK)
                mounted.call("umount", "-l", mounted.images if kind == "overlay" else mounted.at)
                status = limited([program.path, "remove", path, "1"], "/", pass_fds=[file.fileno()])[0]
                tally.equals(f"{kind}: a lock on an image whose mount is not listed", 4, status)
    return None


def try_record_lock(tally, program, what):
    """An image of which a part is locked is refused, read, and changed under `--lock none` and afterwards."""
    with open(program.file(IMAGE), "r+b") as file:
        record_lock(file, fcntl.F_RDLCK)
        before = program.state(IMAGE)
        for words in NAME, NAME + ["--lock", "fail"]:
            ended = program.plain(*words)
            tally.holds(f"{what}: {words} of an image that is locked in parts: {ended}", ended[0] == 4 and
                        "--lock none" in ended[2] and program.state(IMAGE) == before)
        tally.equals(f"{what}: show of it", 0, program.plain("show", IMAGE)[0])
        tally.equals(f"{what}: --lock none", 0, program.plain(*NAME, "--lock", "none")[0])
    tally.equals(f"{what}: the lock is gone", 0, program.plain(*NAME[:-1], "y")[0])


def try_writing_lock(tally, program):
    """A file system that gives no exclusive lock to an opening for reading, as NFS: the lock is on one for writing."""
    if not there("strace", "flock"):
        return "strace or flock is not installed: left out"
    start(program)
    refusing = ["strace", "-f", "-o", program.file("trace"), "-y", "-e", "trace=flock",
                "-e", "inject=flock:error=EBADF:when=1"]
    status, err = limited([*refusing, program.path, *NAME], program.folder)
    if status is None or b"ptrace" in err:
        return "strace may not trace here: left out"
    with open(program.file("trace"), encoding="utf-8") as file:
        calls = [line for line in file if "flock(" in line]
    tally.equals(f"a change where an opening for reading is not locked: {err}", 0, status)
    tally.holds(f"another opening is locked: {calls}", len(calls) == 2 and "EBADF" in calls[0] and
                calls[1].endswith("= 0\n"))
    with subprocess.Popen(["flock", "-o", program.file(IMAGE), "sleep", "20"]) as holder:
        while subprocess.run(["flock", "-n", program.file(IMAGE), "true"], check=False).returncode == 0:
            time.sleep(0.01)
        status = limited([*refusing, program.path, *NAME, "--lock", "fail"], program.folder)[0]
        tally.equals("--lock fail sees a lock there", 4, status)
        tally.equals("show takes none", 0, limited([*refusing, program.path, "show", IMAGE], program.folder)[0])
        holder.kill()
    return None


def try_first_process(tally, program):
    """The first process of a container that holds the lock is an ancestor, and the program has no descriptor of it."""
    if os.geteuid() or not there("unshare", "flock"):
        return "only root may make a container: left out"
    start(program)
    inner = ["flock", "-o", program.file(IMAGE), "sh", "-c", '"$0" set disk.img 1 --name z "$@"; exit $?', program.path]
    for words in ["unshare", "--pid", "--fork", "--mount-proc", *inner], inner:
        status, err = limited(words, program.folder)
        tally.equals(f"the status under {words[0]} {words[1]}: {err}", 4, status)
        tally.holds(f"--lock none is named: {err}", b"--lock none" in err)
        tally.equals(f"under {words[0]} with --lock none", 0, limited([*words, "--lock", "none"], program.folder)[0])
    return None


SUBJECTS = {"locks on Btrfs and overlayfs": try_file_systems, "a lock on an opening for writing": try_writing_lock,
            "the first process locks": try_first_process}
