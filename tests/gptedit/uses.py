"""Devices in use: on loop devices, where root may make them; else a line says so."""
import os
import re
import subprocess

from harness import table
from harness.runs import there
from commands import DISK, ESP, MIB, ROOT
from makers import IMAGE, SIZE, TWO, entry, make

NAME = ["set", IMAGE, "1", "--name", "x"]


class Loop:
    """A loop device over an image, with its partitions; it is detached in the end."""

    def __init__(self, program, name=IMAGE, *words):
        self.program, self.words, self.name = program, words, name
        self.undo = []

    def __enter__(self):
        words = ["losetup", "-f", "--show", "-P", *self.words, self.program.file(self.name)]
        self.path = subprocess.run(words, stdout=subprocess.PIPE, check=True).stdout.decode().strip()
        self.call("partx", "-u", self.path)
        return self

    def call(self, *words):
        """Runs a command for it, and says whether it succeeded."""
        return subprocess.run(words, stdout=subprocess.DEVNULL, stderr=subprocess.DEVNULL, check=False).returncode == 0

    def later(self, *words):
        """Runs a command in the end."""
        self.undo.insert(0, words)

    def mounts_first(self, at, part=None):
        """Makes a file system in a device, its first partition if no other is named, and mounts it until the end.
        Says whether that succeeded."""
        part = part or self.path + "p1"
        self.later("umount", at)
        return self.call("mkfs.ext4", "-q", "-F", part, "2048") and self.call("mount", part, at)

    def __exit__(self, *_):
        for words in self.undo:
            self.call(*words)
        self.call("losetup", "-d", self.path)


def can_loop(program):
    """Whether this user may make loop devices."""
    if os.geteuid() or not there("losetup", "partx", "mkfs.ext4", "mount"):
        return False
    make(program, TWO)
    try:
        with Loop(program) as loop:
            return os.path.exists(loop.path + "p1")
    except (OSError, subprocess.CalledProcessError):
        return False


def start(program):
    """An image with two partitions."""
    make(program, {1: entry(2048, 10239), 2: entry(12288, 20479, "two", ROOT)})


def uses(tally, program, what, path, number=1, sizes=("3MiB", "5MiB")):
    """Counts what is refused of a device of which partition `number` is in use, and what is not: `sizes` are one
    that shortens it and one that lengthens it."""
    one, other = str(number), str(3 - number)
    for words in ["remove", path, one], ["resize", path, one, sizes[0]], ["new", path, "--overwrite"], \
            ["set", path, one, "--guid", DISK], ["set", path, one, "--type", "swap"], ["randomize", path]:
        for more in ["-n"], []:
            ended = program.plain(*words, *more)
            tally.holds(f"{what}: {words + more} is refused: {ended}", ended[0] == 4 and "--in-use" in ended[2])
            if ended[0] != 4:
                break
    for words in ["set", path, one, "--name", "new"], ["resize", path, one, sizes[1]], \
            ["set", path, other, "--name", "y"], ["set", path, one, "--attributes", "no-auto"], \
            ["remove", path, one, "--in-use", "-n"]:
        ended = program.plain(*words)
        tally.holds(f"{what}: {words} goes: {ended}", ended[0] == 0)


def try_uses(tally, program):
    """A partition that is mounted, here, in another namespace, over a loop; swap; only attached."""
    if not can_loop(program):
        return "no loop devices for this user: left out"
    with Loop(program) as loop:
        ended = program.plain("remove", loop.path, "2")
        tally.holds(f"a device that is only attached is not in use: {ended}", ended[0] == 0)
        tally.holds(f"a line says how the kernel is told: {ended}", "partx -u" in ended[1] + ended[2])
    os.makedirs(program.file("at"), exist_ok=True)
    for what in USES:
        start(program)
        with Loop(program) as loop:
            part = loop.path + "p1"
            loop.call("mkfs.ext4", "-q", "-F", part, "2048")
            holder = use(program, loop, what, part)
            if holder is None:
                print(f"        {what}: not to be had here, left out")
                continue
            uses(tally, program, what, path_of(program, loop, what))
            if holder is not True:
                holder.kill()
                holder.wait()
    return None


# Changes of a device with partitions 1, 2 and 5, one after another; and the commands that are named after each, where
# DISK is the device. partx -u leaves what is gone or starts elsewhere, and without a range numbers above their count.
TOLD = [
    (["set", "2", "--name", "x"], "partx -u DISK"), (["remove", "2"], "partx -d --nr 2 DISK; partx -u DISK"),
    (["add", "--type", "linux", "--size", "1MiB", "--number", "9"], "partx -u --nr 1:9 DISK"),
    (["resize", "1", "2MiB"], "partx -u DISK"),
    (["set", "5", "--number", "2"], "partx -d --nr 5 DISK; partx -u DISK"),
    (["set", "9", "--number", "4"], "partx -d --nr 9 DISK; partx -u --nr 1:4 DISK"),
    (["set", "1", "--number", "7"], "partx -d --nr 1 DISK; partx -u --nr 1:7 DISK"),
    (["sort"], "partx -d DISK; partx -u DISK"), (["remove", "1", "2", "3"], "partx -d DISK"),
    (["add", "--type", "linux", "--size", "1MiB"], "partx -u DISK"), (["new", "--overwrite"], "partx -d DISK"),
    (["add", "--type", "linux", "--size", "1MiB"], "partx -u DISK"), (["wipe", "--overwrite"], "partx -d DISK")]


def try_told(tally, program):
    """The commands that are named after a change tell the kernel of it."""
    if not can_loop(program):
        return "no loop devices for this user: left out"
    make(program, {1: entry(2048, 10239), 2: entry(12288, 20479, "two", ROOT), 5: entry(20480, 22527, "five", DISK.replace("0", "5"))})
    with Loop(program) as loop:
        loop.call("partx", "-u", "--nr", "1:5", loop.path)
        for (command, *words), wanted in TOLD:
            ended = program.plain(command, loop.path, *words)
            line = re.search("run `(.*)` so that the kernel", ended[2])
            tally.holds(f"{command} {words}: {ended}", ended[0] == 0 and line)
            if line:
                found = line[1].replace(loop.path, "DISK")
                tally.equals(f"what is named after {command} {words}", wanted, found)
                tally.holds(f"{line[1]} is done", loop.call("sh", "-c", line[1]))
                loop.call("blockdev", "--flushbufs", loop.path)
                after = table.read(program.file(IMAGE))
                there_now = {number: (one.first, one.last) for number, one in after.entries.items()} if after else {}
                tally.equals(f"what the kernel knows after {command} {words}", there_now, known(loop.path))
    return None


def known(path):
    """The partitions that the kernel knows of a device: the first and last sectors by their numbers."""
    folder, found = "/sys/block/" + os.path.basename(path), {}
    for name in os.listdir(folder):
        if os.path.exists(f"{folder}/{name}/partition"):
            number, first, count = (int(open(f"{folder}/{name}/{file}", encoding="ascii").read())
                                    for file in ("partition", "start", "size"))
            found[number] = first, first + count - 1
    return found


USES = ["mounted", "mounted in another namespace", "a loop over the partition", "the image of a loop",
        "another loop over the image", "swap", "a volume of device-mapper", "an array of md"]


def path_of(program, loop, what):
    """The path of the disk that is changed."""
    if what == "the image of a loop":
        return program.file(IMAGE)
    if what == "another loop over the image":
        made = subprocess.run(["losetup", "-f", "--show", program.file(IMAGE)], stdout=subprocess.PIPE, check=True)
        other = made.stdout.decode().strip()
        loop.later("losetup", "-d", other)
        return other
    return loop.path


def use(program, loop, what, part):
    """Puts a partition to a use. Gives a process that keeps it, True, or None where that cannot be had."""
    at = program.file("at")
    if what == "swap":
        loop.call("mkswap", part, "2048")
        loop.later("swapoff", part)
        return True if loop.call("swapon", part) else None
    if what == "a volume of device-mapper":
        if not there("dmsetup"):
            return None
        loop.later("dmsetup", "remove", "gptedit-test")
        words = ["dmsetup", "create", "gptedit-test", "--table", f"0 2048 linear {part} 0"]
        return True if loop.call(*words) else None
    if what == "an array of md":
        if not there("mdadm"):
            return None
        loop.later("mdadm", "--stop", "/dev/md/gptedit-test")
        words = ["mdadm", "--build", "/dev/md/gptedit-test", "--level=linear", "--force", "--raid-devices=1", part]
        return True if loop.call(*words) else None
    if what == "mounted in another namespace":
        if not there("unshare"):
            return None
        holder = subprocess.Popen(["unshare", "-m", "sh", "-c", f"mount {part} {at} && echo && exec sleep 100"],
                                  stdout=subprocess.PIPE)
        return holder if holder.stdout.readline() == b"\n" else None
    if what == "a loop over the partition":
        made = subprocess.run(["losetup", "-f", "--show", part], stdout=subprocess.PIPE, check=False)
        if made.returncode:
            return None
        part = made.stdout.decode().strip()
        loop.later("losetup", "-d", part)
    if not loop.call("mount", part, at):
        return None
    loop.later("umount", at)
    return True


def try_btrfs(tally, program):
    """Both disks of a Btrfs file system over two disks, of which mounts name one only."""
    if not can_loop(program) or not there("mkfs.btrfs"):
        return "no loop devices for this user, or no mkfs.btrfs: left out"
    names, size = ["one.img", "two.img"], 256 * MIB
    os.makedirs(program.file("at"), exist_ok=True)
    small = entry(416000, 418047, "two", "c0ffee00-0000-4000-8000-000000000003")
    for name, guid in zip(names, (ESP, ROOT)):
        make(program, {1: entry(2048, 411647, guid=guid), 2: small}, size, name=name)
    with Loop(program, names[0]) as one, Loop(program, names[1]) as two:
        parts = [one.path + "p1", two.path + "p1"]
        if not one.call("mkfs.btrfs", "-q", "-f", *parts) or not one.call(
                "mount", "-o", f"device={parts[0]},device={parts[1]}", parts[0], program.file("at")):
            return "no Btrfs over two disks is to be had here: left out"
        one.later("umount", program.file("at"))
        for what, loop in ("the first disk of a Btrfs", one), ("the second disk of a Btrfs", two):
            uses(tally, program, what, loop.path, sizes=("100MiB", "201MiB"))
    with Loop(program, names[1]) as two:
        ended = program.plain("remove", two.path, "1")
        tally.holds(f"a disk of a Btrfs that is not mounted: {ended}", ended[0] == 0)
    return None


def try_whole(tally, program):
    """A use of the whole disk allows no change."""
    if not can_loop(program):
        return "no loop devices for this user: left out"
    os.makedirs(program.file("at"), exist_ok=True)
    program.make_zeros(IMAGE, 16 * MIB)
    with Loop(program) as loop:
        if not loop.call("mkfs.ext4", "-q", "-F", loop.path, "8192") or not loop.call(
                "mount", loop.path, program.file("at")):
            return "no file system over a whole disk is to be had here: left out"
        loop.later("umount", program.file("at"))
        for words in ["new", loop.path, "--overwrite"], ["new", program.file(IMAGE), "--overwrite"]:
            for more in ["-n"], []:
                ended = program.plain(*words, *more)
                tally.holds(f"a mounted disk: {words + more} is refused: {ended}", ended[0] == 4 and
                            "--in-use" in ended[2])
        ended = program.plain("new", loop.path, "--overwrite", "--in-use", "-n")
        tally.holds(f"a mounted disk: new --in-use goes: {ended}", ended[0] == 0)
    return None


HIDE = 'mount -t tmpfs none "$1" && shift && exec "$@"'


def try_hidden(tally, program):
    """No /proc, no /sys: a change of a block device is refused, as nothing says that it is not in use."""
    if not can_loop(program) or not there("unshare"):
        return "no loop devices for this user, or no unshare: left out"
    start(program)
    with Loop(program) as loop:
        if not loop.call("unshare", "-m", "sh", "-c", HIDE, "sh", "/sys", "true"):
            return "no mount namespace is to be had here: left out"
        for folder in "/proc", "/sys":
            def run(*words):
                return subprocess.run(["unshare", "-m", "sh", "-c", HIDE, "sh", folder, program.path, *words],
                                      cwd=program.folder, stdin=subprocess.DEVNULL, stdout=subprocess.PIPE,
                                      stderr=subprocess.PIPE, check=False, timeout=60)
            size = ["--sector", "512"]
            for words in ["set", loop.path, "1", "--name", "x"], ["remove", loop.path, "2"], \
                    ["resize", loop.path, "1", "5MiB"]:
                for more in ["-n"], []:
                    ended = run(*words, *size, *more)
                    what = f"without {folder}: {words + size + more}"
                    tally.holds(f"{what} is refused: {ended}", ended.returncode == 4 and b"--in-use" in ended.stderr)
                    tally.holds(f"{what} says why: {ended}", folder.encode() in ended.stderr)
            ended = run("show", loop.path, *size)
            tally.holds(f"without {folder}: show goes: {ended}", ended.returncode == 0)
            ended = run("set", loop.path, "1", "--name", folder[1:], *size, "--in-use")
            tally.holds(f"without {folder}: --in-use goes: {ended}", ended.returncode == 0)
            ended = run("set", IMAGE, "1", "--name", "file" + folder[1:])
            tally.holds(f"without {folder}: a file goes: {ended}", ended.returncode == 0)
        ended = run("set", loop.path, "1", "--name", "y", "--in-use")
        tally.holds(f"without /sys the size of a sector is to be said: {ended}", ended.returncode == 1 and
                    b"--sector" in ended.stderr)
    return None


def try_sizes(tally, program):
    """A loop device with sectors of 4096 bytes."""
    if not can_loop(program):
        return "no loop devices for this user: left out"
    make(program, {1: entry(256, 511)}, sector=4096)
    with Loop(program, IMAGE, "-b", "4096") as loop:
        ended = program.plain("show", loop.path)
        tally.holds(f"show of sectors of 4096 bytes: {ended}", ended[0] == 0 and "sectors of 4096 bytes" in ended[1])
        ended = program.plain("new", loop.path, "--overwrite", "--guid", DISK)
        tally.holds(f"new on sectors of 4096 bytes: {ended}", ended[0] == 0)
    found = table.read(program.file(IMAGE), 4096)
    tally.equals("the table of sectors of 4096 bytes", (DISK, {}), found and (found.guid, found.entries))
    return None


def try_short(tally, program):
    """A block device that is shorter than its table: its length cannot be restored, so `truncate` is not named."""
    if not can_loop(program):
        return "no loop devices for this user: left out"
    make(program, {1: entry(2048, 4095), 2: entry(8192, SIZE // 512 - 34, "two", ROOT)})
    program.set_length(IMAGE, SIZE - MIB)
    with Loop(program) as loop:
        for command in "check", "grow":
            status, out, err = program.plain(command, loop.path)
            tally.holds(f"{command} of a device that is too short: {status} {out!r} {err!r}", status == 1 and
                        f"at least {SIZE} bytes" in out + err and "truncate" not in out + err)
    return None


SUBJECTS = {"devices in use": try_uses, "what the kernel is told": try_told, "a use of the whole disk": try_whole, "a Btrfs over two disks": try_btrfs,
            "no /proc, no /sys": try_hidden, "devices of 4096 bytes": try_sizes,
            "devices that are too short": try_short}
