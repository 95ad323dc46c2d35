#!/usr/bin/env python3
"""Runs examples/growpart on the mounted root of a Linux guest, and cuts its power in the middle of that.

usage: trials/growpart_guest.py [--program GPTEDIT] [--cuts N] [--seed N]

The guest starts from partition 1 of a disk that was enlarged before. It runs growpart on that disk, which has the
kernel read the new length with partx, and then resize2fs. After it the kernel, sfdisk, sgdisk and e2fsck have to see
the new length. Then a fresh disk is started for each cut, and qemu is killed at a random moment after growpart began
its write. A copy of the table has to hold partition 1 with its old or its new end, and sfdisk has to print that. The
next start has to finish the growth. The last line is 'N passed, M failed'.

Needs qemu-system-x86_64, a kernel in /boot with its modules (Debian's linux-image-cloud-amd64), a static busybox, cpio,
partx, resize2fs, mkfs.ext4, sfdisk and sgdisk; trials/with_growpart.sh looks for them first. Some 20 seconds a cut.
"""

import argparse
import os
import random
import re
import shutil
import subprocess
import sys
import tempfile
import time

HERE = os.path.dirname(os.path.abspath(__file__))
TOP = os.path.dirname(HERE)
sys.path.insert(1, os.path.join(TOP, "tests"))
from harness import table  # noqa: E402
from harness.tally import Tally  # noqa: E402
import guest  # noqa: E402

SECTOR, MIB = 512, 1 << 20
START, OLD_LAST = 2048, 133119
OLD_SIZE, NEW_SIZE = 66 * MIB, 256 * MIB
# The last sector before the last multiple of 1 MiB that is at most the number of sectors before the backup copy.
NEW_LAST = (NEW_SIZE // SECTOR - 33) // 2048 * 2048 - 1
DISK, PART = "33221100-5544-7766-8899-aabbccddeeff", "c0ffee00-0000-4000-8000-000000000001"
LINUX = "0fc63daf-8483-4772-8e79-3d69d8477de4"
LIMIT_SECONDS = 600

# What the first file system of the guest runs: it goes on in the root on the disk.
COMMANDS = """
mkdir /disk
mount -t ext4 /dev/vda1 /disk && exec switch_root /disk /bin/start
echo "no root: $(cat /proc/partitions)"
poweroff -f
"""

# What the root runs first. GPTEDIT tells when the command that writes begins.
START_OF_ROOT = """#!/bin/busybox sh
/bin/busybox mount -t proc proc /proc
/bin/busybox mount -t sysfs sys /sys
/bin/busybox mount -t devtmpfs dev /dev
export PATH=/bin GPTEDIT=told
grep " / ext4 " /proc/mounts
echo "before $(cat /sys/class/block/vda1/size)"
growpart /dev/vda 1
echo "growpart $?"
echo "after $(cat /sys/class/block/vda1/size)"
resize2fs /dev/vda1
echo "resize2fs $?"
sync
echo end
poweroff -f
"""
TOLD = """#!/bin/busybox sh
case "$*" in
    *--dry-run*) ;;
    grow*) echo write > /dev/console ;;
esac
exec gptedit "$@"
"""


def make_root(folder, program):
    """The folder of the files of the root, with busybox, growpart and what that needs."""
    root = f"{folder}/disk"
    for name in ("bin", "proc", "sys", "dev", "tmp"):
        os.makedirs(f"{root}/{name}")
    busybox = shutil.which("busybox")
    shutil.copy(busybox, f"{root}/bin/busybox")
    for name in subprocess.run([busybox, "--list"], capture_output=True, text=True, check=True).stdout.split():
        if name != "busybox":
            os.symlink("busybox", f"{root}/bin/{name}")
    for name, path in ("gptedit", program), ("partx", shutil.which("partx")), ("resize2fs", shutil.which("resize2fs")):
        if os.path.lexists(f"{root}/bin/{name}"):
            os.remove(f"{root}/bin/{name}")
        guest.copy_with_libraries(path, root, name)
    shutil.copy(f"{TOP}/examples/growpart", f"{root}/bin/growpart")
    guest.write_script(f"{root}/bin/start", START_OF_ROOT)
    guest.write_script(f"{root}/bin/told", TOLD)
    return root


def run(*words):
    """What a program prints."""
    return subprocess.run(words, stdout=subprocess.PIPE, stderr=subprocess.STDOUT, text=True, check=False).stdout


def make_disk(path, root):
    """A disk whose partition 1 has these files, which was enlarged after that."""
    with open(path, "wb") as file:
        file.truncate(OLD_SIZE)
    entry = table.Entry(LINUX, PART, START, OLD_LAST, 0, "root")
    table.put(path, table.pieces_of(table.Table(DISK, *table.bounds(OLD_SIZE), 128, {1: entry}), OLD_SIZE))
    subprocess.run(["mkfs.ext4", "-q", "-d", root, "-E", f"offset={START * SECTOR}", path,
                    f"{(OLD_LAST - START + 1) // 2}k"], check=True)
    os.truncate(path, NEW_SIZE)


def read_log(log):
    """The lines in the file."""
    with open(log, encoding="latin1") as text:
        return text.read().replace("\r", "")


class Machine:
    """The guest, with one disk."""

    def __init__(self, folder, program):
        self.folder, self.disk, self.log = folder, f"{folder}/disk.img", f"{folder}/log"
        self.initrd = guest.make_guest(folder, {}, {}, COMMANDS)
        make_disk(f"{folder}/fresh.img", make_root(folder, program))

    def renew(self):
        """Takes a fresh disk."""
        run("cp", "--sparse=always", f"{self.folder}/fresh.img", self.disk)

    def parts_written(self):
        """How many of the headers and entries of the new table are on the disk, in whole or in part."""
        end, count = NEW_SIZE // SECTOR - 1, 0
        with open(self.disk, "rb") as disk, open(f"{self.folder}/fresh.img", "rb") as fresh:
            for first, sectors in (1, 1), (2, 32), (end - 32, 32), (end, 1):
                new, old = (os.pread(file.fileno(), sectors * SECTOR, first * SECTOR) for file in (disk, fresh))
                count += new != old
        return count

    def start(self, awaited, wait, option="", parts=0):
        """Starts it, waits for this text, so many seconds and so many parts of the new table, and kills it. Returns
        what it printed, and when each text came."""
        drive = f"file={self.disk},format=raw,if=virtio,cache=writeback,throttling.iops-write=20"
        words = guest.words_of_machine(self.initrd, option, ["-drive", drive])
        with open(self.log, "wb") as out:
            machine = subprocess.Popen(words, stdin=subprocess.DEVNULL, stdout=out, stderr=subprocess.STDOUT)
            limit, seen = time.time() + LIMIT_SECONDS, {}
            while awaited not in seen and time.time() < limit and machine.poll() is None:
                time.sleep(0.01)
                for text in re.findall(r"^(write|growpart|end)\b", read_log(self.log), re.M):
                    seen.setdefault(text, time.time())
            if machine.poll() is None:
                time.sleep(wait)
                while self.parts_written() < parts and time.time() < limit and machine.poll() is None:
                    time.sleep(0.001)
                machine.kill()
            machine.wait()
        return read_log(self.log), seen

    def finish(self, option=""):
        """Runs it until it has told its end."""
        return self.start("end", 1, option)


def number_after(word, text):
    """The number after this word at the start of a line, or None."""
    found = re.search(rf"^{word} (\d+)$", text, re.M)
    return int(found.group(1)) if found else None


def lasts_in(path):
    """The last sectors of partition 1 of the copies that are good, its other fields as they were."""
    lasts = set()
    with open(path, "rb") as file:
        image = table.File(file.fileno())
        for own in 1, OLD_SIZE // SECTOR - 1, NEW_SIZE // SECTOR - 1:
            copy = table.copy_at(image, SECTOR, own)
            entries = copy and table.entries_in(copy.array)
            if entries and entries == {1: table.Entry(LINUX, PART, START, entries[1].last, 0, "root")}:
                lasts.add((own, entries[1].last))
    return lasts


def rows_of_sfdisk(path):
    """The start and the last sector of each partition, as sfdisk prints them."""
    rows = re.findall(r"start= *(\d+), size= *(\d+)", run("sfdisk", "-d", path))
    return [(int(start), int(start) + int(size) - 1) for start, size in rows]


def try_end(tally, name, machine, told):
    """Counts whether all see the new length after a run that reached its end."""
    new = NEW_LAST - START + 1
    tally.equals(f"{name}: the root is on the disk", ["/dev/vda1"], re.findall(r"(/dev/\S+) / ext4 ", told))
    tally.equals(f"{name}: the length in the kernel: {told[-600:]}", new, number_after("after", told))
    tally.equals(f"{name}: the status of resize2fs", 0, number_after("resize2fs", told))
    tally.equals(f"{name}: sfdisk", [(START, NEW_LAST)], rows_of_sfdisk(machine.disk))
    tally.contains(f"{name}: sgdisk", "No problems found", run("sgdisk", "-v", machine.disk))
    checked = subprocess.run(["e2fsck", "-fn", f"{machine.disk}?offset={START * SECTOR}"], capture_output=True,
                             check=False)
    tally.equals(f"{name}: e2fsck: {checked.stdout}", 0, checked.returncode)
    stats = run("debugfs", "-R", "stats -h", f"{machine.disk}?offset={START * SECTOR}")
    count, size = (int(re.search(rf"^{word}: *(\d+)$", stats, re.M).group(1)) for word in ("Block count", "Block size"))
    tally.equals(f"{name}: the length of the file system", new * SECTOR // size, count)


def try_all(tally, machine, asked):
    """A run to its end, and the cuts."""
    machine.renew()
    told, seen = machine.finish()
    tally.equals("before: the length in the kernel", OLD_LAST - START + 1, number_after("before", told))
    tally.contains("growpart", f"CHANGED: partition=1 start={START} old: size={OLD_LAST - START + 1} end={OLD_LAST} "
                   f"new: size={NEW_LAST - START + 1} end={NEW_LAST}\ngrowpart 0\n", told)
    try_end(tally, "no cut", machine, told)
    if "write" not in seen or "growpart" not in seen:
        return
    most, chance = seen["growpart"] - seen["write"], random.Random(asked.seed)
    print(f"the write and partx take {most:.1f} seconds")
    for cut in range(1, asked.cuts + 1):
        machine.renew()
        # The writes come late in this time, so cuts are denser there.
        wait = most * ((cut - chance.random()) / asked.cuts) ** 0.5
        # Every second cut comes when 1 to 4 parts of the new table are on the disk.
        parts = 0 if cut % 2 else (cut // 2 - 1) % 4 + 1
        machine.start("write", 0 if parts else wait, parts=parts)
        lasts, rows = lasts_in(machine.disk), rows_of_sfdisk(machine.disk)
        tally.holds(f"cut {cut}: the copies hold {lasts}",
                    lasts and {last for _, last in lasts} <= {OLD_LAST, NEW_LAST})
        tally.is_one_of(f"cut {cut}: sfdisk", rows, [(START, OLD_LAST)], [(START, NEW_LAST)])
        told, _ = machine.finish("gpt")
        try_end(tally, f"cut {cut}, the next start", machine, told)
        ended = number_after("growpart", told)
        moment = f"{parts} parts" if parts else f"{wait:.2f} s"
        print(f"cut {cut} after {moment}: copies {sorted(lasts)}, growpart {ended}", flush=True)


def main():
    """Reads the words, and runs all."""
    words = argparse.ArgumentParser(description=__doc__.split("\n", maxsplit=1)[0])
    words.add_argument("--program", default=f"{TOP}/gptedit")
    words.add_argument("--cuts", type=int, default=8)
    words.add_argument("--seed", type=int, default=1)
    asked = words.parse_args()
    tally = Tally()
    with tempfile.TemporaryDirectory() as folder:
        try_all(tally, Machine(folder, os.path.realpath(asked.program)), asked)
    return tally.end()


if __name__ == "__main__":
    sys.exit(main())
