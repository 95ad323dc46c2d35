#!/usr/bin/env python3
"""Cuts the power of a Linux kernel in the middle of commands of gptimg, and reads what is left.

usage: trials/power_cuts.py [--program GPTIMG] [--tool gptimg|sgdisk] [--cuts N] [--seed N]

A virtual machine adds and removes partition 1 of its block device for ever, with gptimg or with sgdisk, and
writes back what it holds as eagerly as it can. It tells each command on its serial line, before it and after
it. It is killed at a random moment. Then gptimg, which reads by the rules of the format, has to show the
table after the last command that was told as done, or the one after the next; where a copy is broken, the
first command of the next start mends it. Where neither is shown, the next start has a new image. The last
line is 'N passed, M failed'.

Needs qemu-system-x86_64, a kernel in /boot with its modules (Debian's linux-image-cloud-amd64), a static
busybox and cpio; trials/with_power_cuts.sh looks for them first. Some 7 seconds a cut.
"""

import argparse
import os
import random
import re
import shutil
import subprocess
import sys
import tempfile
import time

sys.path.insert(1, os.path.join(os.path.dirname(os.path.abspath(__file__)), "..", "tests"))
from harness.tally import Tally  # noqa: E402
import guest  # noqa: E402

DATA_TYPE = "a2a0d0ebe5b9334487c068b6b72699c7"
KEPT = "77" * 16
IMAGE_BYTES = 16 << 20
START_SECONDS = 120

# The number of the command that a new image stands for: an odd one, which leaves no partition 1.
NEW = 1

# What the guest runs, which has the number before the first command on its kernel's command line.
COMMANDS_OF_GUEST = """
echo 1 > /proc/sys/vm/dirty_writeback_centisecs
echo 1 > /proc/sys/vm/dirty_expire_centisecs
echo 4096 > /proc/sys/vm/dirty_background_bytes
echo "kernel saw $(grep -c 'vda[0-9]' /proc/partitions)"
k=$(sed -n 's/.*first=\\([0-9]*\\).*/\\1/p' /proc/cmdline)
while :; do
    k=$((k + 1))
    echo "begin $k"
    if [ $((k % 2)) = 0 ]; then {add}; else {remove}; fi
    echo "done $k $?"
done
"""

# How each tool adds partition 1, with the number of the command as its GUID, and how it removes it.
COMMANDS = {
    "gptimg": (
        f"tool /dev/vda 512 add 1 {DATA_TYPE} $(printf '%032x' $k) 64 first 64 cut",
        "tool /dev/vda 512 remove 1",
    ),
    "sgdisk": (
        "tool -a 1 -n 1:64:127 -u 1:$(printf '00000000-0000-0000-0000-%012x' $k) /dev/vda",
        "tool -d 1 /dev/vda",
    ),
}


def make_guest(tool, program, folder):
    """Makes the first file system of the guest, with this program as its tool, and gives its path."""
    add, remove = COMMANDS[tool]
    commands = COMMANDS_OF_GUEST.replace("{add}", add).replace("{remove}", remove)
    return guest.make_guest(folder, {"tool": program}, {}, commands)


def words_of_machine(initrd, image, first):
    """The command line of the virtual machine, whose commands are numbered from behind first."""
    drive = f"file={image},format=raw,if=virtio,cache=writeback,throttling.iops-write=60"
    return guest.words_of_machine(initrd, f"first={first}", ["-drive", drive])


def run_until_cut(words, log, enough, wait):
    """Starts the machine, waits for this text and so many seconds more, and kills it. What it told."""
    with open(log, "wb") as out:
        machine = subprocess.Popen(
            words, stdin=subprocess.DEVNULL, stdout=out, stderr=subprocess.DEVNULL
        )
        limit = time.time() + START_SECONDS
        while enough not in read_log(log) and time.time() < limit:
            time.sleep(0.05)
        time.sleep(wait)
        machine.kill()
        machine.wait()
    return read_log(log)


def read_log(log):
    """What stands in the file."""
    with open(log, encoding="latin1") as text:
        return text.read()


class Image:
    """The image on which the guest works, as gptimg reads it from outside."""

    def __init__(self, program, path):
        self.program = program
        self.path = path
        self.make()

    def make(self):
        """Makes it anew, with partition 2 alone."""
        with open(self.path, "wb") as file:
            file.truncate(IMAGE_BYTES)
        self.run("new", "5a" * 16)
        self.run("mbr", "plain")
        self.run("add", "2", DATA_TYPE, KEPT, "64", "last", "64", "kept")

    def run(self, *words):
        """Runs a command."""
        return subprocess.run(
            [self.program, self.path, "512", *words], capture_output=True, text=True, check=False
        )

    def number_shown(self):
        """The number of the command whose partition is shown, None for no partition, or "fault"."""
        shown = self.run("show")
        if shown.returncode != 0 or KEPT not in shown.stdout:
            return "fault"
        found = re.search(r"^1 \S+ ([0-9a-f]{32})", shown.stdout, re.M)
        return int(found.group(1), 16) if found else None

    def checked(self):
        """What the check says of both copies, in a line."""
        return ", ".join(self.run("check").stdout.splitlines())


def number_after(command):
    """What is shown after the command with this number: even ones add, odd ones remove."""
    return command if command % 2 == 0 else None


def judge(told, image, first):
    """Whether what is left is right, the number of the last command on the image, and a line on it."""
    done = re.findall(r"done (\d+) (\d+)", told)
    if not done:
        return False, first, "no command was done: " + told[-300:]
    last = int(done[-1][0])
    refused = [number for number, status in done if status != "0"]
    shown = image.number_shown()
    saw = re.findall(r"kernel saw (\d+)", told)
    line = f"at the start the kernel saw {' '.join(saw)} partitions; {len(done)} commands; {image.checked()}"
    if refused:
        return False, last, f"refused: {refused}; {line}"
    if shown == number_after(last):
        return True, last, f"read as the last that was done; {line}"
    if shown == number_after(last + 1):
        return True, last + 1, f"read as the next; {line}"
    return False, last, f"shown {shown} after {last}; {line}"


def cut_all(tally, asked, folder):
    """Makes all cuts."""
    program = os.path.realpath(asked.program)
    in_guest = program if asked.tool == "gptimg" else shutil.which(asked.tool)
    initrd = make_guest(asked.tool, in_guest, folder)
    image = Image(program, f"{folder}/disk.img")
    chance = random.Random(asked.seed)
    first = NEW
    for cut in range(1, asked.cuts + 1):
        words = words_of_machine(initrd, image.path, first)
        enough = f"done {first + 2} "
        told = run_until_cut(words, f"{folder}/log", enough, chance.uniform(0, 1.5))
        is_right, first, line = judge(told, image, first)
        tally.told(f"cut {cut}", is_right, line)
        if not is_right:
            first = NEW
            image.make()


def main():
    """Reads the words, and makes the cuts."""
    top = os.path.dirname(os.path.dirname(os.path.abspath(__file__)))
    words = argparse.ArgumentParser(description=__doc__.split("\n", maxsplit=1)[0])
    words.add_argument("--program", default=f"{top}/gptimg")
    words.add_argument("--tool", choices=sorted(COMMANDS), default="gptimg")
    words.add_argument("--cuts", type=int, default=20)
    words.add_argument("--seed", type=int, default=1)
    asked = words.parse_args()
    tally = Tally()
    with tempfile.TemporaryDirectory() as folder:
        cut_all(tally, asked, folder)
    return tally.end()


if __name__ == "__main__":
    sys.exit(main())
