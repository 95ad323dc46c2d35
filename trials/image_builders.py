#!/usr/bin/env python3
"""Runs the partition steps of mkosi and vmdb2 twice, with sfdisk or parted and with gptedit in its place, and compares.

usage: trials/image_builders.py [--program GPTEDIT]

Left out is where parted does not align: a partition from 0% to 100%, and an end at 100% of less than 200 MiB.

trials/builders has an `sfdisk` and a `parted` that take the words of these programs and run gptedit. sfdisk then dumps
both tables, which have to be one, except for random GUIDs. The last line is 'N passed, M failed'. Needs sfdisk, and
Debian's mkosi (up to 14, which runs sfdisk) and vmdb2 with parted and qemu-img: each is left out where it is missing.
"""

import argparse
import os
import re
import shutil
import subprocess
import sys
import tempfile

HERE = os.path.dirname(os.path.abspath(__file__))
TOP = os.path.dirname(HERE)
sys.path.insert(1, os.path.join(TOP, "tests"))
from harness.tally import Tally  # noqa: E402

PYTHON = "/usr/bin/python3"
# mkosi's own code: a table, and the same table with one partition more on the image that it lengthens.
OF_MKOSI = """
import os, sys, uuid
from mkosi.backend import PartitionIdentifier as At, PartitionTable
table = PartitionTable({words})
for place, size, kind, name, guid, read_only in {parts}:
    table.add(At[place], size, uuid.UUID(kind), name, guid and uuid.UUID(guid), read_only)
    if place in {runs}:
        with open("disk.img", "ab") as file:
            file.truncate(table.disk_size())
        table.run_sfdisk("disk.img", quiet=True)
"""
ESP, ROOT = "c12a7328-f81f-11d2-ba4b-00a0c93ec93b", "4f68bce3-e8cd-4db1-96e7-fbcaf984b709"
HOME, SWAP = "933ac7e1-2eb4-4f13-b844-0e14e2aef915", "0657fd6d-a4ab-43c4-84e5-0933c84b4f4f"
BIOS, VERITY = "21686148-6449-6e6f-744e-656564454649", "2c7357ed-ebd2-46d9-aec1-23d437ec2bf5"
ONE = "c0ffee00-0000-4000-8000-000000000001"
PARTS = [("bios", 1 << 20, BIOS, "BIOS Boot Partition", None, False),
         ("esp", 33 << 20, ESP, "EFI System Partition", None, False),
         ("root", 50 << 20, ROOT, "Root Partition", ONE, True),
         ("verity", 12345678, VERITY, "Verity Partition", None, True),
         ("swap", 8 << 20, SWAP, "Swap Partition", None, False),
         ("home", 20 << 20, HOME, "Home Partition", None, False)]
MKOSI = {"all partitions in one run": ("", PARTS, ["home"]),
         "a run after each partition": ("", PARTS, [one[0] for one in PARTS]),
         "the first partition at 1 MiB": ("first_lba=2048", PARTS, ["esp", "home"]),
         "a grain of 1 MiB": ("grain=1 << 20", PARTS, ["root", "home"])}
# Steps of vmdb2: the length of the image, and for each partition its name, file system, start, end and flag.
VMDB2 = {
    "one partition": ("512M", [("primary", "ext2", "1MiB", "100%", "")]),
    "percents": ("1G", [("primary", "ext4", "0%", "20%", ""), ("primary", "ext4", "20%", "100%", "")]),
    "an ESP": ("512M", [("efi", "fat32", "1MiB", "65MiB", "esp"), ("root", "ext4", "65MiB", "100%", "")]),
    "firmware of a board": ("2G", [("primary", "fat32", "4MiB", "10%", "boot"),
                                   ("primary", "ext2", "10%", "100%", "")]),
    "a BIOS boot partition": ("1G", [("bios", "ext2", "0%", "1%", "bios_grub"), ("swap", "linux-swap", "1%", "25%", ""),
                                     ("root", "ext4", "25%", "90%", "legacy_boot"),
                                     ("data", "ext4", "90%", "100%", "lvm")]),
    "PReP": ("256M", [("prep", "ext2", "0%", "9%", "prep"), ("root", "ext4", "9%", "100%", "")]),
}


def steps_of(size, parts):
    """The steps in a file of vmdb2."""
    lines = ["steps:", "  - mkimg: disk.img", f"    size: {size}", "  - mklabel: gpt", "    device: disk.img"]
    for number, (name, kind, start, end, flag) in enumerate(parts):
        lines += [f"  - mkpart: {name}", "    device: disk.img", f"    start: {start}", f"    end: {end}",
                  f"    fs-type: {kind}", f"    tag: t{number}"]
        if flag:
            lines += ["  - set_part_flag: disk.img", f"    tag: t{number}", f"    flag: {flag}"]
    return "\n".join(lines) + "\n"


def dump_of(folder, words, path):
    """What sfdisk dumps of the image that a command leaves, without random GUIDs."""
    os.makedirs(folder)
    ended = subprocess.run(words, cwd=folder, env={**os.environ, "PATH": path}, capture_output=True, text=True,
                           check=False)
    dump = subprocess.run(["sfdisk", "-d", "disk.img"], cwd=folder, capture_output=True, text=True, check=False).stdout
    dump = re.sub(rf"label-id: .*|uuid=(?!{ONE.upper()})[0-9A-F-]*", "", dump)
    return dump or ended.stdout + ended.stderr


def compare(tally, name, folder, program, words):
    """Counts whether a command leaves the same table with gptedit as with the other program."""
    os.environ["GPTEDIT"] = program
    theirs = dump_of(f"{folder}/theirs", words, os.environ["PATH"])
    ours = dump_of(f"{folder}/ours", words, f"{HERE}/builders:{os.environ['PATH']}")
    tally.holds(f"{name}: there are partitions: {theirs}", "start=" in theirs)
    tally.equals(f"{name}", theirs, ours)
    shutil.rmtree(folder)


def imports(module):
    """Whether Debian's Python has a module."""
    return subprocess.run([PYTHON, "-c", f"import {module}"], capture_output=True, check=False).returncode == 0


def try_mkosi(tally, folder, program):
    """The tables of mkosi."""
    if not imports("mkosi.backend"):
        tally.leave_out("mkosi is not installed", "mkosi")
        return
    for name, (words, parts, runs) in MKOSI.items():
        script = OF_MKOSI.format(words=words, parts=parts, runs=runs)
        compare(tally, f"mkosi: {name}", f"{folder}/mkosi", program, [PYTHON, "-B", "-c", script])


def try_vmdb2(tally, folder, program):
    """The tables of vmdb2."""
    if not (shutil.which("vmdb2") and shutil.which("parted") and shutil.which("qemu-img")):
        tally.leave_out("vmdb2, parted or qemu-img is not installed", "vmdb2")
        return
    for name, (size, parts) in VMDB2.items():
        steps = f"{folder}/steps.vmdb"
        with open(steps, "w", encoding="utf-8") as file:
            file.write(steps_of(size, parts))
        compare(tally, f"vmdb2: {name}", f"{folder}/vmdb2", program, ["vmdb2", "--image", "disk.img", steps])


def main():
    """Reads the words, and compares all."""
    words = argparse.ArgumentParser(description=__doc__.split("\n", maxsplit=1)[0])
    words.add_argument("--program", default=f"{TOP}/gptedit")
    program, tally = os.path.realpath(words.parse_args().program), Tally()
    os.environ["PATH"] += ":/usr/sbin:/sbin"
    if not shutil.which("sfdisk"):
        print("image_builders.py: left out, as there is no sfdisk")
        return 0
    with tempfile.TemporaryDirectory() as folder:
        tally.subject("mkosi", try_mkosi, folder, program)
        tally.subject("vmdb2", try_vmdb2, folder, program)
    return tally.end()


if __name__ == "__main__":
    sys.exit(main())
