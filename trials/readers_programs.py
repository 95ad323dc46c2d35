"""The readers that are programs: what each is asked, and how its answer names the places of partitions."""

import os
import re
import shutil
import subprocess
from dataclasses import dataclass


@dataclass(frozen=True)
class Program:
    """A program that lists partitions.

    `found` has two groups, the first sector and the last one; where `by_length` is true the second group is
    how many sectors there are. `unit` is how many sectors one of what it counts has.
    """

    name: str
    words: tuple
    found: str
    by_length: bool = False
    unit: int = 1
    package: str = ""

    def missing(self):
        """What it needs and is not there, or nothing."""
        return None if shutil.which(self.words[0]) else self.words[0]

    def read_all(self, images, _folder):
        """The places that it lists of each image."""
        return [self.read(image) for image in images]

    def read(self, image):
        """The places that it lists of the image."""
        words = [image if word == "IMAGE" else word for word in self.words]
        ended = subprocess.run(
            words, capture_output=True, check=False, stdin=subprocess.DEVNULL,
            cwd=os.path.dirname(image), env={**os.environ, "LC_ALL": "C"},
        )
        return self.places(ended.stdout.decode(errors="replace"))

    def places(self, text):
        """The places that this answer names."""
        return places_of(re.findall(self.found, text, re.M), self.by_length, self.unit)


def places_of(pairs, by_length=False, unit=1, base=10):
    """The places that pairs of digits name, in order: the first sector, and the last one or how many."""
    places = []
    for first, other in pairs:
        start, end = int(first, base) * unit, int(other, base) * unit
        places.append((start, start + end - 1 if by_length else end))
    return tuple(sorted(places))


def programs(gptimg):
    """All of them, with this program as gptimg."""
    return [
        Program("gptimg", (gptimg, "IMAGE", "512", "show"), r"^\d+ \S+ \S+ (\d+)\.\.(\d+) "),
        Program("sgdisk", ("sgdisk", "-p", "IMAGE"), r"^ +\d+ +(\d+) +(\d+) ", package="gdisk"),
        Program("libfdisk (sfdisk)", ("sfdisk", "--json", "IMAGE"), r'"start": (\d+),\s+"size": (\d+)', True,
                package="libfdisk1"),
        Program("libblkid (partx)", ("partx", "-g", "-o", "START,END", "IMAGE"), r"^ *(\d+) +(\d+)$",
                package="libblkid1"),
        Program("cgpt", ("cgpt", "show", "-q", "IMAGE"), r"^ *(\d+) +(\d+) +\d+ ", True, package="cgpt"),
        Program("testdisk", ("testdisk", "/list", "IMAGE"), r"^ *\d+ P .*? (\d+) +(\d+) +\d+ \[",
                package="testdisk"),
        Program("parted -s", ("parted", "-s", "-m", "IMAGE", "unit", "s", "print"), r"^\d+:(\d+)s:(\d+)s:",
                package="parted"),
        Program("GRUB (grub-fstest)", ("grub-fstest", "IMAGE", "--", "ls", "-l"),
                r"Partition start at (\d+)KiB - Total size (\d+)KiB", True, 2, "grub-common"),
    ]
