"""Runs of gptimg, and the images that subjects copy."""
import hashlib
import shutil
import subprocess
from typing import NamedTuple

from given import DATA, DISK, ONE
from harness import runs
from harness.runs import Ended, by_shell, closing, run_to_files

WANTED, OTHER = "image as wanted", "image of other bytes"
LONGEST_NAME = "€" * 36


class Done(NamedTuple):
    """What a line does with all streams open: the checksums of the image before it and after it, and its answer."""

    before: str
    after: str
    answer: Ended


def answer_of(status, lines=""):
    """The answer of this status and these lines."""
    return Ended(status, f"{lines}\n" if lines else "", "")


def from_backup(answer):
    """The same answer where the table is read from the backup copy."""
    return answer._replace(out=answer.out.replace("form primary", "form backup", 1))


class Gptimg(runs.Program):
    """gptimg, in a folder of its own, with the programs beside it."""

    def __init__(self, path, folder, tally, guid="", edit=""):
        super().__init__(path, folder)
        self.tally, self.guid, self.edit, self.full_lines = tally, guid, edit, ""

    def beside(self, path, folder=None):
        """Another program, in this folder or in another one."""
        return Gptimg(path, folder or self.folder, self.tally)

    def command(self, *words):
        """Runs a command in the folder, and gives its answer."""
        return run_to_files(words, self.folder)

    def answer(self, *words):
        """Runs the program, and gives its answer."""
        return self.command(self.path, *words)

    def closed(self, streams, *words):
        """Runs it with these standard streams closed."""
        return self.command(*by_shell(closing(streams), [self.path, *words]))

    def start(self, output, *words):
        """Starts it, with this file as its output and its errors."""
        with open(self.file(output), "wb") as out:
            return subprocess.Popen([self.path, *words], cwd=self.folder, stdin=subprocess.DEVNULL, stdout=out,
                                    stderr=subprocess.STDOUT)

    def says(self, status, lines, *words):
        """Counts whether it ends with this status and prints these lines, and nothing as an error."""
        self.tally.equals(f"gptimg {' '.join(words)}", answer_of(status, lines), self.answer(*words))

    def shows(self, image, text):
        """Counts whether `show` is done, and prints lines of the image that have this text."""
        answer = self.answer(image, "512", "show")
        self.tally.contains(f"gptimg {image} 512 show", text, answer.out)

    def text(self, name):
        """The text of a file."""
        return self.bytes_of(name).decode(errors="surrogateescape")

    def copy(self, source, name):
        """Copies a file over another one."""
        shutil.copyfile(self.file(source), self.file(name))

    def sum_of(self, name):
        """The checksum of a file."""
        return hashlib.sha256(self.bytes_of(name)).hexdigest()

    def state_of(self, name, *sums):
        """Tells whether a file has one of these checksums."""
        return WANTED if self.sum_of(name) in sums else OTHER

    def keeps_bytes(self, name, wanted):
        """Counts whether a file still has this checksum."""
        self.tally.equals(f"the bytes of {name}", wanted, self.sum_of(name))

    def done(self, image, line):
        """Runs a line on tried.img, a copy of the image."""
        before = self.sum_of(image)
        self.copy(image, "tried.img")
        answer = self.answer(*line.split())
        return Done(before, self.sum_of("tried.img"), answer)

    def make_table(self, name, size):
        """Makes an image of so many bytes with a table."""
        self.make_zeros(name, size)
        self.answer(name, "512", "new", DISK)

    def clear_sectors(self, name, first, count):
        """Writes zeros over so many sectors of an image."""
        self.put(name, first * 512, bytes(count * 512))

    def change_header(self, name, *numbers):
        """Puts numbers of four bytes into the primary header of an image, and its checksum: each time the place and
        the number."""
        self.set_fields(name, 512, *((at, "<I", number) for at, number in zip(numbers[::2], numbers[1::2])))

    def count_entries(self, name, count):
        """Makes the primary header count so many entries."""
        self.change_header(name, 80, count)

    def fill_table(self, name, count, first):
        """Adds so many partitions to a table without any, whose first usable sector this is. They have one sector each,
        and the longest name. Gives the lines that `show` prints of them."""
        lines = ""
        for number in range(1, count + 1):
            place, unique = first + number - 1, f"{number:032x}"
            self.answer(name, "512", "add", str(number), DATA, unique, "1", "first", "1", LONGEST_NAME)
            lines += f"{number} {DATA} {unique} {place}..{place} 0000000000000000 {LONGEST_NAME}\n"
        return lines

    def make_images(self):
        """Makes the images that subjects copy. Three have 100 sectors: a good one, one without a primary header, and
        one that was made longer. Then there are one with 128 partitions, and one of a table with 1,000 entries, which
        take 250 sectors of its 720: usable are 252 to 468, and the CRC-32 is that of 128,000 zeros."""
        self.make_table("good.img", 51200)
        self.answer("good.img", "512", "mbr", "plain")
        self.answer("good.img", "512", "add", "1", DATA, ONE, "10", "first", "1", "Foo")
        self.copy("good.img", "headless.img")
        self.clear_sectors("headless.img", 1, 1)
        self.copy("good.img", "longer.img")
        self.set_length("longer.img", 102400)
        self.make_table("full.img", 1 << 20)
        self.full_lines = self.fill_table("full.img", 128, 34)
        self.make_table("large.img", 368640)
        self.change_header("large.img", 40, 252, 48, 468, 80, 1000, 88, 0x25407eb9)
        self.answer("large.img", "512", "sort")
