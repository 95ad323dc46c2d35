"""The words of commands, and the lines that are printed of images."""
import os

TOP = os.path.realpath(os.path.join(os.path.dirname(os.path.abspath(__file__)), "..", ".."))
HERE = os.path.join(TOP, "tests", "program")

DISK = "f" * 32
DATA = "a2a0d0ebe5b9334487c068b6b72699c7"
ONE, TWO, THREE = ("1" * 32, "2" * 32, "3" * 32)
USAGE = "usage: gptimg IMAGE SECTOR COMMAND [WORDS]"
SAME = "primary ok\nbackup ok\nsame yes"
ADD = f"add 2 {DATA} {TWO} 5 last 4 Bar"

# A line of words for each command that writes, and for each that reads. All are done on a good image.
WRITERS = [f"new {DISK}", ADD, "remove 1", "sort", "grow", "mbr plain"]
READERS = ["show", "free 1", "check"]


def guid_of(number):
    """The digits of the GUID of a partition, by its number."""
    return f"{number:032x}"


def lines_in(name):
    """The lines of a file of data that are neither empty nor a comment."""
    with open(os.path.join(HERE, name), encoding="utf-8") as file:
        return [line for line in file.read().splitlines() if line and not line.startswith("#")]


def text_of(path):
    """The text of a file of the repository."""
    with open(os.path.join(TOP, path), encoding="utf-8") as file:
        return file.read()
