"""The tables of what the program does: rows.txt, usage.txt and names.txt."""
import os
import re
import subprocess
from typing import NamedTuple

from given import DISK, ONE, READERS, SAME, THREE, TWO, USAGE, WRITERS, guid_of, lines_in
from gptimg import answer_of
from rows import IMAGES

# What words and lines of the tables may have as variables of a shell.
VARIABLES = {"disk": DISK, "one": ONE, "two": TWO, "three": THREE, "usage": USAGE, "same": SAME}


def by_bash(script, **variables):
    """What a shell prints."""
    ended = subprocess.run(["bash", "-c", script], env={**os.environ, **VARIABLES, **variables}, check=True,
                           stdout=subprocess.PIPE)
    return ended.stdout.decode(errors="surrogateescape")


def words_of(line, **variables):
    """The words of a line, as a shell reads them."""
    return by_bash(f'set -- {line}\nfor word in "$@"; do printf \'%s\\0\' "$word"; done', **variables).split("\0")[:-1]


class Row(NamedTuple):
    """A row of rows.txt: the words, the status, what becomes of the image, and the lines."""

    words: str
    status: int
    image: str
    lines: str


def rows_of(lines):
    """The rows, and between them the commands of the shell."""
    row = None
    for line in lines:
        if line.startswith(" "):
            row = row._replace(lines=f"{row.lines}\n{line.split('|', 3)[3][1:]}")
            continue
        if row:
            yield row
        row = None
        if line.startswith("$ "):
            yield line[2:]
        else:
            words, status, image, text = line.split("|", 3)
            row = Row(words.removesuffix(" "), int(status), image.strip(), text.removeprefix(" "))
    yield row


def run_command(program, line):
    """Runs a command of the shell that makes the image: one of these, or one of the system."""
    def numbers(words):
        return [int(word, 0) for word in words]
    makers = {"make_image": lambda name, size: program.make_zeros(name, int(size)),
              "clear_sectors": lambda name, *words: program.clear_sectors(name, *numbers(words)),
              "put_bytes": lambda name, at, *digits: program.put(name, int(at), bytes.fromhex("".join(digits))),
              "change_header": lambda name, *words: program.change_header(name, *numbers(words))}
    name = line.split()[0]
    if name in makers:
        makers[name](*words_of(line)[1:])
    else:
        subprocess.run(["bash", "-c", line], cwd=program.folder, check=True)


def try_rows(tally, program):
    """The rows of rows.txt."""
    digits = []
    for row in rows_of(lines_in("rows.txt")):
        if isinstance(row, str):
            run_command(program, row)
        else:
            try_row(tally, program, row)
            digits += re.findall("[0-9a-f]{16}", row.image)
    tally.equals("how many images are made from the format", len(IMAGES), len(digits))
    for (image, what), wanted in zip(IMAGES, digits):
        tally.equals(f"the checksum of {what}", image, wanted)


def try_row(tally, program, row):
    """Runs a row, and counts whether what it says comes of it."""
    before = program.sum_of("row.img")
    answer = program.answer("row.img", *words_of(row.words))
    wanted = answer_of(row.status, by_bash(f'printf %s "{row.lines}"'))
    after = program.sum_of("row.img")
    tally.equals(f"gptimg row.img {row.words}", (wanted, row.image),
                 (answer, "kept" if after == before else after[:16]))


def try_usage(_tally, program):
    """The lines of usage.txt, and each command with fewer words."""
    program.copy("good.img", "row.img")
    before = program.sum_of("row.img")
    for line in lines_in("usage.txt"):
        for command in WRITERS + READERS if "$command" in line else [""]:
            program.says(2, USAGE, "row.img", *words_of(line, command=command))
    for command in WRITERS + READERS:
        words = ["512", *command.split()]
        for count in range(len(words)):
            program.says(2, USAGE, "row.img", *words[:count])
    program.keeps_bytes("row.img", before)


def try_names(_tally, program):
    """A partition of each name in names.txt is added, and all are shown."""
    program.make_table("names.img", 51200)
    lines = [f"sector 512 form primary disk {DISK} usable 34..66 entries 128 align 1"]
    for number, line in enumerate(lines_in("names.txt"), 1):
        name, shown = (words_of(text)[0] for text in line.split("|", 1))
        place, unique = number + 33, guid_of(number)
        program.says(0, f"{number} {place}..{place}", "names.img", "512", "add", str(number), ONE, unique, "1", "first",
                     "1", name)
        lines.append(f"{number} {ONE} {unique} {place}..{place} 0000000000000000 {shown}")
    program.says(0, "\n".join(lines), "names.img", "512", "show")
