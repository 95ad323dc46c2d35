"""Reads the rows of peer_rows/*.txt: cases of the tests of other programs.

A line is a word and its arguments, `#` begins a comment, and `row` begins a row:

  in FILE                    the file of the other program that the rows after this line are from
  row NAME                   a case of that file
  disk SIZE [sector N]       the image, as 10MiB or 4001s, in sectors of N bytes (default: 512)
  table [guid G] [bounds A..B] [entries N]
                             it has a table (`has` without it means the usual one)
  has ENTRY                  it has this partition: N A..B TYPE ["NAME"] [guid G] [attributes 0xN], with a type of
                             types.txt, and @N for the GUID of partition N. N..M A xCOUNT TYPE .. means partitions of
                             COUNT sectors one after another, with # for the number
  backup ENTRY               the backup copy has this partition in place of the other
  again                      the disk and the table are those that the row above wants
  length SIZE                then the image gets this length; further changes are
  zero SECTOR COUNT          zeros in sectors (-1 is the last one),
  put SECTOR BYTE HEX [xN]   bytes, N times,
  copy SECTOR COUNT SECTOR   sectors that are copied,
  field SECTOR NAME VALUE    and a field of the header there, with the right checksums
  run WORDS                  a command line of gptedit; lines that begin with | are its input (|N..M repeats one)
  keeps                      the other program keeps each partition that no `wants` line names
  wants ENTRY|no N           the table has this partition, or not; `guid new` means another GUID than before, and
                             `any` in place of A..B any sectors
  wants nothing|no table     the table is empty, or there is none
  wants guid G|bounds A..B|entries N|mbr START LENGTH MARK|free A..B ..
  wants same                 the other program reads, and writes nothing
  fails                      it refuses, and writes nothing

Each row ends with what gptedit does: `equal`; `differs peer right|ours right|both may: REASON`, with `ours` lines as
the `wants` lines, `ours fails STATUS` or `ours done`; or `refused STATUS: REASON`. `instead` lines are command lines
that do what the other program does.
"""
import os
import re
import shlex

from harness import table
from commands import DISK

ROWS = os.path.join(os.path.dirname(__file__), "peer_rows")
UNITS = {"s": None, "B": 1, "KiB": 1 << 10, "MiB": 1 << 20, "GiB": 1 << 30}
ENTRY = re.compile(r'(\d+)(?:\.\.(\d+))? (?:any|(\d+)(?:\.\.(\d+)| x(\d+))) (\S+)(?: "(.*)")?(?: guid (\S+))?'
                   r'(?: attributes (\S+))?')
VERDICTS = "equal", "differs", "refused"
REASONS = {"equal": r"", "differs": r"(peer right|ours right|both may): .+", "refused": r"\d: .+"}


def read_types():
    """The GUIDs of types by the names that the rows have for them."""
    with open(os.path.join(ROWS, "types.txt"), encoding="utf-8") as file:
        return dict(re.findall(r"^([\w-]+) +([\w-]{36})$", file.read(), re.M))


TYPES = read_types()


def usual_guid(number):
    """The GUID of a partition that is there before the command, if its row names none."""
    return f"c0ffee00-0000-4000-8000-{number:012}"


def guid_of(word):
    """A GUID in lower case, of its text or of @N."""
    return usual_guid(int(word[1:])) if word.startswith("@") else word.lower()


def entries_of(text):
    """The entries that a text describes, by their numbers. What is left out of the GUID and the sectors is None."""
    found = ENTRY.fullmatch(text)
    if not found:
        raise ValueError(f"not a partition: {text}")
    number, to, first, last, each, kind, name, guid, bits = found.groups()
    one = table.Entry(TYPES.get(kind, kind), guid and guid_of(guid), None, None, int(bits or "0", 0), name or "")
    number = int(number)
    if not first:
        return {number: one}
    first = int(first)
    each = int(each or int(last) - first + 1)
    return {n: one._replace(first=first + (n - number) * each, last=first + (n - number + 1) * each - 1,
                            name=one.name.replace("#", str(n))) for n in range(number, int(to or number) + 1)}


def pair(text):
    """The numbers of A..B."""
    return tuple(int(word) for word in text.split(".."))


def with_line(wanted, text, start):
    """What is wanted, with one more line of it, after a table that is there."""
    word, _, rest = text.partition(" ")
    entries = wanted.get("entries") or {}
    if word[0].isdigit():
        before = start.entries if start else {}
        return {**wanted, "entries": {**entries, **{
            n: one._replace(guid=one.guid or (before[n].guid if n in before else None))
            for n, one in entries_of(text).items()}}}
    if word == "same":
        return {"status": 0, "is_same": True}
    if word == "fails":
        return {"status": int(rest) if rest else "not 0", "is_same": True}
    return {**wanted, **{
        "no": lambda: {"entries": None if rest == "table" else {n: entries[n] for n in entries if n != int(rest)}},
        "nothing": lambda: {"entries": {}}, "guid": lambda: {"guid": guid_of(rest)}, "mbr": lambda: {"mbr": rest},
        "bounds": lambda: {"bounds": pair(rest)}, "entries": lambda: {"count": int(rest)},
        "free": lambda: {"free": [pair(one) for one in rest.split()]}, "done": lambda: {"status": 0}}[word]()}


class Row:
    """A case: what is there, the command lines, what the other program leaves (`wanted`), and what gptedit does instead
    (`ours`, or None). Each method reads the arguments of a word."""

    def __init__(self, where, above):
        self.where, self.above = where, above
        self.size, self.sector, self.length = 0, 512, None
        self.start, self.backup, self.changes = None, {}, []
        self.runs, self.instead, self.last_run = [], [], None
        self.wanted, self.ours = {"status": 0}, None
        self.verdict, self.reason = None, ""

    def bytes_in(self, text):
        """How many bytes a size is."""
        number, unit = re.fullmatch(r"(\d+)(\D+)", text).groups()
        return int(number) * (UNITS[unit] or self.sector)

    def disk(self, text):
        """The image."""
        size, _, sector = text.partition(" sector ")
        self.sector = int(sector or 512)
        self.size = self.bytes_in(size)

    def table(self, text):
        """The table that is there."""
        words = text.split()
        said = dict(zip(words[::2], words[1::2]))
        count = int(said.get("entries", 128))
        bounds = pair(said["bounds"]) if "bounds" in said else table.bounds(self.size, self.sector, count)
        self.start = table.Table(guid_of(said.get("guid", DISK)), *bounds, count, {})

    def has(self, text):
        """A partition that is there."""
        if not self.start:
            self.table("")
        self.start.entries.update(with_guids(entries_of(text)))

    def backup_has(self, text):
        """A partition that is in the backup copy."""
        self.backup.update(with_guids(entries_of(text)))

    def again(self, _):
        """What the row above wants."""
        self.size, self.sector = self.above.length or self.above.size, self.above.sector
        self.start = self.above.left()

    def left(self):
        """The table that the other program leaves; None if there is none."""
        wanted, before = self.wanted, self.start
        if "entries" not in wanted:
            return before
        if wanted["entries"] is None:
            return None
        count = wanted.get("count") or (before.count if before else 128)
        usual = (before.first, before.last) if before else table.bounds(self.length or self.size, self.sector, count)
        guid = wanted["guid"] if wanted.get("guid") not in (None, "new") else before.guid if before else DISK
        return table.Table(guid, *(wanted.get("bounds") or usual), count, with_guids(wanted["entries"]))

    def change(self, word, text):
        """A change of the image after its table was made."""
        if word == "length":
            self.length = self.bytes_in(text)
        self.changes.append((word, text.split()))

    def run(self, text, runs=None):
        """A command line."""
        self.last_run = [shlex.split(text), ""]
        (self.runs if runs is None else runs).append(self.last_run)

    def input(self, text):
        """A line of the input of the last command line, or several."""
        numbers = re.match(r"(\d+)\.\.(\d+) ", text)
        lines = [text]
        if numbers:
            line = text[numbers.end():].replace("\\n", "\n")
            lines = [line.replace("#", str(n)) for n in range(int(numbers[1]), int(numbers[2]) + 1)]
        self.last_run[1] += "".join(f"{line}\n" for line in lines)

    def keeps(self, _):
        """The partitions that are there are wanted."""
        self.wanted = {**self.wanted, "entries": dict(self.start.entries)}

    def wants(self, text):
        """What is wanted."""
        self.wanted = with_line(self.wanted, text, self.start)

    def is_ours(self, text):
        """What gptedit leaves instead."""
        before = self.ours or {**self.wanted, "status": 0}
        if before.pop("is_same", None):
            before["entries"] = dict(self.start.entries) if self.start else {}
        self.ours = with_line(before, text, self.start)

    def ends(self, verdict, text):
        """The verdict."""
        self.verdict, self.reason = verdict, text
        if not re.fullmatch(REASONS[verdict], text):
            raise ValueError(f"not a reason: {text}")
        if verdict == "refused":
            self.ours = {"status": int(text[0]), "is_same": True}

    def read(self, line):
        """Reads a line."""
        if line.startswith("|"):
            self.input(line[1:])
            return
        word, _, text = line.partition(" ")
        if word in VERDICTS:
            self.ends(word, text)
        elif word in ("length", "zero", "put", "copy", "field"):
            self.change(word, text)
        else:
            {"disk": self.disk, "table": self.table, "has": self.has, "backup": self.backup_has, "again": self.again,
             "run": self.run, "instead": lambda words: self.run(words, self.instead), "keeps": self.keeps,
             "wants": self.wants, "fails": lambda _: self.wants("fails"), "ours": self.is_ours}[word](text)

    def is_whole(self):
        """Whether it has a verdict, a command line, and what gptedit leaves only if that differs."""
        is_other = self.ours is not None and self.ours != self.wanted
        return bool(self.runs) and self.verdict is not None and is_other == (self.verdict != "equal")


def with_guids(entries):
    """These entries, each with a GUID."""
    return {n: one._replace(guid=one.guid if one.guid not in (None, "new") else usual_guid(n)) for n, one in
            entries.items()}


def rows_of(name):
    """The rows of a file."""
    rows, source = [], ""
    with open(os.path.join(ROWS, name), encoding="utf-8") as file:
        lines = file.read().splitlines()
    for number, line in enumerate(lines, 1):
        word, _, text = line.partition(" ")
        if not line or line.startswith("#"):
            continue
        try:
            if word == "in":
                source = text
            elif word == "row":
                rows.append(Row(f"{source}: {text}", rows[-1] if rows else None))
            else:
                rows[-1].read(line)
        except (ValueError, KeyError, AttributeError, TypeError, IndexError) as error:
            raise ValueError(f"{name}:{number}: {line}: {error!r}") from error
    return rows
