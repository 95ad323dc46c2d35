"""`show IMAGE N [FIELD]` and `show --short`, by the harness's own reader and by other programs."""
import json
import random
import re
import unicodedata
import uuid

from harness import table
from harness.runs import run, there
from commands import DISK, EFI, ESP, LINUX, ROOT, SWAP
from makers import IMAGE, NO_TABLE, ONE, SIZE, TWO, entry, make, numbered, refused
from outputs import TYPES, words_of

FIELDS = ["number", "start", "end", "size", "offset", "size-bytes", "type", "guid", "name", "attributes"]
KEYS = {"start": "start_sectors", "end": "end_sectors", "size": "size_sectors", "offset": "offset_bytes",
        "size-bytes": "size_bytes"}
UNKNOWN = "d3a1b2c4-0000-4000-8000-00000000beef"
FAR = (1 << 64) - 1
WIDTH = 80

# Names that text has as they are, and names that it has escaped.
PLAIN = ["root", "", " a  b ", "Größe", "x" * 36, "\u65e5\u672c", "\U0001f600" * 18, "$(id)`'\"\\", "guid=1"]
ESCAPED = {"a\nb": "a\\u{a}b", "\r\n": "\\u{d}\\u{a}", "\ta\x1b[31m": "\\u{9}a\\u{1b}[31m", "a\u202eb": "a\\u{202e}b",
           "\x85\u2028": "\\u{85}\\u{2028}", "\U000e0041": "\\u{e0041}", "\x85" * 36: "\\u{85}" * 36}
# Names with half of a surrogate pair.
HALVES = {"\ud800x": "\\u{d800}x", "x\udfff": "x\\u{dfff}"}
NAMES = {**{name: name for name in PLAIN}, **ESCAPED, **HALVES}


def values_of(number, one, sector):
    """The value of each field, as JSON has it."""
    sectors = one.last - one.first + 1
    name = re.sub("[\ud800-\udfff]", "\ufffd", one.name)
    return dict(zip(FIELDS, (number, one.first, one.last, sectors, one.first * sector, sectors * sector,
                             one.type.upper(), one.guid.upper(), name, ",".join(words_of(one.attributes)))))


def texts_of(number, one, sector):
    """The value of each field, as text has it."""
    texts = {field: str(value) for field, value in values_of(number, one, sector).items()}
    return {**texts, "type": one.type, "guid": one.guid, "name": NAMES.get(one.name, one.name)}


def units_of(name):
    """The UTF-16 units of a name, as JSON has them."""
    return name.encode("utf-16-be", "surrogatepass").hex(" ", 2)


def prints(tally, program, words, out):
    """Counts whether words are done, and print exactly this."""
    tally.equals(f"gptedit show {words}", (0, out, ""), tuple(program.run("show", IMAGE, *words)))


def holds_fields(tally, program, sector=512, fields=None):
    """Counts whether each of these fields of each partition is printed by itself, and all in the list and as JSON."""
    found = table.read(program.file(IMAGE), sector)
    for number, one in found.entries.items():
        texts, values = texts_of(number, one, sector), values_of(number, one, sector)
        for field in fields or FIELDS:
            prints(tally, program, [str(number), field], texts[field] + "\n")
            got = program.json("show", IMAGE, str(number), field, "--json")
            tally.equals(f"JSON of {field} of {one}", values[field], got)
        lines = [f"{field + ':':<12}{texts[field]}" if texts[field] else field + ":" for field in FIELDS]
        prints(tally, program, [str(number)], "\n".join(lines) + "\n")
        got = program.json("show", IMAGE, str(number), "--json")
        wanted = {KEYS.get(field, field): values[field] for field in FIELDS}
        tally.equals(f"JSON of {one}", {**wanted, "name_utf16": units_of(one.name)}, got)
    return found


def try_fields(tally, program):
    """Each field of tables with odd names, attributes, types, sizes and sector sizes."""
    names = {n: entry(2048 + n, 2048 + n, name, str(uuid.UUID(int=n)), LINUX) for n, name in enumerate(NAMES, 1)}
    tally.equals("entries with odd names", names, make(program, names).entries)
    holds_fields(tally, program, fields=["name"])
    odd = {1: entry(34, 34, "one", ESP, EFI, FAR), 7: entry(2048, 32734, "rest", ROOT, UNKNOWN, 1 << 63 | 4),
           128: entry(40, 2000, "last", DISK, SWAP, 5)}
    make(program, odd)
    holds_fields(tally, program)
    for sector in 512, 4096:
        make(program, {2: entry(6, 300, "two", ROOT), 3: entry(301, 301)}, sector=sector, count=4, first=6)
        holds_fields(tally, program, sector)
    make(program, {1: entry(1 << 40, (1 << 41) - 1)})
    holds_fields(tally, program)
    make(program, ONE)
    program.put(IMAGE, 512, bytes(92))
    prints(tally, program, ["1", "offset"], f"{2048 * 512}\n")


def try_selection(tally, program):
    """Partitions by name and by GUID, and words that are none."""
    make(program, {**TWO, 3: entry(20000, 20001, "two", DISK), 4: entry(20002, 20003, "offset", str(uuid.UUID(int=4)))})
    prints(tally, program, ["name=one", "end"], "4095\n")
    prints(tally, program, [f"guid={ROOT.upper()}", "number"], "2\n")
    prints(tally, program, ["name=offset", "offset"], f"{20002 * 512}\n")
    tally.equals("a list by name", program.run("show", IMAGE, "1"), program.run("show", IMAGE, "name=one"))
    for words in ["name=three", "end"], ["name=two", "start"], [f"guid={UNKNOWN}"], ["name=ONE"]:
        refused(tally, program, ["show", IMAGE, *words])
    for words in ["1", "ofset"], ["1", "Start"], ["1", ""], ["1", "size_bytes"], ["1", "start", "end"], ["0"], ["-1"], \
            ["one"], ["name="], ["4294967296"], ["1", "--short"], ["1", "--map"], ["--short", "--map"], \
            ["--short", "--json"]:
        status, out, _ = program.run("show", IMAGE, *words)
        tally.equals(f"gptedit show {words}", (2, ""), (status, out))


def try_refusals(tally, program):
    """Unused and missing entries, fields without a value, and disks without a table."""
    lists = f"`gptedit show {IMAGE}`"
    make(program, TWO, count=56)
    for words in ["3"], ["56", "offset"], ["57"], ["129", "name"], ["4294967295", "guid", "--json"], ["3", "--json"]:
        refused(tally, program, ["show", IMAGE, *words], lists, f"entry {words[0]} ")
        out = program.run("show", IMAGE, *words)[1]
        said = json.loads(out)["error"]["code"] if "--json" in words and out else out
        wanted = "is-unused" if words[0] == "3" else "no-entry"
        tally.equals(f"standard output of show {words}", wanted if "--json" in words else "", said)
    cases = {(5000, 4000): ["size", "size-bytes"], (0, FAR): ["size", "size-bytes"], (1 << 63, 1 << 63): ["offset"],
             (1 << 55, FAR - 1): ["offset", "size-bytes"], (FAR, FAR): ["offset"]}
    for (first, last), missing in cases.items():
        make(program, {3: entry(first, last)})
        for field in FIELDS:
            words = ["show", IMAGE, "3", field]
            if field in missing:
                refused(tally, program, words, f"`gptedit check {IMAGE}`", f"{first}..{last}")
                refused(tally, program, [*words, "--json"], f"`gptedit check {IMAGE}`")
            else:
                prints(tally, program, ["3", field], texts_of(3, entry(first, last), 512)[field] + "\n")
        lines = program.run("show", IMAGE, "3")[1].splitlines()
        tally.equals(f"fields without a value of {first}..{last}", [field + ":" for field in [*missing, "attributes"]],
                     [line for line in lines if line.endswith(":")])
        values = program.json("show", IMAGE, "3", "--json")
        tally.equals(f"JSON of {first}..{last} without a value", sorted(KEYS[field] for field in missing),
                     sorted(key for key, value in values.items() if value is None))
    program.make_image(IMAGE, SIZE)
    for words in ["1"], ["1", "start"], ["--short"], ["name=x", "--json"]:
        refused(tally, program, ["show", IMAGE, *words], statuses=NO_TABLE)


def human(count):
    """A number of bytes in the largest unit that is not larger, with at most one decimal, rounded down. The most is
    2^64 - 1."""
    count = min(count, FAR)
    for shift, unit in zip(range(60, 0, -10), ("EiB", "PiB", "TiB", "GiB", "MiB", "KiB")):
        if count >> shift:
            tenths = count * 10 >> shift
            return f"{tenths // 10}{'.' + str(tenths % 10) if tenths % 10 else ''} {unit}"
    return f"{count} B"


def type_names():
    """The first names of types by their GUIDs."""
    with open(TYPES, encoding="utf-8") as file:
        rows = re.findall(r"^\| `([^`]*)` \| `[0-9a-f]{32}` \| `([0-9A-F-]{36})` \|", file.read(), re.M)
    return {guid.lower(): name for name, guid in reversed(rows)}


def columns(text):
    """The columns that a text takes in a terminal: two for a wide character, none for a combining one."""
    return sum(0 if unicodedata.combining(one) else 2 if unicodedata.east_asian_width(one) in "WF" else 1 for one in text)


def is_cut(cell, text):
    """Whether a cell is the beginning of a text that is longer, with two dots after it."""
    return cell.endswith("..") and len(cell) < len(text) and text.startswith(cell[:-2])


def holds_short(tally, program, what, found, kinds, sector=512):
    """Counts whether `show --short` prints this table in lines of at most 80 columns, and cuts only what does not
    fit."""
    status, out, err = program.run("show", IMAGE, "--short")
    tally.equals(f"show --short of {what}: {err}", 0, status)
    lines = out.splitlines()
    tally.equals(f"lines of {what} that are too long", [], [line for line in lines if columns(line) > WIDTH])
    tally.equals(f"GUIDs in {what}", [], re.findall("[0-9a-fA-F]{8}-", out))
    head = [f"{SIZE // sector} sectors of {sector} bytes (16 MiB)", "both copies good"]
    tally.equals(f"the head of {what}", head, lines[:2])
    if not found.entries:
        tally.equals(f"lines of {what}, which has no partitions", 2, len(lines))
        return
    heading = lines[3]
    tally.equals(f"the headings of {what}", ["#", "Start", "End", "Size", "Type", "Name"], heading.split())
    tally.equals(f"the number of lines of {what}", 4 + len(found.entries), len(lines))
    ats, wanted, cut = (heading.index("Type"), heading.index("Name")), [], 0
    for (number, one), line in zip(found.entries.items(), lines[4:]):
        numbers = [str(number), str(one.first), str(one.last), *human((one.last - one.first + 1) * sector).split()]
        tally.equals(f"numbers of partition {number} of {what}", numbers, line[:ats[0]].split())
        texts = kinds.get(one.type, one.type[:8] + ".."), NAMES.get(one.name, one.name)
        cells = line[ats[0]:ats[1]].rstrip(), line[ats[1]:]
        for text, cell in zip(texts, cells):
            cut += is_cut(cell, text)
            tally.holds(f"{cell!r} is {text!r} of {what}", cell == text.rstrip() or is_cut(cell, text))
        wanted.append(texts)
    widths = [max([4, *map(columns, column)]) for column in zip(*wanted)]
    tally.equals(f"texts of {what} are cut: {cut}", ats[0] + sum(widths) + 2 > WIDTH, cut > 0)


def try_short(tally, program):
    """Random tables in 80 columns, with names and types of every length, and with the longest numbers."""
    random_, kinds, names = random.Random(80), type_names(), [*PLAIN, *ESCAPED, "p"]
    longest = [guid for guid, name in kinds.items() if len(name) > 24]
    for count in 0, 1, 128:
        holds_short(tally, program, f"{count} partitions", make(program, numbered(count)), kinds)
    for number in range(60):
        entries = {}
        for n in sorted(random_.sample(range(1, 129), random_.randrange(1, 12))):
            first = random_.choice([2048, 10 ** random_.randrange(4, 18)])
            kind = random_.choice([LINUX, EFI, UNKNOWN, *random_.sample(longest, number % 3 and 1)])
            entries[n] = entry(first, first + random_.choice([0, 2047, 10 ** random_.randrange(17)]),
                               random_.choice(names), str(uuid.UUID(int=n)), kind)
        holds_short(tally, program, f"random table {number}", make(program, entries), kinds)
    far = {128: entry(FAR - 1, FAR, "w" * 36, ESP, longest[0]), 127: entry(FAR - 1023, FAR, "\x85" * 36, ROOT, UNKNOWN)}
    holds_short(tally, program, "the longest numbers", make(program, dict(sorted(far.items()))), kinds)
    # Names of 36 characters, in 72 columns, in one, and in 36.
    for name in "\u540d" * 36, "a" + "\u0301" * 35, "\uff21\u0308" * 18:
        for kind in LINUX, longest[0]:
            found = make(program, {1: entry(2048, 4095, name, ESP, kind), 2: entry(8192, 16383, "two", ROOT)})
            holds_short(tally, program, f"{name} of {kind}", found, kinds)
    make(program, {1: entry(5000, 4000, "back")})
    tally.equals("show --short of a partition that ends before it starts", ["1", "5000", "4000", "linux", "back"],
                 program.run("show", IMAGE, "--short")[1].splitlines()[-1].split())
    found = make(program, {1: entry(256, 300)}, sector=4096)
    holds_short(tally, program, "sectors of 4096 bytes", found, kinds, 4096)
    make(program, ONE)
    program.flip(IMAGE, 1084)
    line = program.run("show", IMAGE, "--short")[1].splitlines()[1]
    tally.equals("the state of a bad copy", "backup copy good, primary bad (InvalidPartitionEntryArrayChecksum)", line)


def try_peers(tally, program):
    """The same values from sfdisk, sgdisk and partx."""
    rows = {1: entry(2048, 4095, "one", ESP, EFI, 4), 2: entry(4096, 8192, "two words", ROOT, LINUX, 1 << 63),
            9: entry(9000, 30000, "", DISK, UNKNOWN)}
    make(program, rows)
    left_out = [name for name, one in (("sfdisk", by_sfdisk), ("sgdisk", by_sgdisk), ("partx", by_partx))
                if not (there(name) and one(tally, program, rows))]
    return "not installed: " + ", ".join(left_out) if left_out else "by sfdisk, sgdisk and partx"


def alike(tally, program, peer, number, values):
    """Counts whether the fields of a partition have these values of another program."""
    for field, value in values.items():
        got = program.run("show", IMAGE, str(number), field)[1][:-1]
        tally.equals(f"{field} of {number} by {peer}", str(value), got)


def by_sfdisk(tally, program, rows):
    """Compares with sfdisk."""
    found = json.loads(run(["sfdisk", "--json", program.file(IMAGE)]).out)["partitiontable"]["partitions"]
    for number, one in zip(rows, found):
        alike(tally, program, "sfdisk", number, {
            "start": one["start"], "size": one["size"], "type": one["type"].lower(), "guid": one["uuid"].lower(),
            "name": one.get("name", ""), "offset": one["start"] * 512, "size-bytes": one["size"] * 512})
    return True


def by_sgdisk(tally, program, rows):
    """Compares with sgdisk."""
    for number in rows:
        text = run(["sgdisk", "-i", str(number), program.file(IMAGE)]).out
        found = dict(re.findall(r"^([\w ]+): '?(two words|[^ '(\n]*)", text, re.M))
        bits = int(found["Attribute flags"], 16)
        alike(tally, program, "sgdisk", number, {
            "start": found["First sector"], "end": found["Last sector"], "size": found["Partition size"],
            "type": found["Partition GUID code"].lower(), "guid": found["Partition unique GUID"].lower(),
            "name": found["Partition name"], "attributes": ",".join(words_of(bits))})
    return True


def by_partx(tally, program, rows):
    """Compares with partx."""
    words = ["partx", "-g", "-b", "-r", "-o", "NR,START,END,SECTORS,SIZE,TYPE,UUID", program.file(IMAGE)]
    lines = [line.split() for line in run(words).out.splitlines()]
    tally.equals("partitions by partx", [str(number) for number in rows], [line[0] for line in lines])
    for number, first, last, sectors, size, kind, guid in lines:
        alike(tally, program, "partx", number, {"start": first, "end": last, "size": sectors, "size-bytes": size,
                                                "type": kind, "guid": guid})
    return True


SUBJECTS = {"fields of a partition": try_fields, "partitions by name and GUID": try_selection,
            "refused queries": try_refusals, "tables in 80 columns": try_short, "fields by other programs": try_peers}
