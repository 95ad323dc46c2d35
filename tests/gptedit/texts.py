"""Names and layouts as texts: what is escaped, what a layout keeps, and which texts are no layouts."""
import json
import shlex
import struct
import time
import tomllib
import unicodedata
import zlib

from harness import table
from commands import DISK, EFI, ESP, MIB, holds_table, says, start

# Characters that a terminal does not show as themselves.
HIDDEN = [0x01, 0x08, 0x09, 0x0a, 0x0d, 0x1b, 0x1f, 0x7f, 0x80, 0x85, 0x9b, 0x9f, 0xad, 0x61c, 0x180e, 0x200b, 0x200d,
          0x200e, 0x200f, 0x2028, 0x2029, 0x202a, 0x202e, 0x2060, 0x2066, 0x2069, 0xfeff, 0xfff9, 0xe0001, 0xe007f]
SHOWN = [0x20, 0x7e, 0xa0, 0xe9, 0x540d, 0x2010, 0xfe0f, 0x1f600]

# Names whose text does not give their units, the text of these units in a layout, and what is shown of them.
UNITS = [
    ([0x41, 0xd800], "0041 d800", "A\\u{d800}"),
    ([0xdc00, 0x42], "dc00 0042", "\\u{dc00}B"),
    ([0xdc00, 0xd800], "dc00 d800", "\\u{dc00}\\u{d800}"),
    ([0x41, 0, 0x42], "0041 0000 0042", "A"),
    ([0, 0x41], "0000 0041", ""),
    ([0x61] * 35 + [0xd83d], "0061 " * 35 + "d83d", "a" * 35 + "\\u{d83d}"),
    ([0x61] + [0] * 34 + [0xfeff], "0061 " + "0000 " * 34 + "feff", "a"),
]

# What a table of 128 MiB says of itself, and another value: the lines in TOML and in a script, and both values.
HEADERS = [
    ('sector-size = "{}B"', "sector-size: {}", "sector-size", "sector-size", 512, 4096),
    ("entries = {}", "table-length: {}", "entries", "table-length", 128, 56),
    ('first-usable = "{}s"', "first-lba: {}", "first-usable", "first-lba", 34, 2048),
    ('last-usable = "{}s"', "last-lba: {}", "last-usable", "last-lba", 262110, 262000),
]

# Layouts with a value that is none, and what is told of each.
WRONG = [
    ('[disk]\nentries = "128"\n', "line 2: entries of the disk: it must be a whole number from 1 to 32768"),
    ("[disk]\nentries = -1\n", "line 2: entries of "),
    ("[disk]\nentries = 4294967296\n", "line 2: entries of "),
    ("label: gpt\ntable-length: 4294967296\n", "line 2: table-length of "),
    ('[disk]\nfirst-usable = "9000s"\nlast-usable = "8000s"\n', "line 3: last-usable of the disk: the usable sectors "
     "must not end before they begin"),
    ('[disk]\nlast-usable = "98s"\nfirst-usable = "100s"\n', "line 2: last-usable of the disk: the usable sectors "),
    ("label: gpt\nfirst-lba: 9000\nlast-lba: 8000\n", "line 3: last-lba of the headers: the usable sectors must not "),
    ("label: gpt\nlast-lba: 98\nfirst-lba: 100\n", "line 3: first-lba of the headers: the usable sectors must not "),
    # No sector may be usable, as on the smallest disk.
    ('[disk]\nfirst-usable = "34s"\nlast-usable = "33s"\n', "last-usable is 33 in the layout, but 262110 on the disk"),
    ("label: gpt\nfirst-lba: 34\nlast-lba: 33\n", "last-lba is 33 in the layout, but 262110 on the disk"),
    ("[disk]\nfirst-usable = 34\n", "line 2: first-usable of the disk: it must be a text with the unit s, for example "
     '"34s"'),
    ('[disk]\nfirst-usable = "34"\n', "line 2: first-usable of the disk: it must be a whole number with the unit s"),
    ('[disk]\nlast-usable = "1MiB"\n', "line 2: last-usable of "),
    ('[disk]\nlast-usable = "18446744073709551616s"\n', "line 2: last-usable of "),
    ("[disk]\nsector-size = 512\n", "line 2: sector-size of "),
    ('[disk]\nsector-size = "1s"\n', "line 2: sector-size of "),
    ('[[partition]]\nname-utf16 = 7\n', "line 2: name-utf16 of "),
    ('[[partition]]\nname = "A"\nname-utf16 = "0041"\n', "line 3: name-utf16 of partition 1 of the file: the "
     "partition also has the key name; use only one of the two"),
] + [(f'[[partition]]\nname-utf16 = "{units}"\n', "line 2: name-utf16 of partition 1 of the file: it must be at most "
      "36 units of UTF-16, of four hexadecimal digits each") for units in
     ["41", "004g", "00041", "+041", "0041  0042", "0041 ", " 0041", "0041,0042", " ".join(["0041"] * 37)]]

EMPTY = ["", "\n", "  \n\t\n", "# nothing\n\n# at all", "\ufeff", "\ufeff# nothing\n"]


def put_units(program, units, number=1):
    """Gives an entry of disk.img a name of these units, in both copies, with the checksums that go with it."""
    with open(program.file("disk.img"), "r+b") as file:
        image = bytearray(file.read())
        end = len(image) // 512 - 1
        for own in (1, end):
            header = image[own * 512:own * 512 + 92]
            at, count, length = struct.unpack("<QII", header[72:88])
            name = at * 512 + (number - 1) * length + 56
            image[name:name + 72] = struct.pack("<36H", *(units + [0] * (36 - len(units))))
            array = image[at * 512:at * 512 + count * length]
            image[own * 512:own * 512 + 92] = table.with_fields(header, (*table.ARRAY_CRC, zlib.crc32(array)))
        file.seek(0)
        file.write(image)


def units_in(program, number=1):
    """The units of an entry's name in both copies of disk.img."""
    image = program.bytes_of("disk.img")
    found = []
    for own in (1, len(image) // 512 - 1):
        at, _, length = struct.unpack("<QII", image[own * 512 + 72:own * 512 + 88])
        name = at * 512 + (number - 1) * length + 56
        found.append(list(struct.unpack("<36H", image[name:name + 72])))
    return found


def units_of(text):
    """The UTF-16 units of a text."""
    raw = text.encode("utf-16-le")
    return list(struct.unpack(f"<{len(raw) // 2}H", raw))


def refused(tally, program, words, told, **how):
    """Counts whether these words are refused with status 1 and this text, and disk.img is unchanged."""
    before = program.state("disk.img")
    status, out, err = program.run(*words, **how)
    what = f"gptedit {' '.join(words)} with {how}"
    tally.equals(f"the status of {what}", (1, ""), (status, out))
    tally.holds(f"{what} says {told!r}, and not {err!r}", err.startswith("gptedit: ") and told in err)
    tally.holds(f"{what} leaves the image", program.state("disk.img") == before)


def is_plain(text):
    """Whether a terminal shows each character of a text."""
    return not any(unicodedata.category(c) in ("Cc", "Cf", "Zl", "Zp") for c in text.replace("\n", ""))


def is_kept(tally, program, what, units):
    """Counts whether what is dumped of disk.img gives these units again: there, and in a new table."""
    dumped = program.run("dump", "disk.img")[1]
    says(tally, program, ["apply", "disk.img", "-"], "unchanged\n", text=dumped)
    start(program, False, 4 * MIB)
    program.run("apply", "disk.img", "-", text=dumped)
    tally.equals(f"the units of {what}, dumped and applied", [units + [0] * (36 - len(units))] * 2, units_in(program))


def columns_of(text):
    """The columns of a terminal that a text takes."""
    marks = sum(unicodedata.category(each) in ("Mn", "Me") for each in text)
    return len(text) - marks + sum(unicodedata.east_asian_width(each) in "WF" for each in text)


def try_escapes(tally, program):
    """Each hidden character in what is printed."""
    for code in HIDDEN + SHOWN:
        name = f"a{chr(code)}b"
        escaped = f"a\\u{{{code:x}}}b" if code in HIDDEN else name
        start(program, False, 4 * MIB)
        program.run("add", "disk.img", "--type", "efi", "--size", "1MiB", "--guid", ESP)
        put_units(program, units_of(name))
        shown = program.run("show", "disk.img")[1]
        padded = escaped + " " * (4 - columns_of(escaped))
        tally.holds(f"show of U+{code:04X}: {shown!r}", shown.endswith(f"  efi   {padded}  {ESP}\n"))
        told = f'2048..4095 1 MiB efi "{escaped}"'
        says(tally, program, ["remove", "disk.img", "1", "-n"], f"a dry run, nothing is written:\n- 1 {told}\n")
        ended = program.run("add", "disk.img", "--type", "efi", "--size", "4KiB", "--number", "1")
        tally.holds(f"a refusal with U+{code:04X}: {ended}", ended[0] == 1 and
                    f"partition 1 ({told}) already exists" in ended[2])
        encoded = program.run("show", "disk.img", "--json")[1]
        tally.equals(f"the name with U+{code:04X} in JSON", name,
                     json.loads(encoded)["partitiontable"]["partitions"][0]["name"])
        dumped = program.run("dump", "disk.img")[1]
        tally.equals(f"the name with U+{code:04X} in TOML", name, tomllib.loads(dumped)["partition"][0]["name"])
        tally.holds(f"all that is printed of U+{code:04X} is shown",
                    all(is_plain(text) for text in (shown, ended[2], encoded, dumped)))
        is_kept(tally, program, f"a name with U+{code:04X}", units_of(name))


def try_quotes(tally, program):
    """Quotes and backslashes in a name, and hidden characters in the words of a layout and in a path."""
    start(program, False, 4 * MIB)
    program.run("add", "disk.img", "--type", "efi", "--size", "1MiB", "--guid", ESP, "--name", 'a"b\\c')
    says(tally, program, ["remove", "disk.img", "1", "-n"],
         'a dry run, nothing is written:\n- 1 2048..4095 1 MiB efi "a\\"b\\\\c"\n')
    tally.equals("a name with a quote in TOML", 'a"b\\c',
                 tomllib.loads(program.run("dump", "disk.img")[1])["partition"][0]["name"])
    is_kept(tally, program, "a name with a quote", units_of('a"b\\c'))
    refused(tally, program, ["apply", "disk.img", "-"], '"x\\u{202e}y" is not a key of the layout',
            text='"x\u202ey" = 1\n')
    ended = program.run("show", "no\u202e\x1b[1mdisk.img")
    tally.holds(f"a path is escaped: {ended}", ended[0] != 0 and "no\\u{202e}\\u{1b}[1mdisk.img: " in ended[2])
    program.make_image("a\u202eb.img", 4 * MIB)
    program.run("new", "a\u202eb.img")
    tally.holds("show escapes a path", program.run("show", "a\u202eb.img")[1].startswith("a\\u{202e}b.img: 8192 "))
    encoded = program.run("show", "a\u202eb.img", "--json")[1]
    tally.equals("a path in JSON", ("a\u202eb.img", True),
                 (json.loads(encoded)["partitiontable"]["device"], is_plain(encoded)))


def try_units(tally, program):
    """Names whose text does not give their units."""
    for units, text, shown in UNITS:
        start(program, False, 4 * MIB)
        program.run("add", "disk.img", "--type", "efi", "--size", "1MiB", "--guid", ESP)
        put_units(program, units)
        says(tally, program, ["remove", "disk.img", "1", "-n"],
             f'a dry run, nothing is written:\n- 1 2048..4095 1 MiB efi "{shown}"\n')
        tally.equals("the lines of a name as units", [f'name-utf16 = "{text}"'],
                     [line for line in program.run("dump", "disk.img")[1].splitlines() if line.startswith("name")])
        is_kept(tally, program, text, units)
    start(program, False, 4 * MIB)
    layout = '[[partition]]\nname-utf16 = "0041 D83D de00"\ntype = "efi"\nsize = "1MiB"\n'
    says(tally, program, ["apply", "disk.img", "-"], '+ 1 2048..4095 1 MiB efi "A\U0001f600"\n', text=layout)
    tally.equals("units in either case", [0x41, 0xd83d, 0xde00, 0], units_in(program)[0][:4])
    for name in "a" * 35 + "b", "a" * 34 + "\U0001f600":
        units = [*struct.unpack("<36H", name.encode("utf-16-le"))]
        program.run("set", "disk.img", "1", "--name", name)
        tally.equals(f"the units of --name {name}", units, [*units_in(program)[0]])
        program.run("set", "disk.img", "1", "--name", "")
        program.run("apply", "disk.img", "-", text=f'[[partition]]\nnumber = 1\nname = "{name}"\n')
        tally.equals(f"the units of {name} in a layout", units, [*units_in(program)[0]])


def try_headers(tally, program):
    """What a layout says of the table: it is dumped, and compared."""
    start(program)
    dumped = program.run("dump", "disk.img")[1]
    wanted = {"guid": DISK, "align": "2048s"} | {
        key: tomllib.loads(line.format(is_))[key] for line, _, key, _, is_, _ in HEADERS}
    tally.equals("[disk] of a dump", wanted, tomllib.loads(dumped)["disk"])
    tally.equals("[[partition]] of a dump", [{
        "number": 1, "name": "ESP", "type": "efi", "start": "2048s", "size": "131072s", "guid": ESP,
        "attributes": ["required"]}], tomllib.loads(dumped)["partition"])
    for in_toml, in_script, key, script_key, is_, other in HEADERS:
        for text, name in (("[disk]\n" + in_toml, key), ("label: gpt\n" + in_script, script_key)):
            refused(tally, program, ["apply", "disk.img", "-"], "is not in the layout", text=text.format(is_) + "\n")
            rows = [["apply", "disk.img", "-"]] + [["apply", "disk.img", "-", "--replace"]] * (key == "sector-size")
            more = "; values in sectors" if key == "sector-size" else ", or use --replace to set it\n"
            for words in rows:
                refused(tally, program, words, f"{name} is {other} in the layout, but {is_} on the disk\n"
                        f"remove {name} from the layout to keep that of the disk{more}",
                        text=text.format(other) + "\n")
    for text, told in WRONG:
        refused(tally, program, ["apply", "disk.img", "-"], told, text=text)
    program.make_image("disk.img", 64 * MIB)
    program.run("new", "disk.img", "--guid", DISK, "--entries", "56")
    found = tomllib.loads(program.run("dump", "disk.img")[1])
    tally.equals("a dump of 56 entries", {"disk": {
        "guid": DISK, "align": "2048s", "sector-size": "512B", "entries": 56, "first-usable": "16s",
        "last-usable": "131056s"}}, found)
    program.make_image("disk.img", 128 * MIB)
    program.run("new", "disk.img", "--guid", DISK, "--sector", "4096")
    found = tomllib.loads(program.run("dump", "disk.img")[1])["disk"]
    tally.equals("a dump of sectors of 4096 bytes", ("4096B", "6s", "32762s"),
                 (found["sector-size"], found["first-usable"], found["last-usable"]))


def try_fields(tally, program):
    """Bits and types that have no name, and odd sizes, through a dump."""
    kind = "11111111-2222-3333-4444-555555555555"
    for bits in [1 << bit for bit in range(64)] + [0, (1 << 64) - 1, 0x8000_0000_0000_0f05]:
        start(program, False, 4 * MIB)
        program.run("add", "disk.img", "--type", kind, "--guid", ESP, "--start", "35s", "--size", "4097s",
                    "--attributes", hex(bits))
        dumped = program.run("dump", "disk.img")[1]
        says(tally, program, ["apply", "disk.img", "-"], "unchanged\n", text=dumped)
        start(program, False, 4 * MIB)
        program.run("apply", "disk.img", "-", text=dumped)
        holds_table(tally, program, f"a dump of attributes {bits:#x}",
                    {1: table.Entry(kind, ESP, 35, 4131, bits, "")})
    types = json.loads(program.run("types", "--json")[1])
    start(program, False, 4 * MIB)
    for number, entry in enumerate(types[:120], 1):
        program.run("add", "disk.img", "--type", entry["guid"], "--size", "1s", "--align", "1s")
    dumped = program.run("dump", "disk.img")[1]
    was = table.read(program.file("disk.img"))
    start(program, False, 4 * MIB)
    program.run("apply", "disk.img", "-", text=dumped)
    tally.equals("types with names, dumped and applied", was, table.read(program.file("disk.img")))


def try_empty(tally, program):
    """Texts that say nothing, and layouts that say that there are no partitions."""
    start(program)
    told = ("the layout is empty: it has no key and no header\n"
            "a layout for a table without partitions has [disk], or as a script label: gpt")
    for text in EMPTY:
        program.write("disk.toml", text.encode())
        for words in (["apply", "disk.img", "disk.toml"], ["apply", "disk.img", "disk.toml", "--replace"]):
            refused(tally, program, words, "gptedit: disk.toml: " + told)
        refused(tally, program, ["apply", "disk.img", "-", "--replace"], "gptedit: -: " + told, text=text)
    for text in ["[disk]\n", "label: gpt\n", "partition = []\n", f'[disk]\nguid = "{DISK}"\n']:
        start(program)
        refused(tally, program, ["apply", "disk.img", "-"], "is not in the layout\nadd it there to keep it", text=text)
        says(tally, program, ["apply", "disk.img", "-", "--replace"], '- 1 2048..133119 64 MiB efi "ESP"\n', text=text)
        holds_table(tally, program, f"apply --replace of {text!r}", {})
        says(tally, program, ["apply", "disk.img", "-"], "unchanged\n", text=text)


def many_lines(count):
    """The lines of a layout of so many partitions of two sectors each."""
    lines = ["[disk]", f'guid = "{DISK}"', 'align = "1s"']
    for number in range(1, count + 1):
        lines += ["[[partition]]", f"number = {number}", f'name = "p{number}"', 'type = "efi"',
                  f'start = "{8193 + 3 * number}s"', 'size = "2s"']
    return lines


def try_many(tally, program):
    """Layouts of many partitions; of all that a table may have where the program is fast enough."""
    for count in (500, 32768):
        was = time.monotonic()
        program.make_image("disk.img", 64 * MIB)
        program.run("new", "disk.img", "--guid", DISK, "--entries", str(count))
        lines = many_lines(count)
        text = "\n".join(lines) + "\n"
        ended = program.run("apply", "disk.img", "-", text=text)
        tally.equals(f"apply of {count} partitions", (0, ""), (ended[0], ended[2]))
        found = table.read(program.file("disk.img")).entries
        tally.equals(f"the table of {count} partitions",
                     [(EFI, 8193 + 3 * number, 8194 + 3 * number, f"p{number}") for number in range(1, count + 1)],
                     [(entry.type, entry.first, entry.last, entry.name) for entry in found.values()])
        dumped = program.run("dump", "disk.img")[1]
        says(tally, program, ["apply", "disk.img", "-"], "unchanged\n", text=dumped)
        refused(tally, program, ["apply", "disk.img", "-"], f"line {len(lines) + 2}: size of partition {count + 1} ",
                text=text + '[[partition]]\nsize = "1XB"\n')
        taken = time.monotonic() - was
        if taken > 2:
            break
    return f"{count} partitions in {taken:.1f} s"


def try_shell(tally, program):
    """A command that a message names is read by a shell, whatever the path is."""
    for name in ["my disk.img", "it's.img", "a$(id)`id`.img", "*?;&|<>#~.img", "-disk.img", "(\u00e9)\\\".img", "plain-1_2.img"]:
        path = f"./{name}" if name.startswith("-") else name
        program.make_image(name, 4 * MIB)
        program.run("new", path, "--guid", DISK)
        told = program.run("set", path, "9", "--name", "x")[2]
        advice = told.split("`gptedit", 1)[1].split("` lists", 1)[0]
        tally.equals(f"the command for {name}", ["show", path], shlex.split(advice))
        tally.equals(f"quotes for {name}", shlex.quote(name) != name, "'" in advice)
    told = program.run("set", "--name", "x", "--", "-disk.img", "9")[2]
    tally.contains("a path that begins with a hyphen", "`gptedit show ./-disk.img`", told)


SUBJECTS = {"escapes": try_escapes, "paths for a shell": try_shell, "quotes and paths": try_quotes, "names as units": try_units,
            "headers of layouts": try_headers, "fields in dumps": try_fields, "empty layouts": try_empty,
            "large layouts": try_many}
