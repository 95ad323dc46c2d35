"""`dump` and `apply`: layouts in TOML, scripts of sfdisk, and what is told of texts that are none."""
import json
import os
import random
import shutil
import subprocess
import uuid

from harness import table
from commands import DISK, EFI, ESP, ESP_ENTRY, LINUX, MIB, NAMED, ROOT, SFDISK, SWAP, holds_table, says, start
from refusals import refused

LAYOUTS = 200
SCRIPTS = 80
RANDOM = 4 * MIB
# sfdisk writes no name with characters past U+FFFF.
NAMES = ["", "root", "EFI System", "home-1", "Größe", "名前", "a'b", "tab\tbed", "x" * 36]

# The layout of the guide, and the table that it gives an image of 128 MiB.
LAYOUT = f"""[disk]
guid = "{DISK}"   # else kept, or random
align = "1MiB"
[[partition]]
number = 1                                      # optional
name = "ESP"
type = "efi"
size = "64MiB"
guid = "{ESP}"
attributes = ["required"]
[[partition]]
name = "root"
type = "linux-root-x86-64"
guid = "{ROOT}"
size = "rest"                                   # one at most
"""
X86_ROOT = "4f68bce3-e8cd-4db1-96e7-fbcaf984b709"
ROOT_ENTRY = table.Entry(X86_ROOT, ROOT, 133120, 260095, 0, "root")

# Texts that are no layouts, and what is told of each.
WRONG = [
    ("[disk\n", "line 1, column 6: "),
    ("x = 1\n", 'line 1: "x" is not a key of the layout; the keys are disk, partition'),
    ('[disk]\nsize = "1MiB"\n', 'line 2: "size" is not a key of '),
    ('[[partition]]\nsize = "1MiB"\nsize = "2MiB"\n', "line 3, "),
    ('[[partition]]\n\nsize = "1QB"\n', "line 3: size of "),
    ('[[partition]]\nend = "+1MiB"\n', "line 2: end of "),
    ('[[partition]]\nsize = "-1MiB"\n', "line 2: size of "),
    ('[[partition]]\nsize = "1MiB"\nend = "2MiB"\n', "line 3: end of partition 1 of the file: the partition also has the key size; use only one"),
    ('[[partition]]\nend = "2MiB"\ntype = "swap"\n', "an end needs a start; state that too\n"),
    ('[disk]\nalign = "0s"\n[[partition]]\nsize = "1MiB"\ntype = "swap"\n',
     "the alignment must not be zero; use for example 1MiB\n"),
    ("label: gpt\ngrain: 0\nsize=1M\n", "the alignment must not be zero; use for example 1MiB\n"),
    ("[[partition]]\nsize = 7\n", "line 2: size of "),
    ('[[partition]]\ntype = "linx"\n', "line 2: type of "),
    ('[[partition]]\nguid = "12"\n', "line 2: guid of "),
    ("[[partition]]\nnumber = 0\n", "line 2: number of "),
    ("[[partition]]\nnumber = 99999999999999999999\n", "line 2, column 10: "),
    ("[[partition]]\nnumber = 1\n[[partition]]\nnumber = 1\n", "an earlier partition has the number 1"),
    ('[[partition]]\nsize = "rest"\n[[partition]]\nsize = "rest"\n', "only one partition can have the rest"),
    ('[[partition]]\nname = "' + "x" * 37 + '"\n', "line 2: name of "),
    ('[[partition]]\nname = "a\\u0000b"\n', "a name must not contain a zero character"),
    ('[[partition]]\nattributes = "required"\n', "line 2: attributes of "),
    ('[[partition]]\nattributes = ["requird"]\n', "line 2: attributes of "),
    ("partition = 3\n", "line 1: partition of "),
    ("label: dos\n", "line 1: label of "),
    ("label: gpt\nunit: cylinders\n", "line 2: unit of "),
    ("label: gpt\nlabel-id: 7\n", "line 2: label-id of "),
    ("label: gpt\nsecret: 7\n", 'line 2: "secret" is not a key of '),
    ("label: gpt\n\nstart=x\n", "line 3: start of "),
    ("label: gpt\nsize=1MiB, colour=red\n", 'line 2: "colour" is not a key of '),
    ("label: gpt\nsector-size: 4096\n", "sector-size is 4096 in the layout, but 512 on the disk"),
    ("label: gpt\nfirst-lba: 2048\n", "first-lba is 2048 in the layout, but 34 on the disk"),
    ("label: gpt\nlast-lba: 2047\n", "last-lba is 2047 in the layout, but 262110 on the disk"),
    ("label: gpt\nlast-lba: 7\n", "the usable sectors must be within 34..262110 and not end before they begin"),
    ("label: gpt\ntable-length: 7\n", "table-length is 7 in the layout, but 128 on the disk"),
    (b"\xff\xfe", "disk.toml: "),
]

# Texts with several errors, and how the line of each begins.
SEVERAL = [
    ('[[partition]]\nsize = "1QB"\ntype = "linx"\nnumber = 0\nattributes = [7, "x"]\n[disk]\nguid = "1"\nx = 2\n',
     ["line 2: size of ", "line 3: type of ", "line 4: number of ", "line 5: attributes of ", "line 7: guid of ",
      'line 8: "x" is not a key of ']),
    ('y = 1\n[disk]\nalign = 3\nentries = "1"\nfirst-usable = "1KiB"\nlast-usable = "x"\nsector-size = "8s"\n',
     ['line 1: "y" is not a key of ', "line 3: align of ", "line 4: entries of ", "line 5: first-usable of ",
      "line 6: last-usable of ", "line 7: sector-size of "]),
    # A partition with another error keeps its number.
    ('[[partition]]\nnumber = 5\ntype = "efo"\n[[partition]]\nsize = "rest"\n[[partition]]\nnumber = 5\n'
     'size = "rest"\nname = 1\n[[partition]]\nnumber = 5\nname = "a"\nname-utf16 = "0041"\n',
     ["line 3: type of partition 1 ",
      "line 7: number of partition 3 of the file: an earlier partition has the number 5",
      "line 8: size of partition 3 of the file: only one", "line 9: name of partition 3 ",
      "line 11: number of partition 4 of the file: an earlier partition has the number 5",
      "line 13: name-utf16 of partition 4 "]),
    ("disk = 1\npartition = 2\n", ["line 1: disk of ", "line 2: partition of "]),
    ("label: dos\nlabel-id: 7\nsize=x, type=y\nsize=1M, type=hom\n: name=\"\n",
     ["line 1: label of ", "line 2: label-id of ", "line 3: size of ", "line 4: type of ", "line 5: name of "]),
    # After the first line of a partition there is no header, whether that line is right or not.
    ("size=x\nlabel: dos\n1 : size=1M\n1 : size=1M\n",
     ["line 1: size of ", "line 2: start of ", "line 4: number of "]),
    ("[[partition]]\nsize = 1\n" * 20, [f"line {2 * n}: size of partition {n} " for n in range(1, 21)]),
    ("[[partition]]\nsize = 1\n" * 25,
     [f"line {2 * n}: size of partition {n} " for n in range(1, 21)] + ["and 5 more"]),
    ("size=x\n" * 2000, [f"line {n}: size of " for n in range(1, 21)] + ["and 1980 more"]),
]

# Words that are no types, and the name of a type that is one change away.
NEAREST = [("linx", "linux"), ("swop", "swap"), ("linux-hme", "linux-home"), ("efii", "efi"), ("bios-bot", "bios-boot")]


# Lines of scripts, and where their partitions begin in an image of 128 MiB; None where there is no room.
PLACED = [
    (["start=8MiB, size=1MiB", "size=1MiB"], [16384, 18432]),
    (["start=100MiB, size=1MiB", "size=1MiB"], [204800, 2048]),
    # The run behind the partition is longer by one sector, and then just as long as the one before it.
    (["start=122880, size=16384", "size=1MiB"], [122880, 139264]),
    (["start=122880, size=16385", "size=1MiB"], [122880, 2048]),
    (["start=40MiB, size=20MiB", "start=100MiB, size=4MiB", "size=10MiB", "size=10MiB", "size=25MiB"],
     [81920, 204800, 122880, 2048, 143360]),
    (["size=1MiB", "start=30MiB, size=1MiB", ",1MiB", "start=3MiB, size=1MiB", ",1MiB"],
     [2048, 61440, 63488, 6144, 65536]),
    # Numbers in hexadecimal, whose last digit may be a letter of a unit, and in octal.
    (["start=0x800, size=0x1E", "start=2078, size=1", "start=010000, size=0x1M", "start=6144, size=1"],
     [2048, 2078, 4096, 6144]),
    # Where the longest run begins at no multiple, what is before the next one stays free; sfdisk does not
    # align in a run as short as that of the last two.
    (["start=4000, size=250000", "size=6111"], [4000, 256000]),
    (["start=2100, size=256000", "size=2015"], [2100, 260096]),
    (["start=2100, size=256000", "size=2016"], None),
    # A shorter run has room, but not the longest one.
    (["start=8192, size=8192", "start=23384, size=238616", "size=6144"], [8192, 23384, 2048]),
    (["start=8192, size=8192", "start=23384, size=238616", "size=6145"], None),
    # Sizes that are left out are the rest, more than once too.
    (["start=8MiB, size=1MiB", "start=2048", "start=18432, size=+"], [16384, 2048, 18432]),
    (["start=100MiB, size=1MiB", "size=+", "size=+"], [204800, 2048, 206848]),
    (["size=1MiB", "size=+", "size=+"], None),
]


def try_layout(tally, program):
    """The layout of the guide, applied once and again, and to tables that have other partitions."""
    start(program, False)
    program.write("disk.toml", LAYOUT.encode())
    both = {1: ESP_ENTRY, 2: ROOT_ENTRY}
    lines = '+ 1 2048..133119 64 MiB efi "ESP"\n+ 2 133120..260095 62 MiB linux-root-x86-64 "root"\n'
    says(tally, program, ["apply", "disk.img", "disk.toml", "-n"], "a dry run, nothing is written:\n" + lines)
    says(tally, program, ["apply", "disk.img", "disk.toml"], lines)
    holds_table(tally, program, "apply", both)
    before = program.state("disk.img")
    says(tally, program, ["apply", "disk.img", "disk.toml"], "unchanged\n")
    says(tally, program, ["apply", "disk.img", "-"], "unchanged\n", text=LAYOUT)
    tally.holds("what is as the layout says is not written", program.state("disk.img") == before)
    program.run("set", "disk.img", "2", "--name", "other", "--attributes", "60")
    says(tally, program, ["apply", "disk.img", "disk.toml"], '~ 2 name "other" -> "root" (by GUID)\n')
    holds_table(tally, program, "apply", {1: ESP_ENTRY, 2: ROOT_ENTRY._replace(attributes=1 << 60)})
    start(program, False)
    program.run("add", "disk.img", "--type", "swap", "--size", "1MiB", "--number", "7", "--start", "200000s")
    refused(tally, program, ["apply", "disk.img", "disk.toml"],
            'partition 7 (200000..202047 1 MiB linux-swap "") is not in the layout\n'
            "add it there to keep it, or use --replace to remove it")
    program.run("apply", "disk.img", "disk.toml", "--replace")
    holds_table(tally, program, "apply --replace", both)
    program.write("moved.toml", LAYOUT.replace('size = "64MiB"', 'size = "32MiB"').encode())
    refused(tally, program, ["apply", "disk.img", "moved.toml"], " would move or become shorter\n")
    program.run("apply", "disk.img", "moved.toml", "--replace")
    found = table.read(program.file("disk.img")).entries[1]
    tally.equals("apply --replace of another size", ESP_ENTRY._replace(last=67583), found)
    program.write("longer.toml", LAYOUT.replace('size = "64MiB"', 'size = "48MiB"').encode())
    program.run("apply", "disk.img", "longer.toml")
    holds_table(tally, program, "apply of a larger size", {1: ESP_ENTRY._replace(last=100351), 2: ROOT_ENTRY})
    program.write("longer.toml", LAYOUT.replace('size = "64MiB"', 'size = "65MiB"').encode())
    refused(tally, program, ["apply", "disk.img", "longer.toml"], "partitions would overlap")


def try_kept(tally, program):
    """What an entry has and the layout leaves out is kept."""
    start(program)
    program.write("disk.toml", b'[[partition]]\nnumber = 1\nname = "boot"\n')
    says(tally, program, ["apply", "disk.img", "disk.toml"], '~ 1 name "ESP" -> "boot"\n')
    holds_table(tally, program, "apply of a name", {1: ESP_ENTRY._replace(name="boot")})
    program.write("disk.toml", b'[[partition]]\nnumber = 1\n[[partition]]\ntype = "swap"\nsize = "1MiB"\n')
    program.run("apply", "disk.img", "disk.toml")
    found = table.read(program.file("disk.img"))
    tally.equals("a partition more", (DISK, [1, 2], SWAP, 133120),
                 (found.guid, list(found.entries), found.entries[2].type, found.entries[2].first))
    tally.equals("a GUID that is left out is a random one", "4", found.entries[2].guid[14])
    program.write("disk.toml", b'[[partition]]\nnumber = 3\nsize = "1MiB"\n')
    refused(tally, program, ["apply", "disk.img", "disk.toml", "--replace"], "partition 3 has no type")
    program.write("disk.toml", b'[[partition]]\nnumber = 3\ntype = "swap"\n')
    refused(tally, program, ["apply", "disk.img", "disk.toml", "--replace"], "partition 3 has no size")
    program.write("disk.toml", b"[disk]\n")
    refused(tally, program, ["apply", "disk.img", "disk.toml"], "is not in the layout")
    program.run("apply", "disk.img", "disk.toml", "--replace")
    holds_table(tally, program, "apply --replace of a layout without partitions", {})


# Two partitions, of which the second gets the rest.
REST = (f'[[partition]]\nnumber = 1\ntype = "efi"\nguid = "{ESP}"\nsize = "1MiB"\n'
        f'[[partition]]\nnumber = 2\ntype = "linux"\nguid = "{ROOT}"\nsize = "rest"\n')


def rest_end(size):
    """The last sector before a multiple of 1 MiB that is usable with 128 entries."""
    return (size // 512 - 33) // 2048 * 2048 - 1


def holds_spans(tally, program, what, wanted):
    """Counts whether the partitions have these first and last sectors, by their numbers."""
    found = table.read(program.file("disk.img")).entries
    tally.equals(what, wanted, {number: (entry.first, entry.last) for number, entry in found.items()})


def try_rest(tally, program):
    """One layout with `rest`, on images of several sizes, applied twice, and again after they grew."""
    program.write("rest.toml", REST.encode())
    for size in 4 * MIB, 5 * MIB - 512, 16 * MIB + 33 * 512, 17 * MIB + 512, 64 * MIB:
        start(program, False, size)
        last = 0
        for now in size, size + 512, size + 2 * MIB, 3 * size + 1536:
            program.set_length("disk.img", now)
            program.run("apply", "disk.img", "rest.toml", *(["--fit"] if now > size else []))
            wanted = {1: (2048, 4095), 2: (4096, rest_end(now))}
            holds_spans(tally, program, f"apply of rest on {now} bytes, made with {size}", wanted)
            tally.holds("it is never shortened", last <= rest_end(now))
            last = rest_end(now)
            before = program.state("disk.img")
            says(tally, program, ["apply", "disk.img", "rest.toml"], "unchanged\n")
            says(tally, program, ["apply", "disk.img", "rest.toml", "--replace"], "unchanged\n")
            tally.holds("a second apply writes nothing", program.state("disk.img") == before)


# Partitions on 64 MiB, a layout, further words, and what becomes of them; None where it is refused.
RESTS = [
    # It is lengthened without --replace, to a multiple of 1 MiB or of another alignment.
    ({1: (2048, 4095)}, ["number = 1\nsize = 'rest'"], [], {1: (2048, 129023)}),
    ({1: (2048, 4095)}, ["number = 1\nstart = '1MiB'\nsize = 'rest'"], [], {1: (2048, 129023)}),
    ({1: (34, 40)}, ["number = 1\nsize = 'rest'"], [], {1: (34, 129023)}),
    # It is not shortened where no later multiple is reached.
    ({1: (2048, 131038)}, ["number = 1\nsize = 'rest'"], [], {1: (2048, 131038)}),
    ({1: (2048, 130000)}, ["number = 1\nsize = 'rest'"], [], {1: (2048, 130000)}),
    # It ends before the next partition, also before one that the same layout adds or moves, in any order.
    ({1: (2048, 4095), 2: (10240, 12287)}, ["number = 1\nsize = 'rest'", "number = 2"], [],
     {1: (2048, 10239), 2: (10240, 12287)}),
    ({1: (2048, 4095)}, ["number = 1\nsize = 'rest'", "number = 2\ntype = 'linux'\nstart = '5MiB'\nsize = '1MiB'"], [],
     {1: (2048, 10239), 2: (10240, 12287)}),
    ({1: (2048, 4095)}, ["number = 1\nsize = 'rest'", "number = 2\ntype = 'linux'\nsize = '1MiB'"], [],
     {1: (2048, 4095), 2: (4096, 6143)}),
    ({1: (2048, 4095), 2: (4096, 6143)}, ["number = 1\nsize = 'rest'", "number = 2\nstart = '5MiB'"], ["--replace"],
     {1: (2048, 10239), 2: (10240, 12287)}),
    ({1: (2048, 4095), 2: (4096, 6143)}, ["number = 1\nsize = 'rest'"], ["--replace"], {1: (2048, 129023)}),
    # Another partition becomes longer too.
    ({1: (2048, 4095), 2: (4096, 6143)}, ["number = 1\nsize = 'rest'", "number = 2\nsize = '2MiB'"], [],
     {1: (2048, 4095), 2: (4096, 8191)}),
    # Without --replace no other partition may move, become shorter, be left out, or begin elsewhere.
    ({1: (2048, 4095), 2: (4096, 6143)}, ["number = 1\nsize = 'rest'", "number = 2\nstart = '5MiB'"], [], None),
    ({1: (2048, 4095), 2: (4096, 8191)}, ["number = 1\nsize = 'rest'", "number = 2\nsize = '1MiB'"], [], None),
    ({1: (2048, 4095), 2: (4096, 6143)}, ["number = 1\nsize = 'rest'"], [], None),
    ({1: (4096, 6143)}, ["number = 1\nstart = '1MiB'\nsize = 'rest'"], [], None),
    ({1: (4096, 6143)}, ["number = 1\nstart = '1MiB'\nsize = 'rest'"], ["--replace"], {1: (2048, 129023)}),
]


def try_rests(tally, program):
    """`rest` for partitions that exist, beside others, and in scripts."""
    for there, parts, more, wanted in RESTS:
        start(program, False, 64 * MIB)
        for number, (first, last) in there.items():
            program.run("add", "disk.img", "--number", str(number), "--type", "linux", "--start", f"{first}s",
                        "--size", f"{last - first + 1}s")
        text = "".join(f"[[partition]]\n{part}\n" for part in parts)
        program.write("rest.toml", text.encode())
        words = ["apply", "disk.img", "rest.toml", *more]
        if not wanted:
            refused(tally, program, words, "partition ")
            continue
        program.run(*words)
        holds_spans(tally, program, f"apply {more} of {text!r} over {there}", wanted)
        says(tally, program, words, "unchanged\n")
    start(program, False, 64 * MIB)
    program.write("script", b"label: gpt\nstart=8MiB, size=1MiB\nstart=2048\nstart=18432, size=+\n")
    program.run("apply", "disk.img", "script")
    holds_spans(tally, program, "two rests", {1: (16384, 18431), 2: (2048, 16383), 3: (18432, 129023)})
    says(tally, program, ["apply", "disk.img", "script"], "unchanged\n")
    program.set_length("disk.img", 80 * MIB)
    program.run("apply", "disk.img", "script", "--fit")
    holds_spans(tally, program, "apply of two rests after growth", {1: (16384, 18431), 2: (2048, 16383), 3: (18432, 161791)})
    says(tally, program, ["apply", "disk.img", "script"], "unchanged\n")


def try_wrong(tally, program):
    """Texts that are no layouts."""
    start(program)
    for text, told in WRONG:
        program.write("disk.toml", text if isinstance(text, bytes) else text.encode())
        refused(tally, program, ["apply", "disk.img", "disk.toml"], told)


def try_several(tally, program):
    """All errors of a text are told at once, in its order."""
    start(program)
    for text, wanted in SEVERAL:
        program.write("disk.toml", text.encode())
        status, out, err = program.run("apply", "disk.img", "disk.toml")
        lines = err.removeprefix("gptedit: disk.toml: ").splitlines()
        tally.equals(f"the status of {text[:60]!r}", (1, ""), (status, out))
        tally.equals(f"the errors of {text[:60]!r}: {lines}", wanted,
                     [line[:len(begin)] for line, begin in zip(lines, wanted)] + lines[len(wanted):])
        found = program.json("apply", "disk.img", "disk.toml", "--json")["error"]
        kept = [line for line in lines if not line.startswith("and ")]
        tally.equals(f"the code of {text[:60]!r}", "bad-layout", found["code"])
        tally.equals(f"the message of {text[:60]!r}", err, f"gptedit: {found['message']}\n")
        tally.equals(f"errors in JSON of {text[:60]!r}",
                     [{"line": int(line.split(":")[0][5:]), "message": line} for line in kept], found["errors"])


def try_nearest(tally, program):
    """An unknown type, and the name that is nearest to it."""
    start(program)
    for word, name in NEAREST:
        for text in (f'[[partition]]\ntype = "{word}"\n', f"size=1M, type={word}\n", f",1M,{word}\n"):
            program.write("disk.toml", text.encode())
            refused(tally, program, ["apply", "disk.img", "disk.toml"], f"; the nearest name is {name}\n")


def draw(random_, number, names=NAMES):
    """A layout of random partitions, each behind the one before it: number -> entry."""
    at, entries = 34, {}
    for _ in range(number):
        first = at + random_.choice([0, 0, 1, 7, random_.randrange(400)])
        last = first + random_.choice([0, 1, 100, random_.randrange(900)])
        if last > RANDOM // 512 - 34:
            break
        free = [n for n in range(1, 129) if n not in entries]
        bits = sum(1 << b for b in random_.sample(sorted(SFDISK) + list(range(48, 64)), random_.randrange(4)))
        guid = str(uuid.UUID(int=random_.getrandbits(128)))
        kind = random_.choice([EFI, LINUX, SWAP, str(uuid.UUID(int=random_.getrandbits(128)))])
        entries[random_.choice(free[:9])] = table.Entry(kind, guid, first, last, bits, random_.choice(names))
        at = last + 1
    return entries


def quoted(text):
    """A text as TOML and scripts have it."""
    return json.dumps(text, ensure_ascii=False)


def toml_of(guid, entries):
    """The layout in TOML."""
    lines = ["[disk]", f'guid = "{guid}"']
    for number, entry in entries.items():
        names = [quoted(name) if entry.attributes >> bit & 1 else "" for bit, name in NAMED.items()]
        others = [str(bit) for bit in range(64) if entry.attributes >> bit & 1 and bit not in NAMED]
        lines += ["[[partition]]", f"number = {number}", f"name = {quoted(entry.name)}", f'type = "{entry.type}"',
                  f'guid = "{entry.guid}"', f'start = "{entry.first}s"',
                  f'size = "{entry.last - entry.first + 1}s"',
                  "attributes = [" + ", ".join([n for n in names if n] + others) + "]"]
    return "\n".join(lines) + "\n"


def script_of(guid, entries):
    """The layout as a script of sfdisk."""
    lines = ["label: gpt", f"label-id: {guid}", "unit: sectors", "first-lba: 34", ""]
    for number, entry in entries.items():
        words = [word for bit, word in SFDISK.items() if entry.attributes >> bit & 1]
        others = ",".join(str(bit) for bit in range(48, 64) if entry.attributes >> bit & 1)
        attributes = " ".join(words + (["GUID:" + others] if others else []))
        lines.append(f"disk.img{number} : start={entry.first}, size={entry.last - entry.first + 1}, "
                     f'type={entry.type.upper()}, uuid={entry.guid.upper()}, name="{entry.name}", '
                     f'attrs="{attributes}"')
    return "\n".join(lines) + "\n"


def try_random(tally, program):
    """Random layouts, as TOML and as scripts, and what sfdisk makes of the same scripts."""
    random_ = random.Random(1)
    tool = shutil.which("sfdisk")
    start(program, False, RANDOM)
    for number in range(LAYOUTS):
        entries, guid = draw(random_, random_.randrange(1, 30)), str(uuid.UUID(int=random_.getrandbits(128)))
        text = (script_of if number % 2 else toml_of)(guid, entries)
        ended = program.run("apply", "disk.img", "-", "--replace", text=text)
        tally.equals(f"layout {number}", (0, ""), (ended[0], ended[2]))
        found = table.read(program.file("disk.img"))
        tally.equals(f"the table of layout {number}", (guid, entries), found and (found.guid, found.entries))
        if tool:
            program.make_image("theirs.img", RANDOM)
            apply_theirs(tally, program, script_of(guid, entries), f"layout {number}", entries)
    return f"{LAYOUTS} layouts" + (", each by sfdisk too" if tool else "")


def apply_theirs(tally, program, script, what, entries):
    """Has sfdisk apply a script, and compares its table, and what gptedit makes of the script it dumps."""
    subprocess.run(["sfdisk", "-q", "theirs.img"], input=script.encode(), cwd=program.folder, check=False)
    theirs = table.read(program.file("theirs.img"))
    tally.equals(f"the table of {what} by sfdisk", entries, theirs and theirs.entries)
    dumped = subprocess.run(["sfdisk", "--dump", "theirs.img"], stdout=subprocess.PIPE, cwd=program.folder,
                            check=False).stdout.decode()
    ended = program.run("apply", "theirs.img", "-", text=dumped)
    tally.equals(f"what sfdisk dumps of {what}, applied", (0, "unchanged\n", ""), ended)


def try_round(tally, program):
    """What is dumped and applied gives the table."""
    random_ = random.Random(2)
    for number in range(20):
        entries = draw(random_, 20, NAMES + ["data😀"])
        start(program, False, RANDOM)
        program.run("apply", "disk.img", "-", text=toml_of(DISK, entries))
        program.write("dumped.toml", program.run("dump", "disk.img")[1].encode())
        says(tally, program, ["apply", "disk.img", "dumped.toml"], "unchanged\n")
        program.make_image("disk.img", RANDOM)
        program.run("new", "disk.img")
        program.run("apply", "disk.img", "dumped.toml")
        found = table.read(program.file("disk.img"))
        tally.equals(f"the table that was dumped, number {number}", (DISK, entries), (found.guid, found.entries))


def try_defaults(tally, program):
    """What scripts leave out is as sfdisk has it."""
    scripts = ["size=1MiB, type=L\nsize=2MiB, type=S\n", ",4MiB,U\n,8MiB,L\n,,L\n", "size=+, name=all\n",
               "size=3000, type=linux\nsize=1MiB, type=home\n", "size=1MiB\nstart=8MiB, size=1MiB, attrs=GUID:60\n",
               "start=0x800, size=0x1E\nstart=010000, size=0x1M\n"]
    if not shutil.which("sfdisk"):
        return "sfdisk is not installed: left out"
    for script in scripts:
        for name in ("disk.img", "theirs.img"):
            program.make_image(name, 128 * MIB)
        program.run("new", "disk.img")
        ended = program.run("apply", "disk.img", "-", text="label: gpt\n" + script)
        subprocess.run(["sfdisk", "-q", "theirs.img"], input=b"label: gpt\n" + script.encode(),
                       cwd=program.folder, check=False)
        ours, theirs = (table.read(program.file(name)) for name in ("disk.img", "theirs.img"))
        tally.equals(f"the status of {script!r}", (0, ""), (ended[0], ended[2]))
        tally.equals(f"the table of {script!r}", without_guids(theirs), without_guids(ours))
    return None


def try_places(tally, program):
    """Lines of scripts with and without starts."""
    for lines, starts in PLACED:
        start(program, False)
        script = "label: gpt\nfirst-lba: 34\n" + "\n".join(lines) + "\n"
        ended = program.run("apply", "disk.img", "-", text=script)
        found = table.read(program.file("disk.img")).entries
        tally.equals(f"the status of {lines}", int(starts is None), ended[0])
        tally.equals(f"the starts of {lines}", starts or [], [found[number].first for number in sorted(found)])


def draw_lines(random_, unit):
    """Lines of a script, of which about half say where they begin, in multiples of so many sectors."""
    lines = []
    for _ in range(random_.randrange(2, 9)):
        size = f"size={random_.randrange(1, 14 * 2048 // unit) * unit}"
        first = random_.randrange(2048 // unit, 127 * 2048 // unit) * unit
        lines.append(random_.choice([size, f"start={first}, {size}"]))
    return lines


def try_mixed(tally, program):
    """Random scripts of lines with and without starts, by sfdisk too; what it refuses is refused."""
    if not shutil.which("sfdisk"):
        return "sfdisk is not installed: left out"
    random_, laid = random.Random(3), 0
    for number in range(SCRIPTS):
        head, unit = [("label: gpt\n", 2048), ("label: gpt\nfirst-lba: 34\n", 1)][number % 2]
        script = head + "\n".join(draw_lines(random_, unit)) + "\n"
        start(program, False)
        program.make_image("theirs.img", 128 * MIB)
        ended = program.run("apply", "disk.img", "-", "--replace", text=script)
        theirs = subprocess.run(["sfdisk", "-q", "theirs.img"], input=script.encode(), cwd=program.folder,
                                stderr=subprocess.DEVNULL, check=False).returncode
        wanted = {} if theirs else without_guids(table.read(program.file("theirs.img")))
        tally.equals(f"the status of {script!r}", theirs, ended[0])
        tally.equals(f"the table of {script!r}", wanted, without_guids(table.read(program.file("disk.img"))))
        laid += not theirs
    return f"{SCRIPTS} scripts, of which sfdisk takes {laid}"


def without_guids(found):
    """The entries of a table, but for their GUIDs, which are random."""
    return {number: entry._replace(guid="") for number, entry in found.entries.items()}


def try_readers(tally, program):
    """Images of other tools, changed by gptedit, and read by all of them."""
    makers = {
        "sgdisk": ["sgdisk", "-n", "1:0:+8M", "-t", "1:ef00", "-c", "1:ESP", "theirs.img"],
        "sfdisk": ["sh", "-c", "printf 'label: gpt\\nsize=8MiB, type=U, name=ESP\\n' | sfdisk -q theirs.img"],
        "parted": ["parted", "-s", "theirs.img", "mklabel", "gpt", "mkpart", "ESP", "1MiB", "9MiB", "set", "1",
                   "esp", "on"],
        "cgpt": ["sh", "-c", "cgpt create theirs.img && cgpt boot -p theirs.img && "
                 "cgpt add -i 1 -b 2048 -s 16384 -t efi -l ESP theirs.img"],
        "systemd-repart": ["systemd-repart", "--definitions=" + program.file("definitions"), "--dry-run=no",
                           "--empty=force", "theirs.img"],
    }
    os.makedirs(program.file("definitions"), exist_ok=True)
    program.write("definitions/10-esp.conf", b"[Partition]\nType=esp\nLabel=ESP\nSizeMinBytes=8M\nSizeMaxBytes=8M\n")
    there = [name for name in makers if shutil.which(name)]
    for name in there:
        program.make_image("theirs.img", 128 * MIB)
        subprocess.run(makers[name], cwd=program.folder, stdout=subprocess.DEVNULL, stderr=subprocess.DEVNULL,
                       check=False)
        before = table.read(program.file("theirs.img"))
        tally.equals(f"check of an image of {name}", 0, program.run("check", "theirs.img")[0])
        ended = program.run("add", "theirs.img", "--type", "linux", "--size", "rest", "--name", "root")
        after = table.read(program.file("theirs.img"))
        tally.equals(f"add to an image of {name}", (0, before.entries[1]), (ended[0], after.entries[1]))
        tally.equals(f"the second partition beside one of {name}", (LINUX, "root"),
                     (after.entries[2].type, after.entries[2].name))
        for reader in there:
            read_theirs(tally, program, reader, after.entries, f"an image of {name}")
    return ", ".join(there)


def read_theirs(tally, program, reader, entries, what):
    """Counts whether another tool lists these entries."""
    first, last = entries[2].first, entries[2].last
    commands_of = {
        "sgdisk": (["sgdisk", "-i", "2", "theirs.img"], [f"First sector: {first} ", f"Last sector: {last} "]),
        "sfdisk": (["sfdisk", "--dump", "theirs.img"], [f"{first}, size={last - first + 1:12d}, type={LINUX.upper()}"]),
        "parted": (["parted", "-s", "-m", "theirs.img", "unit", "s", "print"], [f"2:{first}s:{last}s:"]),
        "cgpt": (["cgpt", "show", "-i", "2", "-b", "theirs.img"], [str(first)]),
        "systemd-repart": (["systemd-repart", "--definitions=" + program.file("definitions"), "--json=short",
                            "theirs.img"], [f'"offset":{first * 512},"old_size":{(last - first + 1) * 512},']),
    }
    words, wanted = commands_of[reader]
    ended = subprocess.run(words, cwd=program.folder, stdout=subprocess.PIPE, stderr=subprocess.STDOUT,
                           check=False)
    printed = ended.stdout.decode()
    tally.holds(f"{reader} reads {what}: {printed}", ended.returncode == 0 and
                all(" ".join(text.split()) in " ".join(printed.split()) for text in wanted))
    tally.holds(f"{reader} finds nothing wrong with {what}: {printed}",
                not any(word in printed.lower() for word in ("corrupt", "mismatch", "invalid", "warning")))


SUBJECTS = {"layouts": try_layout, "rest": try_rest, "rests and other partitions": try_rests,
            "what layouts leave out": try_kept, "texts that are no layouts": try_wrong,
            "several errors": try_several, "the nearest type": try_nearest,
            "random layouts": try_random, "dumps": try_round, "defaults of scripts": try_defaults,
            "starts in scripts": try_places, "scripts with and without starts": try_mixed,
            "images of other tools": try_readers}
