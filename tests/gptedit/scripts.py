"""`dump --sfdisk`: byte for byte what `sfdisk --dump` prints, and what sfdisk and gptedit make of it again."""
import os
import subprocess

from harness import table
from harness.runs import there
from commands import DISK, EFI, MIB, SFDISK, SWAP
from makers import IMAGE, SIZE, entry, make, numbered, of, tool
from texts import HIDDEN, SHOWN
from uses import Loop, can_loop

ODD = "11111111-2222-3333-4444-555555555555"
OTHER = "other.img"
# sfdisk aligns to sectors on a disk of up to this length.
SMALL = 4 * MIB
PRINTED = set(range(0x20, 0x7f)) - set(b'"\\`$')

# Names that sfdisk and gptedit read from a script; names that sfdisk does not write; and names that a script does
# not hold, with what is said of them.
NAMES = ["root", "", "EFI System", "a'b", "tab\tbed", "a,b;c=d:e", "x" * 36, "Größe", "名前", " a ", "#", "\\x41",
         "a\\", "-", "$(id)", "`id`", '"', '""', "\\", "a\nb", "\x1b[1m"]
NAMES += ["".join(map(chr, range(at, at + 36))) for at in (1, 37, 73, 92, 0x80, 0x3b0, 0x2018)]
PAIRS = ["\U0001f600", "a\U0001f600b", "\U0010ffff" * 18]
HALVES = ["\ud800", "a\udc00", "\udc00\ud800", "a\ud83dx", "a" * 35 + "\ud83d"]
HAS_THEM = "; the layout that `gptedit dump` prints without --sfdisk has them\n"
LOST_BITS = f"gptedit: {IMAGE}: the script omits bits 3 to 47 of the attributes of partition 1" + HAS_THEM
LOST_NAME = f"gptedit: {IMAGE}: the script does not hold all units of the name of partition 1" + HAS_THEM

# Paths of an image, below the folder of the tests.
PATHS = ["disk.img", "disk", "disk1", "disk.img7", "0", "p", "ap", "1p", "a b", "a b 2", " a", "two words.img",
         "one/disk", "one/disk2", "one 3/disk", "one 3/4", "./disk", "./one/../disk9", "one//disk", "Größe", "名前5",
         "a٣", "disc", "x.disc", "one/disc", "x.disc1", "Disc", "a,b", "a;b", "a#b", "a'b\"c", "a\\b", "a$b", "-x",
         "_1", "x-part1", "a@", "%d", "%s1"]
# sfdisk does not read its own scripts of these.
PATHS_UNREAD = ["a:b", "a=b", "a:1", "c=3/disk"]


def quoted(name):
    """A name as scripts have it: in UTF-8, with each byte that is not printed as \\x and two digits."""
    return "".join(chr(byte) if byte in PRINTED else f"\\x{byte:02x}" for byte in name.encode("utf-8", "surrogatepass"))


def node(path, number):
    """The device of a partition, by the path of its disk."""
    if path.endswith("disc"):
        return f"{path[:-4]}part{number}"
    return f"{path}{'p' if path[-1] in '0123456789' else ''}{number}"


def words_of(bits):
    """The attributes as scripts have them."""
    others = ",".join(str(bit) for bit in range(48, 64) if bits >> bit & 1)
    return " ".join([SFDISK[bit] for bit in SFDISK if bits >> bit & 1] + (["GUID:" + others] if others else []))


def script_of(path, size, found, sector=512):
    """The script of a table, by the format."""
    lines = ["label: gpt", f"label-id: {found.guid.upper()}", f"device: {path}", "unit: sectors",
             f"first-lba: {found.first}", f"last-lba: {found.last}"]
    lines += [f"table-length: {found.count}"] if found.count != 128 else []
    lines += [f"grain: {sector}"] if size // sector <= SMALL // sector else []
    lines += [f"sector-size: {sector}"] + [""] * bool(found.entries)
    for number, one in sorted(found.entries.items()):
        line = (f"{node(path, number)} : start={one.first:12d}, size={max(one.last - one.first + 1, 0):12d}, "
                f"type={one.type.upper()}, uuid={one.guid.upper()}")
        line += f', name="{quoted(one.name)}"' if one.name else ""
        lines.append(line + (f', attrs="{words_of(one.attributes)}"' if one.attributes else ""))
    return "\n".join(lines) + "\n"


def run_sfdisk(program, *words, text=""):
    """Runs sfdisk, and gives its status and its output."""
    ended = subprocess.run(["sfdisk", *words], input=text.encode(), stdout=subprocess.PIPE, stderr=subprocess.DEVNULL,
                           cwd=program.folder, check=False)
    return ended.returncode, ended.stdout.decode()


def is_printed(tally, program, what, path, wanted, err=""):
    """Counts whether the script of an image is this one, for gptedit and for sfdisk where it is there."""
    tally.equals(f"dump --sfdisk of {what}", (0, wanted, err), program.run("dump", path, "--sfdisk"))
    if there("sfdisk"):
        tally.equals(f"sfdisk --dump of {what}", (0, wanted), run_sfdisk(program, "--dump", "--", path))


def is_read(tally, program, what, script, found, size=SIZE):
    """Counts whether sfdisk and gptedit make this table of a script on another image."""
    if there("sfdisk"):
        program.make_zeros(OTHER, size)
        status, _ = run_sfdisk(program, "-q", OTHER, text=script)
        theirs = table.read(program.file(OTHER))
        tally.equals(f"what sfdisk makes of the script of {what}", (0, found), (status, theirs))
    program.make_zeros(OTHER, size)
    status, _, err = program.run("apply", OTHER, "--create", "-", text=script)
    tally.equals(f"what gptedit makes of the script of {what}", (0, "", found),
                 (status, err, table.read(program.file(OTHER))))


def named(names):
    """Entries with these names."""
    return {n: one._replace(name=name) for (n, one), name in zip(numbered(len(names)).items(), names)}


def tables():
    """Tables that a script holds whole: what each is about, its table, and the length of its disk."""
    rows = [(f"the name {name!r}", {1: entry(2048, 4095, name)}) for name in NAMES]
    rows += [(f"a name with U+{code:04X}", {1: entry(2048, 4095, f"a{chr(code)}b")}) for code in HIDDEN + SHOWN
             if code < 0x10000]
    rows += [(f"attributes {bits:#x}", {1: entry(2048, 4095, attributes=bits)}) for bits in
             [1, 2, 4, 5, 7, 0x8000 << 48, 1 << 48, 3 << 59, 0xffff << 48, 0xffff << 48 | 7, 1 << 63 | 4]]
    rows += [("all names", named(NAMES)), ("no partitions", {}), ("128 partitions", numbered(128)),
             ("the last entry", {128: entry(2048, 4095)}), ("sparse numbers", {2: entry(2048, 4095), 7: entry(
                 34, 34, "", ODD), 99: entry(5000, 6000, "x", EFI, SWAP), 100: entry(4096, 4999, "y", DISK, ODD)}),
             ("another order", {3: entry(2048, 4095), 1: entry(8192, 8192, "b", ODD, EFI, 1)})]
    made = [(what, of(entries), SIZE) for what, entries in rows]
    for count in 1, 4, 56, 127, 129, 256, 1024:
        made.append((f"{count} entries", of({count: entry(4096, 8191)}, count=count), SIZE))
    for size in (MIB, 3 * MIB, 5 * MIB, 3 << 40, *(SMALL + more for more in (-1, 0, 1, 511, 512, 1023, 4096))):
        made.append((f"a disk of {size} bytes", of({1: entry(512, 1023)}, size), size))
    made.append(("other bounds", of({1: entry(4096, 8191)}, first=2048, last=30000), SIZE))
    made.append(("large numbers", of({1: entry(2048, 6 << 31)}, 8 << 40), 8 << 40))
    return made


def try_tables(tally, program):
    """Tables that a script holds whole: the script, and the table that sfdisk and gptedit make of it."""
    tally.has("sfdisk")
    made = tables()
    for what, found, size in made:
        program.make_zeros(IMAGE, size)
        table.put(program.file(IMAGE), table.pieces_of(found, size))
        wanted = script_of(IMAGE, size, found)
        is_printed(tally, program, what, IMAGE, wanted)
        if size == SIZE and found.last == table.bounds(SIZE, count=found.count)[1]:
            is_read(tally, program, what, wanted, found)
    return f"{len(made)} tables"


def try_losses(tally, program):
    """Tables that a script does not hold whole, or that are not made from it again."""
    tally.has("sfdisk")
    for name in PAIRS + HALVES:
        found = make(program, {1: entry(2048, 4095, name)})
        is_printed(tally, program, f"the name {name!r}", IMAGE, script_of(IMAGE, SIZE, found),
                   LOST_NAME if name in HALVES else "")
    for name in "a\0b", "\0b":
        make(program, {1: entry(2048, 4095, name)})
        wanted = script_of(IMAGE, SIZE, of({1: entry(2048, 4095, name.split("\0", maxsplit=1)[0])}))
        is_printed(tally, program, f"the name {name!r}", IMAGE, wanted, LOST_NAME)
    for bits in [1 << bit for bit in range(3, 48)] + [0xffff_ffff_ffff_ffff, 1 << 47 | 1 << 48, 9]:
        found = make(program, {1: entry(2048, 4095, attributes=bits)})
        is_printed(tally, program, f"attributes {bits:#x}", IMAGE, script_of(IMAGE, SIZE, found), LOST_BITS)
    for what, first, last in ("nothing", 4096, 4095), ("less than nothing", 4096, 34), ("far away", 1 << 62, 1 << 63):
        found = make(program, {1: entry(2048, 4095), 2: entry(first, last, "x", ODD)})
        is_printed(tally, program, f"a partition of {what}", IMAGE, script_of(IMAGE, SIZE, found))
    found = make(program, {1: entry(2048, 4095, guid=str(table.guid_text(bytes(16))))})
    is_printed(tally, program, "a GUID of zeros", IMAGE, script_of(IMAGE, SIZE, found))
    for place in 512, SIZE - 512:
        found = make(program, numbered(3))
        program.put(IMAGE, place, bytes(512))
        is_printed(tally, program, f"a table whose header at byte {place} is cleared", IMAGE,
                   script_of(IMAGE, SIZE, found))


def try_paths(tally, program):
    """Paths of images."""
    tally.has("sfdisk")
    found = make(program, {1: entry(2048, 4095), 10: entry(8192, 9000, "x", ODD)})
    image = program.bytes_of(IMAGE)
    paths = PATHS + PATHS_UNREAD + [program.file("disk"), program.file("disk1")]
    for path in paths:
        if os.path.dirname(path):
            os.makedirs(program.file(os.path.dirname(path)), exist_ok=True)
        program.write(path, image)
        wanted = script_of(path, SIZE, found)
        words = ["--"] if path.startswith("-") else []
        ended = program.run("dump", "--sfdisk", *words, path)
        tally.equals(f"dump --sfdisk of {path!r}", (0, wanted, ""), ended)
        if there("sfdisk"):
            tally.equals(f"sfdisk --dump of {path!r}", (0, wanted), run_sfdisk(program, "--dump", "--", path))
        if path not in PATHS_UNREAD:
            is_read(tally, program, f"the path {path!r}", wanted, found)
        os.remove(program.file(path))
    hidden = "a\nb\x1b[1m1"
    program.write(hidden, image)
    escaped = script_of("a\\u{a}b\\u{1b}[1m1", SIZE, found)
    tally.equals("dump --sfdisk of hidden characters", (0, escaped, ""), program.run("dump", "--sfdisk", hidden))
    is_read(tally, program, "a path with hidden characters", escaped, found)
    return f"{len(paths)} paths"


def maker_rows():
    """What sgdisk, sfdisk and parted are to make: the words of sgdisk and parted, the scripts of sfdisk."""
    return {
        "sgdisk": [["-n", "1:0:+1M", "-c", "1:a\"b\\c$d", "-t", "1:ef00", "-A", "1:set:2"],
                   ["-S", "56", "-n", "3:0:+2M", "-c", "3:Größe"], ["-n", "128:2048:4095", "-A", "128:set:60"],
                   ["-n", "2:0:+1M", "-A", "2:set:0", "-A", "2:set:63"], ["-a", "1", "-n", "1:34:34", "-n", "2:36:40"],
                   ["-o"], ["-S", "256", "-n", "200:0:0"], ["-n", "1:0:+1M", "-h", "1"]],
        "sfdisk": ["size=1M\n", "size=1M, name=\"a b\", attrs=GUID:59\nsize=2M, type=U\n", "first-lba: 34\nsize=1M\n",
                   "table-length: 56\nsize=1M\n", "", "table-length: 1\n,,S\n",
                   f"label-id: {DISK}\nfirst-lba: 34\nstart=4000, size=5\nstart=40, size=7\n",
                   "first-lba: 34\n" + "".join(f"start={40 * n}, size=40\n" for n in range(1, 129))],
        "parted": [["mkpart", "one", "1MiB", "2MiB"], ["mkpart", "a", "1MiB", "2MiB", "mkpart", "b", "2MiB", "3MiB",
                                                       "set", "2", "esp", "on", "set", "1", "legacy_boot", "on"]],
    }


def try_makers(tally, program):
    """Tables of sgdisk, sfdisk and parted."""
    count = 0
    for maker, rows in maker_rows().items():
        if not tally.has(maker):
            continue
        for row in rows:
            program.make_zeros(IMAGE, SIZE)
            words = {"sgdisk": ["sgdisk", *row, IMAGE], "sfdisk": ["sfdisk", "-q", IMAGE],
                     "parted": ["parted", "-s", IMAGE, "mklabel", "gpt", *row]}[maker]
            tally.equals(f"{maker} with {row}", 0, tool(program, *words, text="label: gpt\n" + row if maker == "sfdisk"
                                                        else ""))
            found = table.read(program.file(IMAGE))
            wanted = script_of(IMAGE, SIZE, found)
            is_printed(tally, program, f"a table of {maker} with {row}", IMAGE, wanted)
            is_read(tally, program, f"a table of {maker} with {row}", wanted, found)
            count += 1
    return f"{count} tables"


def try_devices(tally, program):
    """Loop devices and images with sectors of 512 and 4096 bytes; sfdisk reads 4096 only on a device."""
    sizes = [(SIZE, 512), (SIZE, 4096), (SMALL, 4096), (SMALL + 4096, 4096)]
    can = can_loop(program) and there("sfdisk")
    for size, sector in sizes:
        found = of({1: entry(256, 511), 5: entry(512, 600, "x", ODD)}, size, sector)
        program.make_zeros(IMAGE, size)
        table.put(program.file(IMAGE), table.pieces_of(found, size, sector))
        wanted = script_of(IMAGE, size, found, sector)
        words = ["--sector", str(sector)]
        tally.equals(f"dump --sfdisk of {size} bytes in sectors of {sector}", (0, wanted, ""),
                     program.run("dump", "--sfdisk", *words, IMAGE))
        if can:
            with Loop(program, IMAGE, "-b", str(sector)) as loop:
                is_printed(tally, program, f"a loop device with sectors of {sector} bytes", loop.path,
                           script_of(loop.path, size, found, sector))
    return None if can else "no loop devices for this user, or no sfdisk: only images"


SUBJECTS = {"tables as scripts": try_tables, "what scripts lose": try_losses, "paths in scripts": try_paths,
            "tables of other tools as scripts": try_makers, "devices in scripts": try_devices}
