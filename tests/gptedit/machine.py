"""What programs read from `--json`: the changes of each command by a model of them, the code of each refusal, and
docs/gptedit.schema.json."""
import json
import os
import random
import re
import resource
import struct
import subprocess

from harness import table
from harness.runs import Ended, by_shell, run, there
from harness.schema import Schema
from commands import DISK, ESP, LINUX, MIB, NAMED, ROOT
from layouts import draw, toml_of
from makers import IMAGE, ONE, SIZE, TWO, entry, ext4, make, numbered, put_dos, set_field
from refusals import ROWS as REFUSED_ROWS
from stops import can_inject
from uses import Loop, can_loop

PATH = os.path.join(os.path.dirname(__file__), "..", "..", "docs", "gptedit.schema.json")
SCHEMA, LOOSE = Schema(PATH), Schema(PATH, is_strict=False)
OTHER = "c0ffee00-0000-4000-8000-0000000000aa"
ADD = ["add", IMAGE, "--type", "linux", "--guid", OTHER]
END = SIZE // 512
LOADER = b"A BOARD'S LOADER" * 2048

# Codes of checks that others come before, and what no trial here can cause.
LATER = {"bad-table", "no-safe-order", "has-data", "has-data-at-entries", "replaced", "no-sector-size", "no-start"}
PROGRAMS = {"gptedit", "truncate", "qemu-img"}
DOCUMENTS = []


def parsed(tally, what, ended, name):
    """The JSON document that was printed, which is one of this definition. Nothing where it is none."""
    try:
        found = json.loads(ended.out)
    except ValueError:
        tally.equals(f"{what} prints one JSON document", True, ended)
        return None
    for rule in SCHEMA.rule(name), SCHEMA.rule():
        tally.equals(f"faults of the JSON of {what}", [], SCHEMA.faults(found, rule))
    DOCUMENTS.append(found)
    return found


# The model of changes


def partition_of(number, one, sector):
    """A partition as JSON has it."""
    if not one:
        return None
    count = one.last - one.first + 1
    units = [f"{unit:04x}" for unit in struct.unpack(f"<{len(one.name.encode('utf-16-le')) // 2}H",
                                                     one.name.encode("utf-16-le"))]
    return {"number": number, "start_sectors": one.first, "end_sectors": one.last, "size_sectors": count,
            "offset_bytes": one.first * sector, "size_bytes": count * sector, "type": one.type.upper(),
            "guid": one.guid.upper(), "name": one.name, "name_utf16": " ".join(units),
            "attributes": ",".join(NAMED.get(bit, str(bit)) for bit in range(64) if one.attributes >> bit & 1)}


def kept_numbers(before, after):
    """For each number afterwards the number before of the same partition: it has the same GUID; or, where neither GUID
    is in both tables, the same number and sectors, or the same number, start, type and name."""
    at = {one.guid: number for number, one in before.items()}
    kept = {number: at[one.guid] for number, one in after.items() if one.guid in at}
    guids = {one.guid for one in after.values()}
    for number, one in after.items():
        old = before.get(number)
        if number not in kept and old and old.guid not in guids and old.first == one.first and (
                old.last == one.last or (old.type, old.name) == (one.type, one.name)):
            kept[number] = number
    return kept


def changes_of(before, after, sector=512):
    """The changes between two lists of entries."""
    kept = kept_numbers(before, after)
    found = []
    for number in sorted(set(before) - set(kept.values())):
        found.append((number, 0, "removed", partition_of(number, before[number], sector), None))
    for number, one in after.items():
        new, old = partition_of(number, one, sector), kept.get(number)
        if old is None:
            found.append((number, 1, "added", None, new))
        elif (old, before[old]) != (number, one):
            kind = "changed" if old == number else "renumbered"
            found.append((number, 1, kind, partition_of(old, before[old], sector), new))
    keys = "number", "kind", "before", "after"
    return [dict(zip(keys, (number, *more))) for number, _, *more in sorted(found, key=lambda one: one[:2])]


def header_of(found):
    """The fields of a header as JSON has them."""
    return found and {"disk_guid": found.guid.upper(), "first_usable_sector": found.first,
                      "last_usable_sector": found.last, "entries": found.count}


def header_change_of(before, after):
    """The change of a header as JSON has it."""
    one, other = header_of(before), header_of(after)
    return None if one == other else {"before": one, "after": other}


# Changes


def put_layout(program, entries, name="layout"):
    """A layout of these entries in a file."""
    program.write(name, toml_of(DISK, entries).encode())
    return name


def changing_rows(program):
    """What the image is made by, the words of a change, and the kinds and numbers of its changes."""
    def two():
        make(program, TWO)

    def unsorted():
        make(program, {1: TWO[2], 2: TWO[1]})

    def longer():
        make(program, TWO)
        program.set_length(IMAGE, 2 * SIZE)

    def broken():
        make(program, TWO)
        program.flip(IMAGE, SIZE - 512 + 17)

    def low():
        make(program, TWO, last=30000)
        program.put(IMAGE, 30033 * 512, bytes(SIZE - 512 - 30033 * 512))

    def short_mbr():
        make(program, TWO)
        program.put(IMAGE, 458, struct.pack("<I", 5))

    def blank():
        program.make_image(IMAGE, SIZE)

    new = {1: TWO[1]._replace(name="Größe \U0001f4be", attributes=1 | 1 << 50), 2: TWO[2]._replace(guid=OTHER),
           5: entry(20480, 20480, "five", "c0ffee00-0000-4000-8000-000000000005", attributes=1 << 63)}
    moved = {2: TWO[1], 4: TWO[2]._replace(name="moved"), 1: entry(24576, 24577, "", OTHER)}
    put_layout(program, new, "new.toml")
    put_layout(program, moved, "moved.toml")
    put_layout(program, {}, "none.toml")
    return [
        (two, ADD + ["--size", "1MiB", "--name", "x"], [("added", 3)]),
        (two, ["set", IMAGE, "1", "--name", "x", "--attributes", "required"], [("changed", 1)]),
        (two, ["set", IMAGE, "2", "--guid", OTHER], [("changed", 2)]),
        (two, ["set", IMAGE, "1", "--name", "one"], None),
        (two, ["resize", IMAGE, "1", "2MiB"], [("changed", 1)]),
        (two, ["remove", IMAGE, "1"], [("removed", 1)]),
        (two, ["remove", IMAGE, "2", "1"], [("removed", 1), ("removed", 2)]),
        (unsorted, ["sort", IMAGE], [("renumbered", 1), ("renumbered", 2)]),
        (two, ["sort", IMAGE], None),
        (longer, ["grow", IMAGE], []),
        (longer, ["resize", "--fit", IMAGE, "1", "2MiB"], [("changed", 1)]),
        (longer, ["grow", IMAGE, "2"], [("changed", 2)]),
        (longer, ["grow", IMAGE, "2", "--random-guids"], [("changed", 1), ("changed", 2)]),
        (two, ["grow", IMAGE], None),
        (short_mbr, ["grow", IMAGE], []),
        (broken, ["repair", IMAGE], []),
        (low, ["repair", IMAGE, "--bounds"], []),
        (two, ["randomize", IMAGE], [("changed", 1), ("changed", 2)]),
        (two, ["apply", IMAGE, "new.toml", "--replace"], [("changed", 1), ("changed", 2), ("added", 5)]),
        (two, ["apply", IMAGE, "moved.toml", "--replace"], None),
        (two, ["apply", IMAGE, "none.toml", "--replace"], [("removed", 1), ("removed", 2)]),
        (blank, ["apply", IMAGE, "new.toml", "--create"], [("added", 1), ("added", 2), ("added", 5)]),
        (blank, ["new", IMAGE, "--guid", OTHER], []),
        (two, ["new", IMAGE, "--guid", OTHER, "--entries", "56", "--overwrite"], [("removed", 1), ("removed", 2)]),
        (two, ["wipe", IMAGE, "--overwrite"], [("removed", 1), ("removed", 2)]),
        (blank, ["wipe", IMAGE, "--overwrite"], None),
    ]


def table_in(program, sector=512):
    """The table of the image by either copy, or by the primary one of an image of another length; or None."""
    found = next((found for found in table.read_copies(program.file(IMAGE), sector) if found), None)
    with open(program.file(IMAGE), "rb") as file:
        primary = None if found else table.copy_at(table.File(file.fileno()), sector, 1)
    return table.Table(primary.guid, primary.first, primary.last, primary.count, table.entries_in(primary.array)) \
        if primary else found


def tried(tally, program, words, wanted=..., sector=512):
    """Counts what the JSON of a change has, of a dry run and of the real one: by the model of the changes, by the
    lines of the run without JSON, and by `show`. `wanted` are the kinds and the numbers, None for no change."""
    what, name = f"{' '.join(words)} --json", "wipe" if words[0] == "wipe" else "change"
    before, good = table_in(program, sector), program.state(IMAGE)
    lines = program.plain(*words, "-n").out
    dry = parsed(tally, f"{what} -n", program.plain(*words, "--json", "-n"), name)
    tally.holds(f"{what} -n leaves the image", program.state(IMAGE) == good)
    real = parsed(tally, what, program.plain(*words, "--json"), name)
    after = table_in(program, sector)
    if not dry or not real:
        return
    changes = changes_of(before.entries if before else {}, after.entries if after else {}, sector)
    # The layouts here give the number of each partition.
    is_matched = words[0] == "apply" and before
    changes = [{**one, "matched": "number" if is_matched and one["after"] else None} for one in changes]
    tally.equals(f"dry_run of {what}", (True, False), (dry["dry_run"], real["dry_run"]))
    tally.equals(f"changes of {what}", changes, real["changes"])
    tally.equals(f"header of {what}", header_change_of(before, after), real["header"])
    tally.equals(f"changed of {what}: {lines}", lines != "unchanged\n", real["changed"])
    tally.holds(f"{what} writes only where it is changed", real["changed"] or program.state(IMAGE) == good)
    if words[0] != "randomize" and "--random-guids" not in words:
        tally.equals(f"the dry run of {what}", {**real, "dry_run": True}, dry)
    if wanted is not ...:
        told = [(one["kind"], one["number"]) for one in real["changes"]] if real["changed"] else None
        tally.equals(f"kinds of {what}", wanted, told)
    if words[0] not in ("new", "wipe") and "--create" not in words:
        signs = [line.split()[0] for line in lines.splitlines() if re.match(r"[-+~] \d|\d+ -> ", line)]
        kinds = {"added": "+", "removed": "-", "changed": "~"}
        tally.equals(f"the lines without JSON of {what}", signs, [
            kinds.get(one["kind"]) or str(one["before"]["number"]) for one in real["changes"]])
    if name == "change":
        shown = parsed(tally, "show", program.plain("show", IMAGE, "--json"), "table") or real
        tally.equals(f"the table of {what} is that of show", comparable(shown), comparable(real))


def comparable(found):
    """The table of JSON, without what the alignment decides: `show` derives it from the partitions."""
    own = {key: one for key, one in found["gptman"].items() if key not in ("align_sectors", "free")}
    return found["partitiontable"], own


def try_changes(tally, program):
    """Each changing command."""
    for start, words, wanted in changing_rows(program):
        start()
        if words[2:3] == ["moved.toml"]:
            wanted = [("added", 1), ("renumbered", 2), ("renumbered", 4)]
        tried(tally, program, words, wanted)
    make(program, {1: entry(256, 511)}, sector=4096)
    tried(tally, program, ["set", IMAGE, "1", "--name", "x"], [("changed", 1)], 4096)


def try_random(tally, program):
    """Random tables, and random ones that they become."""
    random_ = random.Random(11)
    for _ in range(40):
        before, after = draw(random_, random_.randrange(9)), draw(random_, random_.randrange(9))
        for number, one in list(after.items()):
            old = random_.choice(list(before.values()) or [one])
            if random_.random() < 0.6 and old.guid not in [other.guid for other in after.values()]:
                after[number] = one._replace(guid=old.guid)
        make(program, before, size=MIB)
        put_layout(program, after)
        tried(tally, program, ["apply", IMAGE, "layout", "--replace"])


def try_hidden(tally, program):
    """Names with hidden characters and with units that are no text."""
    make(program, {1: entry(2048, 4095, "a\x85\u202eb\U000e0001")})
    ended = program.plain("set", IMAGE, "1", "--name", "c\x1bd", "--json")
    tally.holds(f"nothing hidden is printed: {ended}", ended.out.isascii() and "\x1b" not in ended.out)
    found = parsed(tally, "a hidden name", ended, "change")
    tally.equals("the names", ("a\x85\u202eb\U000e0001", "c\x1bd"), tuple(
        found["changes"][0][side]["name"] for side in ("before", "after")))
    make(program, {1: entry(2048, 4095, "a\ud800b")})
    found = parsed(tally, "no text", program.plain("remove", IMAGE, "1", "--json"), "change")
    tally.equals("the units", "0061 d800 0062", found["changes"][0]["before"]["name_utf16"])


# Refusals


def named_commands(message):
    """The complete command lines that a message names: without the words that stand for others."""
    quoted = [part.split() for part in re.findall(r"`([^`]*)`", message)]
    return [words for words in quoted if words and words[0] in PROGRAMS and not set(words) & {"N", "FILE", "GUID"}]


def tell(tally, program, words, code=None, lifts=None, text="", under=()):
    """Counts what is printed of a refusal with and without JSON: this code, if one is wanted, and the option that
    lifts it. `under` is a command that runs the program. Gives the codes."""
    def ended_of(*more):
        return run([*under, program.path, *words, *more], text, cwd=program.folder, errors="replace")
    what = " ".join([*under, *words, "--json"])
    before = program.state(IMAGE)
    told, ended = ended_of(), ended_of("--json")
    tally.equals(f"status and errors of {what}", (told.status, told.err), (ended.status, ended.err))
    tally.holds(f"{what} is refused: {told}", told.status in (1, 3, 4, 5) and not told.out)
    tally.holds(f"{what} leaves the image", program.state(IMAGE) == before)
    found = parsed(tally, what, ended, "failure")
    if not found:
        return set()
    error = found["error"]
    tally.equals(f"the message of {what}", told.err, f"gptedit: {error['message']}\n")
    tally.equals(f"mend of {what}", named_commands(error["message"]), error["mend"])
    if code:
        tally.equals(f"code and lifted_by of {what}: {told.err}", (code, lifts), (error["code"], error["lifted_by"]))
    tally.holds(f"{what} names what lifts it: {error}", (error["lifted_by"] or "") in told.err)
    if lifts:
        ended = ended_of(*lifts.split(), "-n", "--json")
        tally.holds(f"{what} {lifts}: {ended}", code not in ended.out)
    return {error["code"]}


# Words over an image with the table `TWO`, with the code.
REFUSALS = [
    ("no-room", ADD + ["--size", "1GiB"]), ("is-used", ADD + ["--size", "1MiB", "--number", "1"]),
    ("no-entry", ADD + ["--size", "1MiB", "--number", "129"]), ("no-size", ADD + ["--size", "0s"]),
    ("no-alignment", ADD + ["--size", "1MiB", "--align", "0s"]), ("not-whole", ADD + ["--size", "1000B"]),
    ("no-alignment", ["free", IMAGE, "--align", "0s"]),
    ("before-start", ADD + ["--size", "1MiB", "--start=-1TiB"]),
    ("too-large", ADD + ["--size", "2s", "--start", "18446744073709551615s"]),
    ("bad-boundaries", ADD + ["--size", "1MiB", "--start", "2048s"]),
    ("shared-guid", ["add", IMAGE, "--type", "linux", "--size", "1MiB", "--guid", ESP]),
    ("is-unused", ["set", IMAGE, "3", "--name", "x"]), ("is-unused", ["show", IMAGE, "3"]),
    ("twice", ["remove", IMAGE, "1", "name=one"]),
    ("no-partition", ["set", IMAGE, "name=none", "--name", "x"]), ("no-partition", ["show", IMAGE, "guid=" + OTHER]),
    ("no-type", ["set", IMAGE, "1", "--type", "00000000-0000-0000-0000-000000000000"]),
    ("not-opened", ["show", "none.img"]), ("not-opened", ["check", "none.img"]),
    ("not-opened", ["salvage", "none.img"]), ("not-opened", ["wipe", "none.img"]), ("not-a-disk", ["show", "."]),
    ("layout-not-read", ["apply", IMAGE, "none.layout"]),
    ("backup-exists", ["set", IMAGE, "1", "--name", "x", "--backup", IMAGE]),
    ("backup-failed", ["set", IMAGE, "1", "--name", "x", "--backup", "none/file"]),
]

# Layouts for the same image, with the code.
LAYOUTS = [
    ("would-move", '[[partition]]\nnumber = 1\nstart = "3MiB"\nsize = "1MiB"\n[[partition]]\nnumber = 2\n'),
    ("not-in-layout", "[[partition]]\nnumber = 1\n"), ("bad-layout", ""),
    ("new-role", '[[partition]]\nnumber = 1\n[[partition]]\nname = "two"\ntype = "swap"\n'), ("bad-layout", "what = 1\n"),
    ("bad-layout", "[["), ("bad-layout", "[[partition]]\nnumber = 1\n[[partition]]\nnumber = 1\n"),
    ("layout-mismatch", '[disk]\nsector-size = "4096B"\n'), ("layout-mismatch", "[disk]\nentries = 56\n"),
    ("too-small-for-entries", "[disk]\nentries = 0\n"), ("out-of-bounds", '[disk]\nfirst-usable = "33s"\n'),
    ("bad-layout", '[[partition]]\ntype = "linx"\n'),
]


def tell_requests(tally, program):
    """What cannot be had of a table. Gives the codes."""
    codes = set()
    for code, words in REFUSALS:
        make(program, TWO)
        codes |= tell(tally, program, words, code)
    for code, text in LAYOUTS:
        make(program, TWO)
        codes |= tell(tally, program, ["apply", IMAGE, "-"], code, text=text)
    for words, _ in REFUSED_ROWS:
        make(program, TWO)
        if words[1] != "/dev/null" or os.path.exists(words[1]):
            codes |= tell(tally, program, words) if program.plain(*words).status else set()
    return codes


def table_rows(program):
    """Tables that cannot be changed or read: what makes the image, the words, and the code."""
    def image(*pieces, size=SIZE):
        program.make_zeros(IMAGE, size)
        table.put(program.file(IMAGE), pieces)

    def long(size=SIZE, entries=None, **how):
        make(program, TWO if entries is None else entries, **how)
        program.set_length(IMAGE, size)

    add, name = ADD + ["--size", "1MiB"], ["set", IMAGE, "1", "--name", "x"]
    return [
        (lambda: make(program, numbered(4), count=4), add, "no-unused-entry"),
        (lambda: long(2 * SIZE), add, "not-laid-out"),
        (lambda: long(entries={}, count=0), ["grow", IMAGE], "too-small"),
        (lambda: image(size=512), ["new", IMAGE], "too-small-for-entries"),
        (lambda: long(8192 * 512), ["grow", IMAGE], "cut-off"), (lambda: long(60 * 512), ["grow", IMAGE], "too-small"),
        (lambda: long(places={"primary_at": 40}, first=2048), ["grow", IMAGE], "not-laid-out"),
        (lambda: long(last=END - 2, places={"backup_at": END - 33}), ["grow", IMAGE], "bounds-over-table"),
        (lambda: make(program, {1: TWO[1], 2: TWO[2]._replace(name="one")}), ["remove", IMAGE, "name=one"],
         "several-partitions"),
        (lambda: make(program, {1: entry(9, 7)}), ["show", IMAGE, "1", "size"], "no-value"),
        (lambda: make(program, ONE, first=2), name, "bounds-over-table"),
        (image, ["show", IMAGE], "no-table"), (image, ["dump", IMAGE], "no-table"), (image, name, "no-table"),
        (image, ["free", IMAGE], "no-table"), (image, ["apply", IMAGE, "two.toml"], "no-table"),
        (lambda: (long(), set_field(program, 80, 40000, form="<I")), ["show", IMAGE], "too-many-entries"),
        (lambda: (long(), program.put(IMAGE, 0, b"QFI\xfb")), ["show", IMAGE], "not-raw"),
        (lambda: (long(), program.put(IMAGE, 0, b"\x1f\x8b\x08\x08")), ["show", IMAGE], "not-raw"),
        (lambda: image((512, b"EFI PART")), ["new", IMAGE, "--overwrite", "--backup", "kept"], "no-backup"),
        (image, ["apply", IMAGE, "bounds.toml", "--create"], "out-of-bounds"),
        (image, ["apply", IMAGE, "early.toml", "--create"], "bad-boundaries"),
        (image, ["apply", IMAGE, "sector.toml", "--create", "--sector", "512"], "layout-mismatch"),
        (lambda: (long(), program.put(IMAGE, 512, LOADER[:33 * 512])), name, "has-data-at-broken-copy"),
        (lambda: (make(program, TWO), program.put(IMAGE, 512, bytes(512))), name, "has-data-at-broken-copy"),
    ]


def loss_rows(program):
    """Contents that would be lost, which `--overwrite` permits: what makes the image, the words, and the code."""
    def image(*pieces):
        program.make_zeros(IMAGE, SIZE)
        table.put(program.file(IMAGE), pieces)

    def two(*pieces, **how):
        make(program, TWO, **how)
        table.put(program.file(IMAGE), pieces)

    def footer():
        make(program, TWO)
        program.set_length(IMAGE, SIZE + 4 * MIB)
        program.put(IMAGE, SIZE + 4 * MIB - 512, b"conectix")

    low = {"last": 30000, "places": {"backup_at": END - 33}}
    name, shorter, new = ["set", IMAGE, "1", "--name", "x"], ["resize", IMAGE, "1", "512KiB"], ["new", IMAGE]
    dos = b"\0\0\1\0\x83\0\0\0" + struct.pack("<II", 63, 30000) + bytes(48) + b"\x55\xaa"
    return [
        (two, new, "has-table"), (two, ["wipe", IMAGE], "has-table"),
        (lambda: two((2048 * 512 + 1024, ext4(MIB))), shorter, "shorter-than-contents"),
        (lambda: two((2048 * 512, b"LUKS\xba\xbe\0\2")), shorter, "shorter-than-contents"),
        (lambda: two((30001 * 512, LOADER), **low), ["repair", IMAGE, "--bounds"], "frees-data"),
        (lambda: two((30001 * 512, LOADER), **low), name, "has-data-after-last-usable"),
        (lambda: (two(), put_dos(program)), name, "dos-table"), (lambda: image((446, dos)), new, "dos-table"),
        (lambda: image((1024, ext4(SIZE))), new, "has-contents"), (footer, ["grow", IMAGE], "has-footer"),
        (lambda: make(program, ONE, sector=4096), new + ["--sector", "512"], "has-other-sector-size"),
        (lambda: image((512, b"EFI PART")), new, "has-header"),
        (lambda: image((446, table.mbr_bytes(SIZE))), new, "has-protective-mbr"),
        (lambda: image((0, LOADER[:510] + b"\x55\xaa")), new, "has-boot-sector"),
    ]


def tell_tables(tally, program):
    """Tables that cannot be changed, and contents that would be lost. Gives the codes."""
    codes = set()
    program.write("two.toml", toml_of(DISK, TWO).encode())
    program.write("bounds.toml", b'[disk]\nfirst-usable = "3s"\n')
    program.write("sector.toml", b'[disk]\nsector-size = "4096B"\n')
    program.write("early.toml", b'[[partition]]\ntype = "linux"\nstart = "5s"\nsize = "1MiB"\n')
    rows = [(*row, None) for row in table_rows(program)] + [(*row, "--overwrite") for row in loss_rows(program)]
    for start, words, code, lifts in rows:
        start()
        codes |= tell(tally, program, words, code, lifts)
    return codes


def tell_system(tally, program):
    """Locks, devices in use, and system calls that fail. Gives the codes, and those that are left out here."""
    codes, left, name = set(), set(), ["set", IMAGE, "1", "--name", "x"]
    make(program, TWO)
    if there("flock"):
        codes |= tell(tally, program, name, "locked", "--lock none", under=["flock", IMAGE])
        with subprocess.Popen(["flock", program.file(IMAGE), "cat"], stdin=subprocess.PIPE) as holder:
            while not subprocess.run(["flock", "-n", program.file(IMAGE), "true"], check=False).returncode:
                pass
            tell(tally, program, name + ["--lock", "fail"], "locked")
            holder.stdin.close()
    else:
        left |= {"locked"}
    if can_inject(program):
        strace = ["strace", "-o", "calls", "-e"]
        reads = strace + ["inject=read:error=EIO:when=1+", "-P", program.file(IMAGE)]
        codes |= tell(tally, program, name, "device-failed", under=reads)
        codes |= tell(tally, program, ["show", IMAGE], "device-failed", under=reads)
        words = ["randomize", IMAGE]
        codes |= tell(tally, program, words, "no-random-bytes", under=strace + ["inject=getrandom:error=EIO"])
    else:
        left |= {"device-failed", "no-random-bytes"}
    left |= tell_busy(tally, program, codes)
    return codes, left


def tell_busy(tally, program, codes):
    """A device in use. Adds the codes, and gives those that are left out."""
    if can_loop(program):
        make(program, {1: entry(2048, 10239), 2: entry(12288, 20479, "two", ROOT)})
        os.makedirs(program.file("at"), exist_ok=True)
        with Loop(program) as loop:
            if loop.mounts_first(program.file("at")):
                codes |= tell(tally, program, ["remove", loop.path, "1"], "busy", "--in-use")
    return {"busy"} - codes


def tell_memory(tally, program):
    """Little memory: a document of the failure, or none where there is no memory to start. Gives the codes."""
    codes = set()
    make(program, numbered(60))
    for kilobytes in range(2000, 12000, 250):
        def limit(kilobytes=kilobytes):
            resource.setrlimit(resource.RLIMIT_AS, (kilobytes * 1024, kilobytes * 1024))
        try:
            ended = program.plain("show", IMAGE, "--json", preexec_fn=limit)
        except (OSError, subprocess.SubprocessError):
            continue
        if ended.status == 1 and ended.out:
            found = parsed(tally, f"show with {kilobytes} KiB", ended, "failure")
            tally.equals(f"the message with {kilobytes} KiB", ended.err, f"gptedit: {found['error']['message']}\n")
            codes.add(found["error"]["code"])
    return codes


def try_codes(tally, program):
    """Each code of the schema, and what is printed with it."""
    known = {code for rule in SCHEMA.rule("code")["anyOf"] for code in rule["enum"]}
    codes = tell_requests(tally, program) | tell_tables(tally, program)
    told, left = tell_system(tally, program)
    codes |= told | tell_memory(tally, program)
    if "out-of-memory" not in codes:
        left |= {"out-of-memory"}
    tally.equals("codes that nothing here causes", [], sorted(known - codes - LATER - left))
    tally.equals("codes that are not to be caused, but are", [], sorted(codes & LATER))
    return f"{len(codes)} codes" + (f", left out here: {', '.join(sorted(left))}" if left else "")


# One document


def images(program):
    """Images of each state, by their names."""
    def broken(*places):
        make(program, TWO)
        for at in places:
            program.flip(IMAGE, at)

    return {
        "good": broken, "the primary copy broken": lambda: broken(1084),
        "the backup header broken": lambda: broken(SIZE - 512 + 17),
        "both copies broken": lambda: broken(1084, SIZE - 33 * 512 + 60),
        "cut": lambda: (broken(), program.set_length(IMAGE, SIZE // 2)),
        "longer": lambda: (broken(), program.set_length(IMAGE, SIZE * 2)),
        "a DOS disk": lambda: (broken(), put_dos(program)),
        "a hybrid MBR": lambda: (broken(), put_dos(program, ((0xee, 1, 2047), (0x83, 2048, 2048)), 0)),
        "blank": lambda: program.make_image(IMAGE, SIZE), "empty": lambda: program.make_zeros(IMAGE, 0),
        "56 entries": lambda: make(program, TWO, count=56), "sectors of 4096": lambda: make(program, ONE, sector=4096),
        "no order": lambda: make(program, {1: entry(9, 7), 2: entry(1 << 63, 1 << 63)}),
    }


def try_reads(tally, program):
    """What the commands that only read print of each image."""
    for name, start in images(program).items():
        start()
        for word, rule in ("show", "table"), ("dump", "table"), ("free", "free"), ("check", "check"), \
                ("salvage", "salvage"):
            ended = program.plain(word, IMAGE, "--json")
            is_refused = bool(ended.status) and word not in ("check", "salvage")
            found = parsed(tally, f"{word} of {name}", ended, "failure" if is_refused else rule)
            tally.equals(f"errors of {word} of {name}", program.plain(word, IMAGE).err, ended.err)
            if is_refused and found:
                tally.equals(f"the code of {word} of {name}", "no-table", found["error"]["code"])
    make(program, TWO)
    parsed(tally, "show of a partition", program.plain("show", IMAGE, "2", "--json"), "query")
    for field in "number", "start", "end", "size", "offset", "size-bytes", "type", "guid", "name", "attributes":
        parsed(tally, f"show of {field}", program.plain("show", IMAGE, "2", field, "--json"), "value")
    parsed(tally, "types", program.plain("types", "--json"), "types")
    for words in ["add", IMAGE, "--json"], ["show", "--json"], ["show", IMAGE, "--json", "--map"], ["what", "--json"]:
        ended = program.plain(*words)
        tally.equals(f"status and output of {words}", (2, ""), ended[:2])


def closed(program, words, after):
    """Runs it with redirections of a shell, and gives what came of it."""
    return run(by_shell("", [program.path, *words], after), cwd=program.folder)


def try_closed(tally, program):
    """A standard output that is closed or full: the same status and errors of a refusal, and the image stays."""
    make(program, TWO)
    good = program.state(IMAGE)
    places = [">&-", "<&- >&-"] + ([">/dev/full"] if os.path.exists("/dev/full") else [])
    for words in ["show", "none.img"], ["remove", IMAGE, "9"], ["new", IMAGE], ["apply", IMAGE, "none.layout"]:
        told = program.plain(*words, "--json")
        for after in places:
            ended = closed(program, [*words, "--json"], after)
            tally.equals(f"{words} --json {after}", Ended(told.status, "", told.err), ended)
        closed(program, [*words, "--json"], "<&- >&- 2>&-")
        tally.holds(f"{words} leaves the image", program.state(IMAGE) == good)
    for after in places:
        for words in ["show", IMAGE], ["check", IMAGE], ["types"], ["set", IMAGE, "1", "--name", "x"]:
            ended = closed(program, [*words, "--json"], after)
            tally.holds(f"{words} --json {after}: {ended}", ended.status == 1 and not ended.out and
                        ended.err.startswith("gptedit: standard output failed: "))
        found = table.read(program.file(IMAGE))
        tally.equals(f"the name after set {after}", "x", found and found.entries[1].name)
        program.restore(IMAGE, good)


# The schema


def mutants(value, random_):
    """The object with one member left out or one value of another type."""
    if not isinstance(value, (dict, list)):
        return
    text = json.dumps(value)
    for _ in range(12):
        made = json.loads(text)
        at = made
        while True:
            keys = list(at) if isinstance(at, dict) else range(len(at))
            if not keys:
                break
            key = random_.choice(list(keys))
            if isinstance(at[key], (dict, list)) and at[key] and random_.random() < 0.8:
                at = at[key]
                continue
            if isinstance(at, dict) and random_.random() < 0.5:
                del at[key]
            else:
                at[key] = random_.choice([-1, "what", {}, [1], True, 1.5])
            yield made
            break


def try_schema(tally, program):
    """The schema refuses what is not printed; where python has jsonschema, both agree of all that was printed here
    and of what is like it."""
    if not DOCUMENTS:
        try_reads(tally, program)
    random_, refused = random.Random(12), 0
    theirs = validator()
    for found in {json.dumps(one): one for one in DOCUMENTS}.values():
        if theirs:
            tally.holds(f"jsonschema accepts {json.dumps(found)[:300]}", theirs.is_valid(found))
        for made in mutants(found, random_):
            ours = LOOSE.faults(made, LOOSE.rule())
            refused += bool(ours)
            if theirs:
                tally.equals(f"jsonschema of {json.dumps(made)[:300]}: {ours[:3]}", theirs.is_valid(made), not ours)
    tally.holds("the schema refuses what is not printed", refused > 100)
    return f"{refused} refused" + ("" if theirs else ", jsonschema is not installed")


def validator():
    """A validator of jsonschema for the schema, or None where it is not installed."""
    try:
        from jsonschema import Draft7Validator
    except ImportError:
        return None
    Draft7Validator.check_schema(SCHEMA.root)
    return Draft7Validator(SCHEMA.root)


SUBJECTS = {"JSON of changes": try_changes, "JSON of random changes": try_random, "JSON of hidden names": try_hidden,
            "codes of refusals": try_codes, "JSON of reads": try_reads, "JSON to closed streams": try_closed,
            "the JSON schema": try_schema}
