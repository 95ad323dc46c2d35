"""`--fit` and `grow IMAGE N`: a change of a table that is first fitted to the length of its disk, in one write.

The expected tables come from the model below, which follows the manual page and the format, and from sgdisk and sfdisk
if they are installed.
"""
import itertools
import json
import os
import struct

from harness import recording, table
from harness.runs import run
from harness.states import Enumeration, Image
from commands import DISK, MIB, ROOT
from makers import IMAGE, SIZE, entry, ext4, goes, make, mbr_of, of, refused
from traces import can_trace
from uses import Loop, can_loop

GUIDS = [f"c0ffee00-0000-4000-8000-00000000000{number}" for number in range(1, 10)]
NEW = "c0ffee00-0000-4000-8000-0000000000aa"
SHORT, LONG = "does not fit on the disk", "usable sectors"
GROWN = 24 * MIB
# What is 1 MiB, in sectors of 512 bytes.
STEP = MIB // 512


# The model


def fitted(found, size, sector=512):
    """The table on a disk of this length: its first usable sector stays if it can, the last one follows the end."""
    first, last = table.bounds(size, sector, found.count)
    return found._replace(first=found.first if first <= found.first <= last else first, last=last)


def with_entry(found, number, **fields):
    """The table with other fields of an entry."""
    return found._replace(entries={**found.entries, number: found.entries[number]._replace(**fields)})


def limit_after(found, number):
    """The last sector that the entry may end at."""
    own = found.entries[number]
    starts = [one.first for one in found.entries.values() if one.first > own.last]
    return min([found.last, *[start - 1 for start in starts]])


def extended(found, number, sector=512):
    """The table after `resize NUMBER max`: the end is the highest one before a multiple of 1 MiB that is free, and
    never lowered."""
    step = MIB // sector
    last = (limit_after(found, number) + 1) // step * step - 1
    return with_entry(found, number, last=max(last, found.entries[number].last))


def added(found, sector=512):
    """The table after `add` of 1 MiB with the GUID NEW, in the first place at a multiple of 1 MiB."""
    step = MIB // sector
    used = {at for one in found.entries.values() for at in range(one.first // step, one.last // step + 1)}
    at = next(at for at in itertools.count(-(-found.first // step)) if at not in used)
    assert (at + 1) * step - 1 <= found.last
    number = next(number for number in itertools.count(1) if number not in found.entries)
    one = entry(at * step, (at + 1) * step - 1, "", NEW)
    return found._replace(entries={**found.entries, number: one})


def with_rest(found, sector=512):
    """The table with a fourth entry after the third one, up to the last multiple of 1 MiB."""
    step = MIB // sector
    one = entry(found.entries[3].last + 1, (found.last + 1) // step * step - 1, "", NEW)
    return found._replace(entries={**found.entries, 4: one})


def all_usable(found, sector=512):
    """The table in which all sectors before the backup copy are usable."""
    return found._replace(first=2 + -(-found.count * 128 // sector))


def sorted_by_start(found):
    """The table after `sort`."""
    return found._replace(entries=dict(enumerate(sorted(found.entries.values(), key=lambda one: one.first), 1)))


THREE = "".join(f"[[partition]]\nnumber = {number}\n" for number in (1, 2, 3))
FOUR = THREE + '[[partition]]\nnumber = 4\nname = "x"\n'
LAYOUT = THREE + f'[[partition]]\nnumber = 4\ntype = "linux"\nguid = "{NEW}"\nsize = "rest"\n'


# Each command with `--fit`, its words and what it makes of a table that has been fitted.
COMMANDS = {
    "add": (["add", IMAGE, "--fit", "--type", "linux", "--size", "1MiB", "--guid", NEW], added),
    "set": (["set", IMAGE, "--fit", "1", "--name", "x"], lambda found, _: with_entry(found, 1, name="x")),
    "set of nothing": (["set", IMAGE, "--fit", "1", "--name", "a"], lambda found, _: found),
    "resize": (["resize", IMAGE, "--fit", "3", "max"], lambda found, sector: extended(found, 3, sector)),
    "resize of another": (["resize", IMAGE, "--fit", "1", "max"], lambda found, sector: extended(found, 1, sector)),
    "remove": (["remove", IMAGE, "2", "--fit"], lambda found, _: found._replace(
        entries={number: one for number, one in found.entries.items() if number != 2})),
    "sort": (["sort", IMAGE, "--fit"], lambda found, _: sorted_by_start(found)),
    "repair": (["repair", IMAGE, "--fit"], lambda found, _: found),
    "repair of the bounds": (["repair", IMAGE, "--fit", "--bounds"], lambda found, sector: all_usable(found, sector)),
    "apply": (["apply", IMAGE, "layout.toml", "--fit"], lambda found, sector: with_rest(found, sector)),
    "grow": (["grow", IMAGE], lambda found, _: found),
    "grow N": (["grow", IMAGE, "3"], lambda found, sector: extended(found, 3, sector)),
    "grow of a name": (["grow", IMAGE, "name=b"], lambda found, sector: extended(found, 2, sector)),
}


def three(first, sector=512):
    """Three entries from a sector on, of 1 MiB each, with a gap of 1 MiB after the first one in order; the numbers are
    not in the order of the starts."""
    step = MIB // sector
    at = -(-first // step) * step
    starts = {2: at, 1: at + step, 3: at + 3 * step}
    return {number: entry(start, start + step - 1, "abc"[number - 1], GUIDS[number - 1])
            for number, start in sorted(starts.items())}


def tables(sector):
    """The number of entries and the first usable sector of each table that is tried."""
    usual = {count: table.bounds(SIZE, sector, count)[0] for count in (56, 128)}
    return [(56, usual[56]), (128, usual[128]), (128, MIB // sector), (56, 2048 if sector == 512 else 16),
            (128, 16 * MIB // sector)]


# How a disk came to have another length: its length, and what happened to the copy at the old end.
LENGTHS = {"longer by a sector": lambda size, sector: size + sector, "longer by 1 MiB": lambda size, _: size + MIB,
           "longer by 1 MiB and part of a sector": lambda size, _: size + MIB + 100,
           "doubled": lambda size, _: 2 * size, "shorter by 1 MiB": lambda size, _: size - MIB,
           "shorter by a sector": lambda size, sector: size - sector}


def start(program, found, size, now, sector=512, backup="good"):
    """An image with a table for one length, and then of another length. The copy at the old end is good, gone or
    stale."""
    program.make_image(IMAGE, size)
    pieces = table.pieces_of(found, size, sector)
    if backup == "stale":
        pieces[3:] = table.copies_of(with_entry(found, 1, name="old"), size, sector)[2:]
    table.put(program.file(IMAGE), pieces[:3] if backup == "gone" else pieces)
    program.set_length(IMAGE, now)


def holds_table(tally, program, what, wanted, sector=512):
    """Counts whether both copies hold this table, and the protective MBR has the length of the disk."""
    size = os.path.getsize(program.file(IMAGE))
    tally.equals(f"the table after {what}", wanted, table.read(program.file(IMAGE), sector))
    tally.equals(f"the MBR after {what}", table.mbr_bytes(size, sector), mbr_of(program))


def try_commands(tally, program):
    """Each command on disks of another length, with tables of other bounds and numbers of entries."""
    program.write("layout.toml", LAYOUT.encode())
    for sector in 512, 4096:
        for count, first in tables(sector):
            size = 64 * MIB if first * sector > MIB else SIZE
            found = of(three(first, sector), size, sector, count, first)
            for how, length in LENGTHS.items():
                now = length(size, sector)
                what = f"{how}, {count} entries from {first}"
                for name in commands_on(how, count, first, sector):
                    start(program, found, size, now, sector)
                    fits(tally, program, what, name, fitted(found, now, sector), sector)
    return None


def commands_on(how, count, first, sector):
    """The commands that are tried on a disk: all with a usual table, else some."""
    if (sector, count, first) == (512, 128, 34):
        return COMMANDS
    return ["grow N", "set", "remove", "apply"] if how == "longer by 1 MiB" else ["grow N"]


def fits(tally, program, what, name, found, sector=512):
    """Counts whether a command makes of a disk what the model makes of the table that was fitted to it."""
    words, model = COMMANDS[name]
    out = goes(tally, program, [*words, "--sector", str(sector)])
    what = f"{' '.join(words)}, sectors of {sector} bytes, {what}"
    holds_table(tally, program, what, model(found, sector), sector)
    tally.contains(f"the new bounds in what {what} prints", f"usable sectors {found.first}..", out)
    tally.contains(f"the new bounds in what {what} prints", f"..{found.last}\n", out)
    ended = program.plain("check", IMAGE, "--sector", str(sector))
    tally.equals(f"check after {what}: {ended}", 0, ended.status)


def try_bounds(tally, program):
    """`repair --fit --bounds` makes all sectors between the two copies usable, of a table with bounds of other tools."""
    for now in SIZE + MIB, 2 * SIZE, SIZE - MIB:
        found = of(three(STEP), first=2048)
        start(program, found, SIZE, now)
        program.put(IMAGE, 34 * 512, bytes(2014 * 512))
        program.put(IMAGE, 2000 * 512, b"?")
        refused(tally, program, ["repair", IMAGE, "--fit", "--bounds"], "sector 2000 would become usable, but is not zero\n",
                statuses=(1,))
        program.put(IMAGE, 2000 * 512, b"\0")
        goes(tally, program, ["repair", IMAGE, "--fit", "--bounds"])
        holds_table(tally, program, f"repair --fit --bounds on {now} bytes", all_usable(fitted(found, now)))
        ended = program.plain("check", IMAGE)
        tally.equals(f"check after repair --fit --bounds: {ended}", 0, ended.status)


def try_backups(tally, program):
    """The copy at the old end is gone or of an older table."""
    program.write("layout.toml", LAYOUT.encode())
    found = of(three(STEP))
    for backup in "gone", "stale":
        for how in "longer by a sector", "longer by 1 MiB", "doubled":
            now = LENGTHS[how](SIZE, 512)
            for name in COMMANDS:
                start(program, found, SIZE, now, 512, backup)
                fits(tally, program, f"{how}, old backup copy {backup}", name, fitted(found, now))


def try_randomize(tally, program):
    """`randomize --fit`: new GUIDs, all else as before."""
    found = of(three(STEP))
    start(program, found, SIZE, GROWN)
    goes(tally, program, ["randomize", IMAGE, "--fit"])
    new = table.read(program.file(IMAGE))
    tally.holds("randomize --fit leaves both copies good", new)
    guids = [one.guid for one in new.entries.values()]
    tally.holds("each GUID is new", len(set(guids) - set(GUIDS)) == 3 and new.guid != DISK)
    old = new._replace(guid=DISK, entries={number: one._replace(guid=found.entries[number].guid)
                                           for number, one in new.entries.items()})
    tally.equals("the table after randomize --fit, with the old GUIDs", fitted(found, GROWN), old)


def try_same(tally, program):
    """On a disk of the table's own length `--fit` changes nothing: the same image, output and status as without it."""
    program.write("layout.toml", LAYOUT.encode())
    rows = [words for name, (words, _) in COMMANDS.items() if "grow" not in name]
    rows += [["resize", IMAGE, "--fit", "2", "3MiB"], ["remove", IMAGE, "--fit", "9"], ["set", IMAGE, "--fit", "1"]]
    starts = {"usual bounds": {}, "bounds of other tools": {"first": 2048, "last": SIZE // 512 - 2049},
              "56 entries": {"count": 56}}
    changes = {"nothing": None, "the MBR": (446, bytes(66)), "the length in the MBR": (458, b"\xff" * 4),
               "the backup copy": (SIZE - 512, bytes(512)), "the primary copy": (512, bytes(512))}
    pairs = [(bounds, "nothing") for bounds in starts] + [("usual bounds", change) for change in list(changes)[1:]]
    for (what, gone), words in itertools.product(pairs, rows):
        how, change = starts[what], changes[gone]
        made = of(three(STEP), **how)
        program.make_image(IMAGE, SIZE)
        backup_at = table.bounds(SIZE, 512, made.count)[1] + 1
        table.put(program.file(IMAGE), table.pieces_of(made, SIZE, backup_at=backup_at))
        if change:
            program.put(IMAGE, *change)
        before = program.state(IMAGE)
        wanted = program.run(*[word for word in words if word != "--fit"]), program.state(IMAGE)
        program.restore(IMAGE, before)
        got = program.run(*words), program.state(IMAGE)
        name = f"{' '.join(words)} on a disk of the same length with {what}, without {gone}"
        tally.equals(f"what {name} prints", wanted[0], got[0])
        tally.holds(f"{name} leaves the same image as without --fit", wanted[1] == got[1])


def try_grow_same(tally, program):
    """`grow N` on a disk of the table's own length is `resize N max`; a missing MBR is written, as by `grow`."""
    for words in (), ("3",):
        start(program, of(three(STEP)), SIZE, SIZE)
        program.put(IMAGE, 446, bytes(66))
        goes(tally, program, ["grow", IMAGE, *words])
        wanted = of(three(STEP))
        holds_table(tally, program, f"grow {words} without an MBR", extended(wanted, 3) if words else wanted)
    tally.equals("grow 3 again", (0, "unchanged\n", ""), program.run("grow", IMAGE, "3"))
    for words in (), ("3",):
        start(program, of(three(STEP)), SIZE, GROWN)
        goes(tally, program, ["grow", IMAGE, "3"])
        wanted = program.state(IMAGE)
        program.put(IMAGE, 446, table.mbr_bytes(SIZE))
        goes(tally, program, ["grow", IMAGE, *words])
        is_same = program.state(IMAGE) == wanted
        tally.holds(f"grow {words} again after a stop before the MBR leaves the same image", is_same)
    for number in "1", "2", "3":
        start(program, of(three(STEP)), SIZE, SIZE)
        before = program.state(IMAGE)
        wanted = program.run("resize", IMAGE, number, "max"), program.state(IMAGE)
        program.restore(IMAGE, before)
        got = program.run("grow", IMAGE, number), program.state(IMAGE)
        tally.holds(f"grow {number} is resize {number} max: {got[0]}", wanted == got)


def try_two_words(tally, program):
    """`grow N` is `resize --fit N max`, and prints the same; `grow` and then `resize N max` leave the same image."""
    for number in "1", "2", "3":
        start(program, of(three(STEP)), SIZE, GROWN)
        before, ends = program.state(IMAGE), []
        for rows in [[["grow", IMAGE, number]], [["resize", IMAGE, "--fit", number, "max"]],
                     [["grow", IMAGE], ["resize", IMAGE, number, "max"]]]:
            program.restore(IMAGE, before)
            out = [goes(tally, program, words) for words in rows]
            ends.append((out, program.state(IMAGE)))
        tally.equals(f"what grow {number} prints", ends[1][0], ends[0][0])
        tally.holds(f"grow {number} leaves what resize --fit does", ends[0][1] == ends[1][1])
        tally.holds(f"grow {number} leaves what grow and resize do", ends[0][1] == ends[2][1])


# Commands that fit the table to the disk first.
UNFIT = [["grow", IMAGE], ["grow", IMAGE, "3"], ["set", IMAGE, "--fit", "1", "--name", "x"],
         ["remove", IMAGE, "--fit", "2"], ["sort", IMAGE, "--fit"], ["resize", IMAGE, "--fit", "3", "max"]]


def cut_start(program, last=SIZE // 512 - 34):
    """A disk that was shortened by 4 MiB: partition 4 begins on it and ends beyond it, or is all beyond it."""
    entries = {**three(STEP), 4: entry(last - 3 * STEP, last, "d", GUIDS[3])}
    program.make_image(IMAGE, SIZE)
    table.put(program.file(IMAGE), table.pieces_of(of(entries), SIZE))
    program.set_length(IMAGE, SIZE - 2 * MIB if last > SIZE // 512 - 4096 else SIZE - 4 * MIB)
    return of(entries)


def try_cut(tally, program):
    """A disk that was shortened: only `remove --fit` of the partition beyond the end goes; others name it."""
    program.write("layout.toml", FOUR.encode())
    found = cut_start(program)
    rows = [words for name, (words, _) in COMMANDS.items() if name != "add"]
    rows += [["randomize", IMAGE, "--fit"], ["add", IMAGE, "--fit", "--type", "linux", "--size", "64KiB", "--align",
                                             "64KiB"], ["remove", IMAGE, "--fit", "1"], ["grow", IMAGE, "4"],
             ["resize", IMAGE, "--fit", "4", "max"], ["resize", IMAGE, "--fit", "4", "3MiB"]]
    for words in rows:
        refused(tally, program, words, "partition 4 " + SHORT)
    refused(tally, program, ["grow", IMAGE], f"`gptedit remove --fit {IMAGE} 4`")
    whole = program.state(IMAGE)
    for words in [["remove", IMAGE, "--fit", "4"], ["remove", IMAGE, "name=d", "--fit"]]:
        program.restore(IMAGE, whole)
        goes(tally, program, words)
        kept = found._replace(entries=three(STEP))
        holds_table(tally, program, f"{words} on a shortened disk", fitted(kept, SIZE - 2 * MIB))
    program.restore(IMAGE, whole)
    goes(tally, program, ["remove", IMAGE, "--fit", "4", "2"])
    program.restore(IMAGE, whole)
    refused(tally, program, ["remove", IMAGE, "4"], "--fit")
    program.write("three.toml", THREE.encode())
    goes(tally, program, ["apply", IMAGE, "three.toml", "--replace", "--fit"])
    holds_table(tally, program, "apply --fit --replace without the partition beyond the end",
                fitted(found._replace(entries=three(STEP)), SIZE - 2 * MIB))


def try_unfit(tally, program):
    """A disk without room for two copies, entries that are elsewhere, and bounds over the table: `grow` and `--fit` say
    so, and do not name `grow`."""
    found, moved = of(three(STEP)), of(three(STEP), first=2048)
    over = of(three(STEP), last=SIZE // 512 - 2)
    restore = [["truncate", "-s", str(SIZE), IMAGE], ["gptedit", "repair", IMAGE]]
    small = "the disk is too small for two copies of the table, which need 67 sectors\n"
    elsewhere = "the entries of the primary copy begin in sector 40, not 2\n"
    rows = [(found, {}, 60 * 512, small, restore), (found, {}, 66 * 512, small, restore),
            (moved, {"primary_at": 40}, SIZE, elsewhere, []), (moved, {"primary_at": 40}, GROWN, elsewhere, []),
            (over, {"backup_at": SIZE // 512 - 33}, SIZE, "end inside the backup copy of the table",
             [["gptedit", "repair", IMAGE, "--bounds"]])]
    for made, places, size, text, mend in rows:
        for words in UNFIT:
            program.make_image(IMAGE, SIZE)
            table.put(program.file(IMAGE), table.pieces_of(made, SIZE, **places))
            program.set_length(IMAGE, size)
            refused(tally, program, words, text)
            error = program.json(*words, "--json")["error"]
            tally.equals(f"mend of {words} on {size} bytes", mend, error["mend"])
            tally.holds(f"{words} does not name grow: {error}", "grow" not in error["message"])
    start(program, found, SIZE, 60 * 512)
    program.set_length(IMAGE, SIZE)
    goes(tally, program, ["repair", IMAGE])
    holds_table(tally, program, "the advice for a disk without room for two copies", found)
    start(program, found, SIZE, 67 * 512)
    refused(tally, program, ["grow", IMAGE], "partitions 1 2 3 do not fit on the disk")


def try_cut_short(tally, program):
    """A partition that begins on a shortened disk is not made shorter over contents that are not known to fit: a known
    file system there is refused, unknown contents are shortened as `resize` does."""
    found = cut_start(program)
    first = found.entries[4].first
    program.put(IMAGE, first * 512 + 1024, ext4(3 * MIB))
    refused(tally, program, ["resize", IMAGE, "--fit", "4", "512KiB"], "ext", lifts="--overwrite")
    program.put(IMAGE, first * 512, bytes(4096))
    goes(tally, program, ["resize", IMAGE, "--fit", "4", "512KiB"])
    holds_table(tally, program, "resize --fit of a partition that ends beyond the end",
                fitted(with_entry(found, 4, last=first + 1023), SIZE - 2 * MIB))


def try_shortens(tally, program):
    """A `resize --fit` that shortens reads the contents of the partition, as `resize` does."""
    for data, at, words in [(ext4(3 * MIB), 1024, ["1MiB"]), (b"LUKS\xba\xbe\0\2", 0, ["1MiB"])]:
        entries = {**three(STEP), 3: entry(4 * STEP, 7 * STEP - 1, "c", GUIDS[2])}
        start(program, of(entries), SIZE, GROWN)
        program.put(IMAGE, 4 * MIB + at, data)
        refused(tally, program, ["resize", IMAGE, "--fit", "3", *words], lifts="--overwrite")
        program.put(IMAGE, 4 * MIB + at, data)
        goes(tally, program, ["grow", IMAGE, "3"])


MARKS = {"LUKS": (0, b"LUKS\xba\xbe\0\2"), "ext4": (1024, ext4(16 * 1024)), "swap": (4086, b"SWAPSPACE2"),
         "XFS": (0, b"XFSB" + struct.pack(">I", 4096))}


def try_guards(tally, program):
    """Recognised contents in the new place of the backup copy are refused; zeros, other bytes and an old copy are
    not."""
    rows = [COMMANDS[name][0] for name in ("set", "resize", "grow", "grow N")]
    end = GROWN - 33 * 512
    for words in rows:
        for name, (at, mark) in MARKS.items():
            start(program, of(three(STEP)), SIZE, GROWN)
            program.put(IMAGE, end, bytes(33 * 512))
            program.put(IMAGE, end + at, mark)
            ended = program.plain(*words, "-n")
            as_grow = program.plain("grow", IMAGE, "-n")
            tally.equals(f"{words} over {name}: the status is that of grow: {ended}", as_grow.status, ended.status)
        start(program, of(three(STEP)), SIZE, GROWN)
        program.put(IMAGE, GROWN - 512, b"conectix" + bytes(504))
        refused(tally, program, words, "VHD", lifts="--overwrite")
        for name, data in {"zeros": bytes(33 * 512), "other bytes": b"not known" * 1877,
                           "an old copy": old_copy()}.items():
            start(program, of(three(STEP)), SIZE, GROWN)
            program.put(IMAGE, end, data[:33 * 512])
            goes(tally, program, words)
            tally.holds(f"{words} over {name} leaves two good copies", table.read(program.file(IMAGE)))


def old_copy():
    """The backup copy of another table, for a disk of the new length."""
    pieces = table.copies_of(of({1: entry(2048, 4095, "other", ROOT)}, GROWN), GROWN)[2:]
    return b"".join(data.ljust(512, b"\0") for _, data in pieces)


def hybrid_mbr():
    """The 66 bytes of a hybrid MBR."""
    hybrid = table.mbr_bytes(SIZE)[:16] + bytes([0, 0, 2, 0, 0x83, 0, 0, 0]) + struct.pack("<II", 2048, 2048)
    return hybrid.ljust(64, b"\0") + b"\x55\xaa"


def try_mbrs(tally, program):
    """The MBR: its boot mark stays, a missing one is written, and the length that Windows writes stays."""
    rows = [COMMANDS[name][0] for name in ("set", "resize", "grow", "grow N")]
    windows = table.mbr_bytes(SIZE)[:12] + b"\xff" * 4 + table.mbr_bytes(SIZE)[16:]
    for words in rows:
        marked = [table.mbr_bytes(size, status=0x80) for size in (SIZE, GROWN)]
        for what, mbr, wanted in [("a boot mark", *marked), ("none", bytes(66), table.mbr_bytes(GROWN)),
                                  ("Windows's", windows, windows)]:
            start(program, of(three(STEP)), SIZE, GROWN)
            program.put(IMAGE, 446, mbr)
            goes(tally, program, words)
            tally.equals(f"the MBR after {words} over {what}", wanted, mbr_of(program))
        start(program, of(three(STEP)), SIZE, GROWN)
        program.put(IMAGE, 446, hybrid_mbr())
        before = mbr_of(program)
        goes(tally, program, words)
        tally.equals(f"a hybrid MBR after {words}", before, mbr_of(program))


def try_words(tally, program):
    """The words of `--fit` and `grow N`, and their output."""
    start(program, of(three(STEP)), SIZE, GROWN)
    before = program.state(IMAGE)
    for words in [["show", "--fit", IMAGE], ["check", IMAGE, "--fit"], ["new", IMAGE, "--fit"], ["grow", IMAGE, "x"],
                  ["wipe", IMAGE, "--fit"], ["free", IMAGE, "--fit"], ["dump", IMAGE, "--fit"], ["grow", IMAGE, "0"],
                  ["grow", IMAGE, "1", "2"], ["set", IMAGE, "1", "--fit=yes"]]:
        tally.equals(f"the status of {words}", 2, program.run(*words).status)
    for words in ["grow", IMAGE, "9"], ["resize", IMAGE, "--fit", "9", "max"], ["grow", IMAGE, "name=z"]:
        refused(tally, program, words)
    for words in [["set", IMAGE, "1", "--name", "x"], ["resize", IMAGE, "3", "max"], ["remove", IMAGE, "1"],
                  ["sort", IMAGE], ["randomize", IMAGE]]:
        refused(tally, program, words, "--fit")
    bounds = "usable sectors, {}..{}\n".format(*table.bounds(GROWN))
    add = ["add", IMAGE, "--fit", "--type", "linux", "--size", "1MiB", "--start", "100MiB"]
    for words in [["resize", IMAGE, "3", "100MiB", "--fit"], add]:
        refused(tally, program, words, bounds)
    tally.holds("the image is unchanged", program.state(IMAGE) == before)
    old, new = of(three(STEP)), fitted(of(three(STEP)), GROWN)
    wanted = (f"usable sectors {old.first}..{old.last} -> {new.first}..{new.last}\n", f"~ 3 sectors {4 * STEP}..")
    for more in ["-n"], []:
        out = goes(tally, program, ["grow", IMAGE, "3", *more])
        tally.holds(f"grow 3 {more} prints both changes: {out!r}", all(line in out for line in wanted))
    program.restore(IMAGE, before)
    found = json.loads(program.run("grow", IMAGE, "3", "--json", "-n").out)
    one = extended(new, 3).entries[3]
    tally.equals("JSON of a dry run of grow 3", (new.last, one.first, one.last - one.first + 1),
                 (found["partitiontable"]["lastlba"], *[found["partitiontable"]["partitions"][2][key]
                                                        for key in ("start", "size")]))


def try_uses(tally, program):
    """A device that grew while a partition is mounted: what may harm the mount is refused, all else goes."""
    if not can_loop(program):
        return "no loop devices for this user: left out"
    os.makedirs(program.file("at"), exist_ok=True)
    found = of({1: entry(2048, 20479, "one", GUIDS[0]), 2: entry(28672, 30719, "two", GUIDS[1])})
    start(program, found, SIZE, SIZE)
    with Loop(program) as loop:
        if not loop.mounts_first(program.file("at")):
            return "no file system is to be mounted here: left out"
        program.set_length(IMAGE, GROWN)
        loop.call("losetup", "-c", loop.path)
        for words in ["remove", "--fit", loop.path, "1"], ["randomize", "--fit", loop.path], \
                ["resize", "--fit", loop.path, "1", "4MiB"], ["set", "--fit", loop.path, "1", "--guid", NEW]:
            for more in ["-n"], []:
                ended = program.plain(*words, *more)
                tally.holds(f"{words + more} of a mounted partition is refused: {ended}",
                            ended.status == 4 and "--in-use" in ended.err)
        for words in ["resize", "--fit", loop.path, "1", "max"], ["grow", loop.path, "2"]:
            ended = program.plain(*words)
            tally.holds(f"{words} beside a mounted partition goes: {ended}", ended.status == 0)
    holds_table(tally, program, "growth of a device in use", extended(extended(fitted(found, GROWN), 1), 2))
    return None


def without_first(found):
    """The parts of a table that sgdisk and sfdisk keep as gptedit does."""
    return found and (found.guid, found.last, found.count, found.entries)


def try_tools(tally, program):
    """sgdisk -e, and sfdisk's growth of a partition, leave the same table."""
    found, rows = of(three(STEP)), []
    if tally.has("sgdisk"):
        rows += [(["sgdisk", "-e", IMAGE], "", ["set", IMAGE, "--fit", "1", "--name", "a"]),
                 (["sgdisk", "-e", "-d", "2", IMAGE], "", ["remove", IMAGE, "--fit", "2"]),
                 (["sgdisk", "-e", "-c", "1:x", IMAGE], "", ["set", IMAGE, "--fit", "1", "--name", "x"]),
                 (["sgdisk", "-e", "-s", IMAGE], "", ["sort", IMAGE, "--fit"])]
    if tally.has("sfdisk"):
        size = GROWN // 512 - STEP - 4 * STEP
        rows += [(["sfdisk", "-q", "-N", "3", IMAGE], f", {size}\n", ["grow", IMAGE, "3"]),
                 (["sfdisk", "-q", "-N", "3", IMAGE], f", {size}\n", ["resize", IMAGE, "--fit", "3", "max"]),
                 (["sfdisk", "-q", "--delete", IMAGE, "2"], "", ["remove", IMAGE, "--fit", "2"])]
    for theirs, text, ours in rows:
        start(program, found, SIZE, GROWN)
        before = program.state(IMAGE)
        ended = run(theirs, text, errors="replace", cwd=program.folder)
        tally.equals(f"the status of {theirs}: {ended}", 0, ended.status)
        wanted = table.read(program.file(IMAGE))
        program.restore(IMAGE, before)
        goes(tally, program, ours)
        tally.equals(f"the table after {ours} and after {theirs}", without_first(wanted),
                     without_first(table.read(program.file(IMAGE))))
    return f"{len(rows)} changes"


# Stops


def stop_starts():
    """The disks from which changes are stopped: a name, the arguments of `start`, and more entries."""
    yield "both copies good", SIZE, SIZE, "good", {}
    yield "a backup copy that is gone", SIZE, GROWN, "gone", {}
    yield "an old backup copy in the middle", SIZE, GROWN, "good", {}
    yield "growth by a sector", SIZE, SIZE + 512, "good", {}
    yield "growth by 8 sectors", SIZE, SIZE + 4096, "good", {}
    yield "an older backup copy in the middle", SIZE, GROWN, "stale", {}
    last = SIZE // 512 - 34
    long, short = ({4: entry(last + 1 - sectors, last, "d", GUIDS[3])} for sectors in (3 * STEP, STEP))
    yield "a shortened disk", SIZE, SIZE - 2 * MIB, "good", long
    yield "a disk that was shortened by a sector", SIZE, SIZE - 512, "good", short


def stopped(more):
    """The commands that are stopped, from a start with these entries beside the three."""
    if more:
        return [["remove", IMAGE, "--fit", "4"], ["remove", IMAGE, "--fit", "4", "2"],
                ["apply", IMAGE, "three.toml", "--replace", "--fit"]]
    return [["resize", IMAGE, "--fit", "3", "max"], ["grow", IMAGE, "3"], ["remove", IMAGE, "--fit", "2"],
            ["apply", IMAGE, "layout.toml", "--fit"], ["set", IMAGE, "--fit", "1", "--name", "x"]]


def whole(image):
    """The table that an image has by the primary copy, or else by the copy in the last sector: GUID, entries and
    bounds. None if neither is good."""
    found = table.copy_at(image, 512, 1) or table.copy_at(image, 512, image.sectors() - 1)
    return found and (found.guid, found.first, found.last, found.count, found.array)


def count_states(tally, program, what, command, image):
    """Counts the states that a stop of a command may leave, in which no table is read, and in which it is neither the
    old nor the new one."""
    path = os.path.realpath(program.file(IMAGE))
    program.write(IMAGE, image)
    status, out, events = recording.record(command, "", path, program.file("trace"))
    tally.equals(f"the status of {what}: {out}", 0, status)
    tally.holds(f"{what} writes something", events)
    tally.holds(f"the record of {what} leaves the image that it left", replayed(image, events) ==
                program.bytes_of(IMAGE))
    old, new = whole(Image(image)), whole(Image(program.bytes_of(IMAGE)))
    count, lost, between = 0, [], []
    for _, text, state in Enumeration(image, events, mixtures=8).states():
        count += 1
        found = whole(state)
        if found is None:
            lost.append(text)
        elif found not in (old, new):
            between.append(text)
    tally.equals(f"states of {what} that have no table, of {count}", [], lost[:3])
    tally.equals(f"states of {what} that have another table, of {count}", [], between[:3])
    return count, len(lost), len(between)


def replayed(image, events):
    """The image after all writes."""
    image = bytearray(image)
    for event in events:
        if not isinstance(event, str):
            image[event.at:event.at + len(event.data)] = event.data
    return bytes(image)


def files_in(program, words):
    """The words with the paths of files."""
    return [program.file(word) if word == IMAGE or word.endswith(".toml") else word for word in words]


def try_stops(tally, program):
    """Each state that a stop may leave has the old table or the new one."""
    if not can_trace(program):
        return "strace is not installed or not allowed: left out"
    program.write("layout.toml", LAYOUT.encode())
    program.write("three.toml", THREE.encode())
    totals = []
    for name, size, now, backup, more in stop_starts():
        start(program, of({**three(STEP), **more}, size), size, now, 512, backup)
        image = program.bytes_of(IMAGE)
        for words in stopped(more):
            totals.append(count_states(tally, program, f"{' '.join(words)} from {name}",
                                       [program.path, *files_in(program, words)], image))
    return "{} states: {} lost, {} between".format(*map(sum, zip(*totals)))


SUBJECTS = {"--fit": try_commands, "repair --fit --bounds": try_bounds,
            "--fit: copies at the old end": try_backups, "--fit: random GUIDs": try_randomize,
            "--fit on a disk of the same length": try_same, "grow N on a disk of the same length": try_grow_same,
            "grow N and resize --fit": try_two_words, "--fit on a shortened disk": try_cut,
            "--fit where the table cannot be fitted": try_unfit,
            "--fit: a partition that is cut": try_cut_short, "--fit that shortens": try_shortens,
            "--fit: the new place of the backup copy": try_guards, "--fit: the MBR": try_mbrs,
            "--fit on a device in use": try_uses, "words of --fit": try_words, "--fit and other programs": try_tools,
            "stops of --fit": try_stops}
