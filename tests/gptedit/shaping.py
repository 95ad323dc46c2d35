"""`apply --replace` with another number of entries or other usable sectors: one write, with the entries.

The expected tables come from the model below, which follows the manual page and the format.
"""
import itertools
import json

from harness import table
from harness.runs import run
from commands import DISK, MIB
from fitting import GUIDS, THREE, count_states, files_in, fitted, holds_table, three, with_entry
from makers import IMAGE, SIZE, entry, goes, of, refused
from traces import can_trace

STEP = MIB // 512
END = SIZE // 512
KEEP = ", or use --replace to set it"

# Values that no table on the disk has, and what is told of them.
WITHIN = f"the usable sectors must be within 34..{END - 34} "
NEVER = [("entries = 0", "the number of entries must not be zero"), ('first-usable = "33s"', WITHIN),
         (f'last-usable = "{END - 33}s"', WITHIN),
         ('first-usable = "3000s"\nlast-usable = "2000s"', "the usable sectors must not end before they begin\n")]


def layout_of(found, sections=THREE, form="toml"):
    """A layout with the number of entries and the usable sectors of a table."""
    if form == "toml":
        return (f'[disk]\nentries = {found.count}\nfirst-usable = "{found.first}s"\nlast-usable = "{found.last}s"\n'
                + sections)
    head = f"label: gpt\ntable-length: {found.count}\nfirst-lba: {found.first}\nlast-lba: {found.last}\n"
    return head + "".join(f'{number} : start={one.first}, size={one.last - one.first + 1}, type={one.type}, '
                          f'uuid={one.guid}, name="{one.name}"\n' for number, one in found.entries.items())


def start(program, found, size=SIZE, sector=512):
    """An image with this table in the layout that gptedit writes."""
    program.make_image(IMAGE, size)
    table.put(program.file(IMAGE), table.pieces_of(found, size, sector, backup_at=found.last + 1))


def wipe_between(program, found, size=SIZE, sector=512):
    """Clears all sectors that no partition and no copy of the table has, as on a disk that nobody wrote to."""
    taken = [(0, 3 * sector), *[(one.first * sector, (one.last + 1) * sector) for one in found.entries.values()]]
    array = found.count * 128
    taken += [(2 * sector, 2 * sector + array), ((found.last + 1) * sector, (found.last + 1) * sector + array),
              (size // sector * sector - sector, size)]
    at = 0
    for first, end in sorted(taken):
        if at < first:
            program.put(IMAGE, at, bytes(first - at))
        at = max(at, end)


def fresh(program, found, size=SIZE, sector=512):
    """An image with this table, and zeros elsewhere."""
    start(program, found, size, sector)
    wipe_between(program, found, size, sector)


def shapes(sector, size):
    """Tables with the same entries, of other numbers of entries and other bounds."""
    step = MIB // sector
    for count in 56, 100, 128, 256:
        first, last = table.bounds(size, sector, count)
        yield of(three(step, sector), size, sector, count)
        yield of(three(step, sector), size, sector, count, step, last)
        yield of(three(step, sector), size, sector, count, first, last - 5)


def try_shapes(tally, program):
    """Each of these tables becomes two others, by one command, and a second time nothing changes."""
    for sector, size in (512, SIZE), (4096, 64 * MIB):
        found = list(shapes(sector, size))
        for (number, old), step in itertools.product(enumerate(found), (1, 7)):
            fresh(program, old, size, sector)
            becomes(tally, program, old, found[(number + step) % len(found)], sector)


def becomes(tally, program, old, new, sector):
    """Counts whether a layout makes one table of another."""
    what = f"{old.count} {old.first}..{old.last} to {new.count} {new.first}..{new.last}, sectors of {sector} bytes"
    program.write("layout.toml", layout_of(new).encode())
    words = ["apply", IMAGE, "layout.toml", "--replace", "--sector", str(sector)]
    out = goes(tally, program, words)
    holds_table(tally, program, what, new, sector)
    if (old.first, old.last) != (new.first, new.last):
        tally.contains(f"the bounds in what {what} prints",
                       f"usable sectors {old.first}..{old.last} -> {new.first}..{new.last}\n", out)
    if old.count != new.count:
        tally.contains(f"the numbers in what {what} prints", f"entries {old.count} -> {new.count}\n", out)
    tally.equals(f"{what} again", "unchanged\n", goes(tally, program, words))
    tally.equals(f"check after {what}", 0, program.plain("check", IMAGE, "--sector", str(sector)).status)


# What a layout that states only some of the keys makes of a table: its count, first and last, the keys, and the three
# afterwards. The disk has 32,768 sectors.
SOME = [
    ((128, 34, END - 34), "entries = 256", (256, 66, END - 66)),
    ((256, 66, END - 66), "entries = 128", (128, 34, END - 34)),
    ((128, 34, END - 34), "entries = 56", (56, 16, END - 16)),
    ((128, 2048, END - 34), "entries = 256", (256, 2048, END - 66)),
    ((128, 50, END - 40), "entries = 256", (256, 66, END - 66)),
    ((128, 50, END - 40), "entries = 56", (56, 50, END - 40)),
    ((128, 50, END - 40), "entries = 127", (127, 50, END - 40)),
    ((128, 34, END - 34), 'first-usable = "2048s"', (128, 2048, END - 34)),
    ((128, 2048, END - 34), 'first-usable = "34s"', (128, 34, END - 34)),
    ((128, 34, END - 34), 'last-usable = "20000s"', (128, 34, 20000)),
    ((128, 34, 20000), f'last-usable = "{END - 34}s"', (128, 34, END - 34)),
    ((128, 34, END - 34), 'entries = 256\nfirst-usable = "100s"', (256, 100, END - 66)),
]


def try_some(tally, program):
    """What the layout does not state is kept; a bound next to the entries moves with them."""
    for was, keys, wanted in SOME:
        fresh(program, of(three(STEP), SIZE, 512, *was))
        program.write("layout.toml", f"[disk]\n{keys}\n{THREE}".encode())
        goes(tally, program, ["apply", IMAGE, "layout.toml", "--replace"])
        holds_table(tally, program, f"{keys!r} from {was}", of(three(STEP), SIZE, 512, *wanted))


def try_entries(tally, program):
    """The entries of the layout change in the same write: added above the old number, removed and moved below the new
    one, `rest` up to the new last usable sector."""
    found = of(three(STEP))
    fresh(program, found)
    program.write("layout.toml", ("[disk]\nentries = 256\n" + THREE + '[[partition]]\nnumber = 200\ntype = "linux"\n'
                                  f'guid = "{GUIDS[7]}"\nstart = "8MiB"\nsize = "2MiB"\nname = "x"\n').encode())
    goes(tally, program, ["apply", IMAGE, "layout.toml", "--replace"])
    first, last = table.bounds(SIZE, 512, 256)
    more = {**found.entries, 200: entry(8 * STEP, 10 * STEP - 1, "x", GUIDS[7])}
    holds_table(tally, program, "an entry above the old number", of(more, SIZE, 512, 256, first, last))
    program.write("layout.toml", ("[disk]\nentries = 56\n" + THREE + '[[partition]]\nnumber = 200\n').encode())
    refused(tally, program, ["apply", IMAGE, "layout.toml", "--replace"],
            "entry 200 would be used, but the table would have 56 entries")
    program.write("layout.toml", ("[disk]\nentries = 56\n" + THREE).encode())
    goes(tally, program, ["apply", IMAGE, "layout.toml", "--replace"])
    holds_table(tally, program, "56 entries without that of number 200", of(found.entries, SIZE, 512, 56))
    program.write("layout.toml", ('[disk]\nlast-usable = "20479s"\n' + THREE.replace(
        "number = 3\n", 'number = 3\nsize = "rest"\n')).encode())
    goes(tally, program, ["apply", IMAGE, "layout.toml", "--replace"])
    short = with_entry(of(found.entries, SIZE, 512, 56, None, 20479), 3, last=20479)
    holds_table(tally, program, "rest up to the last usable sector", short)


def try_odd_end(tally, program):
    """A partition of size `rest` that ends at no multiple of the alignment keeps its end, and is never shortened."""
    found = of({1: entry(2048, 20000, "a", GUIDS[0])})
    fresh(program, found)
    program.write("layout.toml", b'[disk]\nlast-usable = "20100s"\n[[partition]]\nnumber = 1\nsize = "rest"\n')
    goes(tally, program, ["apply", IMAGE, "layout.toml", "--replace"])
    holds_table(tally, program, "rest with an odd end", found._replace(last=20100))


def try_places(tally, program):
    """Percentages and positions from the end are of the new usable sectors."""
    fresh(program, of({}))
    program.write("layout.toml", b'[disk]\nfirst-usable = "2048s"\nlast-usable = "22527s"\n[[partition]]\nname = "a"\n'
                  b'type = "linux"\nguid = "' + GUIDS[0].encode() + b'"\nsize = "50%"\n')
    goes(tally, program, ["apply", IMAGE, "layout.toml", "--replace"])
    wanted = of({1: entry(2048, 12287, "a", GUIDS[0])}, SIZE, 512, 128, 2048, 22527)
    holds_table(tally, program, "half of the new usable sectors", wanted)


# A layout, what refuses it, and the option that lifts that.
REFUSED = [
    ('last-usable = "4000s"', "gptedit check", None),
    ('first-usable = "2049s"', "gptedit check", None),
    ('first-usable = "33s"', "34..", None),
    (f'last-usable = "{END - 33}s"', f"..{END - 34}", None),
    (f'first-usable = "{END - 32}s"', "34..", None),
    ('first-usable = "9000s"\nlast-usable = "8000s"', "line 3: last-usable of the disk: the usable sectors must", None),
    ("entries = 0", "must not be zero", None),
    ("entries = 300000", "line 2: entries of the disk: it must be a whole number from 1 to 32768", None),
    ("entries = 2", "entry 3 would be used, but the table would have 2 entries", None),
]


def try_refusals(tally, program):
    """What stands in the way is refused, and the image stays."""
    found = of(three(STEP))
    fresh(program, found)
    for keys, text, lifts in REFUSED:
        program.write("layout.toml", f"[disk]\n{keys}\n{THREE}".encode())
        refused(tally, program, ["apply", IMAGE, "layout.toml", "--replace"], text, lifts=lifts)
    program.write("layout.toml", f"[disk]\nentries = 256\n{THREE}".encode())
    for at in 34 * 512, 65 * 512 + 511, (END - 65) * 512, (END - 34) * 512 + 511:
        fresh(program, found)
        program.put(IMAGE, at, b"\1")
        refused(tally, program, ["apply", IMAGE, "layout.toml", "--replace"], lifts="--overwrite")
    program.write("layout.toml", f'[disk]\nfirst-usable = "34s"\n{THREE}'.encode())
    for at, is_free in (34 * 512, False), (2047 * 512 + 511, False), (33 * 512, True):
        fresh(program, of(three(STEP), SIZE, 512, 128, 2048))
        if not is_free:
            program.put(IMAGE, at, b"\1")
            refused(tally, program, ["apply", IMAGE, "layout.toml", "--replace"], "would become usable",
                    lifts="--overwrite")
        else:
            goes(tally, program, ["apply", IMAGE, "layout.toml", "--replace"])
    program.write("layout.toml", f'[disk]\nsector-size = "4096B"\n{THREE}'.encode())
    refused(tally, program, ["apply", IMAGE, "layout.toml", "--replace"], "sector-size is 4096 in the layout")


def try_without(tally, program):
    """Without `--replace` another value is refused; what names `--replace` has it."""
    for keys in "entries = 56", 'first-usable = "2048s"', 'last-usable = "20000s"':
        fresh(program, of(three(STEP)))
        program.write("layout.toml", f"[disk]\n{keys}\n{THREE}".encode())
        refused(tally, program, ["apply", IMAGE, "layout.toml"], keys.split()[0] + " is ", KEEP, lifts="--replace")
    for keys, text in NEVER:
        fresh(program, of(three(STEP)))
        program.write("layout.toml", f"[disk]\n{keys}\n{THREE}".encode())
        for more in [], ["--replace"]:
            refused(tally, program, ["apply", IMAGE, "layout.toml", *more], text)
            err = program.run("apply", IMAGE, "layout.toml", *more).err
            tally.holds(f"apply of {keys} {more} does not name --replace: {err!r}", "--replace" not in err)


def try_scripts(tally, program):
    """A script of sfdisk, and a backup of sgdisk, with other values."""
    old, new = of(three(STEP)), of(three(STEP), SIZE, 512, 56, 2048, 20000)
    fresh(program, old)
    program.write("layout.sfdisk", layout_of(new, form="script").encode())
    goes(tally, program, ["apply", IMAGE, "layout.sfdisk", "--replace"])
    holds_table(tally, program, "a script of sfdisk", new)
    if not tally.has("sgdisk"):
        return "sgdisk is not there: its backups are left out"
    fresh(program, of(three(STEP), SIZE, 512, 256))
    run(["sgdisk", "-b", "table.backup", IMAGE], "", cwd=program.folder)
    fresh(program, old)
    refused(tally, program, ["apply", IMAGE, "table.backup"], "is 66 in the backup, but 34 on the disk\n--replace sets it")
    goes(tally, program, ["apply", IMAGE, "table.backup", "--replace"])
    holds_table(tally, program, "a backup of sgdisk", of(three(STEP), SIZE, 512, 256))
    return None


def try_readers(tally, program):
    """sgdisk and sfdisk find nothing wrong with a reshaped table."""
    left = [name for name in ("sgdisk", "sfdisk") if not tally.has(name)]
    for count, first, last in (56, 16, END - 16), (256, 2048, END - 66), (128, 34, END - 34):
        fresh(program, of(three(STEP), SIZE, 512, 100))
        program.write("layout.toml", layout_of(of({}, SIZE, 512, count, first, last)).encode())
        goes(tally, program, ["apply", IMAGE, "layout.toml", "--replace"])
        if "sgdisk" not in left:
            said = run(["sgdisk", "-v", IMAGE], "", cwd=program.folder)
            tally.contains(f"what sgdisk says of {count} entries from {first}", "No problems found", said.out)
        if "sfdisk" not in left:
            said = run(["sfdisk", "--json", IMAGE], "", cwd=program.folder)
            found = json.loads(said.out)["partitiontable"]
            tally.equals(f"what sfdisk reads of {count} entries from {first}", (first, last, 3, DISK.upper()),
                         (found["firstlba"], found["lastlba"], len(found["partitions"]), found["id"]))
    return f"left out: {', '.join(left)}" if left else None


def try_json(tally, program):
    """JSON has the new bounds and number, and a dry run says the same."""
    fresh(program, of(three(STEP)))
    program.write("layout.toml", f'[disk]\nentries = 256\nfirst-usable = "2048s"\n{THREE}'.encode())
    for words, is_dry in (["-n"], True), ([], False), ([], False):
        found = program.json("apply", IMAGE, "layout.toml", "--replace", "--json", *words)
        what = f"JSON of a reshaped table {words}"
        tally.equals(what, (is_dry, 2048, END - 66), (found["dry_run"], found["partitiontable"]["firstlba"],
                                                      found["partitiontable"]["lastlba"]))
    tally.equals("changed at last", False, found["changed"])


# Stops


def stop_starts():
    """The disks from which changes are stopped: a name, the table, and the sectors that are cleared."""
    usual = of(three(STEP))
    yield "both copies good", usual, []
    yield "a backup copy that is gone", usual, [(END - 33, END)]
    yield "a primary copy that is gone", usual, [(1, 34)]
    yield "256 entries", of(three(STEP), SIZE, 512, 256), []
    yield "a low last usable sector", of(three(STEP), SIZE, 512, 128, None, 20000), []


STOPPED = ["entries = 56", "entries = 200", "entries = 256", 'first-usable = "2048s"', 'last-usable = "25000s"',
           f'entries = 56\nlast-usable = "{END - 16}s"']


def try_stops(tally, program):
    """Each state that a stop may leave has the old table or the new one."""
    if not can_trace(program):
        return "strace is not installed or not allowed: left out"
    totals = []
    for name, found, cleared in stop_starts():
        fresh(program, found)
        for first, end in cleared:
            program.put(IMAGE, first * 512, bytes((end - first) * 512))
        image = program.bytes_of(IMAGE)
        for keys in STOPPED:
            if keys == f"entries = {found.count}":
                continue  # the table has this number
            program.write("layout.toml", f"[disk]\n{keys}\n{THREE}".encode())
            words = files_in(program, ["apply", IMAGE, "layout.toml", "--replace"])
            totals.append(count_states(tally, program, f"{keys!r} from {name}", [program.path, *words], image))
    for length in SIZE + 8 * MIB, SIZE - MIB:
        fresh(program, of(three(STEP)))
        program.set_length(IMAGE, length)
        image = program.bytes_of(IMAGE)
        for keys in STOPPED[:4]:
            program.write("layout.toml", f"[disk]\n{keys}\n{THREE}".encode())
            words = files_in(program, ["apply", IMAGE, "layout.toml", "--replace", "--fit"])
            totals.append(count_states(tally, program, f"{keys!r} on {length} bytes", [program.path, *words], image))
    states, lost, between = map(sum, zip(*totals))
    return f"{states} states, {lost} lost, {between} between"


MANY = "it must be a whole number from 1 to 32768, for example 128\n"


def try_most(tally, program):
    """No layout makes a table of more entries than gptedit reads, and one of the most is read."""
    for text, key in ((f'[disk]\nguid = "{DISK}"\nentries = {{}}\n', "line 3: entries of the disk: "),
                      (f"label: gpt\nlabel-id: {DISK}\ntable-length: {{}}\n", "line 3: table-length of the headers: ")):
        for count in 32769, 40000, 2**32 - 1:
            program.write("layout.toml", text.format(count).encode())
            fresh(program, of({}, 64 * MIB), 64 * MIB)
            refused(tally, program, ["apply", IMAGE, "layout.toml", "--replace"], key + MANY, statuses=(1,))
            program.make_image(IMAGE, 64 * MIB)
            refused(tally, program, ["apply", IMAGE, "layout.toml", "--create"], key + MANY, statuses=(1,))
        program.write("layout.toml", text.format(32768).encode())
        goes(tally, program, ["apply", IMAGE, "layout.toml", "--create"])
        holds_table(tally, program, "a layout of 32768 entries", of({}, 64 * MIB, count=32768))
        tally.equals("check after 32768 entries", 0, program.plain("check", IMAGE).status)
        fresh(program, of({}, 6 * MIB), 6 * MIB)
        refused(tally, program, ["apply", IMAGE, "layout.toml", "--replace"],
                "too small for two copies of a table of 32768 entries", statuses=(1,))


def try_fitted(tally, program):
    """With --fit the keys of a layout are compared with the fitted table, so that a second time nothing changes."""
    for size, length in (24 * MIB, 48 * MIB), (48 * MIB, 24 * MIB):
        old = of(three(STEP), size)
        new = fitted(old, length)
        fresh(program, old, size)
        program.set_length(IMAGE, length)
        program.write("layout.toml", layout_of(old).encode())
        told = (f"last-usable is {old.last} in the layout, but {new.last} on the disk\n" if size < length else
                f"the usable sectors must be within 34..{new.last} and not end before they begin; correct the layout\n")
        refused(tally, program, ["apply", IMAGE, "layout.toml", "--fit"], told, statuses=(1,))
        program.write("layout.toml", layout_of(new).encode())
        goes(tally, program, ["apply", IMAGE, "layout.toml", "--fit"])
        holds_table(tally, program, f"a fitted layout on {length} bytes", new)
        tally.equals("a fitted layout again", "unchanged\n", goes(tally, program, ["apply", IMAGE, "layout.toml", "--fit"]))


def try_fitted_shapes(tally, program):
    """A layout with --fit and --replace gives the fitted table another shape, in the same write."""
    for size, length in (24 * MIB, 48 * MIB), (48 * MIB, 24 * MIB):
        old = of(three(STEP), size)
        for count, keys in (256, "entries = 256"), (56, "entries = 56"), (128, 'first-usable = "2048s"'):
            new = of(three(STEP), length, count=count, first=2048 if count == 128 else None)
            for text in layout_of(new), f"[disk]\n{keys}\n{THREE}":
                fresh(program, old, size)
                program.set_length(IMAGE, length)
                program.write("layout.toml", text.encode())
                words = ["apply", IMAGE, "layout.toml", "--fit", "--replace"]
                goes(tally, program, words)
                holds_table(tally, program, f"{text!r} fitted to {length} bytes", new)
                tally.equals("the same layout again", "unchanged\n", goes(tally, program, words))
    # A size is measured between the new bounds; a number or a place that the new table lacks is refused.
    fresh(program, of({}, 24 * MIB), 24 * MIB)
    program.set_length(IMAGE, 48 * MIB)
    words = ["apply", IMAGE, "layout.toml", "--fit", "--replace"]
    for text, reason in (("[disk]\nentries = 56\n[[partition]]\nnumber = 57\ntype = 'linux'\nsize = '1MiB'\n",
                          "entry 57 would be used, but the table would have 56 entries"),
                         ('[disk]\nlast-usable = "98271s"\n', f"the usable sectors must be within 34..{48 * STEP - 34}")):
        program.write("layout.toml", text.encode())
        refused(tally, program, words, reason, statuses=(1,))
    program.write("layout.toml", b"[disk]\nentries = 256\n[[partition]]\ntype = 'linux'\nsize = '50%'\n")
    goes(tally, program, words)
    half = (48 * STEP - 66 - 65) // 2 // STEP * STEP
    one = table.read(program.file(IMAGE)).entries[1]
    tally.equals("half of the new bounds", (STEP, STEP + half - 1), (one.first, one.last))


SUBJECTS = {
    "the most entries": try_most,
    "keys of a fitted table": try_fitted,
    "shapes of fitted tables": try_fitted_shapes,
    "each shape from each other": try_shapes,
    "keys that are not stated": try_some,
    "entries in the same write": try_entries,
    "rest with an odd end": try_odd_end,
    "places between the new bounds": try_places,
    "refusals of shapes": try_refusals,
    "without --replace": try_without,
    "shapes of scripts and backups": try_scripts,
    "readers of reshaped tables": try_readers,
    "JSON of shapes": try_json,
    "stops of a change of the shape": try_stops,
}
