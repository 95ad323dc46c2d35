"""No command costs anyone a table, a file system or a boot loader: refusals, and what lifts each."""
import json
import os
import re
import struct
import subprocess
import time

from harness import table
from harness.runs import there
from commands import DISK, ESP, MIB, ROOT
from makers import (ADD, EDITS, IMAGE, NO_TABLE, ONE, REFUSED, SIZE, TWO, WRITES, break_both, entry, ext4, goes,
                        holds, make, mbr_of, put_dos, refused, set_field, tool)

LOADER = b"A BOARD'S LOADER" * 1024
OF_SOMEBODY = b"DATA OF SOMEBODY" * 64


def try_elsewhere(tally, program):
    """Entries that another tool put elsewhere, as sgdisk -j does."""
    make(program, ONE, first=2048, places={"primary_at": 40})
    program.put(IMAGE, 1024, bytes(34 * 512 - 1024))
    for words in WRITES:
        refused(tally, program, words, statuses=REFUSED)
    program.put(IMAGE, 1024, LOADER[:1024])
    for words in WRITES:
        refused(tally, program, words, statuses=REFUSED)


def try_low_last(tally, program):
    """A table whose last usable sector is lower than usual: what is after it is somebody's, or zeros."""
    place = {"backup_at": SIZE // 512 - 33}
    for words in EDITS + [["repair", IMAGE]]:
        make(program, ONE, last=30000, places=place)
        program.put(IMAGE, 30001 * 512, OF_SOMEBODY)
        refused(tally, program, words, "30001", statuses=REFUSED, lifts="--overwrite")
    make(program, ONE, last=30000)
    for words in EDITS + [["repair", IMAGE]]:
        make(program, ONE, last=30000)
        goes(tally, program, words)


def try_broken(tally, program):
    """The place of a broken copy: free where a header of this table is there or all is zero, else `repair`."""
    for at in 512, SIZE - 512:
        make(program, ONE)
        program.flip(IMAGE, at + 17)
        goes(tally, program, ADD)
        tally.holds("both copies are one after add over a broken header", table.read(program.file(IMAGE)))
    make(program, ONE)
    program.put(IMAGE, 512, bytes(33 * 512))
    goes(tally, program, ADD)
    for words in EDITS:
        make(program, ONE)
        program.put(IMAGE, 512, LOADER[:33 * 512])
        refused(tally, program, words, f"gptedit repair {IMAGE}", statuses=REFUSED)
    make(program, ONE)
    program.put(IMAGE, 512, LOADER[:33 * 512])
    dry = program.run("repair", IMAGE, "-n")
    tally.holds(f"a dry run of repair names what it replaces: {dry}", dry[0] == 0 and
                re.search(r"sectors? \d+", dry[1] + dry[2]))
    goes(tally, program, ["repair", IMAGE])
    holds(tally, program, "repair over a loader", ONE)


def shown(program):
    """The partitions that `show` prints: of each the GUID, the first sector, the length and the name."""
    status, out, err = program.run("show", IMAGE, "--json")
    if status:
        return status, err
    found = json.loads(out)["partitiontable"]["partitions"]
    return [(one["uuid"].lower(), one["start"], one["size"], one["name"]) for one in found]


def try_wrong_byte(tally, program):
    """A wrong bit of one header hides nothing of the other copy, also where it makes the number of entries large."""
    make(program, TWO)
    before, whole = program.state(IMAGE), program.bytes_of(IMAGE)
    partitions = [(one.guid, one.first, one.last - one.first + 1, one.name) for one in TWO.values()]
    bits = [(byte, byte % 8) for byte in range(92)] + [(byte, bit) for byte in range(80, 84) for bit in range(8)]
    for header in 512, SIZE - 512:
        for byte, bit in bits:
            what = f"bit {bit} of byte {byte} of the header at byte {header}"
            program.put(IMAGE, header + byte, bytes([whole[header + byte] ^ 1 << bit]))
            tally.equals(f"the partitions with another {what}", partitions, shown(program))
            ended = program.run("check", IMAGE)
            tally.holds(f"check with another {what} names repair: {ended}", ended[0] == 1 and
                        f"gptedit repair {IMAGE}" in ended[1])
            goes(tally, program, ["repair", IMAGE])
            tally.holds(f"repair puts back {what}", program.state(IMAGE) == before)


def try_old_entries(tally, program):
    """Entries in the place of a copy without a header are named as such, and not as a boot loader."""
    for header, array in (512, 1024), (SIZE - 512, SIZE - 33 * 512):
        for what, entries in ("this", TWO), ("older", {**ONE, 7: entry(20480, 24575, "seven", ESP)}):
            make(program, TWO)
            program.put(IMAGE, header, bytes(512))
            program.put(IMAGE, array, table.array_of(entries, 128))
            before = program.state(IMAGE)
            refused(tally, program, ADD, "entries", what, f"`gptedit repair {IMAGE}`", statuses=REFUSED)
            told = [program.run(*ADD)[2], goes(tally, program, ["repair", IMAGE, "-n"])]
            tally.holds(f"entries of {what} table are not called a boot loader: {told}", "board" not in "".join(told))
            tally.equals(f"repair names the entries of an older table: {told}", what == "older",
                         "older" in told[1] and "entries" in told[1])
            tally.holds("what was tried leaves the image", program.state(IMAGE) == before)
            goes(tally, program, ["repair", IMAGE])
            holds(tally, program, f"repair over entries of {what} table", TWO)
    make(program, ONE)
    program.put(IMAGE, 512, bytes(512))
    program.put(IMAGE, 1024, LOADER)
    refused(tally, program, ADD, "board", statuses=REFUSED)


def try_new_end(tally, program):
    """The new place of the backup copy: anything but contents that are recognised."""
    for name, at, mark in [("LUKS", 0, b"LUKS\xba\xbe\0\2"), ("a VHD's footer", MIB * 4 - 512, b"conectix"),
                           ("XFS", 0, b"XFSB" + struct.pack(">I", 4096))]:
        make(program, ONE)
        program.set_length(IMAGE, SIZE + 4 * MIB)
        begin = SIZE + at if at else SIZE + 4 * MIB - 33 * 512
        program.put(IMAGE, begin, mark)
        if name == "a VHD's footer":
            refused(tally, program, ["grow", IMAGE], statuses=REFUSED, lifts="--overwrite")
    make(program, ONE)
    program.set_length(IMAGE, SIZE + 4 * MIB)
    program.put(IMAGE, SIZE + 3 * MIB, OF_SOMEBODY * 1024)
    goes(tally, program, ["grow", IMAGE])
    holds(tally, program, "grow over unknown bytes", ONE)
    make(program, TWO, SIZE + 4 * MIB)
    table.put(program.file(IMAGE), table.pieces_of(table.Table(DISK, 34, SIZE // 512 - 34, 128, ONE), SIZE)[:3])
    goes(tally, program, ["grow", IMAGE])
    holds(tally, program, "grow over a stale backup copy", ONE)


def try_superfloppy(tally, program):
    """A file system over the whole disk reaches into the place of a copy."""
    make(program, ONE)
    program.put(IMAGE, 0, bytes(1024))
    program.put(IMAGE, 1024, ext4(SIZE))
    for words in EDITS + [["repair", IMAGE]]:
        refused(tally, program, words, "ext", statuses=REFUSED, lifts="--overwrite")


def try_repair_bounds(tally, program):
    """`repair --bounds` sets the bounds that the layout wants."""
    make(program, ONE, last=30000)
    program.put(IMAGE, 30033 * 512, bytes(SIZE - 512 - 30033 * 512))
    goes(tally, program, ["repair", IMAGE, "--bounds"])
    tally.equals("the table after repair --bounds", table.Table(DISK, 34, SIZE // 512 - 34, 128, ONE),
                 table.read(program.file(IMAGE)))
    make(program, ONE, last=30000, places={"backup_at": SIZE // 512 - 33})
    program.put(IMAGE, 30001 * 512, OF_SOMEBODY)
    refused(tally, program, ["repair", IMAGE, "--bounds"], statuses=REFUSED, lifts="--overwrite")
    make(program, {1: entry(20, 40)}, first=20)
    refused(tally, program, ["repair", IMAGE, "--bounds"], statuses=REFUSED)


def try_dos_disk(tally, program):
    """A DOS disk is one: reads say so first, check reports it, changes need --overwrite."""
    for kinds in [((0x83, 63, 30000),), ((0, 0, 0), (7, 2048, 2048))]:
        make(program, ONE)
        put_dos(program, kinds)
        for words in WRITES + [["new", IMAGE]]:
            is_new = words[0] == "new"
            statuses = NO_TABLE + REFUSED if is_new else NO_TABLE
            refused(tally, program, words, "MBR" if is_new else "DOS", statuses=statuses)
        refused(tally, program, EDITS[1], "--overwrite", statuses=NO_TABLE, lifts="--overwrite")
        for words in ["show"], ["dump"], ["free"], ["salvage"]:
            ended = program.run(*words, IMAGE)
            tally.holds(f"{words} of a DOS disk prints a table and says so: {ended}", ended[0] == 0 and ended[1] and
                        "DOS" in ended[1] + ended[2])
        ended = program.run("check", IMAGE)
        tally.holds(f"check reports a DOS disk and names no command: {ended}", ended[0] in (1, 3) and "DOS" in ended[1]
                    and "`gptedit" not in ended[1])
    before = mbr_of(program)
    goes(tally, program, ["set", IMAGE, "1", "--name", "y", "--overwrite"])
    tally.equals("the DOS partition table after set --overwrite", before, mbr_of(program))


def try_no_dos(tally, program):
    """What is no DOS disk: no 55 AA, another boot mark, no entry with a length, a boot sector of FAT."""
    for name, pieces in {"no 55 AA": [(450, b"\x83\0\0\0" + struct.pack("<II", 1, 9)), (510, b"\0\0")],
                         "a boot mark of 0x12": [(446, b"\x12\0\1\0\x83\0\0\0" + struct.pack("<II", 1, 9))],
                         "an entry of no length": [(446, b"\0\0\1\0\x83\0\0\0" + struct.pack("<II", 1, 0))]}.items():
        make(program, ONE)
        table.put(program.file(IMAGE), pieces)
        goes(tally, program, ADD)
        holds_one = table.read(program.file(IMAGE))
        tally.holds(f"add where sector 0 has {name}", holds_one and len(holds_one.entries) == 2)


def try_hybrid(tally, program):
    """A hybrid MBR is kept byte for byte, and is a note of check."""
    make(program, TWO)
    put_dos(program, ((0xee, 1, 2047), (0x83, 2048, 2048)), 0)
    mbr, before = mbr_of(program), program.state(IMAGE)
    for words in WRITES + [["repair", IMAGE, "--bounds"]]:
        program.restore(IMAGE, before)
        goes(tally, program, words)
        tally.equals(f"the hybrid MBR after {words}", mbr, mbr_of(program))
    program.restore(IMAGE, before)
    ended = program.run("check", IMAGE)
    tally.holds(f"check notes a hybrid MBR: {ended}", ended[0] == 0 and "hybrid" in ended[1].lower())
    for words in [["remove", IMAGE, "1"], ["resize", IMAGE, "1", "2MiB"]]:
        program.restore(IMAGE, before)
        tally.holds(f"{words} of what the hybrid MBR lists says so", "hybrid" in goes(tally, program, words).lower())
    program.restore(IMAGE, before)
    tally.holds("remove of another says nothing", "hybrid" not in goes(tally, program, ["remove", IMAGE, "2"]).lower())


def try_no_good_copy(tally, program):
    """No good copy: what is wrong with each, which has readable entries, and `gptedit salvage`; never `new`."""
    make(program, ONE)
    break_both(program)
    for words in [["show", IMAGE], ["check", IMAGE], ["dump", IMAGE], ["free", IMAGE], ["randomize", IMAGE]] + WRITES:
        status, out, err = program.run(*words)
        told = out + err
        tally.holds(f"{words} of two broken copies names salvage, not new: {status} {told}",
                    "gptedit salvage" in told and "gptedit new" not in told)
        tally.holds(f"the status of {words}: {status}", status == 3 or words[0] == "check" and status == 1)
        tally.holds(f"{words} says what is wrong with each", "primary" in told and "backup" in told)
    refused(tally, program, ["new", IMAGE], statuses=REFUSED + NO_TABLE, lifts="--overwrite")


def try_new_over(tally, program):
    """What `new` is refused over, and that a wiped or shredded disk is none of it."""
    for sector in table.SECTORS:
        for at in sector, SIZE - sector:
            program.make_image(IMAGE, SIZE)
            program.put(IMAGE, at, b"EFI PART")
            refused(tally, program, ["new", IMAGE], statuses=REFUSED, lifts="--overwrite")
    program.make_image(IMAGE, SIZE)
    program.put(IMAGE, 446, table.mbr_bytes(SIZE))
    refused(tally, program, ["new", IMAGE], statuses=REFUSED, lifts="--overwrite")
    program.make_image(IMAGE, SIZE)
    put_dos(program)
    refused(tally, program, ["new", IMAGE], statuses=REFUSED + NO_TABLE, lifts="--overwrite")


def try_salvage(tally, program):
    """`salvage` prints a layout that `apply --create --overwrite` takes, and writes nothing."""
    make(program, TWO)
    break_both(program)
    status, out, _ = program.run("salvage", IMAGE)
    tally.holds(f"salvage prints what is there: {status} {out}", 'name = "two"' in out and "#" in out)
    program.write("found.toml", out.encode())
    goes(tally, program, ["apply", IMAGE, "found.toml", "--create", "--overwrite"])
    found = table.read(program.file(IMAGE))
    tally.equals("the entries that are salvaged, but for the bit", TWO[2], found and found.entries.get(2))
    make(program, TWO)
    break_both(program)
    tally.holds("salvage --json is data", program.json("salvage", IMAGE, "--json"))
    for size in 93, 128, 512:
        make(program, TWO, places={"header_size": size})
        status, out, err = program.run("salvage", IMAGE)
        tally.holds(f"salvage reads a header of {size} bytes: {status} {out} {err}", 'name = "two"' in out and
                    str(size) in out)
        refused(tally, program, ["new", IMAGE], statuses=REFUSED)


def try_made(tally, program):
    """`new` over what other programs made of the whole disk."""
    makers = {"mkfs.ext4": ["-q", "-F"], "mkfs.xfs": ["-q", "-f"], "mkfs.btrfs": ["-q", "-f"], "mkfs.vfat": [],
              "mkswap": [], "mkfs.ext2": ["-q", "-F"], "mkfs.exfat": [], "mkfs.ntfs": ["-q", "-F"],
              "mke2fs": ["-q", "-F"], "mkfs.minix": [],
              "cryptsetup": ["luksFormat", "-q", "--pbkdf-force-iterations", "1000", "--pbkdf", "pbkdf2", "-d",
                             "/dev/null", "--keyfile-size", "0"]}
    tried = []
    for name, words in makers.items():
        program.make_zeros(IMAGE, 320 * MIB)
        if not there(name) or tool(program, name, *words, IMAGE):
            continue
        tried.append(name)
        refused(tally, program, ["new", IMAGE], statuses=REFUSED + NO_TABLE, lifts="--overwrite")
    return ", ".join(tried)


def try_force(tally, program):
    """`--in-use` lifts no refusal for contents."""
    make(program, ONE)
    put_dos(program)
    refused(tally, program, EDITS[1] + ["--in-use"], statuses=NO_TABLE)
    program.make_image(IMAGE, SIZE)
    program.put(IMAGE, 512, b"EFI PART")
    refused(tally, program, ["new", IMAGE, "--in-use"], statuses=REFUSED)
    goes(tally, program, ["new", IMAGE, "--force"])


def try_other_size(tally, program):
    """`new` with another size of a sector: `auto` finds the new table, and no other."""
    for old, new in (512, 4096), (4096, 512), (1024, 4096), (2048, 512):
        make(program, ONE, sector=old)
        words = ["new", IMAGE, "--sector", str(new), "--guid", ROOT]
        refused(tally, program, words, statuses=REFUSED)
        goes(tally, program, words + ["--overwrite"])
        found = table.read(program.file(IMAGE), new)
        tally.equals(f"the table of {new} over {old}", (ROOT, {}), found and (found.guid, found.entries))
        tally.equals(f"no table of {old} is left", (None, None), table.read_copies(program.file(IMAGE), old))
        image = program.bytes_of(IMAGE)
        others = [at for at in table.signature_places(SIZE) if at not in (new, SIZE - new)
                  and image[at:at + 8] == b"EFI PART"]
        tally.equals(f"signatures of other sizes after new --sector {new}", [], others)
        shown = goes(tally, program, ["show", IMAGE])
        tally.holds(f"show finds the table of {new}: {shown}", ROOT in shown and f"sectors of {new} bytes" in shown)


def try_own_sectors(tally, program):
    """Bounds over the table's own sectors."""
    for first, last in (0, None), (33, None), (2, None), (None, SIZE // 512 - 2):
        make(program, ONE, first=first, last=last, places={"backup_at": SIZE // 512 - 33})
        ended = program.run("check", IMAGE)
        tally.holds(f"check of bounds {first}, {last}: {ended}",
                    ended[0] == 1 and f"`gptedit repair {IMAGE} --bounds`" in ended[1])
        runs = program.json("free", IMAGE, "--json")
        tally.holds(f"free offers no sector of the table: {runs}", all(
            run["start_sectors"] >= 34 and run["start_sectors"] + run["size_sectors"] - 1 <= SIZE // 512 - 34
            for run in runs))
        for words in EDITS:
            if words[0] != "remove":  # what lies over the table has to go first
                refused(tally, program, words, "--bounds", statuses=REFUSED)
        mended = "repair", IMAGE, "--bounds"
        goes(tally, program, list(mended))
        tally.equals("the table after repair --bounds", table.Table(DISK, 34, SIZE // 512 - 34, 128, ONE),
                     table.read(program.file(IMAGE)))


def mbr_from(first, sectors, status=0, beside=bytes(48)):
    """The 66 bytes of an MBR whose first entry protects so many sectors from this one on."""
    start = bytes([status, 1, 2, 3, 0xee, 4, 5, 6])
    return start + struct.pack("<II", first, sectors) + beside + b"\x55\xaa"


def mended_from(mbr, first, sectors):
    """The same from this sector on, with this length, and the last end."""
    return mbr[:5] + b"\xff\xff\xff" + struct.pack("<II", first, sectors) + mbr[16:]


def try_starts(tally, program):
    """Linux finds no table where the entry starts elsewhere than in sector 1: check says so, and repair and grow have
    it start there. Other writes keep its start, and give it the length to the end of the disk."""
    end = SIZE // 512
    for first in 0, 2, 34, end, (1 << 32) - 1:
        for words in WRITES:
            make(program, ONE)
            mbr = mbr_from(first, end, 0x80)  # right for an entry from sector 0 on
            program.put(IMAGE, 446, mbr)
            ended = program.run("check", IMAGE)
            tally.equals(f"check of an entry from sector {first} on", 1, ended[0])
            tally.contains("what check says of it", f"not start in sector 1, so Linux finds no table: `gptedit repair "
                           f"{IMAGE}`", ended[1])
            out = goes(tally, program, words)
            if words[0] in ("repair", "grow"):
                tally.equals(f"the MBR from sector {first} on after {words}", mended_from(mbr, 1, end - 1),
                             mbr_of(program))
                tally.equals(f"check after {words}", 0, program.run("check", IMAGE)[0])
            elif first not in (2, 34) or words[0] == "sort" and "unchanged" in out:
                tally.equals(f"the MBR from sector {first} on after {words}", mbr, mbr_of(program))
            else:
                tally.equals(f"the MBR from sector {first} on after {words}", mended_from(mbr, first, end - first),
                             mbr_of(program))
    unused = bytes([0, 0, 0, 0, 0x83]) + bytes(3) + struct.pack("<II", 2048, 0) + bytes(32)
    mbr = mbr_from(1, 7, 0, unused)
    for words in WRITES:
        make(program, ONE)
        program.put(IMAGE, 446, mbr)
        tally.equals("check of an entry of no sectors beside it", 0, program.run("check", IMAGE)[0])
        goes(tally, program, words)
        tally.equals(f"an entry of no sectors beside it after {words}", mbr, mbr_of(program))


def try_mbr(tally, program):
    """The MBR is part of the change: its length is mended by each write, its boot mark is kept."""
    for status in 0, 0x80:
        for words in WRITES:
            make(program, ONE)
            program.put(IMAGE, 446, table.mbr_bytes(SIZE - MIB, 512, status))
            tally.holds("check reports a wrong length", program.run("check", IMAGE)[0] == 1)
            out = goes(tally, program, words)
            if words[0] != "sort" or "unchanged" not in out:  # what writes no table need not mend it
                tally.equals(f"the MBR after {words}", table.mbr_bytes(SIZE, 512, status), mbr_of(program))
    try_starts(tally, program)
    for words in WRITES:
        make(program, ONE)
        windows = table.mbr_bytes(SIZE)[:12] + b"\xff" * 4 + table.mbr_bytes(SIZE)[16:]
        program.put(IMAGE, 446, windows)
        tally.equals("check of a length of 0xFFFFFFFF", 0, program.run("check", IMAGE)[0])
        goes(tally, program, words)
        tally.equals(f"Windows's MBR after {words}", windows, mbr_of(program))
        make(program, ONE)
        program.put(IMAGE, 446, bytes(66))
        goes(tally, program, words)
        wanted = table.mbr_bytes(SIZE) if words[0] in ("repair", "grow") else bytes(66)
        tally.equals(f"the missing MBR after {words}", wanted, mbr_of(program))


def try_shortens(tally, program):
    """A resize that shortens reads what is there."""
    long = {1: entry(2048, 16383)}
    layout = '[[partition]]\nnumber = 1\nstart = "2048s"\nsize = "{}"\n'

    def start(at, data):
        make(program, long)
        program.put(IMAGE, MIB, bytes(2 * MIB))
        program.put(IMAGE, MIB + at, data)
    start(1024, ext4(5 * MIB))
    refused(tally, program, ["resize", IMAGE, "1", "4MiB"], "ext", statuses=REFUSED, lifts="--overwrite")
    goes(tally, program, ["resize", IMAGE, "1", "5MiB"])
    start(1024, ext4(5 * MIB))
    program.write("short.toml", layout.format("4MiB").encode())
    refused(tally, program, ["apply", IMAGE, "short.toml", "--replace"], "ext", statuses=REFUSED, lifts="--overwrite")
    for at, data in (0, b"LUKS\xba\xbe\0\2"), (512, b"LABELONE" + bytes(16) + b"LVM2 001"):
        start(at, data)
        refused(tally, program, ["resize", IMAGE, "1", "4MiB"], statuses=REFUSED, lifts="--overwrite")
    start(0, b"nothing that is known" * 9)
    goes(tally, program, ["resize", IMAGE, "1", "4MiB"])
    holds(tally, program, "a resize that shortens", {1: entry(2048, 10239)})


def try_order(tally, program):
    """No order of writing keeps a good copy readable: refused, and nothing is written before a refusal."""
    make(program, ONE, 8 * MIB)
    program.put(IMAGE, 512, bytes(512))
    for words in [["new", IMAGE, "--overwrite", "--entries", "32768"], ["new", IMAGE, "--entries", "56"]]:
        refused(tally, program, words, statuses=REFUSED)
    make(program, ONE, sector=4096)
    refused(tally, program, ["new", IMAGE, "--sector", "512"], statuses=REFUSED)
    dry = program.run("new", IMAGE, "--sector", "512", "--overwrite", "-n")
    tally.holds(f"the dry run says that a stop may leave neither: {dry}", dry[0] == 0 and "neither" in dry[1] + dry[2])
    for sectors in 33, 34, 50, 66, 67:
        program.make_zeros(IMAGE, sectors * 512)
        dry, real = (program.plain("new", IMAGE, *more)[0] for more in (["-n"], []))
        tally.equals(f"dry run and real run of new on {sectors} sectors", (int(sectors < 67),) * 2, (dry, real))


def try_layout_texts(tally, program):
    """A layout is at most 64 MiB, and without a key it is none."""
    make(program, ONE)
    for text in "", "\n\n", "# nothing\n":
        ended = program.run("apply", IMAGE, "-", "--replace", text=text)
        tally.equals(f"the status of an empty layout {text!r}", 1, ended[0])
    began = time.monotonic()
    ended = program.run("apply", IMAGE, "/dev/zero")
    tally.holds(f"apply /dev/zero ends: {ended}", ended[0] == 1 and time.monotonic() - began < 45)
    line = 'exec "$0" apply disk.img - --replace 0<&-'
    before = program.state(IMAGE)
    status = subprocess.run(["sh", "-c", line, program.path], cwd=program.folder, stdout=subprocess.DEVNULL,
                            stderr=subprocess.DEVNULL, check=False).returncode
    tally.equals("a closed standard input is no layout", (1, True), (status, program.state(IMAGE) == before))
    program.write("none.toml", b"label: gpt\n")
    goes(tally, program, ["apply", IMAGE, "none.toml", "--replace"])
    program.make_image(IMAGE, SIZE)
    for text in "label: gpt\n", "[disk]\n":
        program.make_image(IMAGE, SIZE)
        goes(tally, program, ["apply", IMAGE, "-", "--create"], text=text)
        holds(tally, program, f"apply --create of {text!r}", {})


def try_paths(tally, program):
    """A path that is not UTF-8 is refused by a message that names the way."""
    path = os.fsencode(program.file("")) + b"a\xff.img"
    with open(path, "wb") as file:
        file.truncate(SIZE)
    ended = subprocess.run([program.path.encode(), b"show", path], stdout=subprocess.PIPE, stderr=subprocess.PIPE,
                           check=False)
    os.remove(path)
    tally.holds(f"a path that is not UTF-8: {ended}", ended.returncode == 2 and b"/dev/fd/3" in ended.stderr)


def try_costs(tally, program):
    """A header that counts 2^32-1 entries, many partitions without starts, and character devices."""
    make(program, ONE)
    for header in 512, SIZE - 512:
        set_field(program, 80, 0xffffffff, [header], form="<I")
    began = time.monotonic()
    for words in ["show"], ["check"], ["repair"], ["salvage"]:
        ended = program.run(words[0], IMAGE)
        tally.holds(f"{words} of 2^32-1 entries: {ended}", words[0] == "salvage" or ended[0] in (1, 3))
    tally.holds("2^32-1 entries take no time", time.monotonic() - began < 5)
    program.make_zeros(IMAGE, 33000 * MIB)
    program.plain("new", IMAGE, "--entries", "32768")
    began = time.monotonic()
    ended = program.plain("apply", IMAGE, "-", text="label: gpt\n" + "size=2, type=L\n" * 32768)
    tally.holds(f"32768 partitions without starts take {time.monotonic() - began:.1f} s: {ended[2]}",
                ended[0] == 0 and time.monotonic() - began < 60)
    found = table.read(program.file(IMAGE))
    tally.equals("where 32768 partitions without starts are", [first * 2048 for first in range(5, 32773)],
                 found and [entry.first for entry in found.entries.values()])
    for path in "/dev/zero", "/dev/null", "/dev/tty":
        for words in ["show"], ["new"], ["wipe", "--overwrite"]:
            ended = program.plain(words[0], path, *words[1:])
            tally.holds(f"{words} of {path}: {ended}", ended[0] in (1, 3, 5) and ended[2])


def try_create(tally, program):
    """`apply --create` is one write on a disk without a table, and plain `apply` on one with a table."""
    layout = f'[disk]\nguid = "{DISK}"\n[[partition]]\ntype = "linux"\nname = "one"\nguid = "{ESP}"\nsize = "1MiB"\n'
    program.make_image(IMAGE, SIZE)
    program.write("disk.toml", layout.encode())
    refused(tally, program, ["apply", IMAGE, "disk.toml"], statuses=NO_TABLE)
    goes(tally, program, ["apply", IMAGE, "disk.toml", "--create"])
    holds(tally, program, "apply --create", ONE)
    tally.equals("the MBR after apply --create", table.mbr_bytes(SIZE), mbr_of(program))
    out = goes(tally, program, ["apply", IMAGE, "disk.toml", "--create"])
    tally.holds(f"apply --create again changes nothing: {out}", "unchanged" in out)
    program.make_image(IMAGE, SIZE)
    program.put(IMAGE, 512, b"EFI PART")
    refused(tally, program, ["apply", IMAGE, "disk.toml", "--create"], statuses=REFUSED + NO_TABLE, lifts="--overwrite")
    program.make_image(IMAGE, SIZE)
    program.write("disk.toml", layout.replace("[disk]\n", '[disk]\nentries = 56\nfirst-usable = "2048s"\n').encode())
    goes(tally, program, ["apply", IMAGE, "disk.toml", "--create"])
    found = table.read(program.file(IMAGE))
    tally.equals("a layout's bounds and number of entries", (56, 2048, ONE),
                 found and (found.count, found.first, found.entries))
    program.make_image(IMAGE, SIZE)
    program.write("disk.toml", layout.replace("[disk]\n", "[disk]\nentries = 0\n").encode())
    refused(tally, program, ["apply", IMAGE, "disk.toml", "--create"], "the number of entries must not be zero",
            statuses=REFUSED)


def try_wipe(tally, program):
    """`wipe` needs --overwrite, keeps boot code, and leaves no signature."""
    for sector in 512, 4096:
        make(program, TWO, sector=sector)
        code = program.bytes_of(IMAGE)[:446]
        refused(tally, program, ["wipe", IMAGE], "--overwrite", statuses=REFUSED)
        goes(tally, program, ["wipe", IMAGE, "--overwrite"])
        image = program.bytes_of(IMAGE)
        tally.equals("what wipe leaves of sector 0", (code, bytes(66)), (image[:446], image[446:512]))
        tally.equals("signatures after wipe", [], [at for at in table.signature_places(SIZE) if
                                                   image[at:at + 8] == b"EFI PART"])
        tally.equals("show after wipe", 3, program.run("show", IMAGE)[0])
        goes(tally, program, ["new", IMAGE])


def try_backup(tally, program):
    """`--backup FILE` on each changing command writes a dump first."""
    for words in WRITES + [["new", IMAGE, "--overwrite"], ["wipe", IMAGE, "--overwrite"]]:
        make(program, TWO)
        if os.path.exists(program.file("old.toml")):
            os.remove(program.file("old.toml"))
        goes(tally, program, words + ["--backup", "old.toml"])
        program.make_image(IMAGE, SIZE)
        if os.path.exists(program.file("old.toml")):
            goes(tally, program, ["apply", IMAGE, "old.toml", "--create"])
            holds(tally, program, f"the backup of {words}", TWO)
        else:
            tally.holds(f"{words} --backup writes a file", words[0] in ("sort", "grow"))


def try_dry_json(tally, program):
    """A dry run says so in JSON."""
    for words in WRITES + [["new", IMAGE, "--overwrite"]]:
        make(program, TWO)
        for more, wanted in (["-n"], True), ([], False):
            ended = program.plain(*words, "--json", *more)
            try:
                found = json.loads(ended[1])
            except ValueError:
                found = {}
            tally.equals(f"dry_run in the JSON of {words} {more}", wanted, found.get("dry_run", False))


def try_reproductions(tally, program):
    """What was seen: growth by half a MiB again and again, and tools that let a partition end at the last sector."""
    makers = {"sgdisk": ["sgdisk", "-n", "1:0:0", IMAGE],
              "parted": ["parted", "-s", IMAGE, "mklabel", "gpt", "mkpart", "data", "1MiB", "100%"]}
    for name, words in makers.items():
        if not there(name):
            continue
        program.make_zeros(IMAGE, 64 * MIB)
        tool(program, *words)
        before = table.read(program.file(IMAGE)).entries[1]
        for more in [], ["-n"]:
            goes(tally, program, ["resize", IMAGE, "1", "max", *more])
        for _ in range(3):
            goes(tally, program, ["grow", IMAGE])
            goes(tally, program, ["resize", IMAGE, "1", "max"])
        holds(tally, program, f"resize max of an image of {name}", {1: before})
        program.set_length(IMAGE, 64 * MIB + MIB // 2)
        goes(tally, program, ["grow", IMAGE])
        goes(tally, program, ["resize", IMAGE, "1", "max"])
        after = table.read(program.file(IMAGE)).entries[1]
        tally.holds(f"the end is not lower after growth: {after}", after.last >= before.last)
    left = [name for name in makers if not there(name)]
    return f"{' and '.join(left)} not installed: left out" if left else ", ".join(makers)


def try_grow_stops(tally, program):
    """A stop in `grow` before the MBR is reported by check and mended by repair."""
    make(program, ONE)
    mbr = mbr_of(program)
    program.set_length(IMAGE, SIZE * 2)
    goes(tally, program, ["grow", IMAGE])
    program.put(IMAGE, 446, mbr)
    ended = program.run("check", IMAGE)
    tally.holds(f"check after a stop in grow: {ended}", ended[0] == 1 and f"gptedit repair {IMAGE}" in ended[1])
    goes(tally, program, ["repair", IMAGE])
    tally.equals("check after repair", 0, program.run("check", IMAGE)[0])
    tally.equals("the MBR after repair", table.mbr_bytes(SIZE * 2), mbr_of(program))


SUBJECTS = {"entries that are elsewhere": try_elsewhere, "a low last sector": try_low_last,
            "places of broken copies": try_broken, "wrong bytes of a header": try_wrong_byte,
            "old entries in such places": try_old_entries,
            "the new place of the backup copy": try_new_end, "a file system over the disk": try_superfloppy,
            "repair --bounds": try_repair_bounds,
            "DOS disks": try_dos_disk, "what is no DOS disk": try_no_dos, "hybrid MBRs": try_hybrid,
            "no good copy": try_no_good_copy, "what new is refused over": try_new_over, "salvage": try_salvage,
            "contents that other programs made": try_made, "words that lift": try_force,
            "another size of a sector": try_other_size, "bounds over the table": try_own_sectors,
            "the length in the MBR": try_mbr,
            "resizes that shorten": try_shortens, "orders of writing": try_order,
            "layouts that are none": try_layout_texts, "paths": try_paths, "costs": try_costs,
            "apply --create": try_create, "wipe": try_wipe, "--backup": try_backup, "dry runs in JSON": try_dry_json,
            "reproductions": try_reproductions, "a stop before the MBR": try_grow_stops}
