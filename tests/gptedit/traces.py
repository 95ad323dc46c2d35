"""The writes and syncs of each kind of command, in their order: the other copy, a sync, the own copy, a sync, and
then the MBR and a sync."""
import os
import re
import shutil

from harness import recording, table
from harness.runs import run
from commands import MIB, ROOT
from makers import ADD, IMAGE, ONE, SIZE, TWO, make, put_dos

BACKUP, PRIMARY, MBR, SYNC = "backup", "primary", "MBR", "sync"
CHANGE = [BACKUP, SYNC, PRIMARY, SYNC]


def place_of(at, size, sector, count=128):
    """Which part of a table a byte belongs to."""
    array = -(-count * 128 // sector)
    if 446 <= at < 512:
        return MBR
    if sector <= at < (2 + array) * sector:
        return PRIMARY
    if at >= (size // sector - 1 - array) * sector:
        return BACKUP
    return f"byte {at}"


def traced(program, words, size=SIZE, sector=512, count=128):
    """The parts that a run writes, and its syncs, each once where it comes again at once; and its status."""
    path = program.file(IMAGE)
    words = [program.file(word) if word in (IMAGE, "layout.toml") else word for word in words]
    status, _, events = recording.record([program.path, *words], "", os.path.realpath(path), program.file("trace"))
    parts = [SYNC if isinstance(event, str) else place_of(event.at, size, sector, count) for event in events]
    return status, [part for before, part in zip([None, *parts], parts) if part != before]


def is_traced(tally, program, what, words, wanted, **how):
    """Counts whether a run succeeds and writes these parts in this order."""
    tally.equals(f"the writes of {what}: {' '.join(words)}", (0, wanted), traced(program, words, **how))


def can_trace(program):
    """Whether strace may trace here."""
    if not shutil.which("strace"):
        return False
    make(program, ONE)
    return traced(program, ["show", IMAGE]) == (0, [])


def try_order(tally, program):
    """Each kind of command over a table whose copies are both good."""
    if not can_trace(program):
        return "strace is not installed or not allowed: left out"
    program.write("layout.toml", b'[[partition]]\nnumber = 1\nname = "other"\n')
    rows = [ADD, ["set", IMAGE, "1", "--name", "x"], ["resize", IMAGE, "1", "512KiB"], ["resize", IMAGE, "1", "max"],
            ["remove", IMAGE, "1"], ["randomize", IMAGE], ["apply", IMAGE, "layout.toml", "--replace"],
            ["new", IMAGE, "--overwrite", "--guid", ROOT]]
    for words in rows:
        for sector in 512, 4096:
            make(program, ONE if sector == 512 else {1: ONE[1]._replace(first=512, last=1023)}, sector=sector)
            is_traced(tally, program, f"a change with sectors of {sector} bytes", words + ["--sector", str(sector)],
                      CHANGE, sector=sector)
    make(program, {2: TWO[1], 1: TWO[2]})
    is_traced(tally, program, "a change", ["sort", IMAGE], CHANGE)
    for words in [["set", IMAGE, "1", "--name", "one"], ["sort", IMAGE], ["grow", IMAGE], ADD + ["-n"],
                  ["check", IMAGE], ["dump", IMAGE], ["free", IMAGE], ["repair", IMAGE, "-n"], ["show", IMAGE]]:
        make(program, ONE)
        is_traced(tally, program, "what changes nothing", words, [])
    return None


def try_broken(tally, program):
    """A broken copy is the first to be written: a good one stays until then."""
    if not can_trace(program):
        return "strace is not installed or not allowed: left out"
    for at, wanted in (512, [PRIMARY, SYNC, BACKUP, SYNC]), (SIZE - 512, CHANGE):
        for words in ["repair", IMAGE], ["set", IMAGE, "1", "--name", "x"]:
            make(program, ONE)
            program.put(IMAGE, at + 16, b"????")
            is_traced(tally, program, f"a change with a broken header at {at}", words, wanted)


def try_mbr(tally, program):
    """The MBR comes last, and is synced."""
    if not can_trace(program):
        return "strace is not installed or not allowed: left out"
    make(program, ONE)
    program.put(IMAGE, 446, bytes(66))
    is_traced(tally, program, "a missing MBR", ["repair", IMAGE], CHANGE + [MBR, SYNC])
    make(program, ONE)
    program.put(IMAGE, 446, table.mbr_bytes(SIZE - MIB))
    is_traced(tally, program, "a wrong MBR", ADD, CHANGE + [MBR, SYNC])
    make(program, ONE)
    program.set_length(IMAGE, SIZE + 4 * MIB)
    is_traced(tally, program, "growth", ["grow", IMAGE], CHANGE + [MBR, SYNC], size=SIZE + 4 * MIB)
    program.make_image(IMAGE, SIZE)
    status, parts = traced(program, ["new", IMAGE])
    tally.holds(f"new on an empty disk: {parts}", status == 0 and parts in (
        CHANGE + [MBR, SYNC], [PRIMARY, SYNC, BACKUP, SYNC, MBR, SYNC]))
    make(program, ONE)
    status, parts = traced(program, ["new", IMAGE, "--overwrite", "--entries", "56"], count=56)
    tally.holds(f"new with another number of entries writes each copy once: {parts}", status == 0 and
                parts[:4] in (CHANGE, [PRIMARY, SYNC, BACKUP, SYNC]) and len(parts) <= 6)
    make(program, ONE)
    put_dos(program, ((0xee, 1, 9), (0x83, 2048, 2048)), 0)
    is_traced(tally, program, "a hybrid MBR", ["repair", IMAGE], CHANGE)
    return None


def try_saved(tally, program):
    """The file of --backup and its folder are synced before the image is written."""
    if not can_trace(program):
        return "strace is not installed or not allowed: left out"
    os.makedirs(program.file("synced"))
    for name in "synced.toml", "synced/here.toml", program.file("synced/there.toml"):
        make(program, ONE)
        words = [program.path, "set", IMAGE, "1", "--name", "x", "--backup", name]
        status = run(["strace", "-y", "-o", "trace", "-e", "trace=fsync,write", *words], cwd=program.folder).status
        with open(program.file("trace"), encoding="utf-8") as file:
            found = re.findall(r"^(fsync|write)\(\d+<(.*?)>", file.read(), re.M)
        saved, image = (os.path.realpath(program.file(file)) for file in (name, IMAGE))
        wanted = [("write", saved), ("fsync", saved), ("fsync", os.path.dirname(saved)), ("write", image)]
        tally.equals(f"the writes of --backup {name}", (0, wanted), (status, found[:4]))
    return None


SUBJECTS = {"writes and syncs": try_order, "writes over a broken copy": try_broken, "writes of the MBR": try_mbr,
            "syncs of a backup": try_saved}
