"""`grow --random-guids`: a copy of a disk gets GUIDs of its own, the length of its disk and a longer partition, in one
write.

The expected tables come from the model of fitting.py, and what other programs say of them from sgdisk and sfdisk if
they are installed.
"""
import os

from harness import table
from harness.runs import run
from commands import DISK
from fitting import (GROWN, GUIDS, LENGTHS, STEP, count_states, extended, files_in, fitted, hybrid_mbr, start, stop_starts,
                     three)
from makers import IMAGE, SIZE, entry, goes, make, mbr_of, of, refused
from runs import GUID
from traces import can_trace
from uses import Loop, can_loop

OWN = "--random-guids"
# The words after the name of the image, and the number of the partition that they extend.
ROWS = [([], None), (["3"], 3), (["1"], 1), (["name=b"], 2), ([f"guid={GUIDS[2]}"], 3)]


def guids_of(found):
    """All GUIDs of a table."""
    return [found.guid, *(one.guid for one in found.entries.values())]


def with_guids(found, other):
    """The table with the GUIDs of another one."""
    return found._replace(guid=other.guid, entries={number: one._replace(guid=other.entries[number].guid)
                                                    for number, one in found.entries.items()})


def model_of(found, size, number, sector=512):
    """The table that is fitted to a disk, and in which this partition is extended."""
    found = fitted(found, size, sector)
    return extended(found, number, sector) if number else found


def is_own(tally, program, what, was, wanted, sector=512):
    """Counts whether all GUIDs are new, and all else is as wanted. Returns the table."""
    found = table.read(program.file(IMAGE), sector)
    tally.holds(f"{what} leaves two good copies", found)
    guids = guids_of(found)
    tally.equals(f"GUIDs after {what} that another one has: {guids}", len(guids), len(set(guids)))
    tally.equals(f"GUIDs after {what} that are old", set(), set(guids) & {DISK, *guids_of(was)})
    tally.holds(f"the GUIDs after {what} are random ones: {guids}", all(guid[14] == "4" for guid in guids))
    tally.equals(f"the table after {what}, with the old GUIDs", wanted, with_guids(found, was))
    tally.equals(f"the MBR after {what}", table.mbr_bytes(os.path.getsize(program.file(IMAGE)), sector), mbr_of(program))
    return found


def try_clones(tally, program):
    """Disks of each length: the GUIDs are new, the partition is extended to the end, all else is as before. A second
    run changes only the GUIDs."""
    for sector in 512, 4096:
        was = of(three(STEP * 512 // sector, sector), SIZE, sector)
        for how in "the same", "longer by a sector", "longer by 1 MiB", "doubled", "shorter by 1 MiB":
            now = LENGTHS[how](SIZE, sector) if how in LENGTHS else SIZE
            for words, number in ROWS if (sector, how) == (512, "longer by 1 MiB") else ROWS[:2]:
                start(program, was, SIZE, now, sector)
                what = f"grow {' '.join(words)} {OWN} of {how} length, sectors of {sector} bytes"
                wanted = model_of(was, now, number, sector)
                goes(tally, program, ["grow", IMAGE, *words, OWN, "--sector", str(sector)])
                found = is_own(tally, program, what, was, wanted, sector)
                tally.equals(f"check after {what}", 0, program.plain("check", IMAGE, "--sector", str(sector)).status)
                again = [str(number)] if number else []
                goes(tally, program, ["grow", IMAGE, *again, OWN, "--sector", str(sector)])
                is_own(tally, program, f"a second {what}", found, with_guids(wanted, found), sector)


def try_as_three(tally, program):
    """It leaves what `randomize --fit` and `resize N max` leave, apart from the GUIDs."""
    was = of(three(STEP))
    for backup in "good", "gone", "stale":
        ends = []
        for rows in [[["grow", IMAGE, "3", OWN]], [["randomize", IMAGE, "--fit"], ["resize", IMAGE, "3", "max"]]]:
            start(program, was, SIZE, GROWN, 512, backup)
            for words in rows:
                goes(tally, program, words)
            ends.append(is_own(tally, program, f"{rows}, old backup copy {backup}", was, model_of(was, GROWN, 3)))
        tally.equals("both tables, with the same GUIDs", ends[0], with_guids(ends[1], ends[0]))


def try_output(tally, program):
    """A dry run prints the lines of the run, apart from the new GUIDs, and writes nothing."""
    was = of(three(STEP))
    start(program, was, SIZE, GROWN)
    before = program.state(IMAGE)
    for words, number in ROWS:
        longer = [n for n, one in model_of(was, GROWN, number).entries.items() if one != was.entries[n]]
        program.restore(IMAGE, before)
        dry = goes(tally, program, ["grow", IMAGE, *words, OWN, "-n"])
        tally.holds(f"a dry run of grow {words} {OWN} leaves the image", program.state(IMAGE) == before)
        out = goes(tally, program, ["grow", IMAGE, *words, OWN])
        tally.equals(f"what a dry run of grow {words} {OWN} prints",
                     "a dry run, nothing is written:\n" + GUID.sub("GUID", out), GUID.sub("GUID", dry))
        for text in "disk GUID", "usable sectors", "~ 1 ", "~ 2 ", "~ 3 ", "protective MBR":
            tally.contains(f"what grow {words} {OWN} prints", text, out)
        tally.equals(f"the partitions whose sectors grow {words} {OWN} prints", longer,
                     [int(line[2]) for line in out.splitlines() if line.startswith("~") and "sectors" in line])


def try_refusals(tally, program):
    """What `grow N` refuses is refused."""
    start(program, of(three(STEP)), SIZE, GROWN)
    for words in ["9"], ["129"], ["name=z"], [f"guid={DISK}"]:
        wanted = program.run("grow", IMAGE, *words)
        tally.equals(f"the status of grow {words}", 1, wanted.status)
        tally.equals(f"what grow {words} {OWN} prints", wanted, program.run("grow", IMAGE, *words, OWN))
    for words in ["0"], ["x"], ["1", "2"], ["--fit"]:
        tally.equals(f"the status of grow {words} {OWN}", 2, program.run("grow", IMAGE, *words, OWN).status)
    tally.equals("the status of a value", 2, program.run("grow", IMAGE, OWN + "=yes").status)
    for words in ["randomize"], ["resize", "1", "max"], ["repair"]:
        tally.equals(f"the status of {words} {OWN}", 2, program.run(words[0], IMAGE, *words[1:], OWN).status)
    make(program, {**three(STEP), 4: entry(SIZE // 512 - 4 * STEP, SIZE // 512 - 34, "d", GUIDS[3])})
    program.set_length(IMAGE, SIZE - STEP * 512)
    for words in [], ["3"], ["4"]:
        refused(tally, program, ["grow", IMAGE, *words, OWN], "partition 4 does not fit on the disk")


def try_mbrs(tally, program):
    """A hybrid MBR stays, and a missing one is written."""
    for words, _ in ROWS[:2]:
        for mbr, wanted in (hybrid_mbr(), hybrid_mbr()), (bytes(66), table.mbr_bytes(GROWN)):
            start(program, of(three(STEP)), SIZE, GROWN)
            program.put(IMAGE, 446, mbr)
            goes(tally, program, ["grow", IMAGE, *words, OWN])
            tally.equals(f"the MBR after grow {words} {OWN}", wanted, mbr_of(program))


def try_tools(tally, program):
    """sgdisk and sfdisk find no fault."""
    for size in SIZE, GROWN:
        start(program, of(three(STEP)), SIZE, size)
        goes(tally, program, ["grow", IMAGE, "3", OWN])
        for tool, text in ("sgdisk", "No problems found"), ("sfdisk", "No errors detected"):
            if tally.has(tool):
                ended = run([tool, "-V" if tool == "sfdisk" else "-v", IMAGE], cwd=program.folder, errors="replace")
                tally.contains(f"{tool} of a disk of {size} bytes", text, ended.out + ended.err)


def try_uses(tally, program):
    """A mounted partition keeps its GUID unless `--in-use` is given."""
    if not can_loop(program):
        return "no loop devices for this user: left out"
    os.makedirs(program.file("at"), exist_ok=True)
    was = of({1: entry(2048, 20479, "one", GUIDS[0]), 2: entry(28672, 30719, "two", GUIDS[1])})
    start(program, was, SIZE, SIZE)
    with Loop(program) as loop:
        if not loop.mounts_first(program.file("at")):
            return "no file system is to be mounted here: left out"
        program.set_length(IMAGE, GROWN)
        loop.call("losetup", "-c", loop.path)
        for words in ["grow", loop.path, OWN], ["grow", loop.path, "2", OWN]:
            for more in ["-n"], []:
                ended = program.plain(*words, *more)
                tally.holds(f"{words + more} of a mounted partition is refused: {ended}",
                            ended.status == 4 and "--in-use" in ended.err)
        ended = program.plain("grow", loop.path, "2", OWN, "--in-use")
        tally.holds(f"--in-use permits it: {ended}", ended.status == 0)
    is_own(tally, program, "growth of a device in use", was, model_of(was, GROWN, 2))
    return None


def try_stops(tally, program):
    """Each state that a stop may leave has the old table or the new one."""
    if not can_trace(program):
        return "strace is not installed or not allowed: left out"
    totals = []
    for name, size, now, backup, more in stop_starts():
        if more:
            continue
        start(program, of(three(STEP), size), size, now, 512, backup)
        words = ["grow", IMAGE, "3", OWN]
        totals.append(count_states(tally, program, f"{' '.join(words)} from {name}",
                                   [program.path, *files_in(program, words)], program.bytes_of(IMAGE)))
    return "{} states: {} lost, {} between".format(*map(sum, zip(*totals)))


SUBJECTS = {"clones": try_clones, "clones as by three commands": try_as_three, "output of clones": try_output,
            "clones that are refused": try_refusals, "the MBR of clones": try_mbrs, "clones and other programs": try_tools,
            "clones of a device in use": try_uses, "stops of clones": try_stops}
