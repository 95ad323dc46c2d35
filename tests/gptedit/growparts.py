"""examples/growpart against growpart of cloud-utils: the same words, output and statuses, over the cases of its tests.

Where growpart is installed each run is compared with it, with sfdisk and with sgdisk. What differs: the end of a grown
partition is before a multiple of 1 MiB. growpart ignores --free-percent with sgdisk.
"""
import os
import re
import shutil

from harness import table
from harness.runs import run
from commands import MIB
from fitting import count_states, extended, fitted, stop_starts, start, three
from makers import IMAGE, SIZE, entry, make, of, put_dos
from traces import can_trace
from uses import Loop, can_loop

SCRIPT = os.path.realpath(os.path.join(os.path.dirname(os.path.abspath(__file__)), "..", "..", "examples", "growpart"))
LINE = re.compile(r"(CHANGED?): partition=(\d+) start=(\d+) old: size=(\d+) end=(\d+) new: size=(\d+) end=(\d+)\n")
GUIDS = [f"c0ffee00-0000-4000-8000-00000000000{number}" for number in range(1, 10)]
CHANGED, UNCHANGED, FAILED = 0, 1, 2
GROWN = 64 * MIB


def grow(program, *words, shell=()):
    """Runs the script, and returns its status and output."""
    return run([*shell, SCRIPT, *words], cwd=program.folder, env={**os.environ, "GPTEDIT": program.path},
               errors="replace")


def theirs(program, resizer, *words):
    """Runs growpart of cloud-utils with a resizer, and returns its status and output."""
    return run(["growpart", *words], cwd=program.folder, env={**os.environ, "GROWPART_RESIZER": resizer},
               errors="replace")


def entries_of(*ranges):
    """Entries from one sector to another."""
    return {number: entry(first, last, f"p{number}", GUIDS[number - 1])
            for number, (first, last) in enumerate(ranges, 1)}


# Each case: the entries, the length of the disk before and now, the number.
CASES = {
    "the last partition": (entries_of((2048, 20479)), SIZE, GROWN, 1),
    "nothing is free": (entries_of((2048, SIZE // 512 - 34)), SIZE, SIZE, 1),
    "less than 1 MiB is free": (entries_of((2048, SIZE // 512 - 2049)), SIZE, SIZE, 1),
    "less than 1 MiB is free before another": (entries_of((2048, 20479), (22527, 24575)), SIZE, GROWN, 1),
    "a gap before another": (entries_of((2048, 4095), (20480, 24575)), SIZE, GROWN, 1),
    "a gap up to no multiple of 1 MiB": (entries_of((2048, 4095), (20500, 24575)), SIZE, GROWN, 1),
    "another at once": (entries_of((2048, 4095), (4096, 8191)), SIZE, GROWN, 1),
    "an end that is not aligned": (entries_of((2048, 5000)), SIZE, GROWN, 1),
    "an end before the next multiple": (entries_of((2048, 6000), (8192, 9000)), SIZE, GROWN, 1),
    "growth by 1 MiB": (entries_of((2048, SIZE // 512 - 2049)), SIZE, SIZE + MIB, 1),
    "a disk that is longer by a sector": (entries_of((2048, 20479)), SIZE, SIZE + 512, 1),
    "partitions out of order": (entries_of((20480, 24575), (2048, 4095)), SIZE, GROWN, 2),
    "the last one of partitions out of order": (entries_of((20480, 24575), (2048, 4095)), SIZE, GROWN, 1),
    "a start that is a size": (entries_of((2048, 1026047), (1026048, 2052095)), 1 << 30, 2 << 30, 2),
    "the middle of a root disk": (entries_of((2048, 206847), (206848, 731135), (731136, 1550335), (34, 2047),
                                             (4061184, 4194270)), 2 << 30, 2 << 30, 3),
    "10 percent": (entries_of((2048, 100351)), 50 * MIB, 100 * MIB, 1),
    "a length that 100 does not divide": (entries_of((2048, 20479)), SIZE, GROWN, 1),
}


def case_start(program, case):
    """The image of a case, and the table that is fitted to it."""
    entries, size, now, number = case
    found = of(entries, size)
    start(program, found, size, now)
    return fitted(found, now), number


def expected(found, number, is_dry=False, fudge=2048):
    """What is printed and the status, by the model of the table."""
    one, new = found.entries[number], extended(found, number).entries[number]
    old, most = one.last - one.first + 1, limit(found, number)
    growth = new.last - one.last
    if most == one.last:
        return f"NOCHANGE: partition {number} is size {old}. it cannot be grown\n", UNCHANGED
    if growth == 0 or growth < fudge:
        return f"NOCHANGE: partition {number} could only be grown by {growth or most - one.last} [fudge={fudge}]\n", 1
    word = "CHANGE" if is_dry else "CHANGED"
    return (f"{word}: partition={number} start={one.first} old: size={old} end={one.last} "
            f"new: size={new.last - one.first + 1} end={new.last}\n"), CHANGED


def limit(found, number):
    """The last sector that the partition may end at."""
    after = [one.first - 1 for one in found.entries.values() if one.first > found.entries[number].first]
    return min([*after, found.last])


def try_cases(tally, program):
    """Each case: output, status and table; a dry run prints the same and writes nothing; a second run
    changes nothing."""
    for name, case in CASES.items():
        found, number = case_start(program, case)
        before = program.state(IMAGE)
        for is_dry, words in (True, ["-N"]), (True, ["--dry-run"]), (False, []):
            ended = grow(program, *words, IMAGE, str(number))
            tally.equals(f"growpart {words} of {name}: {ended.err}", expected(found, number, is_dry),
                         (ended.out, ended.status))
            if is_dry or ended.status:
                tally.holds(f"growpart {words} of {name} writes nothing", program.state(IMAGE) == before)
        if ended.status == 0:
            wanted = extended(found, number)
            tally.equals(f"the table after growpart of {name}", wanted, table.read(program.file(IMAGE)))
            ended = grow(program, IMAGE, str(number))
            tally.equals(f"growpart again of {name}", expected(extended(found, number), number),
                         (ended.out, ended.status))


def as_ours(line):
    """A line of growpart with sfdisk as it is where the end is before a multiple of 1 MiB."""
    match = LINE.fullmatch(line)
    if not match:
        return line
    word, number, first, size, last, _, end = match[1], *map(int, match.groups()[1:])
    end = max(last, (end + 1) // 2048 * 2048 - 1)
    return (f"{word}: partition={number} start={first} old: size={size} end={last} "
            f"new: size={end - first + 1} end={end}\n")


def scripts_of(ended, sizes):
    """The scripts of sfdisk that growpart prints in a dry run, with another size of the new partition."""
    theirs_size, size = sizes
    return re.sub(f"(, size= *){theirs_size},", rf"\g<1>{size},", ended.err)


def size_of(line):
    """The new size in a line of growpart, or None."""
    match = LINE.fullmatch(line)
    return match and match[6]


def try_theirs(tally, program):
    """The same line and status as growpart's, with each of its resizers, and in a dry run the same scripts."""
    if not tally.has("growpart") or not tally.has("sfdisk") or not tally.has("sgdisk"):
        return None
    for name, case in CASES.items():
        found, number = case_start(program, case)
        before = program.state(IMAGE)
        for words in ["-N"], []:
            program.restore(IMAGE, before)
            ours = grow(program, *words, IMAGE, str(number))
            for resizer in "sfdisk", "sgdisk":
                program.restore(IMAGE, before)
                other = theirs(program, resizer, *words, IMAGE, str(number))
                what = f"growpart {words} of {name} with {resizer}: {other} {ours}"
                is_short = extended(found, number).entries[number].last - found.entries[number].last < 2048
                if resizer == "sfdisk" and is_short and other.status == 0:
                    continue  # sfdisk grows it to no multiple of 1 MiB
                tally.equals(f"the status of {what}", other.status, ours.status)
                if resizer == "sfdisk" or other.status == 0:
                    tally.equals(what, as_ours(other.out), ours.out)
                if resizer == "sfdisk" and other.status == 0 and words:
                    sizes = size_of(other.out), size_of(ours.out)
                    tally.equals(f"the scripts of {what}", scripts_of(other, sizes), ours.err)
    return None


def try_same(tally, program):
    """What growpart prints and does without a change of the end: the same output, errors and status."""
    if not tally.has("growpart") or not tally.has("sfdisk"):
        return None
    case_start(program, CASES["a length that 100 does not divide"])
    image = program.bytes_of(IMAGE)
    for name in "disk12", "a-disk":
        program.write(name, image)
    if not os.path.lexists(program.file("link")):
        os.symlink(IMAGE, program.file("link"))
    rows = [[name, number] for name in (IMAGE, "disk12", "a-disk", "./disk12", "link") for number in ("9", "0", "01")]
    rows += [[IMAGE, "x"], ["nothing.img", "x"], [IMAGE, "1", "2"], ["--bad", IMAGE, "1"], ["-", "1"], ["-u"],
             ["-u", "bad", IMAGE, "1"], ["--update=", IMAGE, "1"], ["--fudge=5", IMAGE, "1"], ["--free-percent"]]
    rows += [[f"--free-percent={word}", IMAGE, "1"] for word in ("0", "100", "101", "abc", "10%", "2.5", "", "-1")]
    rows += [["-N", "--free-percent", percent, name, "1"] for percent in ("1", "10", "33", "84", "90")
             for name in (IMAGE, "disk12", "link")]
    for words in rows:
        ours, other = grow(program, *words), theirs(program, "sfdisk", *words)
        tally.equals(f"growpart {words}, by growpart of cloud-utils", (other.status, other.out, other.err),
                     (ours.status, ours.out, ours.err))
    for words in [], [IMAGE], ["--", IMAGE, "1"]:
        ours, other = grow(program, *words), theirs(program, "sfdisk", *words)
        tally.equals(f"growpart {words} says what is missing", (other.status, other.out, other.err.splitlines()[-1]),
                     (ours.status, ours.out, ours.err.splitlines()[-1]))
    tally.holds("the rows write nothing", all(image == program.bytes_of(name) for name in (IMAGE, "disk12", "a-disk")))
    return f"{len(rows)} rows"


def try_options(tally, program):
    """--fudge and --free-percent, by the man page; growpart with sfdisk prints the same."""
    case = CASES["10 percent"]
    has_theirs = tally.has("growpart") and tally.has("sfdisk")
    rows = [(["--free-percent", "10"], 182239, CHANGED), (["--free-percent=10"], 182239, CHANGED),
            (["--free-percent", "1"], 200671, CHANGED), (["--free-percent", "49"], 102367, CHANGED),
            (["--free-percent", "50"], None, UNCHANGED), (["--free-percent", "51"], None, UNCHANGED),
            (["--free-percent", "99"], None, UNCHANGED),
            (["--fudge", "53477376", "--free-percent=10"], None, UNCHANGED), (["--fudge", "52428800"], 200704, CHANGED),
            (["--fudge", "52429312"], None, UNCHANGED), (["--fudge", "0"], 200704, CHANGED)]
    for words, size, status in rows:
        found, number = case_start(program, case)
        before = program.state(IMAGE)
        for more in ["-N"], []:
            program.restore(IMAGE, before)
            ours = grow(program, *more, *words, IMAGE, "1")
            tally.equals(f"the status of growpart {more} {words}: {ours}", status, ours.status)
            tally.holds(f"growpart {more} {words} prints the size: {ours}", status or f"new: size={size} " in ours.out)
            if more or status:
                tally.holds(f"growpart {more} {words} writes nothing", program.state(IMAGE) == before)
            if has_theirs:
                program.restore(IMAGE, before)
                other = theirs(program, "sfdisk", *more, *words, IMAGE, "1")
                is_percent = any("percent" in word for word in words)
                wanted = other.out if is_percent else as_ours(other.out)
                tally.holds(f"growpart {more} {words} prints the same: {ours} {other}", wanted == ours.out or
                            not is_percent and status)
        if status == 0:
            program.restore(IMAGE, before)
            grow(program, *words, IMAGE, "1")
            one = found.entries[1]._replace(last=2047 + size)
            tally.equals(f"the table after growpart {words}", found._replace(entries={1: one}),
                         table.read(program.file(IMAGE)))


# An lvm that writes down its words, and ends with the status that PVS has, or PVRESIZE.
LVM = """#!/bin/sh
echo "$@" >> "$LVM_LOG"
case $1 in
    pvs) exit "$PVS" ;;
    *) exit "$PVRESIZE" ;;
esac
"""


def try_volumes(tally, program):
    """lvm is called after a change as growpart calls it: `pvs`, and if that finds a physical volume `pvresize`."""
    os.makedirs(program.file("bin"), exist_ok=True)
    program.write("bin/lvm", LVM.encode())
    os.chmod(program.file("bin/lvm"), 0o755)
    named = ["pvs --nolocking --readonly -o pvname disk12p1", "pvresize disk12p1"]
    rows = [("0", "0", named, [0, "CHANGED"]), ("5", "0", named[:1], [0, "CHANGED"]),
            ("0", "5", named, [2, "CHANGED", "FAILED: lvm resize failed."]),
            ("3", "0", named[:1], [2, "CHANGED", "FAILED: lvm resize failed."])]
    case_start(program, CASES["the last partition"])
    image = program.bytes_of(IMAGE)
    with_theirs = tally.has("growpart") and tally.has("sfdisk")
    for found, resized, words, wanted in rows:
        for command in [[SCRIPT]] + [["growpart"]] * with_theirs:
            program.write("disk12", image)
            program.write("log", b"")
            ended = run([*command, "disk12", "1"], cwd=program.folder, errors="replace", env={
                **os.environ, "GPTEDIT": program.path, "PATH": program.file("bin") + ":" + os.environ["PATH"],
                "LVM_LOG": program.file("log"), "PVS": found, "PVRESIZE": resized, "GROWPART_RESIZER": "sfdisk"})
            what = f"{command} with pvs {found} and pvresize {resized}: {ended}"
            lines = [line if line.startswith("FAILED") else line.split(":")[0] for line in ended.out.splitlines()]
            tally.equals(f"the output of {what}", wanted, [ended.status, *lines])
            tally.equals(f"the words of lvm by {what}", words, program.bytes_of("log").decode().splitlines())


def try_failures(tally, program):
    """What fails, with status 2 and a line on standard output; nothing is written."""
    make(program, entries_of((2048, 20479)))
    program.make_zeros("zeros.img", SIZE)
    program.make_zeros("dos.img", SIZE)
    put_dos(program, ((0x83, 2048, 20480),), name="dos.img")
    before = [program.state(name) for name in (IMAGE, "zeros.img", "dos.img")]
    rows = [([IMAGE, "2"], f"{IMAGE}2 in {IMAGE}"), ([IMAGE, "0"], f"{IMAGE}0 in {IMAGE}"),
            ([IMAGE, "x"], "must be a number"), (["-u"], "--update option: "),
            (["nothing.img", "1"], "nothing.img: does not exist"), ([IMAGE, "1", "2"], "confused by arg 2"),
            (["--bad", IMAGE, "1"], "unknown option --bad"), (["-u", "bad", IMAGE, "1"], "--update option: bad"),
            (["--update=", IMAGE, "1"], "--update option: "), (["--fudge=5", IMAGE, "1"], "unknown option --fudge=5"),
            (["--fudge", "x", IMAGE, "1"], "--fudge option: x"), (["zeros.img", "1"], "zeros.img has no GUID"),
            (["dos.img", "1"], "a DOS partition table is not supported"), ([IMAGE, "1", "--fudge"], "--fudge needs"),
            (["/dev/null", "1"], "/dev/null"), ([".", "1"], "")]
    rows += [([f"--free-percent={word}", IMAGE, "1"], f"--free-percent option: {word}") for word in
             ("0", "100", "101", "abc", "10%", "2.5", "", "08", "-1")]
    for words, text in rows:
        ended = grow(program, *words)
        tally.equals(f"the status of growpart {words}: {ended}", FAILED, ended.status)
        tally.holds(f"growpart {words} says {text!r}: {ended}", re.fullmatch("FAILED: .*\n", ended.out) and
                    text in ended.out)
    for words, missing in ([], "disk and partition-number"), ([IMAGE], "partition-number"):
        ended = grow(program, *words)
        tally.holds(f"growpart {words} prints the usage: {ended}", ended.status == FAILED and "usage" in ended.err and
                    ended.err.endswith(f"\nmust supply {missing}\n"))
    for word in "-h", "--help":
        ended = grow(program, word)
        tally.holds(f"growpart {word} prints the usage: {ended}", ended.status == 0 and "usage" in ended.out)
    ended = run([SCRIPT, IMAGE, "1"], cwd=program.folder, env={**os.environ, "GPTEDIT": "./nothing"})
    tally.holds(f"growpart without gptedit: {ended}", ended.status == FAILED and "FAILED: ./nothing" in ended.out)
    tally.holds("nothing is written", before == [program.state(name) for name in (IMAGE, "zeros.img", "dos.img")])


def try_refused(tally, program):
    """What gptedit refuses, growpart does not do: status 2, and the reason on standard error."""
    start(program, of(entries_of((2048, 20479))), SIZE, GROWN)
    program.put(IMAGE, GROWN - 512, b"conectix" + bytes(504))
    before = program.state(IMAGE)
    for words in [], ["-N"], ["--free-percent", "10"]:
        ended = grow(program, *words, IMAGE, "1")
        tally.holds(f"growpart {words} over the footer of a VHD: {ended}", ended.status == FAILED and
                    "VHD" in ended.err and ended.out.startswith("FAILED: "))
        tally.holds(f"growpart {words} over the footer of a VHD writes nothing", program.state(IMAGE) == before)


def try_words(tally, program):
    """The words in other orders, a path with spaces, a hyphen or digits at its end, and other shells."""
    found, number = case_start(program, CASES["the last partition"])
    image, wanted = program.bytes_of(IMAGE), expected(found, number)
    for words in [IMAGE, "1", "-v"], [IMAGE, "-u", "off", "1"], ["--update=on", IMAGE, "1"], \
            ["-u", "force", IMAGE, "1"], ["--verbose", "--update", "auto", IMAGE, "1"]:
        program.write(IMAGE, image)
        ended = grow(program, *words)
        tally.equals(f"growpart {words}: {ended.err}", wanted, (ended.out, ended.status))
    for name in "a disk 7", "disk12", 'quo"te 3', "di\\sk", "näme":
        program.write(name, image)
        ended = grow(program, name, "1")
        tally.equals(f"growpart of {name!r}: {ended.err}", wanted, (ended.out, ended.status))
    program.write("-disk", image)
    ended = grow(program, "./-disk", "1")
    tally.equals(f"growpart of a name with a hyphen: {ended.err}", wanted, (ended.out, ended.status))
    for shell in ["dash"], ["bash", "--posix"], ["busybox", "sh"], ["ksh"], ["zsh", "--emulate", "sh"]:
        if shutil.which(shell[0]):
            program.write(IMAGE, image)
            ended = grow(program, IMAGE, "1", shell=shell)
            tally.equals(f"growpart in {shell}: {ended.err}", wanted, (ended.out, ended.status))
    if tally.has("shellcheck"):
        ended = run(["shellcheck", SCRIPT], errors="replace")
        tally.equals("what shellcheck says of growpart", (0, ""), ended[:2])


def kernel_size(path):
    """The size of a block device that the kernel has, in sectors of 512 bytes."""
    with open(f"/sys/class/block/{os.path.basename(path)}/size", encoding="ascii") as file:
        return int(file.read())


def try_devices(tally, program):
    """Loop devices: the kernel gets the new size, also while the partition is mounted."""
    if not can_loop(program):
        return "no loop devices for this user: left out"
    at = program.file("at")
    os.makedirs(at, exist_ok=True)
    for sector, update, is_mounted in [(512, "auto", False), (512, "auto", True), (512, "on", True),
                                       (512, "force", True), (512, "off", True), (4096, "auto", False)]:
        step = MIB // sector
        found = of({1: entry(step, 10 * step - 1, "one", GUIDS[0])}, SIZE, sector)
        start(program, found, SIZE, SIZE, sector)
        with Loop(program, IMAGE, "-b", str(sector)) as loop:
            if is_mounted and not loop.mounts_first(at):
                return "no file system is to be mounted here: the rest is left out"
            program.set_length(IMAGE, GROWN)
            loop.call("losetup", "-c", loop.path)
            what = f"growpart -u {update} of sectors of {sector} bytes, mounted: {is_mounted}"
            dry = grow(program, "-N", "-u", update, loop.path, "1")
            ended = grow(program, "-u", update, loop.path, "1")
            new = extended(fitted(found, GROWN, sector), 1, sector)
            size = new.entries[1].last - step + 1
            tally.holds(f"{what}: {ended}", ended.status == 0 and f"new: size={size} " in ended.out)
            tally.holds(f"the dry run of {what}: {dry}", dry.out == ended.out.replace("CHANGED", "CHANGE"))
            told = kernel_size(loop.path + "p1") * 512 // sector
            tally.equals(f"the size that the kernel has after {what}", 9 * step if update == "off" else size, told)
            tally.equals(f"mounted after {what}", is_mounted, os.path.ismount(at))
        tally.equals(f"the table after {what}", new, table.read(program.file(IMAGE), sector))
    return None


def try_stops(tally, program):
    """Each state that a stop of the whole script may leave has the old table or the new one."""
    if not can_trace(program):
        return "strace is not installed or not allowed: left out"
    totals = []
    for name, size, now, backup, more in stop_starts():
        if more or now <= size + 4096:
            continue
        start(program, of(three(2048), size), size, now, 512, backup)
        image = program.bytes_of(IMAGE)
        for words in [], ["--free-percent", "10"]:
            command = ["env", f"GPTEDIT={program.path}", SCRIPT, *words, program.file(IMAGE), "3"]
            totals.append(count_states(tally, program, f"growpart {words} from {name}", command, image))
    return "{} states: {} lost, {} between".format(*map(sum, zip(*totals)))


SUBJECTS = {"growpart": try_cases, "growpart of cloud-utils": try_theirs, "words of cloud-utils": try_same,
            "options of growpart": try_options, "growpart and lvm": try_volumes, "growpart that fails": try_failures,
            "growpart that is refused": try_refused, "words of growpart": try_words,
            "growpart on devices": try_devices, "stops of growpart": try_stops}
