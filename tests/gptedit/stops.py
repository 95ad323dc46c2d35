"""Applies of twenty partitions that are killed at random moments, and in which each system call fails in turn,
and a new table of another number of entries: the old table or the new one, never between.
"""
import os
import random
import re
import shutil
import subprocess
import time

from harness import recording, table
from harness.states import Enumeration, Image
from commands import DISK, MIB, ROOT
from makers import IMAGE, TWO, make
from traces import can_trace
from layouts import RANDOM, draw, toml_of

KILLS = 150


def start(program, entries):
    """An image with a table of these entries."""
    program.make_image("disk.img", RANDOM)
    program.run("new", "disk.img", "--guid", DISK)
    program.run("apply", "disk.img", "-", text=toml_of(DISK, entries))


def draw_two():
    """Two layouts of twenty partitions, of which no two have one GUID."""
    random_ = random.Random(3)
    return draw(random_, 20), draw(random_, 20)


def is_whole(program, tables):
    """Whether the image gives one of these tables, and each good copy does."""
    copies = [copy and copy.entries for copy in table.read_copies(program.file("disk.img"))]
    good = [copy for copy in copies if copy is not None]
    return bool(good) and all(copy in tables for copy in good)


def try_kills(tally, program):
    """Kills at random moments."""
    random_ = random.Random(4)
    old, new = draw_two()
    start(program, old)
    program.write("a.toml", toml_of(DISK, old).encode())
    program.write("b.toml", toml_of(DISK, new).encode())
    began = time.monotonic()
    program.run("apply", "disk.img", "b.toml", "--replace")
    longest = (time.monotonic() - began) * 1.5
    killed = 0
    for number in range(KILLS):
        file = ("a.toml", "b.toml")[number % 2]
        with subprocess.Popen([program.path, "apply", "disk.img", file, "--replace"], cwd=program.folder,
                              stdout=subprocess.DEVNULL) as process:
            time.sleep(random_.random() * longest)
            process.kill()
            killed += process.wait() != 0
        tally.holds(f"a whole table after kill {number}", is_whole(program, (old, new)))
        if number % 10 == 9:
            tally.equals(f"the status of repair after kill {number}", 0, program.run("repair", "disk.img")[0])
            tally.holds(f"both copies are one after kill {number}", table.read(program.file("disk.img")))
    tally.holds("a command is killed", killed)
    return f"{killed} killed"


def can_inject(program):
    """Whether strace can make system calls fail here."""
    words = ["strace", "-e", "inject=fsync:error=EIO", "-o", "calls", program.path, "types"]
    return shutil.which("strace") and subprocess.run(words, cwd=program.folder, stdout=subprocess.DEVNULL,
                                                     stderr=subprocess.DEVNULL, check=False).returncode == 0


def try_failures(tally, program):
    """Each system call of an apply fails in turn."""
    if not can_inject(program):
        return "strace is not installed or not allowed: left out"
    old, new = draw_two()
    start(program, old)
    program.write("b.toml", toml_of(DISK, new).encode())
    good = program.state("disk.img")
    apply = [program.path, "apply", "disk.img", "b.toml", "--replace"]
    for call in count_calls(program, apply, good):
        name, number = call
        program.restore("disk.img", good)
        words = ["strace", "-o", "calls", "-e", f"inject={name}:error=EIO:when={number}", *apply]
        ended = subprocess.run(words, cwd=program.folder, stdout=subprocess.PIPE, stderr=subprocess.PIPE,
                               check=False)
        entries = [copy and copy.entries for copy in table.read_copies(program.file("disk.img"))]
        what = f"{name} {number} fails"
        tally.holds(f"a whole table where {what}: {entries}", is_whole(program, (old, new)))
        tally.holds(f"status 0, 1 or 5 where {what}: {ended.returncode}", ended.returncode in (0, 1, 5))
        if ended.returncode == 0:
            tally.equals(f"both copies after Ok where {what}", [new, new], entries)
        elif name != "write" or b"standard output" not in ended.stderr:
            tally.holds(f"a reason where {what}", ended.stderr.startswith(b"gptedit: ") or name == "write")
    return None


def try_new(tally, program):
    """Each system call fails in turn of a new table of another number of entries, where both copies or one of
    the old table are good."""
    if not can_inject(program):
        return "strace is not installed or not allowed: left out"
    old = draw_two()[0]
    start(program, old)
    whole = program.state("disk.img")
    new = [program.path, "new", "disk.img", "--force", "--entries", "56"]
    for what, at in ("both copies", None), ("the backup copy", 512), ("the primary copy", RANDOM - 512):
        program.restore("disk.img", whole)
        if at is not None:
            program.put("disk.img", at, bytes(512))
        good = program.state("disk.img")
        for name, number in count_calls(program, new, good):
            program.restore("disk.img", good)
            words = ["strace", "-o", "calls", "-e", f"inject={name}:error=EIO:when={number}", *new]
            subprocess.run(words, cwd=program.folder, stdout=subprocess.DEVNULL, stderr=subprocess.DEVNULL,
                           check=False)
            tally.holds(f"a whole table where {name} {number} fails of new over {what}",
                        is_whole(program, (old, {})))
    return None


def try_reads(tally, program):
    """A disk that cannot be read from some moment on: nothing is written where a copy could not be read."""
    if not can_inject(program):
        return "strace is not installed or not allowed: left out"
    start(program, draw_two()[0])
    good, refused = program.state("disk.img"), 0
    for number in range(1, 30):
        words = ["strace", "-o", "calls", "-P", program.file("disk.img"), "-e",
                 f"inject=read:error=EIO:when={number}+", program.path, "sort", "disk.img"]
        ended = subprocess.run(words, cwd=program.folder, stdout=subprocess.PIPE, stderr=subprocess.PIPE,
                               check=False)
        if b"INJECTED" not in program.bytes_of("calls"):
            break
        refused += 1
        tally.equals(f"the status where reads fail from number {number} on", 5, ended.returncode)
        tally.holds(f"a reason where reads fail from number {number} on", b"the disk failed" in ended.stderr)
        tally.holds(f"reads that fail from number {number} on leave the image", program.state("disk.img") == good)
    tally.holds("some reads fail", refused > 3)
    return f"{refused} reads"


def count_calls(program, apply, good):
    """Each call of an apply from its first look at the image on, as its name and its number among those of
    that name."""
    subprocess.run(["strace", "-o", "calls", *apply], cwd=program.folder, stdout=subprocess.DEVNULL, check=False)
    program.restore("disk.img", good)
    lines = program.bytes_of("calls").decode().splitlines()
    names = [re.match(r"\w*", line)[0] for line in lines]
    begin = next(i for i, line in enumerate(lines) if i and '"disk.img"' in line)
    counts, calls = {}, []
    for i, name in enumerate(names):
        counts[name] = counts.get(name, 0) + 1
        if i >= begin and name not in ("", "exit_group", "munmap", "brk", "mmap"):
            calls.append((name, counts[name]))
    return calls


def starts(program):
    """Images with a table: both copies good, one broken in its header or in its entries, and grown."""
    size = 16 * MIB
    made = {"both copies good": [], "the primary header": [528], "the primary entries": [1084],
            "the backup header": [size - 496], "the backup entries": [size - 33 * 512 + 60]}
    for name, broken in made.items():
        make(program, TWO)
        for at in broken:
            program.flip(IMAGE, at)
        yield name, program.bytes_of(IMAGE), size
    make(program, TWO)
    program.set_length(IMAGE, size + 2 * MIB)
    yield "growth", program.bytes_of(IMAGE), size + 2 * MIB


def commands_of(name):
    """The commands that are stopped from a start."""
    if name == "growth":
        return [["grow", IMAGE]]
    return [["new", IMAGE, "--overwrite", "--guid", ROOT], ["resize", IMAGE, "2", "max"], ["repair", IMAGE],
            ["apply", IMAGE, "stops.toml", "--replace"], ["new", IMAGE, "--overwrite", "--entries", "56"],
            ["wipe", IMAGE, "--overwrite"]]


def entries_of(read):
    """The used entries of a table that the trial reads, or None."""
    return None if read is None else (read[0], read[1].rstrip(bytes(1)))


def try_stops(tally, program):
    """Each command is stopped after each system call, and with what was not synced old, new or torn: what is
    left is the old table or the new one; of `wipe` the old one or none."""
    if not can_trace(program):
        return "strace is not installed or not allowed: left out"
    program.write("stops.toml", b'[[partition]]\nnumber = 2\nname = "renamed"\n[[partition]]\nnumber = 4\n'
                  b'type = "linux"\nsize = "1MiB"\n')
    count = 0
    for name, image, _ in starts(program):
        old = entries_of(Image(image).table())
        for words in commands_of(name):
            program.write(IMAGE, image)
            count += stop_each(tally, program, f"{' '.join(words)} from {name}", words, (image, old))
    return f"{count} states"


def stop_each(tally, program, what, words, start):
    """Counts whether each state that a stop of a command may leave gives the old table or the new one."""
    image, old = start
    path = os.path.realpath(program.file(IMAGE))
    status, out, events = recording.record([program.path, *[program.file(word) if word in (IMAGE, "stops.toml")
                                                             else word for word in words]], "", path,
                                           program.file("trace"))
    tally.equals(f"the status of {what}: {out}", 0, status)
    tally.holds(f"{what} writes something", events)
    new = entries_of(Image(program.bytes_of(IMAGE)).table())
    tally.holds(f"{what} leaves a table, or none after wipe", (new is None) == (words[0] == "wipe"))
    count, lost = 0, []
    for _, text, state in Enumeration(image, events, mixtures=1).states():
        count += 1
        if entries_of(state.table()) not in (old, new):
            lost.append(text)
    tally.equals(f"states of {what} that lose the table, of {count}", [], lost[:3])
    return count


SUBJECTS = {"stops": try_stops, "kills": try_kills, "system calls that fail": try_failures,
            "system calls of new that fail": try_new, "reads that fail": try_reads}
