"""Ten common tasks by examples/tasks.c, block devices, and the binary interface of the library."""
import ctypes
import os
import re
import subprocess

from harness import table
from harness.runs import there
from built import TOP
from calls import module, refusal, start
from package import in_package, text_of, under

MIB = 1 << 20
MOST_LINES = 75


def run(*words):
    """The status, the output and the errors of a program."""
    ended = subprocess.run(words, capture_output=True, encoding="utf-8", check=False)
    return ended.returncode, ended.stdout, ended.stderr


def faults_found(path):
    """What sgdisk and sfdisk find wrong with an image, where they are installed."""
    found = []
    if there("sgdisk"):
        status, out, _ = run("sgdisk", "-v", path)
        found += [] if status == 0 and "No problems found" in out else [out]
    if there("sfdisk"):
        status, out, errors = run("sfdisk", "--verify", path)
        found += [] if status == 0 and not errors else [out + errors]
    return found


def places_of(path):
    """The first and last sector and the name of each partition, by the reader of the tests, where both copies are one
    table."""
    found = table.read(path)
    return {number: (e.first, e.last, e.name) for number, e in found.entries.items()} if found else None


def try_tasks(tally, library, program):
    """Ten common tasks take fewer lines than this; each leaves the table that it should, in which sgdisk and sfdisk
    find no fault."""
    source = os.path.join(TOP, "examples", "tasks.c")
    tally.holds("the lines of examples/tasks.c", len(text_of("examples", "tasks.c").splitlines()) < MOST_LINES)
    tasks = library.compile(source, "tasks", language="c11")
    path = program.file("tasks.img")
    program.make_zeros("tasks.img", 64 * MIB)

    def task(wanted, *words, prints=""):
        """Counts whether a task prints this, and leaves these partitions."""
        what = " ".join(words)
        tally.equals(f"what `tasks {what}` prints", (0, prints, ""), run(tasks, path, *words))
        tally.equals(f"the partitions after `tasks {what}`", wanted, places_of(path))
        tally.equals(f"what is wrong after `tasks {what}`", [], faults_found(path))

    one, two = (2048, 6143, "one"), (6144, 8191, "größer")
    task({}, "new")
    task({}, "list")
    task({1: one}, "add", "4096", "one")
    task({1: one, 2: two}, "add", "2048", "größer")
    task({1: one, 2: two}, "list", prints="1 2048 6143 one\n2 6144 8191 größer\n")
    two = (6144, 22527, "größer")
    task({1: one, 2: two}, "resize", "2", "16384")
    two = (6144, 22527, "root")
    task({1: one, 2: two}, "name", "2", "root")
    task({2: two}, "remove", "1")
    task({1: one, 2: two}, "add", "4096", "one")
    was = table.read(path)
    task({1: one, 2: two}, "guids")
    now = table.read(path)
    tally.holds("each GUID is another", all(now.entries[k].guid != was.entries[k].guid for k in (1, 2)))
    tally.equals("all else", was, now._replace(entries={k: now.entries[k]._replace(guid=was.entries[k].guid)
                                                       for k in (1, 2)}))
    task({1: one, 2: two}, "check", prints="0 0 1\n")
    for at in 512, 64 * MIB - 512:
        program.flip("tasks.img", at + 20)
        faults = "5 0" if at == 512 else "0 5"
        tally.equals("check of a broken copy", (0, f"{faults} 0\n", ""), run(tasks, path, "check"))
        task({1: one, 2: two}, "repair")
        tally.equals("what both copies are", now, table.read(path))
    os.truncate(path, 100 * MIB)
    tally.equals("a longer image", (1, "", "tasks: OtherLength\n"), run(tasks, path, "repair"))
    task({1: one, 2: two}, "grow")
    tally.equals("the last usable sector", 100 * MIB // 512 - 34, table.read(path).last)
    try_refused(tally, tasks, path)
    return None if there("sgdisk") and there("sfdisk") else "sgdisk or sfdisk is not installed"


def try_refused(tally, tasks, path):
    """What a task is refused with; nothing is written then."""
    with open(path, "rb") as file:
        before = file.read()
    for words, name in ((["remove", "0"], "InvalidPartitionNumber"), (["name", "129", "x"], "InvalidPartitionNumber"),
                        (["name", "1", "x" * 37], "BadArgument"), (["other", "1"], "BadArgument"),
                        (["resize", "1", "4097"], "InvalidPartitionBoundaries"),
                        (["resize", "1", "0"], "InvalidPartitionBoundaries"),
                        (["add", str(1 << 40), "x"], "NoSpaceLeft")):
        tally.equals(f"the refusal of {words}", (1, "", f"tasks: {name}\n"), run(tasks, path, *words))
    with open(path, "rb") as file:
        tally.holds("refusals write nothing", file.read() == before)
    status, _, errors = run(tasks, path + ".missing", "list")
    tally.holds(f"the refusal of a missing image: {errors}", status == 1 and errors.startswith("tasks: "))


def try_devices(tally, library, program):
    """The sector size that a block device reports, and the command by which the kernel is told, on loop devices."""
    gptman = module()
    start(program)
    tally.equals("the sector size of a file that is to report it", "BadArgument",
                 refusal(gptman, lambda: gptman.Disk(program.file("disk.img"), 0)))
    if os.geteuid() or not there("losetup"):
        return "left out: this user makes no loop devices"
    shows = library.compile(os.path.join(TOP, "examples", "list.c"), "list")
    add = library.compile(os.path.join(TOP, "examples", "add.c"), "add")
    for sector in 512, 4096:
        program.make_zeros("device.img", 8 * MIB)
        program.run("device.img", str(sector), "new", "00112233445566778899aabbccddeeff")
        program.run("device.img", str(sector), "add", "1", "af3dc60f838472478e793d69d8477de4", "10" * 16, "8", "first",
                    "256", "one")
        status, device, errors = run("losetup", "-f", "--show", "-b", str(sector), program.file("device.img"))
        if status:
            return f"left out: {errors}"
        device = device.strip()
        try:
            tally.equals(f"what is listed with the sectors that it reports, {sector}", (0, "1 256 263 one\n", ""),
                         run(shows, device, "0"))
            with gptman.Disk(device, 0) as disk:
                tally.equals("what the package takes", (sector, [1]), (disk.sector_size, list(disk.partitions)))
            tally.equals("both copies", (None, None, True), gptman.check(device, 0))
            if sector == 512:
                tally.equals("what is said after a change", (0, "", f"`partx -u {device}` tells the kernel\n"),
                             run(add, device, "300", "309", "two"))
                tally.equals("what it wrote", [1, 2], list(table.read(device).entries))
        finally:
            run("losetup", "-d", device)
    return None


def header_places(path, is_backup):
    """The sectors of both copies by the header of one, as docs/FORMAT.md has it."""
    descriptor = os.open(path, os.O_RDONLY)
    try:
        image = table.File(descriptor)
        found = table.copy_at(image, 512, image.size // 512 - 1 if is_backup else 1)
    finally:
        os.close(descriptor)
    own, other = (found.own, found.at), (found.other, 2 if is_backup else found.last + 1)
    return (*other, *own) if is_backup else (*own, *other)


def try_places(tally, library, program):
    """A table has the sectors of both copies, by the header that was read; reserved fields are zeros."""
    gptman, path = module(), program.file("disk.img")
    low = table.Table("33221100-5544-7766-8899-aabbccddeeff", 66, 400, 100, {})
    images = {"of gptimg": None, "that was moved": table.image_of(low, 512 * 512, primary_at=34),
              "of 100 entries": table.image_of(low, 512 * 512)}
    for what, data in images.items():
        for is_backup in False, True:
            start(program)
            if data:
                program.write("disk.img", data)
            wanted = header_places(path, is_backup)
            if is_backup:
                program.flip("disk.img", 512 + 20)
            with gptman.Disk(path) as disk:
                tally.equals(f"the places of a table {what}, {is_backup}", (is_backup, *wanted), (
                    disk.is_backup, disk.primary_header_lba, disk.primary_entries_lba, disk.backup_header_lba,
                    disk.backup_entries_lba))
    start(program)
    data, calls = program.bytes_of("disk.img"), gptman._calls
    found, copies, needed = (kind.from_buffer_copy(b"\xff" * ctypes.sizeof(kind))
                             for kind in (calls.Table, calls.Copies, calls.Needed))
    entries = (calls.Entry * 128)()
    tally.equals("a read into a table of ones", 0, calls.call(
        "read", data, len(data), b"", 0, len(data), 512, ctypes.byref(found), entries, 128, ctypes.byref(needed)))
    tally.equals("a check into one of ones", 0, calls.call(
        "check", data, len(data), b"", 0, len(data), 512, ctypes.byref(copies), ctypes.byref(needed)))
    tally.equals("the reserved fields", ([0] * 6, [0] * 5), (list(found.reserved), list(copies.reserved)))
    tally.equals("the sizes of both", (128, 32), (ctypes.sizeof(found), ctypes.sizeof(copies)))


def try_interface(tally, library, program):
    """The number of the binary interface is that of gptman.h, and the package takes no other library. A name of an
    answer needs room for its final zero."""
    gptman = module()
    number = int(re.search(r"GPTMAN_ABI = (\d+)", text_of("include", "gptman.h"))[1])
    tally.equals("the binary interface", (1, 1), (number, gptman._calls.call("abi")))
    names = "".join(f"int gptman_{name}(void) {{ return 2; }}\n" for name in gptman._calls.CALLS)
    program.write("other.c", names.encode())
    other = program.file("other.so")
    subprocess.run(["cc", "-shared", "-fPIC", "-o", other, program.file("other.c")], check=True)
    ended = in_package(os.path.join(TOP, "python"), "-c", "import gptman", GPTMAN_LIBRARY=other)
    tally.contains("an import over another interface", "has the binary interface 2, not 1", ended.out)
    longest = int(re.search(r"GPTMAN_FAULT_NAME_SIZE = (\d+)", text_of("include", "gptman.h"))[1])
    for answer, name in names_of_answers():
        for size in 0, len(name) - 1, len(name), len(name) + 1, longest:
            room = ctypes.create_string_buffer(b"x" * 40, 40)
            told = gptman._calls.call("fault_name", answer, room, size)
            fits = size > len(name)
            tally.equals(f"the name of {answer} in {size} bytes", (0, name + b"\0" + b"x" * (39 - len(name))) if fits
                         else (104, b"x" * 40), (told, room.raw))


def names_of_answers():
    """The answers in gptman.h with their names, as docs/FAULTS.md and docs/LIBRARY.md have them, and others."""
    documents = text_of("docs", "FAULTS.md") + text_of("docs", "LIBRARY.md")
    known = {under(name): name for name in [*re.findall(r"`(\w+)`", documents), "Ok"]}
    constants = re.findall(r"^    GPTMAN_(?:FD_)?(\w+) = (\d+)", text_of("include", "gptman.h"), re.M)
    for constant, answer in constants:
        yield int(answer), known[constant].encode()
    for answer in 17, 99, 106, 149, 151, 1 << 31, (1 << 32) - 1:
        yield answer, b"Unknown"


SUBJECTS = {"ten common tasks": try_tasks, "block devices": try_devices, "the places of both copies": try_places,
            "the binary interface": try_interface}
