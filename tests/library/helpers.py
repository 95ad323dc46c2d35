"""The helpers, gptman_fd.h and the Python package: disks of every length, tables that lead astray, calls of the
system that fail, and two writers at once."""
import fcntl
import os
import random
import struct
import subprocess
import sys
import time
import zlib

from harness import table
from built import TOP
from calls import LINUX, module, start
from examples import in_rust
from handles import HOWS, LIMIT, OverC, OverPython, SANITIZED, both, quick_folder

GUID = "33221100-5544-7766-8899-aabbccddeeff"
OTHER = "00000000-1111-2222-3333-444444444444"
FILL = b"\xa5"


def entry_at(first, last, number=1):
    """An entry for Linux."""
    return table.Entry(str(LINUX), f"{number:08x}-0000-4000-8000-000000000001", first, last, 0, "")


def put_file(path, data):
    with open(path, "wb") as file:
        file.write(data)


def data_of(path):
    with open(path, "rb") as file:
        return file.read()


def array_sectors(count, sector):
    return -(-count * 128 // sector)


def new_answer(size, sector, count):
    """What a new table is answered with, from docs/FAULTS.md."""
    array, sectors = array_sectors(count, sector), size // sector
    if not sectors:
        return "BadArgument"
    return "Overflow" if sectors < array + 2 else "InvalidPartitionBoundaries" if sectors < 2 * array + 3 else "Ok"


def mbr_answer(size, sector):
    return "Overflow" if size < sector else "Ok"


COUNTS = 1, 4, 13, 33, 64, 128, 200
ODD = 4, 128


def lengths_of(count, sector):
    """Lengths from 0 to twice the least disk: each number of sectors, and some bytes beside it."""
    least = 2 * array_sectors(count, sector) + 3
    for sectors in range(2 * least + 1):
        yield sectors * sector
        if count in ODD:
            yield sectors * sector + 1
            yield sectors * sector + sector - 1


def try_lengths(tally, library, program):
    """A new table, readings, writes, fitting and an MBR on disks of every length about the least, each within a limit
    of time. What is right comes from docs/FORMAT.md and docs/FAULTS.md, and is read by the reader of the tests."""
    disks = 0
    with quick_folder(program) as folder:
        for handle in both(library, module()):
            path = os.path.join(folder, "length.img")
            for sector in 512, 4096:
                for count in COUNTS:
                    for size in lengths_of(count, sector):
                        what = f"{handle.name}: {count} entries on {size} bytes with sectors of {sector}"
                        try_length(tally, what, handle, path, sector, count, size)
                        disks += 1
            tally.equals(f"the status of {handle.name}", 0, handle.close())
    return (f"{disks} disks; left out: other numbers of entries than {' '.join(map(str, COUNTS))}, and but for "
            f"{' and '.join(map(str, ODD))} lengths that are no whole sectors")




def try_length(tally, what, handle, path, sector, count, size):
    put_file(path, FILL * size)
    handle.open(path, sector)
    wanted = new_answer(size, sector, count)
    tally.equals(f"a new table, {what}", wanted, handle.new(path, sector, GUID, count))
    if wanted != "Ok":
        tally.holds(f"its bytes stay, {what}", data_of(path) == FILL * size)
        tally.holds(f"nothing is read, {what}", handle.read()[0] in ("InvalidSignature", "ReadError"))
        tally.holds(f"no copy is found, {what}", "ok" not in handle.check())
        tally.holds(f"nothing is fitted, {what}", handle.fit() in ("InvalidSignature", "ReadError"))
    else:
        try_table(tally, what, handle, path, sector, count, size)
    before = data_of(path)
    wanted = mbr_answer(size, sector)
    tally.equals(f"an MBR, {what}", wanted, handle.mbr())
    mbr = table.mbr_bytes(size, sector) if wanted == "Ok" else before[446:512]
    tally.holds(f"the bytes of an MBR, {what}", data_of(path) == before[:446] + mbr + before[512:])


def try_table(tally, what, handle, path, sector, count, size):
    """What can be done with the new table."""
    array = array_sectors(count, sector)
    made = table.Table(GUID, 2 + array, size // sector - array - 2, count, {})
    tally.equals(f"both copies, {what}", (made, made), table.read_copies(path, sector))
    tally.equals(f"what is read, {what}", ("Ok", made), handle.read())
    tally.equals(f"both copies are told, {what}", "primary ok\nbackup ok\nsame yes\n", handle.check())
    entry = entry_at(made.first, made.first)
    wanted = "Ok" if made.first <= made.last else "InvalidPartitionBoundaries"
    tally.equals(f"a write, {what}", wanted, handle.write(count, entry))
    made = made._replace(entries={count: entry} if wanted == "Ok" else {})
    tally.equals(f"both copies after it, {what}", made, table.read(path, sector))
    handle.read()
    longer = size + size // sector % 5 * sector
    os.truncate(path, longer)
    tally.equals(f"fitting to {longer}, {what}", "Ok", handle.fit())
    made = made._replace(last=longer // sector - array - 2)
    tally.equals(f"both copies after that, {what}", made, table.read(path, sector))
    tally.equals(f"what is read then, {what}", ("Ok", made), handle.read())
    os.truncate(path, size)


# Sectors of a crafted disk, and pairs for its two headers: the first sector of the entries and how many there are.
ASTRAY = [(67, (2, 128), (33, 128)), (2048, (2, 4096), (1000, 4000)), (67, (20, 100), (40, 100)),
          (68, (33, 4), (34, 4)), (100, (2, 260), (30, 260)), (300, (2, 1000), (40, 1000))]


def header_of(own, other, place, count, array_checksum, last):
    """A header with these fields and the right checksum of its own."""
    raw = table.header_bytes(own, other, table.Table(GUID, 34, last, count, {}), place, b"")
    return table.with_fields(raw, (*table.ARRAY_CRC, array_checksum))


def crafted(sectors, primary, backup, good, last):
    """A disk whose headers have right checksums, this last usable sector, and entries at these places; the copies of
    `good` have right checksums of their entries too."""
    data, end = bytearray(sectors * 512), sectors - 1
    for own, other, (place, count) in (1, end, primary), (end, 1, backup):
        at = place * 512
        checksum = zlib.crc32(data[at:at + count * 128]) if own in good else 0xdeadbeef
        data[own * 512:own * 512 + 92] = header_of(own, other, place, count, checksum, last)
    return bytes(data)


def astray(random_):
    """Crafted disks: those of the list with one good copy or none, and others at random."""
    for sectors, primary, backup in ASTRAY:
        for good in (), (1,), (sectors - 1,):
            for last in 100, sectors - 34:
                yield crafted(sectors, primary, backup, good, last)
    for _ in range(150):
        sectors = random_.randrange(36, 150)
        pairs = [(random_.randrange(2, sectors), random_.choice([1, 4, 100, 128, 129, 300])) for _ in range(2)]
        good = random_.choice([(), (1,), (sectors - 1,), (1, sectors - 1)])
        yield crafted(sectors, *pairs, good, random_.choice([100, sectors - 34]))


def try_astray(tally, library, program):
    """Disks whose headers name places within an end, across both and past the disk: every call ends, both helpers
    answer and leave the same, and a reading is that of gptimg. The example in Rust ends on them too."""
    disks, rust = 0, in_rust(library)
    with quick_folder(program) as folder:
        handles = both(library, module())
        paths = [os.path.join(folder, name) for name in ("c.img", "python.img")]
        for number, data in enumerate(astray(random.Random(11))):
            program.write("astray.img", data)
            status, out, _ = program.run("astray.img", "512", "show")
            told = [astray_answers(handle, path, data) for handle, path in zip(handles, paths)]
            what = f"crafted disk {number} of {len(data)} bytes"
            tally.equals(f"what both helpers answer and leave, {what}", *told)
            tally.equals(f"whether it is read, {what}", "Ok" if status == 0 else out.split()[1].split("(")[0],
                         told[0][0][0])
            tally.equals(f"both copies, {what}", program.run("astray.img", "512", "check")[1], told[0][1])
            if rust:
                ended = subprocess.run([rust, program.file("astray.img")], stdout=subprocess.DEVNULL,
                                       stderr=subprocess.DEVNULL, timeout=LIMIT, check=False)
                tally.equals(f"whether the example in Rust lists it, {what}", status == 0, ended.returncode == 0)
            disks += 1
        for handle in handles:
            tally.equals(f"the status of {handle.name}", 0, handle.close())
    return f"{disks} disks" + ("" if rust else ", left out: cargo")


def try_many(tally, library, program):
    """A table of more entries than an end may hold is refused at once, and one of many is read and written."""
    with quick_folder(program) as folder:
        path = os.path.join(folder, "many.img")
        for handle in both(library, module()):
            put_file(path, b"")
            os.truncate(path, 2 << 40)
            end = (2 << 40) // 512 - 1
            with open(path, "r+b") as file:
                for own, other, place in (1, end, 2), (end, 1, end - (1 << 30)):
                    file.seek(own * 512)
                    file.write(header_of(own, other, place, (1 << 32) - 1, 0, end - (1 << 30) - 1))
            handle.open(path)
            tally.equals(f"a table of 2^32 - 1 entries, {handle.name}",
                         ("LacksBytes", "fault: LacksBytes\n", "LacksBytes"),
                         (handle.read()[0], handle.check(), handle.fit()))
            tally.equals(f"a new table of 5000 entries, {handle.name}", "Ok", handle.new(path, 512, GUID, 5000))
            handle.read()
            tally.equals(f"a write of its last entry, {handle.name}", "Ok", handle.write(5000, entry_at(5000, 5000)))
            made = table.Table(GUID, 2 + 1250, end - 1251, 5000, {5000: entry_at(5000, 5000)})
            tally.equals(f"both copies of it, {handle.name}", made, table.read(path))
            tally.equals(f"what is read of it, {handle.name}", ("Ok", made), handle.read())
            tally.equals(f"the status of {handle.name}", 0, handle.close())


def mbr_of(*entries):
    """A first sector with these entries of an MBR, each a boot mark, a type and a length from sector 64 on."""
    raw = b"".join(bytes([mark, 0, 2, 0, kind, 255, 255, 255]) + struct.pack("<II", 64, length)
                   for mark, kind, length in entries)
    return bytes(446) + raw.ljust(64, b"\0") + b"\x55\xaa"


def with_data(image):
    """The image with bytes of somebody in sectors 401 to 450."""
    return image[:401 * 512] + b"\x5a" * (50 * 512) + image[451 * 512:]


def refusals_of():
    """What a disk is, its bytes, and what a write, a fit and a new table are answered with."""
    size = 512 * 512
    usual = table.image_of(table.Table(GUID, 34, 478, 128, {1: entry_at(70, 79)}), size)
    moved = table.image_of(table.Table(GUID, 66, 478, 128, {1: entry_at(70, 79)}), size, primary_at=34)
    yield "the stated layout", usual, ("Ok", "Ok", "Ok")
    yield "a disk that has grown", usual + bytes(100 * 512), ("OtherLength", "Ok", "Ok")
    yield "a disk that was cut", usual[:-10 * 512], ("OtherLength", "Ok", "Ok")
    yield "entries that were moved", moved, ("OtherLayout", "OtherLayout", "Ok")
    low = table.Table(GUID, 34, 400, 128, {1: entry_at(70, 79)})
    theirs, alike = table.image_of(low, size, backup_at=479), table.image_of(low, size)
    yield "data behind a low last sector", with_data(theirs), ("OtherLayout", "Ok", "Ok")
    yield "the same and a broken backup copy", with_data(theirs)[:-512] + bytes(512), ("OtherLayout", "Ok", "Ok")
    yield "backup entries behind a low last sector", alike, ("Ok", "Ok", "Ok")
    yield "the backup copy of these alone", alike[:512] + bytes(512) + alike[1024:], ("Ok", "Ok", "Ok")
    yield "the backup copy of these", moved[:512] + bytes(512) + moved[1024:], ("Ok", "Ok", "Ok")
    for what, entries, is_dos in (
            ("a partition of DOS", [(0, 0x83, 100)], True), ("one that is bootable", [(0x80, 7, 1)], True),
            ("one in the last entry", [(0, 0, 0)] * 3 + [(0, 0x0c, 1 << 24)], True),
            ("one of no sectors", [(0, 0x83, 0)], False), ("one of no type", [(0, 0, 100)], False),
            ("a protective entry", [(0, 0xee, 511)], False), ("a boot mark of none", [(0x12, 0x83, 100)], False),
            ("a hybrid MBR", [(0, 0xee, 63), (0x80, 0x83, 100)], False),
            ("a hybrid MBR whose last entry protects", [(0, 0x83, 100), (0, 0, 0), (0, 0, 0), (0, 0xee, 63)], False)):
        yield what, mbr_of(*entries) + usual[512:], ("DosDisk",) * 3 if is_dos else ("Ok",) * 3
    yield "one without 55 AA", mbr_of((0, 0x83, 100))[:510] + bytes(2) + usual[512:], ("Ok",) * 3


def changes_of(handle, path):
    """Each change by its name."""
    return {"a write": lambda: handle.write(2, entry_at(90, 99, 2)), "a fit": handle.fit,
            "a new table": lambda: handle.new(path, 512, OTHER, 128), "an MBR": handle.mbr}


def try_stated(tally, library, program):
    """Disks of another length than the table's, other layouts, and disks of DOS: a change is refused with the name of
    that, and writes nothing; and what is none of these is changed. A protective MBR goes over no disk of DOS. With
    the flag for it each change goes over one, and only the MBR changes the first sector."""
    disks = 0
    with quick_folder(program) as folder:
        path = os.path.join(folder, "stated.img")
        for handle in both(library, module()):
            for what, data, answers in refusals_of():
                answers += ("DosDisk" if "DosDisk" in answers else "Ok",)
                for over_dos in (False, True):
                    for (name, call), answer in zip(changes_of(handle, path).items(), answers):
                        answer = "Ok" if over_dos and answer == "DosDisk" else answer
                        try_one(tally, handle, path, data, f"{name}, {what}, {handle.name}, {over_dos}", name, call,
                                answer, over_dos)
                disks += 1
            tally.equals(f"the status of {handle.name}", 0, handle.close())
    return f"{disks} disks"


def try_one(tally, handle, path, data, what, name, call, answer, over_dos):
    """One change of one disk."""
    put_file(path, data)
    handle.open(path, over_dos=over_dos)
    handle.read()
    tally.equals(what, answer, call())
    may_stay = name in ("a fit", "an MBR") and answer == "Ok"
    tally.holds(f"whether it changes, {what}", may_stay or (data_of(path) == data) == (answer != "Ok"))
    kept = 446 if name == "an MBR" else 512
    tally.holds(f"what it leaves of the first sector, {what}", data_of(path)[:kept] == data[:kept])


def astray_answers(handle, path, data):
    """What is answered on such a disk, and what is left then."""
    put_file(path, data)
    handle.open(path)
    answers = [handle.read(), handle.check()]
    if answers[0][0] == "Ok":
        answers += [handle.same(), handle.fit()]
    left = data_of(path)
    return [*answers, handle.new(path, 512, OTHER, 128), left, data_of(path)]


TABLE_SECTORS = 64


def start_of(broken):
    """A table of 8 entries, one of them used, with this copy broken: its header or its entries."""
    end = TABLE_SECTORS - 1
    found = table.Table(GUID, 4, end - 3, 8, {1: entry_at(10, 19, 1)})
    data = table.image_of(found, TABLE_SECTORS * 512)
    places = {"primary header": 512, "primary entries": 1024, "backup header": end * 512,
              "backup entries": (end - 2) * 512}
    return table.laid(data, [(places[broken], b"\x77" * 92)] if broken else []), found


def changes(handle, path):
    """The changes of a handle: each makes it, and tells what it makes of a table."""
    def write(number, first):
        entry = entry_at(first, first + 3, number)
        return (lambda: handle.write(number, entry)), (lambda t: t._replace(entries={**t.entries, number: entry}))

    made = table.Table(OTHER, 3, TABLE_SECTORS - 3, 4, {})
    return {"a write": write, "fitting": lambda *_: (handle.fit, lambda t: t),
            "a new table": lambda *_: ((lambda: handle.new(path, 512, OTHER, made.count)), lambda t: made),
            "an MBR": lambda *_: (handle.mbr, lambda t: t)}


def points_of(counts, hows):
    """Each write that may fail, in each way, and each sync."""
    writes, syncs = counts[:2]
    return [("write", k, how) for k in range(writes) for how in hows] + [("sync", k, "nothing") for k in range(syncs)]


def try_failures(tally, library, program):
    """Each write and sync of each change fails once, and then of a second change over the same handle: a copy of the
    old table or of the new one is there, by the reader of the tests, and the handle reads it. At last a change that
    does not fail leaves both copies good."""
    runs = 0
    with quick_folder(program) as folder:
        path = os.path.join(folder, "disk.img")
        for handle in both(library, module()):
            for broken in None, "primary header", "primary entries", "backup header", "backup entries":
                for what in changes(handle, path):
                    # A new table replaces a primary copy alone; an MBR leaves both.
                    if (broken or "").startswith("primary") and what == "a new table" or broken and what == "an MBR":
                        continue
                    runs += fail_twice(tally, handle, path, broken, what)
            tally.equals(f"the status of {handle.name}", 0, handle.close())
    return f"{runs} runs"


def fail_twice(tally, handle, path, broken, what):
    """Each failure of a change, and a second one after it."""
    data, old = start_of(broken)
    change, hows = changes(handle, path)[what], HOWS if broken is None else ("nothing", "garbage")
    first, made = change(2, 30)
    begin(handle, path, data)
    tally.equals(f"{what} without a failure, {handle.name}", "Ok", first())
    new = made(old)
    points, runs = points_of(handle.calls(), hows), 0
    tally.equals(f"both copies after {what}, {handle.name}", new, table.read(path))
    for point in points:
        for second in [None] + (points if broken is None else points[::3]):
            begin(handle, path, data)
            handle.fail(*point)
            where = f"{handle.name}: {what}, {broken or 'nothing'} broken, {point} failed"
            tally.equals(f"the answer, {where}", "Io", first())
            handle.fail()
            mid = go_on(tally, handle, path, where, (old, new), second is None)
            # A second new table replaces a primary copy alone, so that a write comes behind the first.
            then, makes = (changes(handle, path)["a write"] if what == "a new table" else change)(3, 40)
            if second and mid:
                where += f", then {second}"
                handle.fail(*second)
                answer = then()
                handle.fail()
                tally.holds(f"the second answer, {where}", answer == "Io" or handle.calls()[0] == 0)
                go_on(tally, handle, path, where, (mid, makes(mid)), False)
            elif mid:
                tally.equals(f"the answer after the failure, {where}", "Ok", then())
                tally.equals(f"both copies after the failure, {where}", makes(mid), table.read(path))
            runs += 1
    return runs


def begin(handle, path, data):
    """The disk with these bytes, opened and read by the handle."""
    put_file(path, data)
    handle.open(path)
    handle.read()
    handle.fail()


def go_on(tally, handle, path, where, allowed, checks):
    """What the disk holds by now: one of these tables, by the reader of the tests and by the handle."""
    copies = table.read_copies(path)
    there = copies[0] or copies[1]
    tally.holds(f"a table that is kept, {where}: {there}", there in allowed)
    name, mine = handle.read()
    tally.equals(f"what is read, {where}", ("Ok", there), (name, mine))
    if checks:
        tally.equals(f"what is told of both copies, {where}", [copy is None for copy in copies],
                     ["fault" in line for line in handle.check().split("\n")[:2]])
    return mine if there in allowed else None


def try_dropped(tally, library, program):
    """A change syncs the disk before its first write. Where that sync drops the primary copy, as it was never stored,
    the plan is made of what is read after it, so that the copy that is left is not written first."""
    data, old = start_of(None)
    entry = entry_at(30, 33, 2)
    with quick_folder(program) as folder:
        path = os.path.join(folder, "disk.img")
        for handle in both(library, module()):
            for what in changes(handle, path):
                first, made = changes(handle, path)[what](2, 30)
                begin(handle, path, data)
                handle.fail("sync", 0)
                tally.equals(f"{what} whose first sync fails, {handle.name}", ("Io", 0), (first(), handle.calls()[0]))
                tally.holds(f"no byte is written by it, {handle.name}", data_of(path) == data)
                if what in ("a write", "fitting"):
                    begin(handle, path, data)
                    handle.fail("sync", 0, "drops")
                    tally.equals(f"{what} whose first sync drops, {handle.name}", "Io", first())
                    handle.fail()
                    go_on(tally, handle, path, f"{handle.name}: {what}, the first sync drops", (old, made(old)), True)
                    tally.equals(f"a write after that, {handle.name}", "Ok", handle.write(2, entry))
                    tally.holds(f"both copies after that, {handle.name}", table.read(path))
            tally.equals(f"the status of {handle.name}", 0, handle.close())


def try_short(tally, library, program):
    """Writes and reads that move a part are gone on with."""
    data, old = start_of(None)
    new = old._replace(entries={**old.entries, 2: entry_at(30, 33, 2)})
    with quick_folder(program) as folder:
        path = os.path.join(folder, "disk.img")
        for handle in both(library, module()):
            for kind in "write", "read":
                for number in range(4):
                    begin(handle, path, data)
                    handle.fail(kind, number, "short")
                    tally.equals(f"{kind} {number} that is short, {handle.name}", "Ok",
                                 handle.write(2, entry_at(30, 33, 2)))
                    handle.fail()
                    tally.equals(f"both copies after it, {handle.name}", new, table.read(path))
            for number in range(3):
                begin(handle, path, data)
                handle.fail("read", number)
                answers = [handle.read()[0], handle.write(2, entry_at(30, 33, 2))]
                handle.fail()
                tally.holds(f"read {number} that fails, {handle.name}: {answers}", "Io" in answers or number == 2)
                tally.equals(f"what is read after it, {handle.name}", "Ok", handle.read()[0])
            tally.equals(f"the status of {handle.name}", 0, handle.close())


def try_requests(tally, library, program):
    """Each request for memory of gptman_fd.h is refused in turn, and the same disk serves the next call. Accesses are
    watched, where the compiler can."""
    data, old = start_of(None)
    try:
        handle, note = OverC(library, *SANITIZED), None
    except subprocess.CalledProcessError:
        handle, note = OverC(library), "the compiler has no sanitizers: accesses are not watched"
    with quick_folder(program) as folder:
        path, refused = os.path.join(folder, "disk.img"), 0
        for what, make in (("open", lambda: handle.open(path)), ("read", lambda: handle.read()[0]),
                           ("check", handle.check), ("write", lambda: handle.write(2, entry_at(30, 33, 2))),
                           ("fit", handle.fit), ("an MBR", handle.mbr),
                           ("new", lambda: handle.new(path, 512, GUID, 8))):
            for number in range(20):
                begin(handle, path, data)
                handle.fail("alloc", number)
                answer = make()
                writes, _, requests = handle.calls()
                was_refused = requests > number
                handle.fail()
                # What is refused once the steps are made does not undo them.
                tally.holds(f"{what} with request {number} refused: {answer}",
                            is_done(answer) if writes or not was_refused else "OutOfMemory" in answer)
                tally.holds(f"both copies where it was written, {what}", not writes or table.read(path))
                if not was_refused:
                    break
                tally.holds(f"a table that is kept, {what}", None not in table.read_copies(path) or what == "new")
                for call in [handle.check, handle.fit, lambda: handle.read()[0], handle.same][number % 3:]:
                    tally.holds(f"a call after {what} and request {number} refused", is_done(call()))
                refused += 1
        for call in handle.check, lambda: handle.read()[0], handle.same, handle.fit, handle.mbr:
            tally.holds("a call after all requests that were refused", is_done(call()))
    tally.equals("the status, where all memory was given back", 0, handle.close())
    return f"{refused} requests refused" + (f", {note}" if note else "")


def is_done(answer):
    return answer in ("Ok", "primary ok\nbackup ok\nsame yes\n")


class Asking:
    """A library that asks again for what it has, for what is on no disk, or for more each time."""

    WAYS = {
        "bytes of the first end": lambda n, first, last, size: (first - 1, 1, 0),
        "bytes of the last end": lambda n, first, last, size: (size - last - 1, 0, 0),
        "bytes past the disk": lambda n, first, last, size: (size, 1, 0),
        "bytes past all disks": lambda n, first, last, size: (2**64 - 1, 2, 0),
        "one byte more each time": lambda n, first, last, size: (first, 1, 0),
        "room that it has": lambda n, first, last, size: (0, 0, -n),
        "more room each time": lambda n, first, last, size: (0, 0, 1),
    }

    def __init__(self, way):
        self.way, self.number = way, 0

    def __getattr__(self, name):
        return self.ask

    def ask(self, *words):
        """The answer of each call: the ends are the first words, and what is needed is the last."""
        self.number += 1
        needed = [word._obj for word in words if hasattr(word, "_obj")][-1]
        first, last, size = words[1], words[3], words[4]
        needed.from_, needed.length, room = self.WAYS[self.way](self.number, first, last, size)
        needed.steps = needed.bytes = max(self.number if room > 0 else 0, 0)
        if hasattr(getattr(words[6], "_obj", None), "entry_count"):
            words[6]._obj.entry_count = 128 + needed.steps
        return 104 if room else 103


def try_asking(tally, library, program):
    """A library that asks on and on, which is none that is known: every call ends with an answer of its own."""
    gptman = module()
    source = os.path.join(TOP, "tests", "library", "asks.c")
    program.make_image("asks.img", 1 << 20)
    path = program.file("asks.img")
    found = subprocess.run([library.compile(source, "asks"), path], stdout=subprocess.PIPE, timeout=LIMIT, check=False)
    tally.equals("what gptman_fd.h answers", [{"AsksAgain"}] * 7,
                 [set(line.split()) for line in found.stdout.decode().splitlines()])
    start(program)
    handle = OverPython(gptman)
    handle.open(program.file("disk.img"))
    handle.read()
    library_, disk = gptman._calls.library, handle.disk
    for way in Asking.WAYS:
        for call in (disk.read, disk.check, disk.plan_fit) if "room" not in way else (disk.read, disk.plan_fit):
            gptman._calls.library = Asking(way)
            disk._lengths = 0, 0
            tally.equals(f"what the Python package answers to {way}", "AsksAgain", handle.answer(call))
            gptman._calls.library = library_
    handle.close()


def try_lock(tally, library, program):
    """A disk that is opened for a change waits for the lock and holds it until it is closed; one that is opened for
    reading, or without the lock, waits for nobody."""
    gptman = module()
    add = library.compile(os.path.join(TOP, "examples", "add.c"), "add")
    start(program)
    path = program.file("disk.img")
    with open(path, "rb") as file:
        fcntl.flock(file, fcntl.LOCK_EX)
        before = data_of(path)
        waiting = [begin_add(library, add, path, 200), begin_add(library, None, path, 210)]
        for handle in both(library, gptman):
            for mode in "reading", "unlocked":
                handle.open(path, 512, mode)
                tally.equals(f"what is read while another has the lock, {handle.name} {mode}", "Ok", handle.read()[0])
                tally.equals(f"what is told of both copies then, {handle.name} {mode}",
                             "primary ok\nbackup ok\nsame yes\n", handle.check())
            tally.equals(f"a write without the lock, {handle.name}", "Ok", handle.same())
            handle.close()
        time.sleep(0.3)
        tally.equals("who goes on while another has the lock", [None, None], [process.poll() for process in waiting])
        tally.holds("what they wrote", data_of(path) == before)
        fcntl.flock(file, fcntl.LOCK_UN)
        tally.equals("their statuses then", [0, 0], [process.wait(LIMIT) for process in waiting])
        tally.equals("the partitions then", {1, 2, 3, 4}, set(table.read(path).entries))
        for handle in both(library, gptman):
            handle.open(path)
            tally.equals(f"a reading under the lock, {handle.name}", "Ok", handle.read()[0])
            tally.equals(f"a write under it, {handle.name}", "Ok", handle.same())
            tally.holds(f"the lock is held until the disk is closed, {handle.name}", not can_lock(file))
            handle.close()
            tally.holds(f"and then it is not, {handle.name}", can_lock(file))


def can_lock(file):
    """Whether nobody else has the lock."""
    try:
        fcntl.flock(file, fcntl.LOCK_EX | fcntl.LOCK_NB)
        fcntl.flock(file, fcntl.LOCK_UN)
        return True
    except BlockingIOError:
        return False


def begin_add(library, add, path, first):
    """The example in C that adds a partition, or that in Python where there is none."""
    words = [add] if add else [sys.executable, os.path.join(TOP, "examples", "add.py")]
    return subprocess.Popen([*words, path, str(first), str(first + 7), "added"], env=library.environment())


def try_writers(tally, library, program):
    """Several programs that add a partition at once, of each helper and gptimg: none is lost."""
    add = library.compile(os.path.join(TOP, "examples", "add.c"), "add")
    for turn in range(4):
        start(program)
        path = program.file("disk.img")
        writers = []
        for number in range(4):
            first = 110 + 30 * number
            writers += [begin_add(library, add, path, first), begin_add(library, None, path, first + 10)]
            words = ["add", str(100 + number), LINUX.bytes_le.hex(), f"{number:02x}" * 16, "1", "first", "1", "one"]
            writers.append(subprocess.Popen([program.path, path, "512", *words], stdout=subprocess.DEVNULL))
        tally.equals(f"the statuses of 12 writers at once, turn {turn}", [0] * 12,
                     [writer.wait(3 * LIMIT) for writer in writers])
        found = table.read(path)
        tally.equals(f"how many partitions there are, turn {turn}", 14, found and len(found.entries))


SUBJECTS = {"disks of every length": try_lengths, "headers that lead astray": try_astray,
            "tables of many entries": try_many, "other layouts and disks of DOS": try_stated,
            "failures of a write, twice": try_failures, "syncs that drop": try_dropped,
            "short reads and writes": try_short, "requests for memory": try_requests,
            "a library that asks on": try_asking, "the lock": try_lock, "writers at once": try_writers}
