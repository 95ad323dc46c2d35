"""The calls, by the module for Python: damaged images, plans that stop, and what is refused."""
import ctypes
import importlib
import os
import random
import re
import shutil
import subprocess
import sys
import uuid

from harness import table
from harness.runs import there
from built import TOP

LINUX = uuid.UUID("0fc63daf-8483-4772-8e79-3d69d8477de4")
SECTORS = 512
SIZE = 512 * SECTORS
DAMAGED = 1500


def module():
    """The module for Python, over the library that is tried."""
    sys.path.insert(1, os.path.join(TOP, "python"))
    return importlib.import_module("gptman")


def start(program, name="disk.img"):
    """An image with a table of two partitions."""
    program.make_image(name, SIZE)
    program.run(name, "512", "new", "00112233445566778899aabbccddeeff")
    program.run(name, "512", "add", "1", "af3dc60f838472478e793d69d8477de4", "10" * 16, "64", "first", "8", "one")
    program.run(name, "512", "add", "3", "af3dc60f838472478e793d69d8477de4", "20" * 16, "32", "last", "8", "two")


def damage(random_, data):
    """The bytes of an image with something else in or near its copies."""
    data = bytearray(data)
    places = [512, 1024, SIZE - 512, SIZE - 33 * 512]
    for _ in range(random_.choice([1, 1, 1, 2, 3])):
        at = min(random_.choice(places) + random_.randrange(random_.choice([4, 92, 92, 600])), SIZE - 8)
        kind = random_.randrange(4)
        if kind == 0:
            data[at] ^= 1 << random_.randrange(8)
        elif kind == 1:
            data[at:at + 8] = random_.randbytes(8)
        elif kind == 2:
            end = at + random_.randrange(1, 4096)
            data[at:end] = bytes(len(data[at:end]))
        else:
            sum_header(random_, data)
    return bytes(data[:SIZE])


def sum_header(random_, data):
    """Another field in a header, with its checksum made anew."""
    at = random_.choice([512, SIZE - 512])
    field = random_.choice([24, 32, 40, 48, 72, 80, 84])
    form, most = ("<I", (1 << 32) - 1) if field >= 80 else ("<Q", (1 << 64) - 1)
    value = random_.choice([0, 1, 2, 34, 128, 1000, most, random_.randrange(600)])
    data[at:at + 92] = table.with_fields(data[at:at + 92], (field, form, value))


def told(gptman, path):
    """What the module tells of an image, as gptimg shows it, or the fault's name."""
    try:
        with gptman.Disk(path) as disk:
            return shown(disk)
    except gptman.Fault as fault:
        return fault.name


def read_left(tally, gptman, program):
    """What the module tells of what a stop left, without its form; and that gptimg and sfdisk tell the same."""
    found = without_form(told(gptman, program.file("left.img")))
    status, out, _ = program.run("left.img", "512", "show")
    theirs = "".join(f"{line.rstrip()}\n" for line in out.splitlines()) if status == 0 else fault_in(out)
    tally.equals("what gptimg reads of it", without_form(theirs), found)
    if there("sfdisk"):
        tally.equals("what sfdisk reads of it", places_in(found), read_by_sfdisk(program))
    return found


def places_in(lines):
    """The number, first and last sector of each partition, of the lines of a table."""
    rows = [line.split(" ") for line in lines.splitlines()[1:]]
    return {(int(row[0]), *map(int, row[3].split(".."))) for row in rows}


def read_by_sfdisk(program):
    """The same of what sfdisk dumps of what a stop left, with a protective MBR, without which it looks for no table."""
    path = program.file("judged.img")
    shutil.copyfile(program.file("left.img"), path)
    program.run("judged.img", "512", "mbr", "plain")
    text = subprocess.run(["sfdisk", "-d", path], capture_output=True, text=True).stdout
    rows = re.findall(r"^%s(\d+) : start= *(\d+), size= *(\d+)," % re.escape(path), text, re.MULTILINE)
    return {(int(number), int(first), int(first) + int(size) - 1) for number, first, size in rows}


def states_in(count):
    """What is told of so many states, and who did not judge them."""
    return f"{count} states" + ("" if there("sfdisk") else "; sfdisk is not there to judge them")


def shown(disk):
    """The table as the lines of `gptimg IMAGE 512 show`."""
    form = ("primary", "backup")[disk.is_backup]
    lines = [f"sector 512 form {form} disk {disk.disk_guid.bytes_le.hex()} usable {disk.first_usable_lba}.."
             f"{disk.last_usable_lba} entries {disk.entry_count} align {disk.align}"]
    lines += [f"{number} {p.type_guid.bytes_le.hex()} {p.unique_guid.bytes_le.hex()} {p.first_lba}..{p.last_lba} "
              f"{p.attributes:016x} {p.name}".rstrip() for number, p in disk.partitions.items()]
    return "".join(f"{line}\n" for line in lines)


def try_damaged(tally, library, program):
    """What is read of damaged images is what gptimg reads. Its `form` is what the header says of itself, so the
    copies of the image are its measure for that."""
    gptman, random_ = module(), random.Random(5)
    start(program)
    good, refused, backups = program.bytes_of("disk.img"), 0, 0
    for number in range(DAMAGED):
        program.write("damaged.img", damage(random_, good))
        ours = told(gptman, program.file("damaged.img"))
        status, out, _ = program.run("damaged.img", "512", "show")
        theirs = "".join(f"{line.rstrip()}\n" for line in out.splitlines()) if status == 0 else fault_in(out)
        if status == 0:
            ours, theirs = without_form(ours), without_form(theirs)
        else:
            refused += 1
        backups += " form backup " in out
        tally.equals(f"what is read of damaged image {number}", theirs, ours)
        tally.equals(f"what is told of both copies of damaged image {number}",
                     program.run("damaged.img", "512", "check")[1], checked(gptman, program.file("damaged.img")))
    return f"{refused} refused, {backups} from the backup copy"


def checked(gptman, path, sector=512):
    """What the module tells of both copies of an image, as the lines of `gptimg IMAGE SECTOR check`."""
    try:
        copies = gptman.check(path, sector)
    except gptman.Fault as fault:
        return f"fault: {fault.name}\n"
    lines = [f"{place} fault {name}" if name else f"{place} ok"
             for place, name in (("primary", copies.primary_fault), ("backup", copies.backup_fault))]
    return "".join(f"{line}\n" for line in lines + [f"same {('no', 'yes')[copies.are_same]}"])


def try_copies(tally, library, program):
    """What is told of both copies is what gptimg tells, also of copies that are not one table, of short images and of
    other sectors."""
    gptman, over_fd = module(), by_descriptor(library)
    start(program)
    good = program.bytes_of("disk.img")
    program.run("disk.img", "512", "add", "2", "af3dc60f838472478e793d69d8477de4", "30" * 16, "8", "first", "8", "new")
    other = program.bytes_of("disk.img")
    images = {"good": good, "of two tables": good[:SIZE // 2] + other[SIZE // 2:], "longer": good + bytes(SIZE),
              "empty": b"", "below a sector": bytes(100), "one sector": good[:512], "two sectors": good[:1024],
              "turned": turned(good)}
    path = program.file("other.img")
    for what, data in images.items():
        program.write("other.img", data)
        for sector in 512, 1024, 2048, 4096:
            wanted = program.run("other.img", str(sector), "check")[1]
            what_of = f"both copies of an image that is {what}, with sectors of {sector}"
            tally.equals(what_of, wanted, checked(gptman, path, sector))
            tally.equals(f"{what_of}, over a file descriptor", wanted, printed(over_fd, path, str(sector), "check"))
    with gptman.Disk(program.file("disk.img")) as disk:
        tally.equals("the copies of an open disk", (None, None, True), disk.check())
    for sector in 0, 1, 256, 511, 520, 8192, 1 << 20, 1 << 63:
        tally.equals(f"both copies with sectors of {sector}", ("BadArgument", "fault: BadArgument\n"), (
            refusal(gptman, lambda: gptman.check(path, sector)), printed(over_fd, path, str(sector), "check")))
    if not there("sgdisk"):
        return "sgdisk is not installed: long tables are left out"
    program.make_image("long.img", 64 << 20)
    path = program.file("long.img")
    subprocess.run(["sgdisk", "-S", "1000", path], check=True, stdout=subprocess.DEVNULL, stderr=subprocess.DEVNULL)
    tally.equals("both copies of a table of 1000 entries", (None, None, True), gptman.check(path))
    tally.equals("both copies of it, over a file descriptor", "primary ok\nbackup ok\nsame yes\n",
                 printed(over_fd, path, "512", "check"))


def turned(data):
    """The image with its headers each in the place of the other."""
    return data[:512] + data[-512:] + data[1024:-512] + data[512:1024]


def by_descriptor(library):
    """The program fd.c, which makes the calls of gptman_fd.h."""
    return library.compile(os.path.join(TOP, "tests", "library", "fd.c"), "fd")


def printed(*words):
    """What a program prints."""
    return subprocess.run(words, stdout=subprocess.PIPE, check=False).stdout.decode()


def try_mbr(tally, library, program):
    """A protective MBR is that of gptimg, byte for byte, and so is what is refused; the call itself takes sectors of
    any size."""
    gptman, over_fd = module(), by_descriptor(library)
    calls, room = ctypes.CDLL(os.environ["GPTMAN_LIBRARY"]), ctypes.create_string_buffer(66)
    sizes = [0, 100, 511, 512, 513, 1024, 4095, 4096, SIZE, 1 << 20, (1 << 41) - 512, (1 << 41) + 512, (1 << 41) + 1024]
    for size in sizes:
        for sector in 512, 1024, 2048, 4096:
            for kind in "plain", "bootable":
                what = f"an MBR ({kind}) on {size} bytes with sectors of {sector}"
                wanted = with_mbr(program, size, lambda path: printed(program.path, path, str(sector), "mbr", kind))
                tally.equals(what, wanted, with_mbr(
                    program, size, lambda path: mbr_by_module(gptman, path, sector, kind)))
                tally.equals(f"{what}, over a file descriptor", wanted, with_mbr(
                    program, size, lambda path: printed(over_fd, path, str(sector), kind)))
        for sector in 1, 91, 520, 1 << 20:
            words = str(sector), "mbr", "plain"
            out, data, _ = with_mbr(program, size, lambda path: printed(program.path, path, *words))
            wanted = data[446:512] if out == "ok\n" else fault_in(out)
            answer = calls.gptman_mbr(ctypes.c_uint64(size), ctypes.c_uint64(sector), 0, room, ctypes.c_size_t(66))
            tally.equals(f"the bytes of an MBR on {size} bytes with sectors of {sector}", wanted,
                         gptman.Error.of(answer).name if answer else room.raw)
    start(program)
    with gptman.Disk(program.file("disk.img"), writable=True) as disk:
        disk.write_mbr(bootable=True)
        disk.sector_size = 0
        tally.equals("an MBR for sectors of no bytes", "BadArgument", refusal(gptman, disk.write_mbr))
    tally.equals("byte 446 of a bootable disk", 0x80, program.bytes_of("disk.img")[446])


def with_mbr(program, size, write):
    """What is printed of the write of an MBR to a sparse image, and the image's first bytes and length then."""
    path = program.file("mbr.img")
    program.write("mbr.img", (b"\xa5" * 600)[:size])
    os.truncate(path, size)
    told_of_it = write(path)
    with open(path, "rb") as image:
        return told_of_it, image.read(4096), image.seek(0, os.SEEK_END)


def mbr_by_module(gptman, path, sector, kind):
    """Writes an MBR by the module. Gives the line that gptimg prints."""
    with gptman._disk._File(path, sector, True) as file:
        fault = refusal(gptman, lambda: file.write_mbr(kind == "bootable"))
    return f"fault: {fault}\n" if fault else "ok\n"


def fault_in(line):
    """The name in the line `fault: NAME` or `fault: NAME(..)`."""
    return line.split()[1].split("(")[0]


def without_form(lines):
    """The lines without the form that the first one tells."""
    words = lines.split(" ")
    return " ".join(words[:3] + words[4:]) if len(words) > 4 else lines


def try_stops(tally, library, program):
    """A stop before, after and within each step leaves the old table or the new one, from both copies good and
    from either one."""
    gptman, random_ = module(), random.Random(6)
    start(program)
    whole, states = program.bytes_of("disk.img"), 0
    for what, at in ("both copies", None), ("the primary copy", SIZE - 512), ("the backup copy", 512):
        image = bytearray(whole)
        if at is not None:
            image[at:at + 512] = bytes(512)
        program.write("disk.img", bytes(image))
        old, new, steps, data = plan(gptman, program)
        tally.equals(f"the syncs among the steps from {what}", [1, 1], syncs_in(steps))
        for after in range(len(steps) + 1):
            for torn in range(8):
                program.write("left.img", bytes(left(random_, image, steps, data, after, torn)))
                found = read_left(tally, gptman, program)
                states += 1
                tally.holds(f"the old table or the new one from {what}, stop {after}.{torn}: {found}",
                            found in (old, new))
        program.write("left.img", bytes(left(random_, image, steps, data, len(steps), 0)))
        copies = table.read_copies(program.file("left.img"))
        tally.holds(f"both copies hold the new table at the end, from {what}", copies[0] and copies[0] == copies[1])
    return states_in(states)


def syncs_in(steps):
    """How many syncs there are, and how many at the end."""
    kinds = [kind for kind, *_ in steps]
    return [kinds[:-1].count(2), kinds[-1:].count(2)]


def plan(gptman, program):
    """The table of an image, another one, and the steps that write it."""
    with gptman.Disk(program.file("disk.img"), writable=True) as disk:
        old = without_form(shown(disk))
        disk.partitions[2] = gptman.Partition(LINUX, 200, 300, "three", 1 << 63)
        disk.partitions[1].name = "another"
        return old, without_form(shown(disk_sorted(disk))), *disk.plan()


def disk_sorted(disk):
    """The disk with its partitions in the order of their numbers."""
    disk.partitions = dict(sorted(disk.partitions.items()))
    return disk


def left(random_, image, steps, data, after, torn):
    """What a stop leaves of an image after so many steps: of the writes since the last sync each byte or none,
    some, or garbage; and of the next one too."""
    made = bytearray(image)
    synced = max([0] + [i + 1 for i in range(after) if steps[i][0] == 2])
    for i, (kind, offset, begin, end) in enumerate(steps[:after + 1]):
        if kind == 2:
            continue
        new = data[begin:end]
        if i >= synced and torn:
            old = made[offset:offset + len(new)]
            cut = random_.randrange(len(new) + 1)
            new = [new[:cut] + bytes(old[cut:]), bytes(old[:cut]) + new[cut:], random_.randbytes(len(new)),
                   bytes(old)][torn % 4]
        elif i == after:
            continue
        made[offset:offset + len(new)] = new
    return made


def try_new(tally, library, program):
    """New tables are those of gptimg and gptedit, byte for byte; one that is there is not lost."""
    gptman, random_ = module(), random.Random(7)
    guid = uuid.UUID(bytes_le=bytes.fromhex("00112233445566778899aabbccddeeff"))
    for size, sector in (SIZE, 512), (1 << 20, 512), (51200, 512), (1 << 20, 4096), (1 << 20, 1024):
        program.make_image("theirs.img", size)
        program.make_image("ours.img", size)
        program.run("theirs.img", str(sector), "new", guid.bytes_le.hex())
        gptman.Disk.create(program.file("ours.img"), sector, guid).close()
        tally.holds(f"a new table on {size} bytes with sectors of {sector}",
                    program.bytes_of("ours.img") == program.bytes_of("theirs.img"))
    for count, first in (1, 3), (56, 16), (128, 34), (129, 35):
        program.make_image("ours.img", SIZE)
        with gptman.Disk.create(program.file("ours.img"), disk_guid=guid, entry_count=count) as disk:
            tally.equals(f"a new table of {count} entries", (first, count), (disk.first_usable_lba, disk.entry_count))
        tally.equals(f"both copies of it ({count})", count, table.read(program.file("ours.img")).count)
    start(program)
    image = program.bytes_of("disk.img")
    with gptman.Disk(program.file("disk.img"), writable=True) as disk:
        old = without_form(shown(disk))
        steps, data = disk._plan_new(guid, 56)
    program.write("left.img", image)
    gptman.Disk.create(program.file("left.img"), disk_guid=guid, entry_count=56).close()
    new = without_form(told(gptman, program.file("left.img")))
    for after in range(len(steps) + 1):
        for torn in range(8):
            program.write("left.img", bytes(left(random_, image, steps, data, after, torn)))
            found = read_left(tally, gptman, program)
            tally.holds(f"the old table or the new one, stop {after}.{torn} of a new one", found in (old, new))
    rows = [("Overflow", 512 * 33, 128), ("InvalidPartitionBoundaries", 512 * 34, 128), ("BadArgument", SIZE, 0),
            ("BadArgument", 100, 128)]
    for name, size, count in rows:
        program.make_image("small.img", size)
        was = program.bytes_of("small.img")
        tally.equals(f"a new table of {count} entries on {size} bytes", name, refusal(
            gptman, lambda: gptman.Disk.create(program.file("small.img"), entry_count=count)))
        tally.holds("its bytes stay", program.bytes_of("small.img") == was)


def try_fits(tally, library, program):
    """A table on an image that has become longer or shorter: the steps leave the bytes that `grow` of gptimg leaves,
    and a stop before, after and within each leaves the old table or the fitted one."""
    gptman, random_ = module(), random.Random(9)
    start(program)
    grow = library.compile(os.path.join(TOP, "examples", "grow.c"), "grow")
    whole, states = program.bytes_of("disk.img"), 0
    for size in SIZE + 512, SIZE + 100, 2 * SIZE, 9 * SIZE + 511, SIZE, SIZE - 512, SIZE - 7 * 512:
        image = whole[:size] + random_.randbytes(max(size - SIZE, 0))
        for name in "disk.img", "theirs.img", "ours.img", "grown.img":
            program.write(name, image)
        tally.equals(f"the status of grow on {size} bytes", 0, program.run("theirs.img", "512", "grow")[0])
        tally.equals(f"the status of the example on {size}", 0, subprocess.call([grow, program.file("grown.img")]))
        tally.holds(f"what the example leaves on {size}",
                    program.bytes_of("grown.img") == program.bytes_of("theirs.img"))
        with gptman.Disk(program.file("disk.img"), writable=True) as disk:
            old = without_form(shown(disk))
            steps, data = disk.plan_fit()
        with gptman.Disk(program.file("ours.img"), writable=True) as disk:
            disk.fit()
            new = without_form(shown(disk))
        tally.holds(f"the bytes that grow leaves on {size}",
                    program.bytes_of("ours.img") == program.bytes_of("theirs.img"))
        tally.equals(f"the syncs among the steps on {size} bytes", [1, 1], syncs_in(steps))
        tally.holds(f"the steps alone leave them on {size}",
                    bytes(left(random_, image, steps, data, len(steps), 0)) == program.bytes_of("theirs.img"))
        for after in range(len(steps) + 1):
            for torn in range(8):
                program.write("left.img", bytes(left(random_, image, steps, data, after, torn)))
                found = read_left(tally, gptman, program)
                states += 1
                tally.holds(f"the old table or the fitted one on {size} bytes, stop {after}.{torn}: {found}",
                            found in (old, new))
    return states_in(states)


def try_fit_refusals(tally, library, program):
    """What is refused of fitting is what grow refuses, and nothing is written then."""
    gptman = module()
    start(program)
    whole = program.bytes_of("disk.img")
    rows = [(SIZE - 8 * 512, whole[:SIZE - 8 * 512]), (34 * 512, whole[:34 * 512]), (33 * 512, whole[:33 * 512]),
            (SIZE, bytes(512) * 2 + whole[1024:]), (2 * SIZE, bytes(512) * 2 + whole[1024:] + bytes(SIZE))]
    for size, image in rows:
        program.write("disk.img", image)
        program.write("theirs.img", image)
        status, out, _ = program.run("theirs.img", "512", "grow")
        theirs = None if status == 0 else fault_in(out)
        tally.equals(f"what fitting is refused with on {size} bytes", theirs,
                     refusal(gptman, lambda: fit(gptman, program.file("disk.img"))))
        tally.holds(f"its bytes on {size}", program.bytes_of("disk.img") == program.bytes_of("theirs.img"))


def fit(gptman, path):
    """Fits the table of an image."""
    with gptman.Disk(path, writable=True) as disk:
        disk.fit()


def try_places(tally, library, program):
    """Places are those of a slow search, in the words of the format alone."""
    gptman, random_ = module(), random.Random(8)
    start(program)
    with gptman.Disk(program.file("disk.img")) as disk:
        for _ in range(300):
            disk.align = random_.choice([1, 2, 8, 64])
            disk.partitions = {number: gptman.Partition(LINUX, first, first + random_.randrange(60)) for number, first
                               in enumerate(random_.sample(range(34, 400), random_.randrange(6)), 1)}
            size = random_.randrange(1, 120)
            places = free_places(disk, size)
            tally.equals("the first place", min(places, default=None), disk.find_place(size))
            tally.equals("the last place", max(places, default=None), disk.find_place(size, "last"))
            best = disk.find_place(size, "best")
            tally.equals("the best place", min(places.values(), default=None), best and places.get(best))
        disk.align = 0
        tally.equals("no alignment", "BadArgument", refusal(gptman, lambda: disk.find_place(1)))
        tally.equals("no such choice", "ValueError", refusal(gptman, lambda: disk.find_place(1, "next")))


def free_places(disk, size):
    """Each place for so many sectors, with how many are free from the first multiple of its run on."""
    taken = {lba for p in disk.partitions.values() for lba in range(p.first_lba, p.last_lba + 1)}
    free = [lba for lba in range(max(disk.first_usable_lba, 1), disk.last_usable_lba + 1) if lba not in taken]
    places, known = {}, set(free)
    for lba in free:
        if lba % disk.align == 0 and all(lba + k in known for k in range(size)):
            places[lba] = slot_of(known, lba, disk.align)
    return places


def slot_of(known, lba, align):
    """How many sectors the run of this one has from its first multiple of the alignment on."""
    first, last = lba, lba
    while first - align in known and all(k in known for k in range(first - align, first)):
        first -= align
    while last + 1 in known:
        last += 1
    return last - first + 1


def text_of(units):
    """The text of 36 units, as the format has it."""
    units, text = units[:units.index(0)] if 0 in units else units, ""
    while units:
        pair = units[0] in range(0xD800, 0xDC00) and units[1:2] and units[1] in range(0xDC00, 0xE000)
        if pair:
            text += chr(0x10000 + ((units[0] - 0xD800) << 10) + units[1] - 0xDC00)
        else:
            text += "\ufffd" if units[0] in range(0xD800, 0xE000) else chr(units[0])
        units = units[2 if pair else 1:]
    return text


def try_names(tally, library, program):
    """Names as UTF-8, and what is no name."""
    gptman, random_ = module(), random.Random(10)
    calls, partition = ctypes.CDLL(os.environ["GPTMAN_LIBRARY"]), gptman._calls.Entry()
    for _ in range(400):
        units = [random_.choice([random_.randrange(32, 127), random_.randrange(65536),
                                 random_.randrange(0xD800, 0xE000)]) for _ in range(36)]
        units[random_.randrange(40) % 36] = random_.choice([0, 1])
        partition.name[:] = units
        wanted = text_of(units).encode()
        room = ctypes.create_string_buffer(b"x" * 120, 120)
        size = random_.choice([len(wanted), len(wanted) + 1, 109])
        answer = calls.gptman_get_name(ctypes.byref(partition), room, ctypes.c_size_t(size))
        if size == len(wanted):
            tally.equals("a name with no room for its zero", (104, b"x" * 120), (answer, room.raw))
        else:
            tally.equals("the text of a name", (0, wanted + b"\0" + b"x" * (119 - len(wanted))), (answer, room.raw))
        text = "".join(random_.choice(["a", "ö", "中", "🚀"]) for _ in range(random_.randrange(40)))
        before, units = bytes(partition), text.encode("utf-16-le")
        answer = calls.gptman_set_name(ctypes.byref(partition), text.encode(), ctypes.c_size_t(len(text.encode())))
        if len(units) <= 72:
            tally.equals("the units of a text", (0, units.ljust(72, b"\0")), (answer, bytes(partition.name)))
        else:
            tally.equals("a name of more than 36 units", (105, before), (answer, bytes(partition)))
    before = bytes(partition)
    for raw in b"\xff", b"a\0", b"\xed\xa0\x80", b"\xc3", b"\0":
        answer = calls.gptman_set_name(ctypes.byref(partition), raw, ctypes.c_size_t(len(raw)))
        tally.equals(f"bytes that are no name: {raw}", (105, before), (answer, bytes(partition)))


def try_refusals(tally, library, program):
    """What is refused, and that nothing is written then."""
    gptman = module()
    start(program)
    good = program.bytes_of("disk.img")
    rows = [("ConflictPartitionGUID", lambda d: d.partitions.update({2: d.partitions[1]})),
            ("InvalidPartitionBoundaries", lambda d: d.partitions.update({2: gptman.Partition(LINUX, 9, 5)})),
            ("InvalidPartitionBoundaries", lambda d: d.partitions.update({2: gptman.Partition(LINUX, 40, 41)})),
            ("InvalidPartitionBoundaries", lambda d: d.partitions.update({2: gptman.Partition(LINUX, 33, 33)})),
            ("InvalidPartitionBoundaries", lambda d: d.partitions.update({2: gptman.Partition(LINUX, 200, 1 << 63)}))]
    for name, change in rows:
        with gptman.Disk(program.file("disk.img"), writable=True) as disk:
            change(disk)
            tally.equals(f"the refusal of {name}", name, refusal(gptman, disk.write))
    tally.holds("refusals write nothing", program.bytes_of("disk.img") == good)
    with gptman.Disk(program.file("disk.img"), writable=True) as disk:
        tally.equals("no entry of that number", "ValueError", refusal(gptman, lambda: other_number(gptman, disk)))
        disk.partitions.clear()
        disk.write()
    tally.equals("an empty list of partitions", {}, table.read(program.file("disk.img")).entries)
    tally.equals("no table", "InvalidSignature", refusal(gptman, lambda: gptman.Disk("/dev/null")))
    path = program.file("disk.img")
    tally.equals("a sector size of 0", "BadArgument", refusal(gptman, lambda: gptman.Disk(path, 0)))
    tally.equals("the version", (0, 1, 0), gptman.version())
    tally.equals("a checksum", 0xCBF43926, gptman.crc32(b"123456789"))


def with_remains(program):
    """An image whose first entry has a name with units behind a zero, and whose second, unused, has old fields."""
    entries = {1: table.Entry(str(LINUX), str(uuid.UUID(int=1)), 40, 49, 5, "one\0behind it"),
               2: table.Entry(str(uuid.UUID(int=0)), str(uuid.UUID(int=2)), 50, 59, 6, "removed"),
               4: table.Entry(str(LINUX), str(uuid.UUID(int=4)), 60, 69, 7, "four")}
    found = table.Table(str(uuid.UUID(int=9)), 34, SECTORS - 34, 128, entries)
    program.make_image("disk.img", SIZE)
    table.put(program.file("disk.img"), table.pieces_of(found, SIZE))
    return program.bytes_of("disk.img")


def try_kept(tally, library, program):
    """Of entries that were not touched every byte is kept, in both copies; a name that stays keeps its units."""
    gptman, path = module(), program.file("disk.img")

    def changed(what, wanted, change):
        """Counts whether a change leaves the entries with these bytes in the place of those that were there."""
        image = bytearray(with_remains(program))
        for number, at, data in wanted:
            for array in 1024, SIZE - 33 * 512:
                image[array + 128 * number - 128 + at:array + 128 * number - 128 + at + len(data)] = data
        with gptman.Disk(path, writable=True) as disk:
            change(disk)
            disk.write()
        left = program.bytes_of("disk.img")
        tally.holds(f"both copies after {what}", table.read(path))
        for array in 1024, SIZE - 33 * 512:
            tally.holds(f"the entries after {what}", image[array:array + 16384] == left[array:array + 16384])

    def move(disk):
        disk.partitions[9] = disk.partitions.pop(1)

    def with_new(disk):
        disk.partitions[2] = gptman.Partition(LINUX, 100, 100, "new", unique_guid=uuid.UUID(int=7))

    def there_and_gone(disk):
        with_new(disk)
        disk.write()
        disk.remove(2)

    first = with_remains(program)[1024:1152]
    new = table.entry_bytes(table.Entry(str(LINUX), str(uuid.UUID(int=7)), 100, 100, 0, "new"))
    attributes, nothing = (1 << 63).to_bytes(8, "little"), bytes(128)
    changed("no change", [], lambda d: None)
    changed("another attribute", [(4, 48, attributes)], lambda d: setattr(d.partitions[4], "attributes", 1 << 63))
    changed("another attribute of the first", [(1, 48, attributes)],
            lambda d: setattr(d.partitions[1], "attributes", 1 << 63))
    changed("another name", [(1, 56, "un".encode("utf-16-le").ljust(72, b"\0"))],
            lambda d: setattr(d.partitions[1], "name", "un"))
    changed("another number", [(1, 0, nothing), (9, 0, first)], move)
    changed("a removal", [(1, 0, nothing)], lambda d: d.remove(1))
    changed("a removal from the list", [(1, 0, nothing)], lambda d: d.partitions.pop(1))
    changed("a removal by None", [(1, 0, nothing)], lambda d: d.partitions.update({1: None}))
    changed("a removal of an unused entry", [(2, 0, nothing)], lambda d: d.remove(2))
    changed("a new partition in an unused entry", [(2, 0, new)], with_new)
    changed("a new partition that is removed again", [(2, 0, nothing)], there_and_gone)


def try_numbers(tally, library, program):
    """Numbers that do not fit, types of zeros, names that are none and numbers of no entry are refused, and nothing is
    written then."""
    gptman, path = module(), program.file("disk.img")
    good = with_remains(program)

    def refused(what, change):
        with gptman.Disk(path, writable=True) as disk:
            change(disk)
            for call in disk.write, disk.plan:
                tally.equals(f"a write with {what}", "ValueError", refusal(gptman, call))
        tally.holds(f"nothing is written with {what}", program.bytes_of("disk.img") == good)

    def new_at(number):
        return lambda d: d.partitions.update({number: gptman.Partition(LINUX, 200, 300)})

    for name in "first_lba", "last_lba", "attributes":
        for number in -1, -5000, 1 << 64, (1 << 64) + 5000, 1 << 200:
            refused(f"{name} of {number}", lambda d: setattr(d.partitions[4], name, number))
    for name in "\0", "a\0b", "x" * 37, "\U0001f680" * 19:
        refused(f"the name {name!r}", lambda d: setattr(d.partitions[4], "name", name))
    refused("a type of zeros", lambda d: setattr(d.partitions[4], "type_guid", uuid.UUID(int=0)))
    for number in 0, -1, -128, 129, 1 << 32:
        refused(f"a partition of number {number}", new_at(number))
    with gptman.Disk(path) as disk:
        for size in -1, 1 << 64, (1 << 64) + 1:
            tally.equals(f"a place for {size} sectors", "ValueError", refusal(gptman, lambda: disk.find_place(size)))
        for name in "align", "first_usable_lba", "last_usable_lba":
            was = getattr(disk, name)
            setattr(disk, name, (1 << 64) + was)
            tally.equals(f"a place with another {name}", "ValueError", refusal(gptman, lambda: disk.find_place(1)))
            setattr(disk, name, was)
    for count in -1, 1 << 32, (1 << 32) + 128:
        tally.equals(f"a new table of {count} entries", "ValueError", refusal(
            gptman, lambda: gptman.Disk.create(path, entry_count=count)))
    for sector in 0, -512, 520, 8192, (1 << 64) + 512:
        for call in (lambda: gptman.Disk(path, sector)), (lambda: gptman.Disk.create(path, sector)):
            tally.equals(f"sectors of {sector}", "BadArgument", refusal(gptman, call))
    tally.holds("nothing is written by these", program.bytes_of("disk.img") == good)


def other_number(gptman, disk):
    disk.partitions[129] = gptman.Partition(LINUX, 200, 300)
    try:
        disk.write()
    finally:
        del disk.partitions[129]


def refusal(gptman, call):
    """The name of what a call is refused with."""
    try:
        call()
    except gptman.Fault as fault:
        return fault.name
    except ValueError:
        return "ValueError"
    return None


def try_long(tally, library, program):
    """A table of many entries, whose arrays are longer than the first ends, and sectors of 4096 bytes."""
    if not there("sgdisk"):
        return "sgdisk is not installed: left out"
    gptman = module()
    path = program.file("long.img")
    program.make_image("long.img", 64 << 20)
    subprocess.run(["sgdisk", "-S", "1000", "-n", "1000:4096:8191", path], check=True, stdout=subprocess.DEVNULL,
                   stderr=subprocess.DEVNULL)
    with gptman.Disk(path, writable=True) as disk:
        tally.equals("the entries of a table of 1000", (1000, [1000]), (disk.entry_count, list(disk.partitions)))
        disk.partitions[500] = gptman.Partition(LINUX, 10000, 10007, "middle")
        disk.write()
    tally.equals("both are there", [500, 1000], list(table.read(path).entries))
    program.make_image("big.img", 64 << 20)
    program.run("big.img", "4096", "new", "00112233445566778899aabbccddeeff")
    with gptman.Disk(program.file("big.img"), 4096, writable=True) as disk:
        disk.partitions[1] = gptman.Partition(LINUX, 256, 511, "x" * 36)
        disk.write()
    tally.equals("with sectors of 4096 bytes", "x" * 36, table.read(program.file("big.img"), 4096).entries[1].name)


def try_flags(tally, library, program):
    """A disk of DOS is planned with the flag, and no other flag is known. A call tells which disk is one of DOS."""
    gptman = module()
    start(program)
    good = program.bytes_of("disk.img")
    used = bytes([0x80]) + bytes(3) + bytes([0x83]) + bytes(3) + (1).to_bytes(4, "little") + (9).to_bytes(4, "little")
    data = good[:446] + bytes(48) + used + b"\x55\xaa" + good[512:]
    head, tail, needed = data[:34 * 512], data[-33 * 512:], gptman._calls.Needed()
    for flags, answer in (0, 102), (1, 104), (2, 105), (1 << 31, 105):
        tally.equals(f"fitting a disk of DOS with the flags {flags}", answer, gptman._calls.library.gptman_fit(
            head, len(head), tail, len(tail), SIZE, 512, None, 0, None, 0, ctypes.byref(needed), flags))
    for what, first, last, size, answer in (
            ("of DOS", data[:512], b"", SIZE, 102), ("of DOS, all of it at its end", b"", data, SIZE, 102),
            ("with a protective MBR", good[:512], b"", SIZE, 0), ("of 511 bytes", data[:511], b"", 511, 0),
            ("of which 511 bytes are known", data[:511], b"", SIZE, 103),
            ("shorter than its ends", data[:512], data[:1], 512, 105)):
        needed = gptman._calls.Needed()
        tally.equals(f"a disk {what}", (answer, 0, 512 if answer == 103 else 0), (
            gptman._calls.library.gptman_dos(first, len(first), last, len(last), size, ctypes.byref(needed)),
            needed.from_, needed.length))


SUBJECTS = {"damaged images": try_damaged, "both copies": try_copies, "protective MBRs": try_mbr,
            "stops among the steps": try_stops, "new tables": try_new, "tables that are fitted": try_fits,
            "refusals of fitting": try_fit_refusals, "places": try_places, "names": try_names,
            "refusals": try_refusals, "bytes that are kept": try_kept, "numbers that do not fit": try_numbers,
            "long tables": try_long, "flags": try_flags}
