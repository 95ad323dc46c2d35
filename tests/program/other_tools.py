"""Images of other tools, and the calls of the system that the program makes."""
import re

from commands import try_changes
from given import DATA, ONE, READERS, WRITERS
from tools import calls_of, can_trace_calls, printed_by

HALF = 5 << 20


def try_sgdisk(tally, program):
    """An image of sgdisk."""
    if not tally.has("sgdisk"):
        return
    program.make_zeros("sgdisk.img", 10 << 20)
    printed_by(program, "sgdisk", "-o", "-n", "1:2048:4095", "-t", "1:8300", "-c", "1:Linux root", "sgdisk.img")
    program.shows("sgdisk.img", "2048..4095 0000000000000000 Linux root")
    try_changes(program, "sgdisk.img")
    tally.contains("the name that sgdisk reads", " data", printed_by(program, "sgdisk", "-p", "sgdisk.img"))


def try_sfdisk(tally, program):
    """An image of sfdisk."""
    if not tally.has("sfdisk"):
        return
    program.make_zeros("sfdisk.img", 10 << 20)
    script = 'label: gpt\nstart=2048, size=2048, type=linux, name="Größe"\n'
    printed_by(program, "sfdisk", "-q", "sfdisk.img", text=script)
    program.shows("sfdisk.img", "2048..4095 0000000000000000 Größe")
    try_changes(program, "sfdisk.img")
    tally.contains("the name that sfdisk reads", 'name="data"', printed_by(program, "sfdisk", "-d", "sfdisk.img"))


def answer_in(call):
    """The number that a call answers."""
    return int(call.rpartition("= ")[2].split()[0])


def order_of(program, image, *words):
    """The copies that a command writes to an image of 20,480 sectors, and its syncs, in order."""
    place, order = "", []
    for call in calls_of(program, "lseek,write,pwrite64,fsync,fdatasync", [program.path, image, *words], image):
        if call.startswith("lseek"):
            place = "backup" if answer_in(call) >= HALF else "primary"
            continue
        if call.startswith(("write", "pwrite")):
            part = place
        elif call.startswith(("fsync", "fdatasync")):
            part = "sync"
        else:
            continue
        if order[-1:] != [part]:
            order.append(part)
    return " ".join(order)


def opens_of(program, image, *words):
    """How a command opens the image, and when it waits for its turn."""
    order = []
    for call in calls_of(program, "open,openat,flock", [program.path, image, *words], image):
        if call.startswith("open"):
            order += ["read"] if "O_RDONLY" in call else ["write"] if "O_RDWR" in call else []
        elif call.startswith("flock") and "LOCK_EX" in call:
            order.append("lock")
    return " ".join(order)


def asked_of(program, image, *words):
    """What a command asks of the image, in order: how it is opened, the places that it goes to, how many bytes are read
    and written there, the syncs."""
    asked = []
    kinds = [("open.*O_RDONLY", "open to read"), ("open.*O_RDWR", "open to write"), ("lseek.*SEEK_END", "end {}"),
             ("lseek.*SEEK_SET", "to {}"), ("read", "read {}"), ("write", "write {}"), (".*sync", "sync")]
    for call in calls_of(program, "open,openat,lseek,read,write,fsync,fdatasync", [program.path, image, *words], image):
        text = next((text for pattern, text in kinds if re.match(pattern, call)), None)
        if text:
            asked.append(text.format(answer_in(call)))
    return ", ".join(asked)


def try_file_disk(tally, program):
    """The length is the one that the system told, to the byte, each seek and each sync asks the system, and what only
    reads opens for reading alone."""
    image = program.file("odd.img")
    entries = "read 4096, read 4096, read 4096, read 4096"
    program.make_table("odd.img", 51201)
    tally.equals("what show asks of an image of 51,201 bytes",
                 f"open to read, open to read, end 51201, to 0, to 512, read 92, to 51201, to 1024, {entries}",
                 asked_of(program, image, "512", "show"))
    tally.equals("what mbr asks of an image of 51,201 bytes",
                 "open to read, open to write, end 51201, to 0, to 51201, to 446, write 66, sync",
                 asked_of(program, image, "512", "mbr", "plain"))


def try_calls(tally, program):
    """How each command opens the image, and the order in which it writes and syncs."""
    if not can_trace_calls(program):
        return
    try_file_disk(tally, program)
    image = program.file("order.img")
    program.make_table("order.img", 10 << 20)
    tally.equals("the copies and syncs of add", "backup sync primary sync",
                 order_of(program, image, "512", "add", "1", DATA, ONE, "10", "first", "1", "x"))
    tally.equals("the writes and syncs of mbr", "primary sync", order_of(program, image, "512", "mbr", "plain"))
    for line in READERS:
        words = ["512", *line.split()]
        tally.equals(f"how {line} opens the image", "read read", opens_of(program, image, *words))
        tally.equals(f"the writes and syncs of {line}", "", order_of(program, image, *words))
    for line in WRITERS:
        tally.equals(f"how {line} opens the image", "read lock write", opens_of(program, image, "512", *line.split()))
