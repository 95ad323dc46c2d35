"""Headers that count other entries than there are."""
import os
import zlib

from given import DATA, DISK, ONE, SAME
from gptimg import answer_of
from memory import within
from tools import can_trace_calls

IMAGE = "huge.img"
SHOWN = f"sector 512 form backup disk {DISK} usable 34..2097118 entries 128 align 1\n" \
    f"1 {DATA} {ONE} 34..2097118 0000000000000000 all"
ALL = 0xffffffff


def try_counts(tally, program):
    """Counts that are small, and one of all entries that 32 bits can count."""
    tally.equals("the CRC-32 of 123456789", 0xcbf43926, zlib.crc32(b"123456789"))
    try_small_counts(program)
    try_huge_image(tally, program)


def try_small_counts(program):
    """The good image has room for 392 entries from sector 2 on."""
    program.copy("good.img", "tried.img")
    program.count_entries("tried.img", 128)
    program.keeps_bytes("tried.img", program.sum_of("good.img"))
    for count, fault in (392, "InvalidPartitionEntryArrayChecksum"), (393, "Io"):
        program.count_entries("tried.img", count)
        program.says(1, f"primary fault {fault}\nbackup ok\nsame no", "tried.img", "512", "check")
        program.shows("tried.img", "form backup")


def says_quickly(program, status, lines, *words):
    """Counts whether the program ends so on that image, with little memory and little time."""
    answer = program.command(*within(100000, "timeout", "2", program.path, IMAGE, *words))
    program.tally.equals(f"gptimg {IMAGE} {' '.join(words)}", answer_of(status, lines), answer)


def try_huge_image(tally, program):
    """An image of 1 GiB whose primary header counts all entries that 32 bits can count."""
    program.make_table(IMAGE, 1 << 30)
    program.says(0, "1 34..2097118", IMAGE, "512", "add", "1", DATA, ONE, "2097085", "first", "1", "all")
    try_huge_count(tally, program)
    program.count_entries(IMAGE, ALL)
    says_quickly(program, 0, SHOWN, "512", "show")
    says_quickly(program, 0, "", "auto", "free", "1")
    says_quickly(program, 1, "primary fault Io\nbackup ok\nsame no", "512", "check")
    try_huge_repair(program)
    try_huge_damage(program)
    os.remove(program.file(IMAGE))


def try_huge_count(tally, program):
    """Its primary header counts the entries that it has room for, some 8 million, and a read of them fails: the first
    one, or the thousandth. There is memory for those that came, and for no others."""
    if not can_trace_calls(program):
        return
    path = program.file(IMAGE)
    program.count_entries(IMAGE, 8388600)
    for number in 2, 1000:
        answer = program.command("strace", "-q", "-P", path, "-e", "trace=read", "-e",
                                 f"inject=read:error=EIO:when={number}", "-o", "calls",
                                 *within(100000, program.path, path, "512", "show"))
        tally.contains(f"read number {number} of {IMAGE} fails", "INJECTED", program.text("calls"))
        tally.equals(f"gptimg {IMAGE} 512 show, where read number {number} fails", answer_of(0, SHOWN), answer)


def try_huge_repair(program):
    """The next write repairs it."""
    says_quickly(program, 0, "ok", "512", "remove", "1")
    says_quickly(program, 0, SAME, "512", "check")
    says_quickly(program, 0, f"sector 512 form primary disk {DISK} usable 34..2097118 entries 128 align 2048", "512",
                 "show")


def try_huge_damage(program):
    """Where the backup copy is damaged too, the faults of both are told."""
    program.count_entries(IMAGE, ALL)
    program.clear_sectors(IMAGE, 2097151, 1)
    says_quickly(program, 1, "fault: ReadError(Io, InvalidSignature)", "512", "show")
    says_quickly(program, 1, "fault: ReadError(Io, InvalidSignature)", "512", "sort")
