"""A `grow` that is stopped, and done again."""
import itertools

from given import SAME
from gptimg import WANTED, from_backup
from harness import table
from other_tools import order_of
from tools import can_trace_calls

# Where the primary header, the primary entries, the backup header and the backup entries of the grown image stand: the
# first byte and the length of each.
PLACES = (512, 92), (1024, 16384), (199 * 512, 92), (167 * 512, 16384)
KINDS = "old", "new", "other"


def try_stopped_growths(tally, program):
    """A stop in `grow` leaves one copy as it was before or is to be, and of the header and the entries of the other
    each the old bytes, the new ones, or others. Another `grow` mends all of these."""
    old = program.answer("longer.img", "512", "show")
    program.copy("longer.img", "grown.img")
    try_order_of_growth(tally, program)
    program.says(0, "ok", "grown.img", "512", "grow")
    tables = old, program.answer("grown.img", "512", "show")
    for header, entries in itertools.product(KINDS, KINDS):
        try_stopped_growth(tally, program, tables, ("old", "old", header, entries))
        try_stopped_growth(tally, program, tables, (header, entries, "new", "new"))


def try_order_of_growth(tally, program):
    """The backup copy is written and synced before the primary one is touched."""
    if not can_trace_calls(program):
        return
    program.make_table("order.img", 10 << 20)
    program.set_length("order.img", 20 << 20)
    tally.equals("the copies and syncs of grow", "backup sync primary sync",
                 order_of(program, program.file("order.img"), "512", "grow"))


def stopped(program, left):
    """The bytes of an image of which a stop left these kinds of the four parts."""
    old, new = program.bytes_of("longer.img"), program.bytes_of("grown.img")
    kinds = {"old": old, "new": new, "other": old.replace(b"\0", b"\7")}
    return table.laid(old, [(at, kinds[kind][at:at + size]) for kind, (at, size) in zip(left, PLACES)])


def try_stopped_growth(tally, program, tables, left):
    """The stop left these of the four parts."""
    (old, new), what = tables, f"a grow that left {' '.join(left)}"
    program.write("stopped.img", stopped(program, left))
    tally.is_one_of(f"{what}: the table", program.answer("stopped.img", "512", "show"), old, new, from_backup(new))
    program.says(0, "ok", "stopped.img", "512", "grow")
    program.says(0, SAME, "stopped.img", "512", "check")
    tally.equals(f"{what}: the image after another grow", WANTED,
                 program.state_of("stopped.img", program.sum_of("grown.img")))
    for name, first, wanted in ("primary", 167, new), ("backup", 1, from_backup(new)):
        program.copy("stopped.img", "alone.img")
        program.clear_sectors("alone.img", first, 33)
        tally.equals(f"{what}: the table of the {name} copy alone", wanted, program.answer("alone.img", "512", "show"))
