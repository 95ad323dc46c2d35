"""The program linked whole, in a root where nothing else is."""
import os

from descriptors import can_enter, in_root, try_in_root
from given import READERS, TOP, WRITERS


def try_static_program(tally, program):
    """Each command does what it does outside."""
    made = f"{program.path}.o"
    if not os.path.isfile(made):
        tally.leave_out(f"there is no {made}", "what is tried of the program linked whole")
        return
    if not tally.has("cc"):
        return
    root = program.file("bare")
    os.mkdir(root)
    linked = program.command(os.path.join(TOP, "scripts", "link_static"), made, os.path.join(root, "gptimg"))
    tally.equals("the status of linking the program whole", 0, linked.status)
    inside = in_root(program, root)
    if not can_enter(inside):
        tally.leave_out("this user may run nothing in another root", "what is tried of the program linked whole")
        return
    try_in_root(program, inside, [*(f"tried.img 512 {line}" for line in WRITERS + READERS + ["list"]), ""], [""])
