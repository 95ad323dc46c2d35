"""Standard output that fails, and in how many pieces it is written."""
import os
import subprocess

from given import ADD, DISK, SAME
from gptimg import WANTED
from harness.runs import Ended, by_shell, status_of
from tools import calls_of, can_trace

# How a shell has a command print to a pipe whose reader is gone already, and to a device that is full.
WITHOUT_READER = "exec 3<> pipe; exec 4> pipe; exec 3<&-;", ">&4 4>&-"
TO_FULL_DEVICE = "", "> /dev/full"
IGNORED, DEFAULT = ["env", "--ignore-signal=PIPE"], ["env", "--default-signal=PIPE"]
FULL = "/dev/full"


def try_failing_output(tally, program):
    """A command whose output fails ends with 1, and is done or not. A pipe without a reader may also end the program
    with its signal."""
    os.mkfifo(program.file("pipe"))
    for line in "tried.img 512 show", f"tried.img 512 {ADD}", "tried.img 512 list", "":
        done = program.done("good.img", line)
        if os.path.exists(FULL):
            fails_to_print(program, line, done, (1,), TO_FULL_DEVICE)
        fails_to_print(program, line, done, (1,), WITHOUT_READER, IGNORED)
        fails_to_print(program, line, done, (1, 141), WITHOUT_READER, DEFAULT)
    if not os.path.exists(FULL):
        tally.leave_out(f"there is no {FULL}", "what is tried with it")


def print_to(program, how, *words):
    """Runs a command with such an output."""
    script, after = how
    return program.command(*by_shell(script, words, after))


def fails_to_print(program, line, done, statuses, how, before=()):
    """Counts whether a line ends with one of these statuses with such an output and with these words before the
    program, and leaves the image as before or as the done command leaves it."""
    program.copy("good.img", "tried.img")
    answer = print_to(program, how, *before, program.path, *line.split())
    program.tally.is_one_of(f"{' '.join([*before, 'gptimg', line])} {how[1]}",
                            (answer, program.state_of("tried.img", done.before, done.after)),
                            *((Ended(status, "", ""), WANTED) for status in statuses))


def try_pieces(tally, program):
    """What is printed is one text, however it is taken."""
    try_file(tally, program)
    try_shows_at_once(tally, program)
    count_writes(tally, program)


def show(program, output, mode="wb"):
    """Starts a show of 128 partitions to a file."""
    with open(program.file(output), mode) as out:
        return subprocess.Popen([program.path, "full.img", "512", "show"], cwd=program.folder, stdout=out,
                                stdin=subprocess.DEVNULL)


def try_file(tally, program):
    """What is printed to a file is what is printed to a pipe."""
    piped = subprocess.run([program.path, "full.img", "512", "show"], cwd=program.folder, stdin=subprocess.DEVNULL,
                           stdout=subprocess.PIPE, check=False).stdout
    show(program, "shown").wait()
    tally.equals("the bytes that show prints to a file", piped, program.bytes_of("shown"))


def try_shows_at_once(tally, program):
    """Ten tables that are shown at once are ten whole tables."""
    wanted = program.bytes_of("shown") * 10
    for _ in range(5):
        program.write("all", b"")
        for process in [show(program, "all", "ab") for _ in range(10)]:
            tally.equals("the status of one of ten shows", 0, status_of(process.wait()))
        tally.equals("the bytes of ten shows", wanted, program.bytes_of("all"))


def count_writes(tally, program):
    """A table of 128 partitions is printed in few writes."""
    writes = count_in_accounts(program)
    if writes is None and can_trace(program):
        calls = calls_of(program, "write,writev", [program.path, "full.img", "512", "show"])
        writes = sum(call.startswith("write") for call in calls)
    if writes is None:
        tally.leave_out("writes cannot be counted", "how many show makes")
        return
    tally.holds(f"show writes at most 8 times, here {writes} times", 0 < writes <= 8)


def writes_so_far():
    """The calls of write that this process and its children made so far; None where the system does not tell it."""
    try:
        with open("/proc/self/io", encoding="ascii") as accounts:
            return next(int(line.split()[1]) for line in accounts if line.startswith("syscw:"))
    except OSError:
        return None


def count_in_accounts(program):
    """How many writes a show makes, from the accounts of the system."""
    before = writes_so_far()
    if before is None:
        return None
    show(program, "shown").wait()
    return writes_so_far() - before


def try_many_entries(tally, program):
    """A table whose lines do not fit in one piece."""
    program.copy("large.img", "many.img")
    filled = program.fill_table("many.img", 200, 252)
    program.says(0, SAME, "many.img", "512", "check")
    answer = program.answer("many.img", "512", "show")
    first, _, lines = answer.out.partition("\n")
    tally.equals("the lines of 200 partitions", filled, lines)
    tally.equals("the status of show", (0, ""), (answer.status, answer.err))
    tally.equals("the first line of show", f"sector 512 form primary disk {DISK} usable 252..468 entries 1000 align 1",
                 first)
    words = [program.path, "many.img", "512", "show"]
    tally.equals("show of 200 partitions where the reader is gone", Ended(1, "", ""),
                 print_to(program, WITHOUT_READER, *IGNORED, *words))
    if os.path.exists(FULL):
        tally.equals("show of 200 partitions where output is full", Ended(1, "", ""),
                     print_to(program, TO_FULL_DEVICE, *words))
