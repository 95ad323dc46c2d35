"""Commands that have little memory."""
from given import ADD
from gptimg import WANTED, answer_of
from harness.runs import by_shell, limiting

NO_MEMORY = answer_of(1, "fault: OutOfMemory")
REFUSED = NO_MEMORY, answer_of(1, "fault: Io")

# How many pages of 4 KiB 100 MB are.
MOST = 25000


def try_little_memory(tally, program):
    """At each limit a command on a table of 1,000 entries is done, or is refused and leaves the image, or the system
    does not start the program."""
    refused = 0
    for line in "show", ADD, "check":
        done = program.done("large.img", f"tried.img 512 {line}")
        tally.equals(f"gptimg {line}, within 100 MB", done.answer, run_within(program, MOST, line))
        least = least_limit(program, line)
        for step in [*range(120), *(120 + 10 * more for more in range(1, 51))]:
            if least > step:
                refused += try_limit(program, least - step, line, done)
    tally.holds("a command is refused for want of memory", refused > 0)


def within(kilobytes, *words):
    """The words of a command that has an address space of so many KiB."""
    return by_shell(limiting("v", kilobytes), words)


def run_within(program, pages, line):
    """Runs a line on a copy of that image within so many pages."""
    program.copy("large.img", "tried.img")
    return program.command(*within(4 * pages, program.path, "tried.img", "512", *line.split()))


def least_limit(program, line):
    """Halves the limits, and gives the least one, in pages, with which a line is done."""
    low, least = 0, MOST
    while least - low > 1:
        middle = (low + least) // 2
        if run_within(program, middle, line).status == 0:
            least = middle
        else:
            low = middle
    return least


def try_limit(program, pages, line, done):
    """Counts whether a line does that within so many pages. Gives whether it is refused for want of memory."""
    what = f"gptimg {line}, within {4 * pages} KiB"
    answer = run_within(program, pages, line)
    if answer.status == 0:
        program.tally.equals(what, (done.answer, WANTED), (answer, program.state_of("tried.img", done.after)))
        return False
    state = program.state_of("tried.img", done.before)
    if answer.status > 125:
        program.tally.equals(what, ("", WANTED), (answer.out, state))
        return False
    program.tally.is_one_of(what, (answer, state), *((refusal, WANTED) for refusal in REFUSED))
    return answer.out == NO_MEMORY.out
