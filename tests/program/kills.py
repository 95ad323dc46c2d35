"""Commands that are killed at any moment."""
import random
import time
from typing import NamedTuple

from given import ADD, DATA, DISK, SAME
from gptimg import answer_of, from_backup
from harness.runs import Ended

IMAGE = "killed.img"
ROUNDS = 200
ADD_THIRD = f"add 3 {DATA} {DISK} 1 last 1 Baz"


class Round(NamedTuple):
    """A line, its answer where it is done, and what `show` answers before it and after it."""

    line: str
    done: Ended
    old: Ended
    new: Ended


def try_kills(tally, program):
    """In each round a partition is added or removed by a program that is killed after some time. Then the table is the
    old one or the new one, which may be read from its backup copy, as that is written first. The next write makes both
    copies one table."""
    program.copy("good.img", IMAGE)
    program.answer(IMAGE, "512", *ADD.split())
    without = program.answer(IMAGE, "512", "show")
    program.answer(IMAGE, "512", *ADD_THIRD.split())
    both = program.answer(IMAGE, "512", "show")
    longest, killed, torn = time_of_run(program) * 1.5, 0, 0
    for _ in range(ROUNDS):
        chosen = next_round(program, both, without)
        is_killed = try_round(tally, program, chosen, random.random() * longest)
        # The longest time comes closer to what a run takes now, so that about half of the runs are killed
        # however busy the machine is.
        longest *= 1.04 if is_killed else 0.96
        killed += is_killed
        torn += end_round(program)
    tally.holds("a command is killed", killed > 0)
    tally.holds("a command is done", killed < ROUNDS)
    return f"{killed} killed, {torn} of them between the copies"


def time_of_run(program):
    """How long a run takes, in seconds."""
    started = time.monotonic()
    for _ in range(20):
        program.command("timeout", "--foreground", "10", program.path, IMAGE, "512", "sort")
    return (time.monotonic() - started) / 20


def next_round(program, both, without):
    """The line of a round: of two tables it makes the one that is not there."""
    old = program.answer(IMAGE, "512", "show")
    if old == both:
        return Round("remove 3", answer_of(0, "ok"), old, without)
    return Round(ADD_THIRD, answer_of(0, "3 66..66"), old, both)


def try_round(tally, program, chosen, delay):
    """Runs the line, and kills it after this time. Gives whether it is killed."""
    answer = program.command("timeout", "--foreground", "--preserve-status", "-s", "KILL", f"{delay + 1e-6:.6f}",
                             program.path, IMAGE, "512", *chosen.line.split())
    shown = program.answer(IMAGE, "512", "show")
    if answer.status == 0:
        tally.equals(f"gptimg {chosen.line}: its answer", chosen.done, answer)
        tally.equals(f"gptimg {IMAGE} 512 show after '{chosen.line}'", chosen.new, shown)
        return False
    tally.is_one_of(f"gptimg {chosen.line}, killed: its answer", answer, answer_of(137),
                    chosen.done._replace(status=137))
    tally.is_one_of(f"gptimg {IMAGE} 512 show after '{chosen.line}' was killed", shown, chosen.old, chosen.new,
                    from_backup(chosen.new))
    return True


def end_round(program):
    """Counts whether the next write makes both copies one table. Gives whether they were not one."""
    is_torn = program.answer(IMAGE, "512", "check").status != 0
    program.says(0, "ok", IMAGE, "512", "sort")
    program.says(0, SAME, IMAGE, "512", "check")
    return is_torn
