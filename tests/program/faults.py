"""Calls of the system on the image that fail, or that a signal interrupts, one at a time."""
from typing import NamedTuple

from given import READERS, WRITERS
from gptimg import Done, WANTED, answer_of, from_backup
from harness.runs import Ended
from tools import can_trace_calls

MOST = 200


class Tables(NamedTuple):
    """What a line does, and what `show` answers before it and after it."""

    done: Done
    old: Ended
    new: Ended


def try_failing_calls(tally, program):
    """Each call of each command on a good image fails, and then no other one."""
    if can_trace_calls(program):
        failures = fail_all(program, ("lseek", "read", "write", "fsync"), "EIO", is_kept_or_done)
        tally.holds("a call fails", failures > 0)


def try_interrupted_calls(tally, program):
    """The same of reads and writes that are interrupted: they are made again, and all is as without."""
    if can_trace_calls(program):
        failures = fail_all(program, ("read", "write"), "EINTR", is_done)
        tally.holds("a call is interrupted", failures > 0)


def fail_all(program, names, error, check):
    """Has each call of these names fail with an error, of each command. Gives how many failed."""
    failures = 0
    for line in WRITERS + READERS:
        tables = tables_of(program, line)
        for name in names:
            failures += fail_each(program, name, error, check, line, tables)
    return failures


def tables_of(program, line):
    """What a line does."""
    old = program.answer("good.img", "512", "show")
    done = program.done("good.img", f"tried.img 512 {line}")
    return Tables(done, old, program.answer("tried.img", "512", "show"))


def fail_each(program, name, error, check, line, tables):
    """With this error the first call of this name fails, then the second and so on. Gives how many failed."""
    path = program.file("tried.img")
    for number in range(1, MOST + 1):
        program.copy("good.img", "tried.img")
        answer = program.command("strace", "-q", "-P", path, "-e", f"trace={name}", "-e",
                                 f"inject={name}:error={error}:when={number}", "-o", "calls", program.path, path, "512",
                                 *line.split())
        if "INJECTED" not in program.text("calls"):
            return number - 1
        check(program, f"gptimg {line}, where {name} number {number} fails with {error}", answer, tables)
    program.tally.equals(f"gptimg {line}, with each {name} failing", "an end", f"more than {MOST} calls")
    return MOST


def is_done(program, what, answer, tables):
    """Counts whether a command answered as without a failure, and left the image so."""
    done = tables.done
    program.tally.equals(what, (done.answer, WANTED), (answer, program.state_of("tried.img", done.after)))


def is_kept_or_done(program, what, answer, tables):
    """Counts whether a command was refused with `fault: Io`, or is done, from the backup copy where it could not read
    the primary one. Then the image holds the old table or the new one."""
    done, old, new = tables
    program.tally.is_one_of(f"{what}: its answer", answer, answer_of(1, "fault: Io"), done.answer,
                            from_backup(done.answer), answer_of(1, "primary fault Io\nbackup ok\nsame no"),
                            answer_of(1, "primary ok\nbackup fault Io\nsame no"))
    if answer.status == 0:
        program.tally.equals(f"{what}: the image after it", WANTED, program.state_of("tried.img", done.after))
        return
    shown = program.answer("tried.img", "512", "show")
    program.tally.is_one_of(f"{what}: the table after it", shown, old, new, from_backup(old), from_backup(new))
