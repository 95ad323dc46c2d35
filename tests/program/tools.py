"""Other tools: what they print, what they say of an image, and strace."""
import shutil

from harness.runs import run, there


def printed_by(program, *words, text=""):
    """What a tool prints in the program's folder, its errors among it."""
    return run(words, text, "surrogateescape", is_one_text=True, cwd=program.folder).out


def is_accepted(program, image):
    """Counts whether the tools that are there find nothing wrong with an image."""
    for text, *words in ("No problems found", "sgdisk", "-v"), ("No errors detected", "sfdisk", "--verify"):
        if shutil.which(words[0]):
            program.tally.contains(f"{' '.join(words)} {image}", text, printed_by(program, *words, image))


def can_trace(program):
    """Whether calls can be traced."""
    return there("strace") and program.command("strace", "-q", "-o", "traced", "true").status == 0


def can_trace_calls(program):
    """Whether calls can be traced. Prints a line where they cannot."""
    if not program.tally.has("strace"):
        return False
    if can_trace(program):
        return True
    program.tally.leave_out("strace may trace nothing here", "what is tried with it")
    return False


def calls_of(program, names, words, path=None):
    """The lines of strace for the calls of these names that a command makes; on this file alone, where one is named."""
    only = ["-P", path] if path else []
    program.command("strace", "-q", *only, "-e", f"trace={names}", "-o", "calls", *words)
    return program.text("calls").splitlines()
