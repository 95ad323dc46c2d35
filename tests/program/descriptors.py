"""Standard streams that are closed, a system without devices, and too few descriptors."""
import os
import re
import shlex
import shutil

from given import ADD, READERS, WRITERS
from gptimg import WANTED
from harness.runs import Ended, by_shell, closing, limiting, run
from tools import calls_of, can_trace_calls

# Each set of standard streams that may be closed.
STREAM_SETS = ["0", "1", "2", "01", "02", "12", "012"]

REFUSED = Ended(1, "fault: Io\n", "")


def try_closed_descriptors(_tally, program):
    """Each command on each image, with each set of closed descriptors, and commands without an image."""
    for image in "good.img", "headless.img", "longer.img":
        for line in WRITERS + READERS + ["list"]:
            try_each_set(program, image, f"tried.img 512 {line}")
        try_each_set(program, image, "")
    try_each_set(program, "good.img", "missing.img 512 sort")
    try_each_set(program, "good.img", "missing.img 512 show")


def try_each_set(program, image, line):
    """With each set closed a line does what it does with all open. With standard output closed it ends with 1."""
    try_sets(program, image, line, program.done(image, line), STREAM_SETS)


def try_sets(program, image, line, done, sets):
    """The same where all open was run before: the program, the image, the line, what it did, the sets."""
    for streams in sets:
        program.copy(image, "tried.img")
        answer = program.closed(streams, *line.split())
        what = f"gptimg {line}, with '{streams}' closed, from {image}"
        is_done_or_closed(program, streams, what, done, answer, done.after)


def is_done_or_closed(program, streams, what, done, answer, *sums):
    """Counts whether a run did that: the set, what was tried, what is done, the answer, and the checksums that the
    image may have."""
    wanted = Ended(1, "", "") if "1" in streams else done.answer
    program.tally.equals(what, (wanted, WANTED), (answer, program.state_of("tried.img", *sums)))


def try_without_devices(tally, program):
    """Each command does in a root that has the program, its libraries and the image alone, with each set of closed
    descriptors and with none, what it does outside of it with all open."""
    root = program.file("root")
    make_root(program, root)
    inside = in_root(program, root)
    if not can_enter(inside):
        tally.leave_out("this user may run nothing in another root", "what is tried without /dev")
        return
    lines = [f"tried.img 512 {line}" for line in WRITERS + READERS + ["list"]]
    try_in_root(program, inside, [*lines, "tried.img 512", "tried.img", ""], ["", *STREAM_SETS])


def make_root(program, root):
    """Makes that root."""
    os.mkdir(root)
    shutil.copy(program.path, os.path.join(root, "gptimg"))
    for library in re.findall(r"/[^ \n]*", run(["ldd", program.path]).out):
        os.makedirs(root + os.path.dirname(library), exist_ok=True)
        shutil.copy(library, root + library)


def in_root(program, root):
    """The program in a root, with that as its folder: a script that runs it there."""
    script = program.file("in_root")
    program.write("in_root", f'#!/bin/sh\nexec chroot {shlex.quote(root)} /gptimg "$@"\n'.encode())
    os.chmod(script, 0o755)
    return program.beside(script, root)


def can_enter(inside):
    """Whether programs can be run there."""
    return inside.answer().status not in (125, 126)


def try_in_root(program, inside, lines, sets):
    """Counts whether lines do in a root, with these sets closed, what they do outside."""
    outside = inside.beside(program.path)
    for line in lines:
        try_sets(inside, "../good.img", line, outside.done("../good.img", line), sets)


def try_opens(tally, program):
    """In the place of a closed stream the image is opened for reading alone, and above them for the command. With fewer
    than three words nothing is opened."""
    if not can_trace_calls(program):
        return
    image = program.file("tried.img")
    for streams in ["", *STREAM_SETS]:
        program.copy("good.img", "tried.img")
        places = [f"read {place}" for place in streams]
        for line, ways in (ADD, ["read above", "write above"]), ("show", ["read above", "read above"]):
            tally.equals(f"how {line.split()[0]} opens the image, with '{streams}' closed", places + ways,
                         opens_with_closed(program, streams, image, line))
    tally.equals("what is opened with no words", [], opens_but_libraries(program))
    tally.equals("what is opened with two words", [], opens_but_libraries(program, image, "512"))


def opens_with_closed(program, streams, image, line):
    """How a command opens the image where this set is closed, and whether its descriptor is a standard stream."""
    words = by_shell(closing(streams), [program.path, image, "512", *line.split()])
    order = []
    for call in calls_of(program, "open,openat", words, image):
        place = call.split(" ")[-1]
        place = "above" if place.isdigit() and int(place) > 2 else place
        if call.startswith("open"):
            order += [f"read {place}"] if "O_RDONLY" in call else [f"write {place}"] if "O_RDWR" in call else []
    return order


def opens_but_libraries(program, *words):
    """What the program opens besides the libraries that the system loads for it."""
    calls = calls_of(program, "open,openat", [program.path, *words])
    return [call for call in calls if call.startswith("open") and ".so" not in call]


def try_few_descriptors(tally, program):
    """A command is done, or is refused and leaves the image, or the system does not start the program."""
    refused = 0
    for line in "show", ADD:
        done = program.done("good.img", f"tried.img 512 {line}")
        for limit in range(8):
            for streams in ["", *STREAM_SETS]:
                refused += try_few(program, line, done, streams, limit)
    tally.holds("a command is refused for want of descriptors", refused > 0)


def try_few(program, line, done, streams, limit):
    """Runs a line where only descriptors below this number may be opened. Gives whether it is refused."""
    program.copy("good.img", "tried.img")
    script = closing(streams) + limiting("n", limit)
    answer = program.command(*by_shell(script, [program.path, "tried.img", "512", *line.split()]))
    what = f"gptimg {line}, with '{streams}' closed and {limit} descriptors"
    if answer == REFUSED or answer.status > 125 and not answer.out:
        program.tally.equals(what, WANTED, program.state_of("tried.img", done.before))
    elif "1" in streams:
        is_done_or_closed(program, streams, what, done, answer, done.before, done.after)
    else:
        is_done_or_closed(program, streams, what, done, answer, done.after)
    return answer == REFUSED
