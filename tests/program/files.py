"""Images that are no good files, or that may not be opened."""
import os
import socket
import stat

from given import ADD, DATA, DISK, READERS, SAME, TWO, WRITERS
from gptimg import answer_of

REFUSED = answer_of(1, "fault: Io")


def all_say(program, wanted, image, lines):
    """Counts whether each of the lines prints this one line of the image, and ends with 1."""
    for line in lines:
        program.says(1, wanted, image, "512", *line.split())


def try_files(tally, program):
    """Images that are no files, or short ones."""
    try_folder(tally, program)
    try_missing(tally, program)
    try_short(program, 0)
    try_short(program, 1)
    has_no_sector(program, "/dev/null")
    try_pipe(tally, program)
    try_socket(tally, program)
    try_link(tally, program)


def try_folder(tally, program):
    """A folder could be opened for reading, but has nothing to read."""
    os.mkdir(program.file("folder.img"))
    all_say(program, "fault: Io", "folder.img", WRITERS + READERS + ["list"])
    tally.equals("the folder is there and empty", [], os.listdir(program.file("folder.img")))


def try_missing(tally, program):
    """No image is made where there is none."""
    all_say(program, "fault: Io", "missing.img", WRITERS + READERS)
    all_say(program, "fault: Io", "missing/missing.img", WRITERS + READERS)
    tally.holds("no image was made", not os.path.exists(program.file("missing.img")))


def try_short(program, size):
    """An image of so many bytes, which are fewer than a sector has."""
    program.make_zeros("short.img", size)
    before = program.sum_of("short.img")
    has_no_sector(program, "short.img")
    program.keeps_bytes("short.img", before)


def has_no_sector(program, image):
    """Counts whether the commands say of this image that it has no sector. A device cannot be locked."""
    all_say(program, "fault: Overflow", image, [f"new {DISK}", "mbr plain"])
    all_say(program, "fault: InvalidSignature", image, [ADD, "remove 1", "sort", "grow", "show", "free 1"])
    program.says(1, "primary fault Io\nbackup fault InvalidSignature\nsame no", image, "512", "check")


def try_pipe(tally, program):
    """A pipe is refused at once, whether or not another program has it open."""
    path = program.file("pipe.img")
    os.mkfifo(path)
    all_say_at_once(program, "pipe.img")
    descriptor = os.open(path, os.O_RDWR)
    try:
        all_say_at_once(program, "pipe.img")
    finally:
        os.close(descriptor)
    tally.holds("the pipe is there", stat.S_ISFIFO(os.stat(path).st_mode))


def try_socket(tally, program):
    """So is a socket."""
    path = program.file("socket.img")
    with socket.socket(socket.AF_UNIX) as made:
        made.bind(path)
    tally.holds("a socket was made", stat.S_ISSOCK(os.stat(path).st_mode))
    all_say_at_once(program, "socket.img")


def all_say_at_once(program, image):
    """Counts whether each command refuses this image, and does not wait for another program."""
    for line in WRITERS + READERS + ["list"]:
        program.tally.equals(f"gptimg {image} 512 {line}", REFUSED,
                             program.command("timeout", "5", program.path, image, "512", *line.split()))


def try_link(tally, program):
    """A link stands for the image that it leads to."""
    program.copy("good.img", "target.img")
    os.symlink("target.img", program.file("link.img"))
    program.says(0, "2 60..64", "link.img", "512", *ADD.split())
    program.says(0, SAME, "target.img", "512", "check")
    program.shows("target.img", f"2 {DATA} {TWO} 60..64 0000000000000000 Bar")
    tally.holds("the link is there", os.path.islink(program.file("link.img")))


def try_permissions(tally, program):
    """Images that this user may not read, or not write."""
    path = program.file("kept.img")
    program.copy("good.img", "kept.img")
    os.chmod(path, 0)
    if os.access(path, os.R_OK):
        tally.leave_out("this user may open every file", "what is tried without permission")
        return
    try_without_permission(program, path)
    try_read_only(program, path)
    try_locked_folder(program)


def try_without_permission(program, path):
    """Nothing can be done with an image that may not be read."""
    before = program.sum_of("good.img")
    for mode in 0o000, 0o200:
        os.chmod(path, mode)
        all_say(program, "fault: Io", "kept.img", WRITERS + READERS)
        os.chmod(path, 0o600)
        program.keeps_bytes("kept.img", before)


def try_read_only(program, path):
    """An image that may only be read is read, and is not written to."""
    before = program.sum_of("kept.img")
    os.chmod(path, 0o400)
    all_say(program, "fault: Io", "kept.img", WRITERS)
    for line in READERS:
        wanted = program.answer("good.img", "512", *line.split())
        program.says(0, wanted.out.rstrip("\n"), "kept.img", "512", *line.split())
    program.keeps_bytes("kept.img", before)


def try_locked_folder(program):
    """Nothing can be done with an image in a folder that may not be searched."""
    folder = program.file("locked")
    os.mkdir(folder)
    program.copy("good.img", "locked/kept.img")
    os.chmod(folder, 0)
    all_say(program, "fault: Io", "locked/kept.img", WRITERS + READERS)
    os.chmod(folder, 0o700)
    program.keeps_bytes("locked/kept.img", program.sum_of("good.img"))
