"""The words of the program, and its commands on images of its own."""
import os
import re

from given import DATA, DISK, ONE, READERS, SAME, TWO, USAGE, WRITERS, text_of
from tools import is_accepted


def try_words(tally, program):
    """The words and the image are looked at before there is a disk."""
    program.says(2, USAGE)
    program.says(1, "fault: Io", "missing.img", "512", "show")
    program.says(1, "fault: Io", "missing.img", "512", "list")
    program.says(1, "fault: Io", "", "512", "show")
    tally.holds("no image was made", not os.path.exists(program.file("missing.img")))


def try_commands(tally, program):
    """The commands on images."""
    try_command_names(tally)
    try_own_image(program)
    try_damage(program)
    try_changed_image(program)
    try_full_image(tally, program)


def try_command_names(tally):
    """The commands that gptimg knows are those that are tried, and those of its manual page."""
    known = sorted(re.findall(r'^ *"([a-z]*)" => ', text_of("crates/gptimg_core/src/words.rt"), re.M))
    tally.equals("the commands that are tried", known, sorted(line.split()[0] for line in WRITERS + READERS))
    page = re.findall(r"^\.TP\n\.BI? ([a-z]+)", text_of("docs/gptimg.1"), re.M)
    tally.equals("the commands of gptimg.1", known, sorted(page))


def try_own_image(program):
    """An image of the program's own. Tools take it for one with a table once it has a protective MBR."""
    program.make_zeros("own.img", 10 << 20)
    program.says(0, "ok", "own.img", "512", "new", DISK)
    program.says(0, "ok", "own.img", "512", "mbr", "plain")
    program.says(0, "1 34..20446", "own.img", "512", "add", "1", DATA, ONE, "20413", "last", "1", "all")
    program.says(0, SAME, "own.img", "512", "check")
    is_accepted(program, "own.img")


def try_damage(program):
    """One damaged copy is repaired by the next write."""
    program.copy("own.img", "damaged.img")
    program.clear_sectors("damaged.img", 1, 1)
    program.says(1, "primary fault InvalidSignature\nbackup ok\nsame no", "damaged.img", "512", "check")
    program.shows("damaged.img", "form backup")
    program.says(0, "ok", "damaged.img", "512", "remove", "128")
    program.says(0, SAME, "damaged.img", "512", "check")
    program.shows("damaged.img", "form primary")
    is_accepted(program, "damaged.img")


def try_changed_image(program):
    """An image that is changed again and again."""
    program.make_table("changed.img", 10 << 20)
    program.says(0, "ok", "changed.img", "512", "mbr", "plain")
    program.says(0, "1 2048..4095", "changed.img", "512", "add", "1", DATA, ONE, "2048", "first", "2048", "Linux root")
    program.shows("changed.img", f"1 {DATA} {ONE} 2048..4095 0000000000000000 Linux root")
    try_changes(program, "changed.img")


def try_changes(program, image):
    """Adds to an image, removes from it, and grows it. It has 20,480 sectors and one partition, from 2048 to 4095."""
    def says(status, lines, words):
        program.says(status, lines, image, *words.split())
    says(0, SAME, "512 check")
    says(0, "4096 16351", "auto free 2048")
    says(1, "fault: NoSpaceLeft", f"512 add 2 {DATA} {TWO} 16352 best 2048 data")
    says(0, "2 4096..6143", f"512 add 2 {DATA} {TWO} 2048 first 2048 data")
    says(1, "fault: InvalidPartitionNumber", f"512 add 2 {DATA} {ONE} 1 first 1 again")
    is_accepted(program, image)
    says(0, "ok", "512 remove 1")
    says(0, "ok", "512 sort")
    program.shows(image, f"1 {DATA} {TWO} 4096..6143 0000000000000000 data")
    is_accepted(program, image)
    program.set_length(image, 20 << 20)
    says(1, "primary ok\nbackup fault InvalidSignature\nsame no", "512 check")
    says(0, "ok", "512 grow")
    says(0, "ok", "512 mbr plain")
    says(0, SAME, "512 check")
    program.shows(image, "usable 34..40926")
    is_accepted(program, image)


def try_full_image(tally, program):
    """A table of 128 partitions, each with the longest name."""
    program.says(0, SAME, "full.img", "512", "check")
    answer = program.answer("full.img", "512", "show")
    tally.equals("the lines of 128 partitions", program.full_lines, answer.out.partition("\n")[2])
    tally.equals("the status of show", 0, answer.status)
    program.says(1, "fault: InvalidPartitionNumber", "full.img", "512", *f"add 129 {DATA} {ONE} 1 first 1 more".split())
