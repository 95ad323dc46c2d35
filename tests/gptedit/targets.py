"""Partitions that are selected by number, by name and by GUID."""
from commands import DISK, EFI, ESP, LINUX, MIB, ROOT
from harness import table
from refusals import refused

HOME = "c0ffee00-0000-4000-8000-000000000003"
MAIL = "c0ffee00-0000-4000-8000-000000000004"
SIZE = 16 * MIB
LONGEST = "n" * 34 + "\U0001f600"

# The used entries of the image. Three share a name.
ENTRIES = {
    2: table.Entry(EFI, ESP, 2048, 4095, 0, "EFI System"),
    3: table.Entry(LINUX, ROOT, 4096, 6143, 0, "root"),
    5: table.Entry(LINUX, HOME, 6144, 8191, 0, "data"),
    6: table.Entry(LINUX, MAIL, 8192, 10239, 0, "data"),
    9: table.Entry(LINUX, "c0ffee00-0000-4000-8000-000000000009", 10240, 12287, 0, "data"),
    10: table.Entry(LINUX, "c0ffee00-0000-4000-8000-00000000000a", 12288, 14335, 0, "3"),
    11: table.Entry(LINUX, "c0ffee00-0000-4000-8000-00000000000b", 14336, 16383, 0, "name=root"),
    12: table.Entry(LINUX, "c0ffee00-0000-4000-8000-00000000000c", 16384, 18431, 0, LONGEST),
    128: table.Entry(LINUX, "c0ffee00-0000-4000-8000-00000000000d", 18432, 20479, 0, "\u00e9t\u00e9\u202e"),
}

# An unused entry that still has the name and the GUID of a used one, as some tools leave it.
REMAINS = table.Entry("00000000-0000-0000-0000-000000000000", ROOT, 4096, 6143, 0, "root")

# Words, and the number that each selects.
SELECTED = [
    ("3", 3), ("003", 3), ("128", 128), ("name=root", 3), ("name=EFI System", 2), ("name=3", 10),
    ("name=name=root", 11), (f"name={LONGEST}", 12), ("name=\u00e9t\u00e9\u202e", 128),
    (f"guid={ROOT}", 3), (f"guid={ROOT.upper()}", 3), (f"guid={MAIL}", 6)]

# Words that select no partition, and what is printed.
UNKNOWN = [
    ("name=Root", 'no partition has the name "Root"; `gptedit show disk.img` lists the partitions'),
    ("name=roo", 'no partition has the name "roo"'), ("name=root ", 'no partition has the name "root "'),
    ("name=a\"\\\u202e", 'no partition has the name "a\\"\\\\\\u{202e}"'),
    (f"guid={DISK}", f"no partition has the GUID {DISK}; `gptedit show disk.img` lists the partitions"),
    ("name=data", 'partitions 5 and 6 both have the name "data"; use a number'),
    ("1", "entry 1 is not used"), ("129", "entry 129 does not exist; the last entry is 128")]

# Words that are neither a number, a name nor a GUID.
WRONG = ["0", "+3", "-3", "3.0", "0x3", "4294967296", "root", "name=", f"name={LONGEST}n", "Name=root", "guid=", "guid=root",
         f"guid={ROOT}0", ROOT, " 3", "3 "]


def make(program, entries=None, remains=REMAINS):
    """Makes disk.img with these entries, and with the remains of another in entry 1."""
    first, last = table.bounds(SIZE)
    found = table.Table(DISK, first, last, 128, {**({1: remains} if remains else {}), **(entries or ENTRIES)})
    program.write("disk.img", table.image_of(found, SIZE))


def try_selecting(tally, program):
    """Each command changes exactly the partition that is selected."""
    for word, number in SELECTED:
        changes = [(["set", "disk.img", word, "--name", "new"], ENTRIES[number]._replace(name="new")),
                   (["resize", "disk.img", word, "512KiB"], ENTRIES[number]._replace(last=ENTRIES[number].first + 1023)),
                   (["remove", "disk.img", word], None)]
        for words, entry in changes:
            make(program)
            status, _, err = program.run(*words)
            tally.equals(f"gptedit {words}", (0, ""), (status, err))
            wanted = {**ENTRIES, number: entry} if entry else {key: ENTRIES[key] for key in ENTRIES if key != number}
            tally.equals(f"the entries after {words}", wanted, table.read(program.file("disk.img")).entries)
    make(program)
    program.run("remove", "disk.img", "name=root", "2", f"guid={HOME}")
    wanted = {key: ENTRIES[key] for key in ENTRIES if key not in (2, 3, 5)}
    tally.equals("the entries after remove of three", wanted, table.read(program.file("disk.img")).entries)


def try_not_selecting(tally, program):
    """What selects no partition, or several, is refused. Entry 1 is zeros: `remove` clears the remains of an entry."""
    make(program, remains=None)
    for word, text in UNKNOWN:
        for words in (["set", "disk.img", word, "--name", "new"], ["resize", "disk.img", word, "max"],
                      ["remove", "disk.img", "2", word], ["grow", "disk.img", word]):
            refused(tally, program, words, text)
    for words, number in (["2", "2"], 2), (["name=root", "3"], 3), (["2", "3", "5", f"guid={ROOT}"], 3):
        refused(tally, program, ["remove", "disk.img", *words], f"entry {number} is named twice; name it once")
    twice = {**ENTRIES, 6: ENTRIES[6]._replace(guid=HOME)}
    make(program, twice)
    refused(tally, program, ["set", "disk.img", f"guid={HOME}", "--name", "new"],
            f"partitions 5 and 6 both have the GUID {HOME}; use a number")


def try_wrong_words(tally, program):
    """What is neither a number, a name nor a GUID is an error of usage."""
    make(program)
    before = program.state("disk.img")
    for word in WRONG:
        for words in (["set", "disk.img", word, "--name", "new"], ["remove", "disk.img", word]):
            status, out, _ = program.run(*words)
            tally.equals(f"gptedit {words}", (2, ""), (status, out))
    tally.holds("wrong words leave the image", program.state("disk.img") == before)


SUBJECTS = {"what is selected": try_selecting, "what is not": try_not_selecting, "wrong words": try_wrong_words}
