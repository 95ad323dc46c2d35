"""`set`: steps of attributes, the number of a partition, random GUIDs, and the GUID of the disk."""
import json
import re

from harness import table
from harness.runs import there
from commands import DISK, ESP, MIB, ROOT, SWAP
from makers import IMAGE, entry, make, tool

ALL = (1 << 64) - 1
OTHER = "12345678-9abc-4def-8123-456789abcdef"
VERSION_4 = re.compile(r"[0-9a-f]{8}-[0-9a-f]{4}-4[0-9a-f]{3}-[89ab][0-9a-f]{3}-[0-9a-f]{12}")


def bits(*numbers):
    """A number with these bits."""
    return sum(1 << number for number in numbers)


# Attributes, the words of `--attributes`, and the attributes afterwards. Bits and fields are those of the UEFI
# specification, Linux's partition types and ChromeOS's disk format.
STEPS = [
    (0, "+read-only", bits(60)),
    (bits(60, 63), "+read-only,-no-auto", bits(60)),
    (bits(60, 63), "-no-auto,-read-only", 0),
    (ALL, "-0", ALL - 1),
    (0, "+required,+no-block-io,+legacy-boot,+grow-file-system,+read-only,+no-auto", bits(0, 1, 2, 59, 60, 63)),
    (ALL, "-required,-no-block-io,-legacy-boot,-grow-file-system,-read-only,-no-auto", ALL - bits(0, 1, 2, 59, 60, 63)),
    (bits(17), "+63,-63,+63", bits(17, 63)),
    (bits(2), "+legacy-boot,-legacy-boot", 0),
    (bits(3, 7), "+007,-3", bits(7)),
    (0, "priority=5,tries=1,successful=1", (5 << 48) + (1 << 52) + (1 << 56)),
    ((15 << 48) + bits(60), "priority=0", bits(60)),
    (ALL, "priority=5", ALL - (10 << 48)),
    (ALL, "tries=10", ALL - (5 << 52)),
    (ALL, "successful=0", ALL - (1 << 56)),
    (bits(47, 52, 57), "priority=15,tries=15,successful=1", bits(47, 57) + (0x1ff << 48)),
    (0, "priority=1,priority=14", 14 << 48),
    (0, "priority=15,-48", 14 << 48),
    (0, "+48,priority=2", 2 << 48),
    (0, "+read-only,tries=03", bits(60) + (3 << 52)),
    # Without a sign these are all attributes.
    (bits(5), "read-only,no-auto", bits(60, 63)), (ALL, "", 0), (bits(5), "0x8000", bits(15)), (ALL, "48", bits(48))]

# Words that are neither attributes nor steps.
WRONG = ["+read-only,no-auto", "read-only,+no-auto", "read-only,priority=1", "priority=1,read-only", "+", "-", "+64", "++5",
         "+-5", "--5", "+5 ", "+ 5", "priority=16", "priority=", "priority=+1", "priority=-1", "priority=0x5", "priority",
         "priority=1=1", "tries=16", "tries=99999999999999999999", "successful=2", "successful=true", "+priority=5",
         "Priority=5", "+Read-Only", "+read-only,", ",+read-only", "+read-only,,-no-auto", "+0x1", "+read-only;-no-auto",
         "+RequiredPartition"]

# Partitions 1 and 3.
TWO = {1: entry(2048, 4095, attributes=bits(60, 48)), 3: entry(8192, 16383, "three", ROOT)}

# Words that change a number, and the entries afterwards.
NUMBERS = [
    (["1", "--number", "2"], {2: TWO[1], 3: TWO[3]}),
    (["3", "--number", "1280"], None),
    (["3", "--number", "128"], {1: TWO[1], 128: TWO[3]}),
    (["3", "--number", "3"], TWO),
    (["name=three", "--number", "2"], {1: TWO[1], 2: TWO[3]}),
    ([f"guid={ESP}", "--number", "4", "--name", "new", "--type", "swap", "--attributes", "+no-auto,priority=2", "--guid", OTHER],
     {3: TWO[3], 4: table.Entry(SWAP, OTHER, 2048, 4095, bits(60, 63) + (2 << 48), "new")}),
    (["1", "--number", "2", "--attributes", "legacy-boot"], {2: TWO[1]._replace(attributes=4), 3: TWO[3]})]

# Words that are refused, with the code and a text.
REFUSED = [
    (["1", "--number", "3"], "is-used", "already exists"),
    (["1", "--number", "129"], "no-entry", "entry 129 does not exist; the last entry is 128"),
    (["2", "--number", "4"], "is-unused", "entry 2 is not used"),
    (["129", "--number", "4"], "no-entry", "entry 129 does not exist"),
    (["2", "--random-guid"], "is-unused", "entry 2 is not used"),
    (["2", "--attributes", "+1"], "is-unused", "entry 2 is not used"),
    (["1", "--number", "2", "--guid", ROOT], "shared-guid", "same GUID")]

# Words of a wrong use, and a text.
MISUSED = [
    (["--name", "x"], "N is missing"), ([], "N is missing"), (["--random-guid"], "N is missing"),
    (["1"], "nothing to set"), (["1", "--number", "0"], "0"), (["1", "--number", "x"], "x"),
    (["1", "--guid", OTHER, "--random-guid"], "'--guid' cannot be used with '--random-guid'"),
    (["1", "--disk-guid", OTHER], "'--disk-guid' cannot be used with '[N]'"),
    (["--disk-guid", OTHER, "--name", "x"], "'--disk-guid' cannot be used with"),
    (["--disk-guid", "random", "--random-guid"], "'--disk-guid' cannot be used with"),
    (["--disk-guid", "x"], "invalid value"), (["--disk-guid", ""], ""), (["--disk-guid", "Random"], "invalid value")]


def entries_of(program):
    """The entries of both copies."""
    found = table.read(program.file(IMAGE))
    return found and found.entries


def try_steps(tally, program):
    """Bits that are set and cleared, and fields."""
    for before, words, after in STEPS:
        make(program, {1: entry(2048, 4095, attributes=before), 3: TWO[3]})
        ended = program.run("set", IMAGE, "1", f"--attributes={words}")
        tally.equals(f"status of --attributes={words}", (0, ""), (ended[0], ended[2]))
        tally.equals(f"entries after --attributes={words}", {1: entry(2048, 4095, attributes=after), 3: TWO[3]}, entries_of(program))
    make(program, TWO)
    for words in WRONG:
        status, out, err = program.run("set", IMAGE, "1", f"--attributes={words}")
        tally.holds(f"--attributes={words}: {err}", status == 2 and not out and "invalid value" in err)
    status, _, err = program.run("add", IMAGE, "--type", "linux", "--size", "1MiB", "--attributes", "+read-only")
    tally.holds(f"add takes no steps: {err}", status == 2 and "invalid value" in err)
    tally.equals("entries after wrong words", TWO, entries_of(program))


def try_numbers(tally, program):
    """Another number of a partition."""
    for words, wanted in NUMBERS:
        make(program, TWO)
        ended = program.run("set", IMAGE, *words)
        tally.equals(f"status of set {words}", 1 if wanted is None else 0, ended[0])
        tally.equals(f"entries after set {words}", wanted or TWO, entries_of(program))
    make(program, TWO)
    change = json.loads(program.plain("set", IMAGE, "1", "--number", "2", "--json")[1])["changes"]
    kept = [(one["number"], one["kind"], one["before"]["number"], one["after"]["number"]) for one in change]
    tally.equals("changes of --number", [(2, "renumbered", 1, 2)], kept)


def try_guids(tally, program):
    """Random GUIDs, and the GUID of the disk."""
    drawn = set()
    for words in ([], ["--number", "2"], ["--name", "new"]):
        make(program, TWO)
        ended = program.run("set", IMAGE, "1", "--random-guid", *words)
        tally.equals(f"status of --random-guid {words}", 0, ended[0])
        found = entries_of(program)
        number = 2 if "--number" in words else 1
        guid = found[number].guid
        tally.holds(f"{guid} is random, and of version 4", VERSION_4.fullmatch(guid) and guid not in drawn | {ESP, ROOT})
        drawn.add(guid)
        name = "new" if "--name" in words else "one"
        tally.equals(f"entries after --random-guid {words}", {number: TWO[1]._replace(guid=guid, name=name), 3: TWO[3]}, found)
    make(program, TWO)
    tally.equals("status of --disk-guid", 0, program.run("set", IMAGE, "--disk-guid", OTHER)[0])
    tally.equals("the disk", (OTHER, TWO), (table.read(program.file(IMAGE)).guid, entries_of(program)))
    tally.equals("status of --disk-guid random", 0, program.run("set", "--disk-guid", "random", IMAGE)[0])
    guid = table.read(program.file(IMAGE)).guid
    tally.holds(f"{guid} of the disk is random", VERSION_4.fullmatch(guid) and guid not in (DISK, OTHER))
    tally.equals("entries after --disk-guid random", TWO, entries_of(program))


def try_refusals(tally, program):
    """What is refused, and that the image stays."""
    make(program, TWO)
    before = program.state(IMAGE)
    for words, code, text in REFUSED:
        status, _, err = program.run("set", IMAGE, *words)
        tally.holds(f"set {words}: {err}", status == 1 and text in err)
        error = json.loads(program.plain("set", IMAGE, *words, "--json")[1])["error"]
        tally.equals(f"code of set {words}", code, error["code"])
    for words, text in MISUSED:
        status, out, err = program.run("set", IMAGE, *words)
        tally.holds(f"set {words}: {err}", status == 2 and not out and text in err)
    tally.holds("the image stays", program.state(IMAGE) == before)


def try_peers(tally, program):
    """The same by sgdisk, sfdisk and cgpt."""
    left_out = [name for name in ("sgdisk", "sfdisk", "cgpt") if not there(name)]
    rows = [
        ("sgdisk", ["-A", "1:set:60", "-A", "1:clear:48"], ["1", "--attributes", "+read-only,-48"]),
        ("sgdisk", ["-u", f"3:{OTHER}"], ["3", "--guid", OTHER]),
        ("sgdisk", ["-U", OTHER], ["--disk-guid", OTHER]),
        ("sgdisk", ["-r", "1:2"], ["1", "--number", "2"]),
        ("sfdisk", ["--part-attrs", "{}", "1", "GUID:63,RequiredPartition"], ["1", "--attributes", "no-auto,required"]),
        ("sfdisk", ["--disk-id", "{}", OTHER], ["--disk-guid", OTHER]),
        ("cgpt", ["add", "-i", "1", "-P", "5", "-T", "3", "-S", "1"], ["1", "--attributes", "priority=5,tries=3,successful=1"]),
        ("cgpt", ["add", "-i", "1", "-P", "0", "-T", "15", "-S", "0"], ["1", "--attributes", "priority=0,tries=15,successful=0"])]
    for name, theirs, ours in rows:
        if name in left_out:
            continue
        make(program, TWO, size=16 * MIB)
        words = [word.format(IMAGE) for word in theirs] if "{}" in theirs else theirs + [IMAGE]
        status = tool(program, name, *words)
        wanted = table.read(program.file(IMAGE))
        make(program, TWO, size=16 * MIB)
        ended = program.run("set", IMAGE, *ours)
        tally.equals(f"{name} {theirs} and set {ours}", (0, wanted), (status or ended[0], table.read(program.file(IMAGE))))
    return f"{', '.join(left_out)} not installed: left out" if left_out else None


SUBJECTS = {
    "settings: steps of attributes": try_steps,
    "settings: numbers": try_numbers,
    "settings: GUIDs": try_guids,
    "settings: refusals": try_refusals,
    "settings: other programs": try_peers}
