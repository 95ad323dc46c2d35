"""Every command, and what it prints. Lines and tables are those of docs/GUIDE.md and of the format."""
import json

from harness import table
from harness.images import BOOT_CODE, MIB

DISK = "33221100-5544-7766-8899-aabbccddeeff"
ESP = "c0ffee00-0000-4000-8000-000000000001"
ROOT = "c0ffee00-0000-4000-8000-000000000002"
EFI = "c12a7328-f81f-11d2-ba4b-00a0c93ec93b"
LINUX = "0fc63daf-8483-4772-8e79-3d69d8477de4"
SWAP = "0657fd6d-a4ab-43c4-84e5-0933c84b4f4f"
# The names of attributes by their bits, and those of sfdisk.
NAMED = {0: "required", 1: "no-block-io", 2: "legacy-boot", 59: "grow-file-system", 60: "read-only", 63: "no-auto"}
SFDISK = {0: "RequiredPartition", 1: "NoBlockIOProtocol", 2: "LegacyBIOSBootable"}

HEAD = f"""disk.img: 262144 sectors of 512 bytes (128 MiB), GUID {DISK}
usable sectors 34..262110, 128 entries; both copies good
"""

# An image with one partition.
SHOWN = HEAD + f"""
 #   Start     End     Size  Type  Name  GUID                                  Attributes
 1    2048  133119   64 MiB  efi   ESP   {ESP}  required
"""

ADD_ESP = ["add", "disk.img", "--type", "efi", "--size", "64MiB", "--name", "ESP", "--guid", ESP,
           "--attributes", "required"]
ESP_ENTRY = table.Entry(EFI, ESP, 2048, 133119, 1, "ESP")


def says(tally, program, words, out="", err="", status=0, **how):
    """Counts whether the program ends with this status and prints exactly this."""
    ended = program.run(*words, **how)
    tally.equals("gptedit " + " ".join(words), (status, out, err), ended)


def holds_table(tally, program, what, entries, **others):
    """Counts whether both copies of disk.img hold a table with exactly these entries."""
    found = table.read(program.file("disk.img"), **others)
    tally.equals(f"the entries after {what}", entries, found and found.entries)


def start(program, entries=True, size=128 * MIB):
    """Makes disk.img anew: an image with a table, and with one partition in it."""
    program.make_image("disk.img", size)
    program.run("new", "disk.img", "--guid", DISK)
    if entries:
        program.run(*ADD_ESP)


def try_making(tally, program):
    """`new`, `show`, `add`."""
    program.make_image("disk.img", 128 * MIB)
    before = program.state("disk.img")
    dry = "a dry run, nothing is written:\n" + HEAD
    says(tally, program, ["new", "disk.img", "--guid", DISK, "-n"], dry)
    tally.holds("a dry run of new leaves the image", program.state("disk.img") == before)
    says(tally, program, ["new", "disk.img", "--guid", DISK], HEAD)
    image = program.state("disk.img")
    mbr = bytes([0, 0, 2, 0, 0xee, 255, 255, 255, 1, 0, 0, 0, 255, 255, 3, 0]) + bytes(48) + b"\x55\xaa"
    tally.equals("the first sector after new", BOOT_CODE + mbr, image[1][0][1][:512])
    tally.equals("the table after new", table.Table(DISK, 34, 262110, 128, {}),
                 table.read(program.file("disk.img")))
    added = '+ 1 2048..133119 64 MiB efi "ESP"\n'
    says(tally, program, ADD_ESP + ["--dry-run"], "a dry run, nothing is written:\n" + added)
    tally.holds("a dry run of add leaves the image", program.state("disk.img") == image)
    says(tally, program, ADD_ESP, added)
    holds_table(tally, program, "add", {1: ESP_ENTRY})
    says(tally, program, ["show", "disk.img"], SHOWN)
    says(tally, program, ["check", "disk.img"], "disk.img: nothing is wrong\n")
    program.run("new", "disk.img", "--force")
    found = table.read(program.file("disk.img"))
    tally.equals("the entries after new --force", {}, found.entries)
    tally.holds("a GUID that is not given is a random one", found.guid[14] == "4" and found.guid != DISK)


def try_sizes(tally, program):
    """Each unit of a size, and words that are none."""
    units = [("2048s", 2048), ("1048576B", 2048), ("1024KiB", 2048), ("1MiB", 2048), ("1GiB", 2097152),
             ("1TiB", 2147483648)]
    program.make_image("huge.img", (1 << 40) + 64 * MIB)
    program.run("new", "huge.img")
    for size, sectors in units:
        ended = program.run("add", "huge.img", "--type", "linux", "--size", size, "--json", "-n")
        found = json.loads(ended[1])["partitiontable"]["partitions"][0]
        tally.equals(f"--size {size}", (0, 2048, sectors), (ended[0], found["start"], found["size"]))
    start(program, False)
    for size in ["", "10", "MiB", "-1s", "0x10s", "1 MiB", "18446744073709551616s", "1mib"]:
        ended = program.run("add", "disk.img", "--type", "linux", "--size=" + size)
        tally.equals(f"the status of --size={size}", 2, ended[0])
    says(tally, program, ["add", "disk.img", "--type", "linux", "--size", "1000B"], "",
         "gptedit: disk.img: 1000B is not a whole number of sectors of 512 bytes; use 1024B or 2s\n", 1)


def try_places(tally, program):
    """Where a partition comes to be."""
    start(program)
    rows = [(["--size", "1MiB", "--place", "last"], 258048, 260095), (["--size", "1MiB"], 133120, 135167),
            (["--size", "1000s", "--place", "last", "--align", "1s"], 261111, 262110),
            (["--size", "1000s", "--place", "best", "--align", "1s"], 34, 1033),
            (["--size", "rest"], 133120, 260095), (["--size", "2048s", "--start", "200000s"], 200000, 202047),
            (["--size", "rest", "--start", "100MiB"], 204800, 260095),
            (["--size", "4KiB", "--align", "8s"], 40, 47)]
    for words, first, last in rows:
        ended = program.run("add", "disk.img", "--type", "swap", "-n", "--json", *words)
        if ended[0]:
            tally.equals(f"add {words}", "an answer", ended)
            continue
        found = json.loads(ended[1])["partitiontable"]["partitions"][-1]
        tally.equals(f"add {words}", (first, last), (found["start"], found["start"] + found["size"] - 1))


def try_editing(tally, program):
    """`set`, `resize`, `remove`, `sort`, `randomize`."""
    start(program)
    program.run("add", "disk.img", "--type", LINUX, "--size", "8MiB", "--number", "3", "--guid", ROOT)
    root = table.Entry(LINUX, ROOT, 133120, 149503, 0, "")
    holds_table(tally, program, "add --number 3", {1: ESP_ENTRY, 3: root})
    says(tally, program, ["set", "disk.img", "3", "--name", "root", "--type", "swap"],
         '~ 3 name "" -> "root", type linux -> linux-swap\n')
    root = root._replace(type=SWAP, name="root")
    holds_table(tally, program, "set", {1: ESP_ENTRY, 3: root})
    root = root._replace(guid="c0ffee00-0000-4000-8000-000000000003")
    program.run("set", "disk.img", "3", "--guid", root.guid)
    holds_table(tally, program, "set --guid", {1: ESP_ENTRY, 3: root})
    says(tally, program, ["set", "disk.img", "3", "--name", "root"], "unchanged\n")
    says(tally, program, ["resize", "disk.img", "3", "16MiB"],
         "~ 3 sectors 133120..149503 8 MiB -> 133120..165887 16 MiB\n")
    program.run("resize", "disk.img", "3", "1MiB")
    holds_table(tally, program, "resize to less", {1: ESP_ENTRY, 3: root._replace(last=135167)})
    program.run("resize", "disk.img", "3", "16MiB")
    says(tally, program, ["resize", "disk.img", "3", "max"],
         "~ 3 sectors 133120..165887 16 MiB -> 133120..260095 62 MiB\n")
    root = root._replace(last=260095)
    holds_table(tally, program, "resize max", {1: ESP_ENTRY, 3: root})
    says(tally, program, ["remove", "disk.img", "1", "3", "--dry-run"],
         'a dry run, nothing is written:\n- 1 2048..133119 64 MiB efi "ESP"\n'
         '- 3 133120..260095 62 MiB linux-swap "root"\n')
    program.run("add", "disk.img", "--type", "linux", "--size", "4s", "--align", "1s", "--guid", DISK)
    small = table.Entry(LINUX, DISK, 34, 37, 0, "")
    holds_table(tally, program, "a third add", {1: ESP_ENTRY, 2: small, 3: root})
    says(tally, program, ["sort", "disk.img"], "2 -> 1\n1 -> 2\n")
    holds_table(tally, program, "sort", {1: small, 2: ESP_ENTRY, 3: root})
    says(tally, program, ["sort", "disk.img"], "unchanged\n")
    was = table.read(program.file("disk.img"))
    program.run("randomize", "disk.img")
    after = table.read(program.file("disk.img"))
    guids = {after.guid} | {entry.guid for entry in after.entries.values()}
    tally.equals("randomize gives four GUIDs", 4, len(guids - {DISK, ESP, ROOT, was.guid}))
    tally.holds("they are of version 4", all(guid[14] == "4" for guid in guids))
    kept = {number: entry._replace(guid=was.entries[number].guid) for number, entry in after.entries.items()}
    tally.equals("randomize keeps all else", was.entries, kept)
    program.run("remove", "disk.img", "1", "3")
    tally.equals("remove 1 3", [2], list(table.read(program.file("disk.img")).entries))


def try_attributes(tally, program):
    """Each attribute, by its name and by the number of its bit."""
    start(program)
    rows = [(name, 1 << bit) for bit, name in NAMED.items()]
    rows += [(str(bit), 1 << bit) for bit in range(64)]
    rows += [(f"{NAMED[0]},{NAMED[63]},7", 1 | 1 << 63 | 1 << 7), ("", 0)]
    for text, bits in rows:
        program.run("set", "disk.img", "1", "--attributes=" + text)
        found = table.read(program.file("disk.img")).entries[1].attributes
        tally.equals(f"--attributes={text}", bits, found)
    for text in ["64", "-64", "+64", "requird", "required,", "required;no-auto"]:
        ended = program.run("set", "disk.img", "1", "--attributes=" + text)
        tally.equals(f"the status of --attributes={text}", 2, ended[0])


def try_growth(tally, program):
    """`grow`, `check` and `repair`."""
    start(program)
    with open(program.file("disk.img"), "r+b") as file:
        file.truncate(256 * MIB)
    ended = program.run("check", "disk.img")
    tally.equals("the status of check after growth", 1, ended[0])
    tally.holds("check names grow", "`gptedit grow disk.img`" in ended[1])
    says(tally, program, ["add", "disk.img", "--type", "linux", "--size", "1MiB"], "",
         "gptedit: disk.img: the table is for a disk of another length, or is not in the layout that gptedit writes\n"
         "if the length of the disk has changed, run `gptedit grow disk.img`, or use --fit if the command has it; "
         "else see `gptedit check disk.img`\n", 1)
    grown = "usable sectors 34..262110 -> 34..524254\n"
    before = program.state("disk.img")
    says(tally, program, ["grow", "disk.img", "-n"],
         "a dry run, nothing is written:\n" + grown + "the protective MBR gets the length of the disk\n")
    tally.holds("a dry run of grow leaves the image", program.state("disk.img") == before)
    says(tally, program, ["grow", "disk.img"], grown + "the protective MBR gets the length of the disk\n")
    tally.equals("the table after grow", table.Table(DISK, 34, 524254, 128, {1: ESP_ENTRY}),
                 table.read(program.file("disk.img")))
    says(tally, program, ["grow", "disk.img"], "unchanged\n")
    good = program.state("disk.img")
    for at, place in (512, "primary"), (256 * MIB - 512, "backup"):
        program.put("disk.img", at, bytes(512))
        ended = program.run("check", "disk.img")
        tally.equals(f"check of a bad {place} copy", (1, f"the {place} copy is bad (InvalidSignature: there is no "
                     "header of a table): `gptedit repair disk.img`\n", ""), ended)
        says(tally, program, ["repair", "disk.img", "-n"],
             "a dry run, nothing is written:\nboth copies are rewritten\n")
        says(tally, program, ["repair", "disk.img"], "both copies are rewritten\n")
        tally.holds(f"repair of the {place} copy gives the image", program.state("disk.img") == good)
    empty = ["new", "disk.img", "--force", "--guid", DISK]
    program.run(*empty)
    for at in (512, 256 * MIB - 512):
        program.put("disk.img", at, bytes(512))
        tally.equals("the status of new over the same table", 0, program.run(*empty)[0])
        tally.equals("new over the same table writes both copies", table.Table(DISK, 34, 524254, 128, {}),
                     table.read(program.file("disk.img")))
    program.restore("disk.img", good)
    program.put("disk.img", 446, bytes(66))
    says(tally, program, ["check", "disk.img"],
         "there is no protective MBR: `gptedit repair disk.img`\n", "", 1)
    says(tally, program, ["repair", "disk.img"],
         "both copies are rewritten\na protective MBR is written\n")
    tally.holds("repair of the MBR gives the image", program.state("disk.img") == good)


def try_entries(tally, program):
    """`new --entries`: where its sectors are, as sgdisk has them too, and what becomes of the number."""
    for count, first, last in [(1, 3, 131069), (4, 3, 131069), (5, 4, 131068), (56, 16, 131056), (128, 34, 131038),
                               (129, 35, 131037), (1000, 252, 130820), (32768, 8194, 122878)]:
        program.make_image("disk.img", 64 * MIB)
        tally.equals(f"new --entries {count}", 0,
                     program.run("new", "disk.img", "--guid", DISK, "--entries", str(count))[0])
        tally.equals(f"the table of {count} entries", table.Table(DISK, first, last, count, {}),
                     table.read(program.file("disk.img")))
    for count in ["0", "32769", "-1", "x", ""]:
        tally.equals(f"the status of --entries={count}", 2,
                     program.run("new", "disk.img", "--force", "--entries=" + count)[0])
    program.make_image("disk.img", 64 * MIB)
    words = ["new", "disk.img", "--guid", DISK, "--entries"]
    program.run(*words, "2")
    for number in "1", "2", "3":
        ended = program.run("add", "disk.img", "--type", "linux", "--size", "1MiB")
        tally.equals(f"the status of add as partition {number} of two", int(number == "3"), ended[0])
    tally.equals("the status of new where a table stands", 1, program.run(*words, "56")[0])
    program.run("new", "disk.img", "--guid", DISK, "--force")
    tally.equals("new --force keeps the number", table.Table(DISK, 3, 131069, 2, {}),
                 table.read(program.file("disk.img")))
    for at in (0, 512, 64 * MIB - 512):
        for count, first, last in ("56", 16, 131056), ("2", 3, 131069):
            program.put("disk.img", max(at, 512), b"EFI PART" if at == 0 else bytes(512))
            tally.equals("the status of another number over a table", 0,
                         program.run(*words, count, "--force")[0])
            tally.equals("another number over a table", table.Table(DISK, first, last, int(count), {}),
                         table.read(program.file("disk.img")))
    before = program.state("disk.img")
    says(tally, program, words + ["56", "--force", "-n"],
         "a dry run, nothing is written:\n"
         f"disk.img: 131072 sectors of 512 bytes (64 MiB), GUID {DISK}\n"
         "usable sectors 16..131056, 56 entries; both copies good\n")
    tally.holds("a dry run of new leaves the image", program.state("disk.img") == before)
    program.make_image("small.img", 16 * 512)
    tally.equals("the status of new without room for 128", 1, program.run("new", "small.img")[0])
    tally.equals("the status of new with room for 4", 0, program.run("new", "small.img", "--entries", "4")[0])


def try_sectors(tally, program):
    """Sectors of 4096 bytes."""
    program.make_image("disk.img", 128 * MIB)
    program.run("new", "disk.img", "--sector", "4096", "--guid", DISK)
    tally.equals("new --sector 4096", table.Table(DISK, 6, 32762, 128, {}),
                 table.read(program.file("disk.img"), 4096))
    ended = program.run("add", "disk.img", "--type", "linux", "--size", "1MiB", "--guid", ROOT)
    tally.equals("add with sectors of 4096 bytes", (0, '+ 1 256..511 1 MiB linux ""\n', ""), ended)
    holds_table(tally, program, "add", {1: table.Entry(LINUX, ROOT, 256, 511, 0, "")}, sector=4096)
    tally.equals("show --sector 512", 3, program.run("show", "disk.img", "--sector", "512")[0])
    for word in ["0", "-1", "x", ""]:
        tally.equals(f"the status of --sector={word}", 2, program.run("show", "disk.img", "--sector=" + word)[0])


def try_json(tally, program):
    """`--json` of each command."""
    start(program)
    told = json.loads(program.run("show", "disk.img", "--json")[1])
    tally.equals("show --json, as sfdisk has it", {
        "label": "gpt", "id": DISK.upper(), "device": "disk.img", "unit": "sectors", "firstlba": 34,
        "lastlba": 262110, "sectorsize": 512, "partitions": [{
            "node": "disk.img1", "start": 2048, "size": 131072, "type": EFI.upper(), "uuid": ESP.upper(),
            "name": "ESP", "attrs": "RequiredPartition"}]}, told["partitiontable"])
    tally.equals("show --json, what is more", {
        "form": "primary", "primary": "good", "backup": "good", "same": True, "size_bytes": 128 * MIB,
        "align_sectors": 2048, "free": [{"start_sectors": 133120, "size_sectors": 128991}]}, told["gptman"])
    tally.equals("free --json", [{"start_sectors": 34, "size_sectors": 2014},
                                 {"start_sectors": 133120, "size_sectors": 128991}],
                 json.loads(program.run("free", "disk.img", "--json")[1]))
    types = json.loads(program.run("types", "--json")[1])
    tally.holds("types --json has efi", {"name": "efi", "guid": EFI.upper()} in types)
    tally.equals("check --json", {"device": "disk.img", "good": True, "primary": "good", "backup": "good",
                                  "same": True, "findings": [], "notes": []},
                 json.loads(program.run("check", "disk.img", "--json")[1]))
    for words in [["dump"], ["sort"], ["repair"], ["grow"], ["set", "1", "--name", "x"], ["resize", "1", "1MiB"],
                  ["remove", "1"], ["randomize"], ["new", "--force"], ["add", "--type", "efi", "--size", "1MiB"]]:
        ended = program.run(words[0], "disk.img", *words[1:], "--json")
        tally.holds(f"{words} --json", ended[0] == 0 and "partitiontable" in json.loads(ended[1]))


def try_free(tally, program):
    """`free`, and `types`."""
    start(program)
    says(tally, program, ["free", "disk.img"],
         " Start     End  Sectors      Size\n    34    2047     2014  1007 KiB\n"
         "133120  262110   128991  62.9 MiB\n")
    says(tally, program, ["free", "disk.img", "--align", "1MiB"],
         " Start     End  Sectors      Size\n133120  262110   128991  62.9 MiB\n")
    tally.equals("the status of free --align 0s", 1, program.run("free", "disk.img", "--align", "0s")[0])
    lines = program.run("types")[1].split("\n")
    tally.holds("types lists swap", any(line.split() == ["swap", SWAP] for line in lines))


def try_help(tally, program):
    """`--help` of each command has an example that runs as it stands."""
    commands = ["show", "check", "free", "types", "new", "add", "set", "resize", "remove", "sort", "grow",
                "repair", "randomize", "dump", "apply"]
    for command in commands:
        status, out, err = program.run(command, "--help")
        tally.holds(f"{command} --help has an example", (status, err) == (0, "") and
                    f"gptedit {command}" in out.split("Example")[-1])
    says(tally, program, ["--version"], "gptedit 0.1.0\n")
    for words in [[], ["shw"], ["show"], ["show", "disk.img", "x"], ["add", "disk.img", "--size", "1s"],
                  ["set", "disk.img", "1"], ["remove", "disk.img", "0"], ["resize", "disk.img", "1"],
                  ["new", "disk.img", "--number", "9"], ["show", "disk.img", "--dry-run"]]:
        status, out, err = program.run(*words)
        tally.holds(f"{words} are no words", (status, out) == (2, "") and err)


SUBJECTS = {"making": try_making, "sizes": try_sizes, "places": try_places, "editing": try_editing,
            "attributes": try_attributes, "growth and repair": try_growth, "numbers of entries": try_entries,
            "sectors of 4096 bytes": try_sectors, "JSON": try_json, "free sectors and types": try_free,
            "help": try_help}
