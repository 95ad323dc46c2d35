"""Each output: attributes, states of the copies, the whole list of types, and names with hidden characters."""
import os
import re
import shutil
import subprocess
import tomllib

from harness import table
from commands import DISK, ESP, LINUX, NAMED, ROOT, SFDISK
from makers import IMAGE, ONE, SIZE, TWO, entry, make, of, set_field

TYPES = os.path.join(os.path.dirname(__file__), "..", "..", "docs", "generated", "TYPES.md")


def words_of(bits):
    """The words of attributes, as the manual has them: names, and numbers of bits."""
    return [NAMED.get(bit, str(bit)) for bit in range(64) if bits >> bit & 1]


def sfdisk_words(bits):
    """The words of attributes as sfdisk has them."""
    words = [SFDISK[bit] for bit in SFDISK if bits >> bit & 1]
    others = ",".join(str(bit) for bit in range(48, 64) if bits >> bit & 1)
    return " ".join(words + (["GUID:" + others] if others else []))


def try_attributes(tally, program):
    """Each attribute in `show`, in JSON and in `dump`, of tables that were made from the format."""
    for bits in [1 << bit for bit in range(64)] + [0, 5, 1 << 63 | 1, (1 << 64) - 1, 3 << 59]:
        make(program, {1: entry(2048, 4095, attributes=bits)})
        line = program.run("show", IMAGE)[1].splitlines()[-1]
        found = line.split(ESP)[-1].strip()
        tally.equals(f"show of attributes {bits:#x}", words_of(bits), list(filter(None, re.split("[, ]+", found))))
        one = program.json("show", IMAGE, "--json")["partitiontable"]["partitions"][0]
        tally.equals(f"JSON of attributes {bits:#x}", sfdisk_words(bits), one.get("attrs", ""))
        one = tomllib.loads(program.run("dump", IMAGE)[1])["partition"][0]
        tally.equals(f"dump of attributes {bits:#x}", words_of(bits), [str(word) for word in one.get("attributes", [])])


def try_fields(tally, program):
    """Every field of an entry and of the header in each output."""
    rows = {1: entry(2048, 4095, "one", ESP, LINUX, 4), 5: entry(8192, 8192, "Größe", ROOT)}
    make(program, rows, first=2048, count=56)
    lines = program.run("show", IMAGE)[1].splitlines()
    tally.equals("the lines of the disk", [
        f"{IMAGE}: {SIZE // 512} sectors of 512 bytes (16 MiB), GUID {DISK}",
        f"usable sectors 2048..{SIZE // 512 - 16}, 56 entries; both copies good"], lines[:2])
    tally.equals("the lines of the partitions", [
        ["1", "2048", "4095", "1", "MiB", "linux", "one", ESP, "legacy-boot"],
        ["5", "8192", "8192", "512", "B", "linux", "Größe", ROOT]], [line.split() for line in lines[-2:]])
    found = program.json("show", IMAGE, "--json")["partitiontable"]
    tally.equals("the partitions in JSON", [
        (f"{IMAGE}1", 2048, 2048, LINUX.upper(), ESP.upper(), "one"),
        (f"{IMAGE}5", 8192, 1, LINUX.upper(), ROOT.upper(), "Größe")],
        [tuple(one[key] for key in ("node", "start", "size", "type", "uuid", "name")) for one in found["partitions"]])
    tally.equals("the disk in JSON", (DISK.upper(), 2048, SIZE // 512 - 16, 512),
                 (found["id"], found["firstlba"], found["lastlba"], found["sectorsize"]))
    found = tomllib.loads(program.run("dump", IMAGE)[1])
    tally.equals("the partitions of a dump", [(1, "2048s", "2048s", ESP, "one"), (5, "8192s", "1s", ROOT, "Größe")],
                 [tuple(one[key] for key in ("number", "start", "size", "guid", "name")) for one in found["partition"]])


def try_states(tally, program):
    """What the copies are, in `show` and in JSON."""
    end = SIZE - 512
    faults = {"InvalidSignature": [(0, b"efi part")], "InvalidRevision": "revision", "InvalidChecksum": [(60, b"????")]}
    for name, pieces in faults.items():
        for place, at in ("primary", 512), ("backup", end):
            make(program, ONE)
            if pieces == "revision":
                set_field(program, 8, 0x20000, [at], form="<I")
            else:
                program.put(IMAGE, at + pieces[0][0], pieces[0][1])
            state(tally, program, f"a {place} copy with {name}", {place: name})
    for place, at in ("primary", 1084), ("backup", end - 32 * 512 + 60):
        make(program, ONE)
        program.flip(IMAGE, at)
        state(tally, program, f"a bit in the {place} entries", {place: "InvalidPartitionEntryArrayChecksum"})
    make(program, ONE)
    state(tally, program, "two good copies", {})
    other = of({1: entry(2048, 6143, "other", ROOT)})
    table.put(program.file(IMAGE), table.pieces_of(other, SIZE)[1:3])
    shown = program.run("show", IMAGE)[1]
    tally.holds(f"show of two tables: {shown}", "two tables" in shown and "other" in shown and ESP not in shown)
    found = program.json("show", IMAGE, "--json")["gptman"]
    tally.equals("JSON of two tables", ("good", "good", False), (found["primary"], found["backup"], found["same"]))


def state(tally, program, what, bad):
    """Counts whether `show` and JSON tell which copy is bad and why."""
    shown = program.run("show", IMAGE)[1].splitlines()[1]
    wanted = [f"{place} bad ({name})" for place, name in bad.items()] or ["both copies good"]
    tally.holds(f"show of {what}: {shown}", all(text in shown for text in wanted) and
                ("both copies good" in shown) == (not bad))
    for words in ["show", IMAGE, "--json"], ["check", IMAGE, "--json"]:
        found = program.json(*words)
        found = found.get("gptman", found)
        tally.equals(f"{words[0]} --json of {what}", (bad.get("primary", "good"), bad.get("backup", "good"), not bad),
                     (found["primary"], found["backup"], found["same"]))
    form = program.json("show", IMAGE, "--json")["gptman"]["form"]
    tally.equals(f"the form of {what}", "backup" if "primary" in bad else "primary", form)


def try_types(tally, program):
    """The whole list of types: by docs/generated/TYPES.md, by their digits there, and by sfdisk."""
    with open(TYPES, encoding="utf-8") as file:
        rows = re.findall(r"^\| `([^`]*)` \| `([0-9a-f]{32})` \| `([0-9A-F-]{36})` \|", file.read(), re.M)
    known = {name: text.lower() for name, _, text in rows}
    tally.equals("the digits of docs/generated/TYPES.md", [], [name for name, digits, text in rows if
                                                     table.guid_bytes(text).hex() != digits])
    listed = dict(line.rsplit(None, 1) for line in program.run("types")[1].splitlines()[1:])
    tally.equals("types, by docs/generated/TYPES.md", known, {name.strip(): guid for name, guid in listed.items()})
    found = program.json("types", "--json")
    tally.equals("types --json", known, {one["name"]: one["guid"].lower() for one in found})
    return try_their_types(tally, known)


def try_their_types(tally, known):
    """Counts whether each GUID is one that sfdisk lists, but for a few that it does not know, by name."""
    if not shutil.which("sfdisk"):
        return "sfdisk is not installed"
    lines = subprocess.run(["sfdisk", "--list-types", "-X", "gpt"], stdout=subprocess.PIPE, check=False).stdout.decode()
    theirs = dict(re.findall(r"^([0-9A-F-]{36})\s+(.*)$", lines, re.M))
    shared = [guid for guid in known.values() if guid.upper() in theirs]
    tally.holds(f"{len(shared)} of {len(known)} types are those of sfdisk", len(shared) > 100)
    pairs = {"efi": "EFI System", "linux": "Linux filesystem", "swap": "Linux swap", "home": "Linux home",
             "bios-boot": "BIOS boot", "linux-root-x86-64": "Linux root (x86-64)", "linux-lvm": "Linux LVM",
             "linux-raid": "Linux RAID", "linux-usr-arm64": "Linux /usr (ARM-64)", "linux-srv": "Linux server data",
             "linux-root-riscv64": "Linux root (RISC-V-64)", "linux-tmp": "Linux temporary data",
             "linux-boot": "Linux extended boot", "linux-var": "Linux variable data"}
    for name, text in pairs.items():
        tally.equals(f"the type {name} by sfdisk", text, theirs.get(known[name].upper()))
    for name, guid in known.items():
        match = re.fullmatch(r"linux-(root|usr)-(.*?)(-verity)?(-sig)?", name)
        their = re.fullmatch(r"Linux (root|/usr)( verity)?( sign\.?)? \((.*)\)", theirs.get(guid.upper(), ""))
        if match and their:
            tally.equals(f"the type {name} by sfdisk", (match[1], bool(match[3]), bool(match[4]), processor(match[2])),
                         (their[1].strip("/"), bool(their[2]), bool(their[3]), processor(their[4])))
    return f"{len(known)} types, {len(shared)} of them by sfdisk"


def processor(text):
    """The name of a processor, as both spell it."""
    word = re.sub("[^a-z0-9]", "", text.lower())
    word = re.sub("^mips32", "mips", word).replace("tigx", "tilegx").replace("titlegx", "tilegx")
    return re.sub("be$", "", word) if word.startswith("mips") else word


def try_hidden(tally, program):
    """Names with hidden characters in each output, of tables that were made from the format."""
    for code in 0x1b, 0x7f, 0x85, 0x9b, 0x202e, 0x2066, 0xfeff:
        name = f"a{chr(code)}[31mb"
        make(program, {1: entry(2048, 4095, name)})
        for words in ["show"], ["show", "--json"], ["dump"], ["check"], ["salvage"]:
            ended = program.run(words[0], IMAGE, *words[1:])
            tally.holds(f"{words} hides U+{code:04X}: {ended}", chr(code) not in ended[1] + ended[2] and ended[0] == 0)
        shown = program.run("show", IMAGE)[1]
        tally.holds(f"show of U+{code:04X}: {shown!r}", f"a\\u{{{code:x}}}[31mb" in shown)
        found = program.json("show", IMAGE, "--json")
        tally.equals(f"JSON of U+{code:04X}", name, found["partitiontable"]["partitions"][0]["name"])
    make(program, TWO)


SUBJECTS = {"output of attributes": try_attributes, "output of fields": try_fields, "output of states": try_states,
            "the whole list of types": try_types, "output of hidden characters": try_hidden}
