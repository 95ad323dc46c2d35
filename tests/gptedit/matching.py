"""Which partitions the sections of a layout mean that have no number."""
import random

from harness import table
from commands import DISK, EFI, LINUX, MIB, SWAP, holds_table, says, start
from refusals import refused

TABLES = 150
SIZE = 64 * MIB
TYPES = {"efi": EFI, "linux": LINUX, "swap": SWAP}
NAMES = ["a", "b", "c"]
GUIDS = [f"0000000{n}-0000-4000-8000-000000000000" for n in range(1, 8)]
# The first bit of an attribute that marks a section, so that the table tells which entry the section means.
MARK = 48


def entry(kind, name="", guid=GUIDS[0], place=1):
    """An entry of 1 MiB."""
    return table.Entry(TYPES[kind], guid, place * 2048, place * 2048 + 2047, 0, name)


# Entries (the n-th is in the n-th MiB), sections, and what each means: a number and how it is found; or the text of a refusal without --replace.
ROWS = [
    # A GUID is stronger than a name and a type, a name is stronger than a type.
    ([("linux", "a", 1), ("linux", "b", 2)], [dict(guid=2), dict(guid=1)], [(2, "guid"), (1, "guid")]),
    ([("linux", "a", 1), ("linux", "b", 2)], [dict(name="b"), dict(name="a")], [(2, "name"), (1, "name")]),
    ([("linux", "a", 1), ("linux", "b", 2)], [dict(guid=2, name="a"), dict(type="linux")], [(2, "guid"), (1, "type")]),
    ([("efi", "", 1), ("linux", "", 2), ("linux", "", 3)], [dict(type="linux"), dict(type="linux"), dict(type="efi")],
     [(2, "type"), (3, "type"), (1, "type")]),
    # A section that is put in front takes no entry from the others.
    ([("linux", "a", 1), ("linux", "b", 2)], [dict(type="linux", name="new"), dict(name="a"), dict(name="b")],
     [(3, "new"), (1, "name"), (2, "name")]),
    ([("efi", "", 1), ("linux", "", 2)], [dict(type="swap"), dict(type="efi"), dict(type="linux")],
     [(3, "new"), (1, "type"), (2, "type")]),
    # By type only if one of the two has no name, or both have the same.
    ([("linux", "", 1)], [dict(type="linux", name="root")], [(1, "type")]),
    ([("linux", "root", 1)], [dict(type="linux")], [(1, "type")]),
    ([("linux", "x", 1), ("linux", "", 2)], [dict(type="linux", name="root"), dict(type="linux")],
     [(2, "type"), (1, "type")]),
    ([("linux", "x", 1), ("linux", "x", 2)], [dict(type="linux", name="x"), dict(type="linux", name="x")],
     [(1, "type"), (2, "type")]),
    ([("linux", "x", 1)], [dict(type="linux", name="root"), dict(number=1)], [(2, "new"), (1, "number")]),
    # A name that several entries or sections have finds none of another type.
    ([("linux", "x", 1), ("efi", "x", 2)], [dict(type="efi", name="x"), dict(type="linux")], [(2, "type"), (1, "type")]),
    # What a number names is not found by anything else; the new ones get the next numbers after all others.
    ([("linux", "a", 1), ("linux", "b", 2)], [dict(name="a", type="linux"), dict(number=1), dict(number=3, type="efi"), dict(name="b")],
     [(4, "new"), (1, "number"), (3, "number"), (2, "name")]),
    ([("linux", "", 1), None, ("linux", "", 3)], [dict(type="linux")] * 3, [(1, "type"), (3, "type"), (4, "new")]),
    ([("linux", "", 1), None, ("linux", "a", 3)], [dict(type="linux", name="b"), dict(name="a")], [(1, "type"), (3, "name")]),
    ([("linux", "a", 1), ("linux", "b", 2)], [dict(guid=1, type="swap"), dict(number=1, guid=3), dict(guid=2)],
     [(3, "new"), (1, "number"), (2, "guid")]),
    # Another type or GUID for what only its name or type finds.
    ([("linux", "a", 1)], [dict(name="a", type="swap")], "would get another type or GUID"),
    ([("linux", "a", 1)], [dict(name="a", guid=2)], "would get another type or GUID"),
    ([("linux", "", 1)], [dict(type="linux", guid=2)], "would get another type or GUID"),
    ([("linux", "a", 1)], [dict(number=1, type="swap", guid=2)], [(1, "number")]),
    ([("linux", "a", 1)], [dict(guid=1, type="swap", name="b")], [(1, "guid")]),
    ([("linux", "a", 1)], [dict(name="a", type="linux", guid=1)], [(1, "guid")]),
    ([("linux", "a", 1), ("linux", "b", 2)], [dict(name="a")], "partition 2 "),
]


def layout_of(sections):
    """The layout, with an attribute of its own for each section."""
    lines = []
    for index, section in enumerate(sections):
        lines += ["[[partition]]", 'size = "1MiB"', f"attributes = [{MARK + index}]"]
        lines += [f"number = {section['number']}"] if "number" in section else []
        lines += [f'guid = "{GUIDS[section["guid"] - 1]}"'] if "guid" in section else []
        lines += [f'{key} = "{section[key]}"' for key in ("type", "name") if key in section]
    return "\n".join(lines) + "\n"


def put(program, entries):
    """An image whose table has these entries, by number: type, name and the number of the GUID."""
    program.make_image("disk.img", SIZE)
    first, last = table.bounds(SIZE)
    listed = {number: entry(kind, name, GUIDS[guid - 1], number) for number, (kind, name, guid) in entries.items()}
    found = table.Table(DISK, first, last, 128, listed)
    table.put(program.file("disk.img"), table.pieces_of(found, SIZE))
    return listed


def marked(program):
    """The number of the entry of each section, by its mark."""
    found = table.read(program.file("disk.img")).entries
    return {one.attributes.bit_length() - 1 - MARK: number for number, one in found.items() if one.attributes}


def try_rows(tally, program):
    """The rows: without --replace, in JSON and in words, and once more."""
    for listed, sections, wanted in ROWS:
        entries = put(program, {number: one for number, one in enumerate(listed, 1) if one})
        program.write("disk.toml", layout_of(sections).encode())
        what = f"{sections} on {listed}"
        if isinstance(wanted, str):
            refused(tally, program, ["apply", "disk.img", "disk.toml"], wanted)
            tally.equals(f"--replace takes {what}", 0, program.run("apply", "disk.img", "disk.toml", "--replace", "-n")[0])
            continue
        changes = program.json("apply", "disk.img", "disk.toml", "-n", "--json").get("changes", [])
        ways = {one["number"]: one["matched"] for one in changes}
        tally.equals(f"what is told of {what}", dict(wanted), ways)
        ended = program.run("apply", "disk.img", "disk.toml")
        tally.equals(f"the numbers of {what}", {index: number for index, (number, _) in enumerate(wanted)}, marked(program))
        told = {line.split()[1]: line.rpartition(" (by ")[2].rstrip(")") for line in ended[1].splitlines() if " (by " in line}
        words = {str(number): {"guid": "GUID"}.get(way, way) for number, way in wanted if way in ("guid", "name", "type")}
        tally.equals(f"the lines of {what}", words, told)
        after = table.read(program.file("disk.img")).entries
        stay = {number: (one.first, one.last) for number, one in entries.items()}
        tally.equals(f"nothing moves by {what}", stay, {number: (after[number].first, after[number].last) for number in entries})
        says(tally, program, ["apply", "disk.img", "disk.toml"], "unchanged\n")


def is_found(way, section, one, sections, entries):
    """Whether a section can mean this entry in this way."""
    name, own = section.get("name", ""), one.name
    if way == "guid":
        return "guid" in section and GUIDS[section["guid"] - 1] == one.guid
    if way == "name":
        return name and name == own and sum(other.name == own for other in entries.values()) == 1 and \
            sum(other.get("name") == own for other in sections) == 1
    return TYPES.get(section.get("type")) == one.type and (not name or not own or name == own)


def faults_of(sections, entries, meant):
    """What is wrong with what the sections mean: numbers and ways, by the rule as a user reads it."""
    numbers = [number for number, _ in meant]
    if len(set(numbers)) < len(numbers):
        yield "two sections mean one entry"
    order = ["number", "guid", "name", "type", "new"]
    by = {number: order.index(way) for number, way in meant}
    for index, (section, (number, way)) in enumerate(zip(sections, meant)):
        if ("number" in section) != (way == "number") or section.get("number", number) != number:
            yield f"{section} has {number}"
        if way == "new" and number in entries or way in order[1:4] and number not in entries:
            yield f"{section} is {way}, as {number}"
        elif way in order[1:4] and not is_found(way, section, entries[number], sections, entries):
            yield f"{section} is found by {way} as {number}"
        # What a stronger way would have found belongs to a section that found it in a way at least as strong, or in
        # the same way to one before.
        for stronger in order[1:4]:
            if order.index(stronger) > order.index(way):
                break
            for other, one in entries.items():
                if way == stronger and other >= number or way == "number" or not is_found(stronger, section, one, sections, entries):
                    continue
                earlier = by.get(other, 9) < order.index(stronger) or by.get(other) == order.index(stronger) and \
                    numbers.index(other) < index
                if not earlier:
                    yield f"{section} means {number} by {way}, and could mean {other} by {stronger}"
    new = [number for number, way in meant if way == "new"]
    last = max([0, *(number for number, way in meant if way != "new")])
    unused = [number for number in range(last + 1, last + 20) if number not in entries]
    if new != unused[:len(new)]:
        yield f"the new numbers are {new}"


def try_random(tally, program):
    """Random tables and layouts, with --replace: each section means what the rule says; once more changes nothing."""
    random_, guids = random.Random(51), range(1, len(GUIDS) + 1)
    for _ in range(TABLES):
        numbers = sorted(random_.sample(range(1, 9), random_.randint(0, 5)))
        entries = {number: (random_.choice(list(TYPES)), random_.choice(["", "", "", *NAMES]), guid)
                   for number, guid in zip(numbers, random_.sample(guids, len(numbers)))}
        free = iter(random_.sample(guids, len(guids)))
        given = iter(random_.sample(range(1, 10), 9))
        sections = []
        for _ in range(random_.randint(1, 6)):
            section = {"type": random_.choice(list(TYPES))}
            section.update({"guid": next(free)} if random_.random() < 0.3 else {})
            section.update({"name": random_.choice(NAMES)} if random_.random() < 0.3 else {})
            section.update({"number": next(given)} if random_.random() < 0.15 else {})
            sections.append(section)
        listed = put(program, entries)
        program.write("disk.toml", layout_of(sections).encode())
        words = ["apply", "disk.img", "disk.toml", "--replace"]
        what = f"{sections} on {entries}"
        told = program.json(*words, "-n", "--json")
        if "error" in told:
            # The GUID of an entry that another section renames may be that of a section.
            tally.equals(f"the refusal of {what}", "shared-guid", told["error"]["code"])
            continue
        ways = {one["number"]: one["matched"] for one in told["changes"] if one["kind"] != "removed"}
        tally.equals(f"the status of {what}", 0, program.run(*words)[0])
        found = marked(program)
        meant = [(found.get(index), ways.get(found.get(index))) for index in range(len(sections))]
        tally.equals(f"what is wrong with {meant} for {what}", [], list(faults_of(sections, listed, meant)))
        after = table.read(program.file("disk.img")).entries
        tally.equals(f"the entries of {what}", set(found.values()), set(after))
        says(tally, program, ["apply", "disk.img", "disk.toml"], "unchanged\n")


def try_scripts(tally, program):
    """Lines of a script without a number mean entries in the same way."""
    put(program, {1: ("efi", "ESP", 1), 2: ("linux", "root", 2)})
    program.write("disk.toml", b'label: gpt\nname=root, size=1MiB\ntype=U, name=ESP, size=1MiB\n')
    says(tally, program, ["apply", "disk.img", "disk.toml"], "unchanged\n")
    program.write("disk.toml", b'label: gpt\nsize=1MiB, type=S\ntype=U, name=ESP, size=1MiB\nname=root, size=1MiB\n')
    says(tally, program, ["apply", "disk.img", "disk.toml", "-n"],
         "a dry run, nothing is written:\n+ 3 6144..8191 1 MiB linux-swap \"\"\n")


SUBJECTS = {"rows of layouts without numbers": try_rows, "random layouts without numbers": try_random,
            "scripts without numbers": try_scripts}
