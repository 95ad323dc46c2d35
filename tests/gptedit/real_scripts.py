"""Scripts that packages of Debian give to sfdisk, as they are: the table that gptedit makes of each on an empty image,
the same script once again, and the table of sfdisk, where that is installed. real_rows.py has the scripts.

sfdisk gets --label gpt, since it makes an MBR partition table of a script without a label. Its first usable sector is
2048, unless the script says another.

What differs: `bootable` sets an attribute in gptedit and nothing in sfdisk, and sfdisk rounds sizes of more than 1 MiB
that have a unit to the nearest MiB. Refused: MBR partition tables and their types, starts before the first usable
sector, and scripts for `sfdisk --append` without `add --script`.
"""
import re

from harness import table
from harness.runs import run, there
from commands import MIB
from makers import IMAGE
from peer_reader import entries_of
from peers import as_wanted
from real_rows import APPENDED, REFUSED, SCRIPTS
from script_inputs import in_memory, note_of
from uses import Loop, can_loop

OTHER = "theirs.img"


def entries_in(lines):
    """The partitions that lines describe."""
    return {number: one for line in lines for number, one in entries_of(line).items()}


def table_of(row):
    """The table that gptedit makes of a script. What is random in it is None."""
    said = dict(re.findall(r"^(label-id|first-lba): (\S+)$", row.text, re.M))
    first, last = table.bounds(row.size, row.sector, row.count)
    return table.Table(said["label-id"].lower() if "label-id" in said else None, int(said.get("first-lba", first)),
                       last, row.count, entries_in(row.wants))


def as_said(found, wanted):
    """A table without the GUIDs that are random in the wanted one."""
    return found and found._replace(guid=wanted.guid and found.guid, entries={
        number: as_wanted(one, wanted.entries.get(number), None) for number, one in found.entries.items()})


def run_sfdisk(program, path, text, *words):
    """Runs sfdisk on an image or a device, and gives its status."""
    return run(["sfdisk", "-q", *words, path], text, cwd=program.folder).status


def is_made(tally, program, row):
    """Counts whether gptedit makes the table of a script, and has nothing to change when it gets the script again."""
    what, wanted = f"the script of {row.where}", table_of(row)
    marked = [number for number, line in enumerate(row.text.splitlines(), 1) if re.search(r"bootable|,\s*\*", line)]
    program.make_zeros(IMAGE, row.size)
    ended = program.run("apply", IMAGE, "-", "--create", text=row.text)
    tally.equals(f"the status and the notes of {what}", (0, note_of(marked)), (ended.status, ended.err))
    tally.equals(f"the table of {what}", wanted, as_said(table.read(program.file(IMAGE), row.sector), wanted))
    ended = program.run("apply", IMAGE, "-", text=row.text)
    tally.equals(f"{what} again", (0, "unchanged\n"), (ended.status, ended.out))


def is_made_by_sfdisk(tally, program, row):
    """Counts whether sfdisk makes the same table of a script, or the other one that its row has. Larger sectors need a
    loop device."""
    wanted = table_of(row)
    if row.theirs:
        tally.holds(f"it is said who is right about {row.where}", re.match("(both may|ours right): ", row.why))
        wanted = wanted._replace(entries=entries_in(row.theirs))
    if "first-lba" not in row.text:
        wanted = wanted._replace(first=MIB // row.sector)
    program.make_zeros(OTHER, row.size)
    if row.sector == 512:
        status = run_sfdisk(program, OTHER, row.text, "-X", "gpt")
    else:
        with Loop(program, OTHER, "--sector-size", str(row.sector)) as loop:
            status = run_sfdisk(program, loop.path, row.text, "-X", "gpt")
    tally.equals(f"the table of sfdisk of the script of {row.where}; {row.why}", (0, wanted),
                 (status, as_said(table.read(program.file(OTHER), row.sector), wanted)))


def try_scripts(tally, program):
    """Scripts that make a table, and the table of sfdisk."""
    has_tool, has_loops = tally.has("sfdisk"), can_loop(program)
    for row in SCRIPTS:
        is_made(tally, program, row)
        if has_tool and (row.sector == 512 or has_loops):
            is_made_by_sfdisk(tally, program, row)
        elif has_tool:
            tally.leave_out("no loop devices for this user", f"the table of sfdisk of {row.where}")
    return f"{len(SCRIPTS)} scripts, {sum(bool(row.theirs) for row in SCRIPTS)} of which sfdisk makes another table"


def try_refused(tally, program):
    """Scripts that are refused, with what would be right, and what sfdisk does with them."""
    has_tool = tally.has("sfdisk")
    for where, size, text, told, theirs in REFUSED:
        program.make_zeros(IMAGE, size)
        ended = program.run("apply", IMAGE, "-", "--create", text=text)
        tally.equals(f"the status of the script of {where}", (1, ""), (ended.status, ended.out))
        for line in told:
            tally.contains(f"the reason why the script of {where} is refused", line, ended.err)
        if has_tool:
            program.make_zeros(OTHER, size)
            status = run_sfdisk(program, OTHER, text)
            with open(program.file(OTHER), "rb") as file:
                has_mbr = file.read(512)[510:] == b"\x55\xaa" and table.read(program.file(OTHER)) is None
            tally.equals(f"what sfdisk makes of the script of {where}", theirs, "an error" if status else
                         "an MBR" if has_mbr else "a GPT")
    return f"{len(REFUSED)} scripts"


def is_appended(tally, program, first, row, added):
    """Counts whether `add --script` and sfdisk add the partitions of a script to those of another."""
    wanted = table_of(first._replace(size=row.size))
    wanted.entries.update(entries_in(added))
    ended = program.run("add", IMAGE, "--script", "-", text=row.text)
    tally.equals(f"the status and the table of the script of {row.where} behind another", (0, "", wanted),
                 (ended.status, ended.err, as_said(table.read(program.file(IMAGE)), wanted)))
    if there("sfdisk"):
        program.make_zeros(OTHER, row.size)
        run_sfdisk(program, OTHER, first.text)
        status = run_sfdisk(program, OTHER, row.text, "--append")
        tally.equals(f"the table of sfdisk --append of the script of {row.where}", (0, wanted._replace(first=2048)),
                     (status, as_said(table.read(program.file(OTHER)), wanted)))


def try_appended(tally, program):
    """Scripts for `sfdisk --append`: by themselves they are refused where the table has other partitions."""
    rows = {row.where: row for row in SCRIPTS}
    for before, where, told, added in APPENDED:
        first, row = rows[before], rows[where]
        program.make_zeros(IMAGE, row.size)
        program.run("apply", IMAGE, "-", "--create", text=first.text)
        if told:
            ended = program.run("apply", IMAGE, "-", text=row.text)
            tally.equals(f"the status of the script of {where} by itself", 1, ended.status)
            tally.contains(f"the reason why the script of {where} by itself is refused", told, ended.err)
        is_appended(tally, program, first, row, added)
    return f"{len(APPENDED)} scripts"


SUBJECTS = {"real scripts": in_memory(try_scripts), "real scripts that are refused": in_memory(try_refused),
            "real scripts that are appended": in_memory(try_appended)}
