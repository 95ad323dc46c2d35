"""The rules of safety, sentence by sentence, and the rows or trials that hold each: the run fails if one of these
does not exist. A row is the name of a subject of a module; a trial is the path of a file."""
import importlib
import os

from runs import MODULES

TOP = os.path.join(os.path.dirname(os.path.abspath(__file__)), "..", "..")
EVERY_RUN = "tests/gptedit/runs.py"

RULES = {
    # What is overwritten
    "Nothing that is not the table's is overwritten: each run compares every byte": [EVERY_RUN],
    "a copy may be written where a good header says that it is": ["stops", "random commands and their model"],
    "the place of a broken copy is free where a header of this table is there or the range is zero":
        ["places of broken copies"],
    "otherwise only repair writes there, and its dry run names what it replaces":
        ["places of broken copies", "old entries in such places", "everyday: a rewritten header"],
    "new, apply --create and the new place of the backup copy: anything that is not recognised":
        ["the new place of the backup copy", "everyday: wiped disks"],
    "a stale copy of a table at that end counts as nothing":
        ["the new place of the backup copy", "everyday: a clone that is grown"],
    "the 66 bytes of sector 0 are replaced where they are zero, without 55 AA or protective":
        ["the length in the MBR", "what is no DOS disk", "boot sectors", EVERY_RUN],
    "boot code in sectors 1..33 of a DOS disk": ["DOS disks", "a DOS disk"],
    "a file system that reaches into the place of a copy": ["a file system over the disk"],
    "footers of image formats": ["a footer", "the new place of the backup copy"],
    "a table with another sector size": ["another size of a sector", "orders of writing"],
    "entries that another tool put elsewhere": ["entries that are elsewhere"],
    "a table whose last usable sector is lower than usual": ["a low last sector"],
    "--overwrite lifts it": ["a low last sector", "DOS disks", "what new is refused over"],
    "repair --bounds sets the bounds that the layout wants": ["repair --bounds", "bounds over the table"],
    # DOS disks and hybrid MBRs
    "what a DOS disk is": ["DOS disks", "what is no DOS disk"],
    "reads print a good table of a DOS disk and say so first": ["DOS disks"],
    "check reports a DOS disk, and changes need --overwrite": ["DOS disks", "check: sector 0"],
    "a hybrid MBR is kept byte for byte": ["hybrid MBRs", "everyday: sgdisk's hybrid MBR"],
    "a hybrid MBR is a note of check": ["hybrid MBRs", "check: sector 0"],
    "a change of what a hybrid entry lists says so": ["hybrid MBRs"],
    "a sector 0 of zeros allows everything, and check names repair": ["everyday: zeros in sector 0"],
    # Without a good copy
    "every message says what is wrong with each copy and names salvage, never new": ["no good copy"],
    "new needs --overwrite over a header at any size of a sector": ["what new is refused over",
                                                                    "headers that new would lose"],
    "new needs --overwrite over a protective MBR, a DOS disk and contents": [
        "what new is refused over", "contents that new would lose", "marks at the start", "marks at the end",
        "boot sectors"],
    "a wiped or shredded disk is none of these": ["everyday: wiped disks"],
    "salvage prints a layout that apply --create --overwrite takes": ["salvage"],
    "salvage --json is the same as data": ["salvage"],
    "a header of 93 bytes to a sector is readable there": ["salvage"],
    "salvage reads the entries of the other copy that have the checksum of a good header": [
        "a header and the other's entries", "entries before the old end"],
    "the advice of salvage overwrites no entries unawares": ["entries that differ", "entries that are lost"],
    # Words that lift, devices in use, locks
    "--force is split": ["words that lift", "devices in use"],
    "harmless changes of a device in use need neither": ["devices in use"],
    "mounts in each namespace, swap, holders, loops": ["devices in use"],
    "only attached is no refusal": ["devices in use"],
    "both disks of a Btrfs over two disks are in use": ["a Btrfs over two disks"],
    "a use of the whole disk needs --in-use": ["a use of the whole disk"],
    "without /proc or /sys a change of a block device is refused": ["no /proc, no /sys"],
    "a partition's sector size is its parent's": ["devices of 4096 bytes"],
    "--lock wait, fail, none, and a line before it waits": ["--lock"],
    "an ancestor that holds the lock is not waited for": ["ancestors that lock", "locks of block devices"],
    "an image that qemu holds": ["qemu's lock"],
    "the layout is read before the image is opened": ["no lock while a layout is read"],
    # Sizes of a sector, bounds, the MBR
    "sizes below 512, above 4096 or no power of two are refused": ["sizes of a sector", "sectors of 4096 bytes"],
    "new clears the signatures that another size would find": ["another size of a sector"],
    "bounds over the table's own sectors": ["bounds over the table", "check: bounds"],
    "check compares the length in the MBR": ["the length in the MBR", "check: sector 0"],
    "0xFFFFFFFF is right": ["the length in the MBR", "everyday: Windows's MBR"],
    "a wrong length is mended by every write, the boot mark kept": ["the length in the MBR", "writes of the MBR"],
    "a missing MBR is written by new, repair and grow only": ["the length in the MBR"],
    "a stop between table and MBR is reported and mended": ["a stop before the MBR"],
    "grow keeps first-usable, and last-usable follows the end": ["bounds after growth",
                                                                 "everyday: first usable sectors"],
    # Resizes, dry runs, one write
    "a resize to max never shortens": ["resize max", "random commands and their model", "reproductions"],
    "a resize that shortens reads what is there": ["resizes that shorten"],
    "where nothing is recognised it is done": ["resizes that shorten", "random commands and their model"],
    "dry run and real run are alike": [EVERY_RUN, "orders of writing"],
    "a dry run says so in JSON": ["dry runs in JSON"],
    "one write, also of another number of entries": ["writes of the MBR", "numbers of entries"],
    "a refusal never follows a write": [EVERY_RUN, "orders of writing"],
    "no order of writing keeps a good copy: refused": ["orders of writing"],
    "both copies, each synced before the next": ["writes and syncs", "writes over a broken copy"],
    "--fit and grow N: the table is fitted in the same write": ["--fit", "stops of --fit", "stops of growpart"],
    "apply --fit --replace: the fitted table gets another shape in the same write": ["shapes of fitted tables",
                                                                                    "stops of a change of the shape"],
    "grow --random-guids: GUIDs, bounds and a partition in one write": ["clones", "stops of clones"],
    "--fit changes nothing more on a disk of the table's length": ["--fit on a disk of the same length"],
    "a shortened disk: only the partition beyond the end is removed": ["--fit on a shortened disk"],
    "a stop leaves the old table or the new one": ["stops", "kills", "system calls that fail",
                                                   "system calls of new that fail"],
    # Layouts and texts
    "an input without a key is refused": ["empty layouts", "layouts that are none"],
    "[disk] alone is a layout without partitions": ["empty layouts", "layouts that are none"],
    "apply twice is apply once": ["apply twice", "layouts"],
    "a layout is at most 64 MiB": ["layouts that are none"],
    "names are printed escaped": ["escapes", "output of hidden characters"],
    "name-utf16 where text does not give the units": ["names as units"],
    "dump and apply lose nothing": ["dumps", "fields in dumps", "headers of layouts", "--backup"],
    "a path that is not UTF-8": ["paths"],
    "costs": ["costs", "large layouts"],
    # What part A needs of part B
    "apply --create": ["apply --create"], "wipe": ["wipe", "stops"], "--backup": ["--backup"],
    "statuses": ["other tables", "DOS disks", "devices in use", "reads that fail"],
    # What must go through
    "cgpt's zero sector 0": ["everyday: zeros in sector 0"],
    "sgdisk's hybrid": ["everyday: sgdisk's hybrid MBR"],
    "Windows's 0xFFFFFFFF": ["everyday: Windows's MBR"],
    "isohybrid and grub-mkrescue images": ["everyday: isohybrid and grub-mkrescue"],
    "boot code in the MBR with a BIOS boot partition": ["everyday: a BIOS boot partition"],
    "56 entries": ["everyday: numbers of entries"],
    "disks that were wiped or shredded": ["everyday: wiped disks"],
    "a larger used disk as the target of a clone, then grown": ["everyday: a clone that is grown"],
    "first-usable 2048 and 32768": ["everyday: first usable sectors"],
    "a header rewritten by a boot loader's install, then repair": ["everyday: a rewritten header"],
    "each line of check is followed": ["check: faults of copies", "check: copies", "check: lengths",
                                       "check: a disk that was cut", "check: entries", "check: sector 0",
                                       "check: bounds"],
    "wrong programs fail": ["trials/planted/__main__.py"],
}

def try_rules(tally, _program):
    """Each rule has a row or a trial that exists."""
    there = {name for module in MODULES if module != "rules" for name in importlib.import_module(module).SUBJECTS}
    for rule, rows in RULES.items():
        missing = [row for row in rows if row not in there and not os.path.isfile(os.path.join(TOP, row))]
        tally.equals(f"what holds {rule!r}", (True, []), (bool(rows), missing))
    return f"{len(RULES)} rules"


SUBJECTS = {"rules of safety": try_rules}
