"""The program gptguid: the forms of a GUID, the names of types, random ones."""
import os
import re
import subprocess

from given import ONE, TWO, lines_in
from gptimg import answer_of
from harness.runs import by_shell
from tools import is_accepted, printed_by

USAGE = "usage: gptguid TEXT | DIGITS | NAME | random | list"
EFI = "28732ac11ff8d211ba4b00a0c93ec93b"
EFI_TEXT = "C12A7328-F81F-11D2-BA4B-00A0C93EC93B"
NO_GUIDS = ["", "EFI", "efi ", "nothing", "Größe", "--help", f"{{{EFI_TEXT}}}", f"urn:uuid:{EFI_TEXT}", f"{EFI_TEXT}0",
            EFI_TEXT[:-1], EFI_TEXT.replace("-", "+"), EFI + EFI, EFI[:-1], f"{EFI[:-1]}g", f" {EFI[:-1]}"]

# The digits of version 4 and of the variant of RFC 9562.
RANDOM = re.compile("[0-9a-f]{14}4[0-9a-f][89ab][0-9a-f]{15}")

# Types that the list of sfdisk does not name in every version.
UNLISTED = re.compile("linux-luks|linux-.*-mips|linux-.*-mips-verity.*|linux-.*-mips64|linux-.*-mips64-verity.*|"
                      "linux-.*-parisc.*")

# Types and how sgdisk names them.
CODES = {"efi": "ef00", "bios-boot": "ef02", "linux": "8300", "linux-swap": "8200", "linux-home": "8302",
         "linux-luks": "8309", "linux-lvm": "8e00", "linux-raid": "fd00", "linux-root-x86": "8303",
         "linux-root-x86-64": "8304", "linux-root-arm64": "8305", "linux-root-arm": "8307", "microsoft-data": "0700",
         "microsoft-reserved": "0c01", "microsoft-recovery": "2700", "apple-hfs": "af00", "apple-apfs": "af0a"}


def answer_to(program, *words):
    """What gptguid answers."""
    return program.command(program.guid, *words)


def tells(program, status, lines, *words):
    """Counts whether gptguid ends with this status and prints these lines, and nothing as an error."""
    program.tally.equals(f"gptguid {' '.join(words)}", answer_of(status, lines), answer_to(program, *words))


def try_guids(tally, program):
    """What gptguid prints, what it refuses, and what other tools say of its types."""
    if not os.access(program.guid, os.X_OK):
        tally.equals("gptguid", f"the program {program.guid}", "there is none: run 'make gptguid'")
        return
    types = lines_in("types.txt")
    tells(program, 0, "\n".join(types), "list")
    for line in types:
        try_type(program, *line.split())
    try_refused(program)
    try_random(tally, program)
    try_output(tally, program)
    try_types_of_tools(tally, program)


def try_type(program, name, digits, text):
    """A type by its name, its text and its digits."""
    for word in name, text, text.lower():
        tells(program, 0, digits, word)
    for word in digits, digits.upper():
        tells(program, 0, text, word)


def try_refused(program):
    """Words that are no GUID, and no words of gptguid."""
    for words in [], ["efi", "linux"], ["random", "random"]:
        tells(program, 2, USAGE, *words)
    for word in NO_GUIDS:
        tells(program, 1, "fault: InvalidGUID", word)


def try_random(tally, program):
    """Random GUIDs are of their version, differ, and are taken by gptimg."""
    first, second = (answer_to(program, "random").out.rstrip("\n") for _ in range(2))
    for digits in first, second:
        tally.equals(f"what {digits} is", "random", "random" if RANDOM.fullmatch(digits) else "another")
    tally.holds("two random GUIDs differ", first != second)
    tells(program, 0, first, answer_to(program, first).out.rstrip("\n"))
    program.make_zeros("random.img", 51200)
    program.says(0, "ok", "random.img", "512", "new", first)
    program.shows("random.img", f"disk {first}")


def try_output(tally, program):
    """An output that takes nothing is no answer."""
    for word in "efi", "list", "random", "nothing":
        for what, after in ("a full device", "> /dev/full"), ("a closed output", ">&-"):
            answer = program.command(*by_shell("", [program.guid, word], after))
            tally.equals(f"the status of gptguid {word} to {what}", 1, answer.status)


def try_types_of_tools(tally, program):
    """What other tools say of partitions that have the types by these names."""
    program.make_table("types.img", 10 << 20)
    program.says(0, "ok", "types.img", "512", "mbr", "plain")
    for number, name, first, unique, label in (1, "efi", 2048, ONE, "boot"), (2, "linux", 4096, TWO, "root"):
        digits = answer_to(program, name).out.rstrip("\n")
        program.says(0, f"{number} {first}..{first + 2047}", "types.img", "512", "add", str(number), digits, unique,
                     "2048", "first", "2048", label)
    is_accepted(program, "types.img")
    if tally.has("sgdisk"):
        table = printed_by(program, "sgdisk", "-p", "types.img")
        tally.contains("the type by efi, as sgdisk reads it", " EF00  boot", table)
        tally.contains("the type by linux, as sgdisk reads it", " 8300  root", table)
        tally.contains("the GUID of the first partition's type", EFI_TEXT,
                       printed_by(program, "sgdisk", "-i", "1", "types.img"))
        try_types_of_sgdisk(program)
    try_types_of_sfdisk(tally)


def try_types_of_sgdisk(program):
    """The digits that gptimg reads of a type that sgdisk wrote."""
    for name, code in CODES.items():
        program.make_zeros("type.img", 10 << 20)
        printed_by(program, "sgdisk", "-o", "-n", "1:2048:4095", "-t", f"1:{code}", "type.img")
        digits = answer_to(program, name).out.rstrip("\n")
        program.shows("type.img", f"1 {digits} ")


def try_types_of_sfdisk(tally):
    """The texts that sfdisk has, for all types but those that its list does not name in every version."""
    if not tally.has("sfdisk"):
        return
    listed = subprocess.run(["sfdisk", "--list-types", "--label", "gpt"], stdout=subprocess.PIPE, check=False).stdout
    for name, _, text in map(str.split, lines_in("types.txt")):
        if not UNLISTED.fullmatch(name):
            tally.contains(f"the type {name} of sfdisk", text, listed.decode().upper())
