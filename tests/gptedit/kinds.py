"""Words for types in `set --type`, `add --type`, layouts and scripts: the names of `gptedit types`, and the words of
sfdisk, parted, systemd-repart and gdisk. The words of other programs, and the type that each is, are in
type_words.txt: these programs made partitions with them, whose types were read by the format. Where a program is
installed, it makes them again."""
import os
import re
import tempfile

from harness import table
from harness.runs import run, there
from commands import DISK, LINUX, MIB, ROOT
from makers import IMAGE
from runs import Program

WORDS = os.path.join(os.path.dirname(__file__), "type_words.txt")
# A folder in memory, where a sync takes no time.
MEMORY = "/dev/shm"
SIZE = 256 * MIB
MOST = 128
STEP = MIB // 512
TOOLS = {"sfdisk": "sfdisk", "parted": "parted", "repart": "systemd-repart", "gdisk": "sgdisk"}
CASES = {"lower": str.lower, "upper": str.upper,
         "mixed": lambda word: "".join(c.lower() if at % 2 else c.upper() for at, c in enumerate(word))}

# Words that are no types, and the nearest word to each: at most half of its letters are inserted and removed. If there
# is none, it is the name for a code of MBR tables, the first one that has the word in it, or the longest one that the
# word begins with.
NEAREST = [("linus", "linux"), ("lniux", "linux"), ("LINUXX", "linux"), ("swapp", "swap"), ("linux-hom", "linux-home"),
           ("bios-bot", "bios-boot"), ("bios_grubb", "bios_grub"), ("HP-servce", "hp-service"), ("0x8300", "8300"),
           ("luks", "linux-luks"), ("bios", "bios-boot"), ("Recovery", "microsoft-recovery"), ("apfs", "apple-apfs"),
           ("core_storage", "apple-core-storage"), ("EFI-SYSTEM", "efi"), ("EFI System", "efi"),
           ("linux_filesystem", "linux"), ("bios boot partition", "bios-boot"), ("MBR partition scheme", "mbr"),
           ("83", "linux"), ("82", "swap"), ("0C", "microsoft-data"), ("8e", "linux-lvm"), ("FD", "linux-raid"),
           ("ef", "efi")]
UNKNOWN = ["lunix", "hidden", "ffff", "ef99", "EF99", "", " ", "-", "\u212a", "x" * 64, "x" * 300,
           "\u00e9\u540d\U0001f600"]
# Words with a character too many or too few.
NEARLY = [" linux", "linux ", "li nux", "8300h", LINUX[:-1], LINUX + "0", LINUX.replace("-", "")]


def read_words():
    """The words of other programs: for each program, the type of each word."""
    words = {program: {} for program in TOOLS}
    with open(WORDS, encoding="utf-8") as file:
        for line in file:
            if line.strip() and not line.startswith("#"):
                word, program, guid = line.split()
                words[program][word] = guid
    return words


def chunks(words):
    """The words in lists that each fit into a table."""
    words = list(words)
    return [words[at:at + MOST] for at in range(0, len(words), MOST)]


def types_in(path):
    """The types of the entries of an image, in order."""
    found = table.read(path)
    return [found.entries[number].type for number in sorted(found.entries)] if found else None


# What other programs make of their words.


def by_sfdisk(folder, words):
    """The types of partitions that sfdisk makes of a script."""
    path = os.path.join(folder, "theirs.img")
    run(["sfdisk", "--no-reread", "--no-tell-kernel", path], script_of(words), errors="replace")
    return types_in(path)


def by_parted(folder, words):
    """The types of partitions for which parted sets a flag."""
    path = os.path.join(folder, "theirs.img")
    lines = ["mklabel", "gpt"]
    for number, word in enumerate(words, 1):
        lines += ["mkpart", "a", f"{number}MiB", f"{number + 1}MiB", "set", str(number), word, "on"]
    run(["parted", "--script", path, *lines], errors="replace")
    return types_in(path)


def by_repart(folder, words):
    """The types of partitions that systemd-repart makes of files of definitions."""
    path, definitions = os.path.join(folder, "theirs.img"), os.path.join(folder, "definitions")
    os.mkdir(definitions)
    for number, word in enumerate(words):
        with open(os.path.join(definitions, f"{number:03}.conf"), "w", encoding="utf-8") as file:
            file.write(f"[Partition]\nType={word}\nSizeMinBytes=1M\nSizeMaxBytes=1M\n")
    run(["systemd-repart", f"--definitions={definitions}", "--empty=force", "--dry-run=no", "--pretty=no", path],
        errors="replace")
    return types_in(path)


def by_sgdisk(folder, words):
    """The types of partitions that sgdisk makes with codes."""
    path, options = os.path.join(folder, "theirs.img"), ["--clear"]
    for number, word in enumerate(words, 1):
        options += [f"--new={number}:{number * STEP}:+{STEP}", f"--typecode={number}:{word}"]
    run(["sgdisk", "--set-alignment=1", *options, path], errors="replace")
    return types_in(path)


PEERS = {"sfdisk": by_sfdisk, "parted": by_parted, "repart": by_repart, "gdisk": by_sgdisk}


def types_of(program, words):
    """The types that another program has for its words, in order."""
    kinds = []
    for some in chunks(words):
        with tempfile.TemporaryDirectory(dir=MEMORY if os.access(MEMORY, os.W_OK) else None) as folder:
            with open(os.path.join(folder, "theirs.img"), "wb") as file:
                file.truncate(SIZE)
            kinds += PEERS[program](folder, some) or []
    return kinds


# Texts of gptedit.


def layout_of(words):
    """A layout with a partition of 1 MiB for each word."""
    return "".join(f'[[partition]]\nsize = "1MiB"\ntype = "{word}"\n' for word in words)


def script_of(words):
    """A script of sfdisk with a partition of 1 MiB for each word."""
    return "label: gpt\n" + "".join(f"size=1MiB, type={word}\n" for word in words)


TEXTS = {"a layout": layout_of, "a script": script_of}


def start(program):
    """Makes an image with a table, and with partition 1."""
    found = table.Table(DISK, *table.bounds(SIZE), MOST, {1: table.Entry(LINUX, ROOT, 2048, 4095, 0, "root")})
    program.make_zeros(IMAGE, SIZE)
    table.put(program.file(IMAGE), table.pieces_of(found, SIZE))


def hold_text(tally, program, what, text_of, some):
    """Counts for each pair of a word and its type whether `apply` of a text with these words makes that type."""
    program.make_zeros(IMAGE, SIZE)
    ended = program.plain("apply", IMAGE, "-", "--create", text=text_of([word for word, _ in some]))
    kinds = types_in(program.file(IMAGE)) or []
    tally.equals(f"apply of {what}", (0, "", len(some)), (ended.status, ended.err, len(kinds)))
    for (word, guid), kind in zip(some, kinds):
        tally.equals(f"type {word} in {what}", guid, kind)


def in_memory(program):
    """The program in a folder in memory, and that folder."""
    folder = tempfile.TemporaryDirectory(dir=MEMORY if os.access(MEMORY, os.W_OK) else None)
    return folder, Program(program.path, folder.name, program.tally)


def hold_texts(tally, program, words, ways):
    """Counts whether each word is its type in these kinds of texts, each in a case."""
    folder, program = in_memory(program)
    with folder:
        for what, case in ways:
            for some in chunks((CASES[case](word), guid) for word, guid in words.items()):
                hold_text(tally, program, f"{what} ({case})", TEXTS[what], some)


def all_words():
    """The words of all programs, and the type of each."""
    return {word: guid for words in read_words().values() for word, guid in words.items()}


def try_texts(tally, program):
    """Each word, in each case in a layout, and in one in a script."""
    words = all_words()
    hold_texts(tally, program, words, [*(("a layout", case) for case in CASES), ("a script", "mixed")])
    return f"{len(words)} words"


def try_options(tally, program):
    """Some of the words by `set --type` and `add --type`."""
    folder, program = in_memory(program)
    with folder:
        start(program)
        words = all_words()
        chosen = list(words)[:6] + list(words)[6::50]
        ways = list(CASES.values())
        for at, word in enumerate(chosen):
            said = ways[at % len(ways)](word)
            ended = program.plain("set", IMAGE, "1", "--type", said)
            tally.equals(f"set --type {said}", (0, "", [words[word]]),
                         (ended.status, ended.err, types_in(program.file(IMAGE))))
        for said, word in ("EF00", "ef00"), ("Root", "root"), ("u", "U"), ("HP-Service", "hp-service"):
            ended = program.plain("add", IMAGE, "--type", said, "--size", "1MiB")
            tally.equals(f"add --type {said}", (0, "", words[word]),
                         (ended.status, ended.err, types_in(program.file(IMAGE))[-1]))


def try_names(tally, program):
    """Each name that `gptedit types` lists. A word of another program that is also a name is the same type."""
    status, out, _ = program.plain("types")
    names = dict(re.findall(r"^(\S+) +([0-9a-f-]{36})$", out, re.M))
    tally.equals("the lines of types", (0, len(out.splitlines()) - 1), (status, len(names)))
    hold_texts(tally, program, names, [("a layout", "mixed"), ("a script", "lower")])
    folded = {name.lower(): guid for name, guid in names.items()}
    for peer, words in read_words().items():
        for word, guid in words.items():
            tally.equals(f"{word} of {peer} is the type of that name here", folded.get(word.lower(), guid), guid)
    return f"{len(names)} names"


def try_unknown(tally, program):
    """Words that are no types are refused. A command line is told the nearest word if there is one."""
    start(program)
    before = program.state(IMAGE)
    for word, name in [*NEAREST, *((word, "") for word in UNKNOWN)]:
        ended = program.plain("set", IMAGE, "1", f"--type={word}")
        said = re.search(r"the nearest name is (\S+)", ended.err)
        tally.equals(f"set --type={word!r}, and the nearest word", (2, "", name),
                     (ended.status, ended.out, said[1] if said else ""))
    ended = program.plain("add", IMAGE, "--size", "1MiB", "--type", "linus")
    tally.equals("add --type linus", (2, True), (ended.status, "the nearest name is linux\n" in ended.err))
    for word in NEARLY:
        ended = program.plain("set", IMAGE, "1", f"--type={word}")
        tally.equals(f"set --type={word!r}", (2, ""), (ended.status, ended.out))
    for word in [*UNKNOWN, *NEARLY, "linus"]:
        # In a script, blanks are between words, and nothing or `-` is the type that sfdisk has by default.
        texts = ["a layout"] if " " in word or word in ("", "-") else TEXTS
        for what in texts:
            ended = program.plain("apply", IMAGE, "-", text=TEXTS[what]([word]))
            tally.equals(f"{what} with {word!r}", (1, "", True),
                         (ended.status, ended.out, "it must be a GUID, or a name" in ended.err))
    tally.holds("words that are no types leave the image", program.state(IMAGE) == before)


def try_programs(tally, _):
    """The types that other programs have for their words. Each code that sgdisk lists is among the words."""
    notes = []
    for peer, words in read_words().items():
        if not there(TOOLS[peer]):
            tally.leave_out(f"{TOOLS[peer]} is not installed", f"what it makes of {len(words)} words")
            continue
        kinds = types_of(peer, words)
        tally.equals(f"how many partitions {peer} makes", len(words), len(kinds))
        for (word, guid), kind in zip(words.items(), kinds):
            tally.equals(f"{word} of {peer}", kind, guid)
        notes.append(f"{len(words)} of {peer}")
    if there("sgdisk"):
        tally.equals("the codes that sgdisk lists", [], sorted(codes_of_sgdisk() - read_words()["gdisk"].keys()))
    return ", ".join(notes)


def codes_of_sgdisk():
    """The codes that sgdisk lists."""
    return set(re.findall(r"(?:^|\s)([0-9a-f]{4}) (?=\S)", run(["sgdisk", "--list-types"]).out))


SUBJECTS = {"types: words in texts": try_texts, "types: words of options": try_options, "types: names": try_names,
            "types: no such words": try_unknown, "types: other programs": try_programs}
