"""The examples, on images of other programs, and what the documents and manual pages of the library show."""
import glob
import os
import re
import subprocess
import sys
import tempfile
import textwrap

from harness import table
from harness.runs import there
from built import TOP
from calls import with_remains

MIB = 1 << 20
LINUX = "0fc63daf-8483-4772-8e79-3d69d8477de4"
EFI = "c12a7328-f81f-11d2-ba4b-00a0c93ec93b"


def by_gptimg(program, path):
    program.run(path, "512", "new", "00112233445566778899aabbccddeeff")
    words = ["28732ac11ff8d211ba4b00a0c93ec93b", "10" * 16, "16384", "first", "2048", "EFI"]
    program.run(path, "512", "add", "1", *words)


def by_words(*words):
    """An image made by these words, of which one is the image's name."""
    def make(_, path):
        subprocess.run([path if word == "IMAGE" else word for word in words], check=True, stdout=subprocess.DEVNULL,
                       stderr=subprocess.DEVNULL)
    return make


def by_sfdisk(_, path):
    text = b"label: gpt\nstart=2048, size=16384, type=%s, name=EFI\n" % EFI.encode()
    subprocess.run(["sfdisk", "-q", path], input=text, check=True, stderr=subprocess.DEVNULL)


def by_cgpt(_, path):
    for words in ["create"], ["add", "-i", "1", "-b", "2048", "-s", "16384", "-t", "efi", "-l", "EFI"]:
        subprocess.run(["cgpt", *words, path], check=True, stdout=subprocess.DEVNULL, stderr=subprocess.DEVNULL)


def by_repart(_, path):
    with tempfile.TemporaryDirectory() as folder:
        with open(f"{folder}/10-efi.conf", "w", encoding="ascii") as file:
            file.write("[Partition]\nType=esp\nLabel=EFI\nSizeMinBytes=8M\nSizeMaxBytes=8M\n")
        subprocess.run(["systemd-repart", f"--definitions={folder}", "--dry-run=no", "--empty=force", path], check=True,
                       stdout=subprocess.DEVNULL, stderr=subprocess.DEVNULL)


MAKERS = {
    "gptimg": by_gptimg,
    "sgdisk": by_words("sgdisk", "-n", "1:2048:18431", "-t", "1:ef00", "-c", "1:EFI", "IMAGE"),
    "sfdisk": by_sfdisk,
    "parted": by_words("parted", "-s", "IMAGE", "mklabel", "gpt", "mkpart", "EFI", "2048s", "18431s", "set", "1",
                       "esp", "on"),
    "cgpt": by_cgpt,
    "systemd-repart": by_repart,
}


def listed(entries):
    """What `list` prints of these entries."""
    return "".join(f"{number} {entry.first} {entry.last} {entry.name}\n" for number, entry in sorted(entries.items()))


def try_examples(tally, library, program):
    """The examples in C list and add, that in Python adds, that in Rust lists; the programs find no fault."""
    show = library.compile(os.path.join(TOP, "examples", "list.c"), "list")
    add = library.compile(os.path.join(TOP, "examples", "add.c"), "add")
    rust = in_rust(library)
    left = [name for name in MAKERS if name != "gptimg" and not there(name)]
    left += [] if rust else ["cargo"]
    for name, make in MAKERS.items():
        if name in left:
            continue
        path = program.file("disk.img")
        program.make_image("disk.img", 64 * MIB)
        make(program, path)
        was = table.read(path)
        tally.equals(f"the partitions of an image of {name}", [(1, 2048, 18431, EFI)],
                     [(n, e.first, e.last, e.type) for n, e in was.entries.items()] if was else None)
        tally.equals(f"list of it ({name})", listed(was.entries), run(show, path))
        run(add, path, "40960", "61439", "Größe 💾")
        run(sys.executable, os.path.join(TOP, "examples", "add.py"), path, "81920", "81927", "naïve 🚀",
            env=library.environment())
        now = table.read(path)
        tally.equals(f"what is added to it ({name})", {**was.entries, 2: (LINUX, 40960, 61439, 0, "Größe 💾"),
                                                       3: (LINUX, 81920, 81927, 0, "naïve 🚀")},
                     {n: e if n == 1 else (e.type, e.first, e.last, e.attributes, e.name)
                      for n, e in now.entries.items()} if now else None)
        tally.equals(f"all else of it ({name})", was[:4], now and now[:4])
        tally.equals(f"list of it after that ({name})", listed(now.entries) if now else None, run(show, path))
        if rust:
            tally.equals(f"list in Rust ({name})", listed(now.entries) if now else None, run(rust, path))
        if there("sgdisk"):
            found = run("sgdisk", "-v", path)
            tally.holds(f"sgdisk finds nothing ({name}): {found}", "No problems found" in found)
    return f"left out: {', '.join(left)}" if left else None


def in_rust(library):
    """The example in Rust, built, or None where cargo is not there."""
    if not there("cargo"):
        return None
    folder = os.path.join(library.folder, "rust")
    words = ["cargo", "build", "--quiet", "--locked", "--offline", "--target-dir", folder]
    subprocess.run(words, cwd=os.path.join(TOP, "examples", "rust"), check=True,
                   env={**os.environ, "GPTMAN_LIB": library.folder})
    return os.path.join(folder, "debug", "list")


def run(*words, **how):
    """What a program prints, or its status where that is not 0."""
    ended = subprocess.run(words, stdout=subprocess.PIPE, stderr=subprocess.PIPE, check=False, **how)
    return ended.stdout.decode() if ended.returncode == 0 else ended.returncode


def try_headers(tally, library, program):
    """The headers are C99, C11 and C++ without a warning, and the shared library hands out its own names alone."""
    for name in "both.c", "both.cc":
        program.write(name, b'#include "gptman_fd.h"\nint main(void) { return (int)gptman_version() != 256; }\n')
    for language in ["c99", "c11", "c17"] + (["c++11", "c++17"] if there("c++") else []):
        source = program.file("both.cc" if "+" in language else "both.c")
        tally.equals(f"a program in {language}", "",
                     run(library.compile(source, "both", "-Wconversion", language=language)))
    if there("nm"):
        try_names(tally, program)


CALLS = {f"gptman_{call}" for call in ["read", "write", "new", "fit", "check", "dos", "mbr", "place", "get_name", "set_name",
                                       "crc32", "version", "fault_name", "abi"]}


def try_names(tally, program):
    """The two libraries export the calls of gptman.h and nothing else, the shared one with their version."""
    shared = exported("-D", program.file("libgptman.so.1"))
    tally.equals("the names of libgptman.so.1", {f"{call}@@GPTMAN_1" for call in CALLS} | {"GPTMAN_1"}, shared)
    tally.equals("the names of libgptman.a", CALLS, exported("-g", program.file("libgptman.a")))


def exported(kind, path):
    """The names that a library exports."""
    lines = run("nm", kind, "--defined-only", path).split("\n")
    return {line.split()[-1] for line in lines if len(line.split()) == 3}


AROUND = """#include "gptman_fd.h"
#include <inttypes.h>
int main(int argc, char **argv) {
    gptman_disk disk;
    gptman_table table;
    gptman_partition *partitions = NULL;
    int fd = argc == 2 ? open(argv[1], O_RDONLY) : -1;
%s
    free(partitions);
    return (int)fault;
}
"""


def try_document(tally, library, program):
    """What docs/LIBRARY.md shows in C and in Python lists the used entries of a table, and no unused one with old
    fields; in Python it adds one then."""
    with_remains(program)
    with open(os.path.join(TOP, "docs", "LIBRARY.md"), encoding="utf-8") as file:
        text = file.read()
    in_c, in_python = ("".join(re.findall(f"^```{language}\n(.*?)^```$", text, re.M | re.S))
                       for language in ("c", "python"))
    program.write("shown.c", (AROUND % textwrap.indent(in_c, "    ")).encode())
    path = library.compile(program.file("shown.c"), "shown")
    entries = table.read(program.file("disk.img")).entries
    tally.equals("what it lists in C", "".join(f"{n} {e.first} {e.last}\n" for n, e in entries.items()),
                 run(path, program.file("disk.img")))
    tally.equals("what it lists in Python", listed(entries), run(sys.executable, "-c", in_python, cwd=program.folder,
                                                                env=library.environment()))
    added = table.read(program.file("disk.img")).entries
    tally.equals("what it adds in Python", {**entries, 5: ("data", 8)}, {
        number: entry if number in entries else (entry.name, entry.last - entry.first + 1)
        for number, entry in added.items()})


def try_pages(tally, library, program):
    """The manual pages of the library have the prototypes of the headers, and their examples do what they say. No
    manual page has a fault that groff finds."""
    texts = {}
    for name in "gptman", "gptman_fd":
        with open(os.path.join(TOP, "docs", f"{name}.3"), encoding="utf-8") as page:
            texts[name] = page.read()
        program.write(f"{name}_shown.c", example_of(texts[name]).encode())
    calls, over_fd = (prototypes_in(header(f"{name}.h")) for name in texts)
    tally.equals("the prototypes in gptman.3", calls, synopsis_of(texts["gptman"]))
    shown = synopsis_of(texts["gptman_fd"])
    tally.holds("gptman_fd.3 has prototypes", len(shown) > 5)
    tally.equals("the prototypes in gptman_fd.3 that its header has not", set(), shown - over_fd)
    image = with_remains(program)
    path, entries = program.file("disk.img"), table.read(program.file("disk.img")).entries
    shows = library.compile(program.file("gptman_shown.c"), "gptman_shown")
    tally.equals("what the example in gptman.3 lists", "".join(f"{n} {e.first} {e.last}\n" for n, e in entries.items()),
                 run(shows, input=image))
    fits = library.compile(program.file("gptman_fd_shown.c"), "gptman_fd_shown")
    os.truncate(path, 2 * len(image))
    tally.equals("what the example in gptman_fd.3 prints", "", run(fits, path))
    tally.equals("the partitions after it", entries, table.read(path).entries)
    tally.equals("what it prints of no image", 1, run(fits, program.file("missing.img")))
    if not there("groff"):
        return "groff is not installed: no page is formatted"
    for page in sorted(glob.glob(os.path.join(TOP, "docs", "*.[13]"))):
        ended = subprocess.run(["groff", "-man", "-Tutf8", "-ww", page], capture_output=True, check=False)
        tally.equals(f"what groff finds in {os.path.basename(page)}", b"", ended.stderr)
    return None


def header(name):
    with open(os.path.join(TOP, "include", name), encoding="utf-8") as file:
        return file.read()


def prototypes_in(text):
    """The prototypes of functions in a text, each in one line."""
    found = re.findall(r"^(?:static inline )?((?:uint32_t|void) gptman_\w+\([^)]*\))", text, re.M)
    return {re.sub(r"\s+", " ", prototype) for prototype in found}


def synopsis_of(page):
    """The prototypes in the synopsis of a manual page, with the arguments that ENDS and PLAN stand for."""
    text, *short = re.findall(r"^\.nf\n(.*?)^\.fi$", page.split(".SH DESCRIPTION")[0], re.M | re.S)
    if short:
        ends, plan = re.split(r"\n(?! )", short[0].strip())
        text = text.replace("ENDS", ends).replace("PLAN", plan)
    return prototypes_in(text)


def example_of(page):
    """The program that a manual page shows."""
    return page.split(".EX\n")[1].split(".EE")[0].replace("\\e", "\\").replace("\\-", "-")


SUBJECTS = {"the examples": try_examples, "the headers": try_headers, "what the document shows": try_document,
            "the manual pages": try_pages}
