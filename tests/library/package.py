"""The Python package: the wheel, where the library is found, an error class for each fault, and types.

What it says of the list of errors comes from include/gptman.h and the documents.
"""
import inspect
import os
import re
import shutil
import subprocess
import sys
import uuid

from harness import table
from harness.runs import run, there
from built import TOP
from calls import LINUX, module, refusal
from helpers import entry_at, put_file, refusals_of

GUID = "33221100-5544-7766-8899-aabbccddeeff"
SIZE = 512 * 512
PYTHON = os.path.join(TOP, "python")
NAMES = """#include <stdio.h>
#include "gptman.h"
int main(void) {
    char name[GPTMAN_FAULT_NAME_SIZE];
    for (uint32_t n = 0; n < 1000; n++) {
        if (gptman_fault_name(n, name, sizeof name) != GPTMAN_OK) return 1;
        printf("%u %s\\n", n, name);
    }
    return 0;
}
"""


def text_of(*path):
    with open(os.path.join(TOP, *path), encoding="utf-8") as file:
        return file.read()


def classes_of(gptman):
    """The classes of errors by their numbers."""
    return {kind.number: kind for kind in gptman.Error.__subclasses__()}


def try_list(tally, library, program):
    """The classes have the names and numbers of gptman_fault_name and of the constants in gptman.h; docs/FAULTS.md has
    those up to 16, and docs/LIBRARY.md the others."""
    gptman = module()
    ours = {number: kind.__name__ for number, kind in classes_of(gptman).items()}
    program.write("names.c", NAMES.encode())
    lines = run([library.compile(program.file("names.c"), "names")]).out.splitlines()
    theirs = {int(number): name for number, name in map(str.split, lines) if name != "Unknown"}
    tally.equals("the names of gptman_fault_name", theirs, {0: "Ok", **ours})
    constants = re.findall(r"^    GPTMAN_(?:FD_)?(\w+) = (\d+)", text_of("include", "gptman.h"), re.M)
    tally.equals("the constants of gptman.h", {int(number): name for name, number in constants},
                 {0: "OK", **{number: under(name) for number, name in ours.items()}})
    known = re.findall(r"`(\w+)`", text_of("docs", "FAULTS.md"))
    tally.equals("the errors that docs/FAULTS.md has not", [],
                 [name for number, name in ours.items() if number <= 16 and name not in known])
    rows = re.findall(r"^\| (\d+) `(\w+)` \|", text_of("docs", "LIBRARY.md"), re.M)
    tally.equals("the answers in docs/LIBRARY.md", {number: name for number, name in ours.items() if number > 16},
                 {int(number): name for number, name in rows})
    for number, kind in classes_of(gptman).items():
        tally.equals(f"what gptman has by the name of {number}", kind, getattr(gptman, kind.__name__, None))
        tally.holds(f"what is raised of it ({number})", raised(gptman, number, lambda: gptman.Error.of(number)) == kind)
    tally.equals("what a number of no class is", (gptman.Error, 77), (type(gptman.Error.of(77)),
                                                                  gptman.Error.of(77).number))


def under(name):
    """The name as gptman.h has it: ReadError is READ_ERROR, and ConflictPartitionGUID CONFLICT_PARTITION_GUID."""
    return re.sub(r"(?<=[a-z])(?=[A-Z])", "_", name).upper()


def raised(gptman, number, make):
    """The class of an error that has this number and its name, and that `Error` and `Fault` catch."""
    for base in gptman.Error, gptman.Fault:
        try:
            raise make()
        except base as error:
            if (error.number, error.name) != (number, type(error).__name__) or not str(error):
                return None
            found = type(error)
    return found


# What is done to the primary header for each fault of a copy: fields, each its place, its format and its value.
FIELDS = {"InvalidSignature": (0, "<B", 0), "InvalidRevision": (8, "<B", 1), "InvalidHeaderSize": (12, "<I", 96),
          "InvalidPartitionEntryArrayChecksum": (*table.ARRAY_CRC, 1), "InvalidPartitionEntrySize": (84, "<I", 256),
          "Overflow": (*table.ARRAY_AT, 1 << 63), "Io": (*table.ARRAY_AT, 500)}


def damaged(program):
    """An image for each fault of its primary copy, by the fault's name."""
    found = table.Table(GUID, 34, SIZE // 512 - 34, 128, {1: entry_at(70, 79)})
    for name, field in FIELDS.items():
        put_file(program.file("damaged.img"), table.image_of(found, SIZE))
        program.set_fields("damaged.img", 512, field)
        yield name
    put_file(program.file("damaged.img"), table.image_of(found, SIZE))
    program.flip("damaged.img", 512 + 20)
    yield "InvalidChecksum"


def try_copies(tally, library, program):
    """The faults of a copy are told by name, each of which has its class; where both copies have one the class is
    ReadError, and InvalidSignature where there is no table."""
    gptman, path = module(), program.file("damaged.img")
    for name in damaged(program):
        tally.equals(f"both copies, the primary one with {name}", (name, None, False), gptman.check(path))
        tally.holds(f"{name} has a class", issubclass(getattr(gptman, name), gptman.Error))
        with gptman.Disk(path) as disk:
            tally.holds(f"the backup copy is read, the primary one with {name}", disk.is_backup)
        program.flip("damaged.img", SIZE - 512 + 16)
        raises(tally, gptman, f"both copies damaged, the primary one with {name}", "ReadError",
               lambda: gptman.Disk(path))
    program.write("damaged.img", bytes(SIZE))
    raises(tally, gptman, "no table", "InvalidSignature", lambda: gptman.Disk(path))


def raises(tally, gptman, what, name, call):
    """Counts whether a call raises just the class of this name."""
    try:
        call()
        found = None
    except gptman.Error as error:
        found = type(error)
    tally.equals(f"what is raised: {what}", getattr(gptman, name), found)


class Answering:
    """A library whose calls give the same answer."""

    def __init__(self, answer):
        self.answer = answer

    def __getattr__(self, name):
        return lambda *_: self.answer


def try_errors(tally, library, program):
    """What is refused of an image raises the class of that, and so does each answer of the library."""
    gptman, path = module(), program.file("refused.img")

    def change(edit):
        def call():
            with gptman.Disk(path, writable=True, lock=False) as disk:
                edit(disk)
        return call

    def added(*places):
        def edit(disk):
            disk.partitions = {number: gptman.Partition(LINUX, *place, unique_guid=uuid.UUID(int=5))
                               for number, place in enumerate(places, 1)}
            disk.write()
        return change(edit)

    for what, data, (write, fit, _) in refusals_of():
        put_file(path, data)
        if write != "Ok":
            raises(tally, gptman, f"a write, {what}", write, change(lambda disk: disk.write()))
        if fit != "Ok":
            raises(tally, gptman, f"fitting, {what}", fit, change(lambda disk: disk.fit()))
        if write == "DosDisk":
            raises(tally, gptman, f"an MBR, {what}", write, change(lambda disk: disk.write_mbr()))
            raises(tally, gptman, f"a new table, {what}", write, lambda: gptman.Disk.create(path, lock=False))
    put_file(path, table.image_of(table.Table(GUID, 34, SIZE // 512 - 34, 128, {}), SIZE))
    raises(tally, gptman, "one GUID twice", "ConflictPartitionGUID", added((40, 49), (50, 59)))
    raises(tally, gptman, "a last sector before the first", "InvalidPartitionBoundaries", added((49, 40)))
    raises(tally, gptman, "no alignment", "BadArgument",
           change(lambda disk: (setattr(disk, "align", 0), disk.find_place(1))))
    raises(tally, gptman, "sectors of 520 bytes", "BadArgument", lambda: gptman.Disk(path, 520))
    for size, name in (33 * 512, "Overflow"), (66 * 512, "InvalidPartitionBoundaries"):
        put_file(path, bytes(size))
        raises(tally, gptman, f"a new table on {size} bytes", name, lambda: gptman.Disk.create(path, lock=False))
    loaded = gptman._calls.library
    for number, kind in [*classes_of(gptman).items(), (77, gptman.Error)]:
        gptman._calls.library = Answering(number)
        # An answer of 103 names bytes that the ends have.
        name = "AsksAgain" if kind is gptman.LacksBytes else kind.__name__
        raises(tally, gptman, f"an answer of {number}", name, lambda: gptman.check(path))
    gptman._calls.library = loaded
    tally.equals("a missing image", "OSError", "OSError" if missing(gptman, program) else None)
    tally.equals("what a refusal is named", "BadArgument", refusal(gptman, lambda: gptman.Disk(path, 0)))


def missing(gptman, program):
    """Whether a missing image is an error of the system."""
    try:
        gptman.Disk(program.file("missing.img"))
    except OSError:
        return True
    return False


USE = """import gptman, sys, uuid
path = sys.argv[1]
with gptman.Disk.create(path, disk_guid=uuid.UUID(int=3)) as disk:
    first = disk.find_place(2048)
    disk.partitions[1] = gptman.Partition(uuid.UUID("%s"), first, first + 2047, "data", unique_guid=uuid.UUID(int=4))
    disk.write()
    disk.write_mbr()
    try:
        gptman.Disk("/dev/null")
    except gptman.InvalidSignature as error:
        print(error.number, gptman.check(path).are_same)
print(gptman.__file__)
print(gptman._calls.library._name)
""" % LINUX


def pip(*words):
    """What came of a command of pip, which takes nothing from a network or from settings of the user."""
    return run([sys.executable, "-m", "pip", "--isolated", "--no-cache-dir", "--disable-pip-version-check", *words],
               timeout=300, is_one_text=True, env={**os.environ, "PYTHONDONTWRITEBYTECODE": "1"})


def in_package(folder, *words, **more):
    """What came of Python in a folder with packages, without GPTMAN_LIBRARY if `more` has none."""
    kept = {name: value for name, value in os.environ.items() if name not in ("GPTMAN_LIBRARY", "LD_LIBRARY_PATH")}
    return run([sys.executable, "-B", *words], is_one_text=True, env={**kept, "PYTHONPATH": folder, **more}, cwd="/")


def try_package(tally, library, program):
    """pip builds the same wheel twice, and installs it; the package is imported from there, finds the library by each
    way, and changes an image."""
    if pip("--version").status:
        return "left out: pip is not installed"
    wheels = []
    for name in "first", "second":
        ended = pip("wheel", "--no-index", "--no-build-isolation", "--wheel-dir", program.file(name), PYTHON)
        tally.equals(f"the {name} wheel: {ended.out}", 0, ended.status)
        wheels += [(wheel, program.bytes_of(f"{name}/{wheel}")) for wheel in os.listdir(program.file(name))]
    tally.equals("the names of the wheels", ["gptman-%d.%d.%d-py3-none-any.whl" % module().version()] * 2,
                 [name for name, _ in wheels])
    tally.holds("the same bytes twice", wheels[0] == wheels[1])
    target = program.file("prefix/lib/python3/dist-packages")
    ended = pip("install", "--no-index", "--no-build-isolation", "--no-compile", "--target", target, PYTHON)
    tally.equals(f"the status of pip install: {ended.out}", 0, ended.status)
    for name in [name for name in os.listdir(os.path.join(PYTHON, "gptman")) if not name.startswith("__py")]:
        tally.equals(f"the installed {name}", text_of("python", "gptman", name),
                     text_of(program.file(f"prefix/lib/python3/dist-packages/gptman/{name}")))
    try_finding(tally, library, program, target)
    path = program.file("used.img")
    ended = in_package(target, os.path.join(TOP, "examples", "add.py"), path, "200", "299", "more",
                       GPTMAN_LIBRARY=os.environ["GPTMAN_LIBRARY"])
    tally.equals(f"the example over the installed package: {ended.out}", 0, ended.status)
    tally.equals("what both left", [1, 2], sorted(table.read(path).entries))
    return None


def try_finding(tally, library, program, target):
    """Each place at which the library is found, from the last to the first."""
    path, source = program.file("used.img"), os.path.join(library.folder, "libgptman.so.1")
    prefix = program.file("prefix/lib")
    wanted = table.Table(str(uuid.UUID(int=3)), 34, 65536 - 34, 128, {
        1: table.Entry(str(LINUX), str(uuid.UUID(int=4)), 2048, 4095, 0, "data")})
    ways = [("the system's loader", None, {"LD_LIBRARY_PATH": library.folder}, "libgptman.so.1"),
            ("the prefix", prefix, {}, None), ("beside the package", target, {}, None),
            ("in the package", os.path.join(target, "gptman"), {}, None),
            ("GPTMAN_LIBRARY", None, {"GPTMAN_LIBRARY": source}, source)]
    for what, folder, more, name in ways:
        if folder:
            name = shutil.copy(source, os.path.join(folder, "libgptman.so.1"))
        program.make_zeros("used.img", 65536 * 512)
        ended = in_package(target, "-c", USE, path, **more)
        tally.equals(f"what is printed with {what}",
                     f"2 True\n{os.path.join(target, 'gptman', '__init__.py')}\n{name}\n", ended.out)
        tally.equals(f"both copies with {what}", wanted, table.read(path))
    ended = in_package(target, "-c", "import gptman", GPTMAN_LIBRARY="/missing.so")
    tally.contains("an import without the library", "ImportError: /missing.so", ended.out)
    tally.contains("what it says to do", "set GPTMAN_LIBRARY to its path", ended.out)


def try_types(tally, library, program):
    """Each public name has a docstring, and mypy finds no fault, also in a program over the package."""
    gptman = module()
    for name, found in vars(gptman).items():
        if not name.startswith("_") and not inspect.ismodule(found):
            tally.holds(f"gptman.{name} has a docstring", found.__doc__)
    for kind in gptman.Disk, gptman.Partition, gptman.Copies, gptman.Step, gptman.Error:
        for name, found in inspect.getmembers(kind, inspect.isroutine):
            if not name.startswith("_") and getattr(found, "__module__", "").startswith("gptman"):
                tally.holds(f"{kind.__name__}.{name} has a docstring", found.__doc__)
    if not there("mypy"):
        return "left out: mypy is not installed"
    ended = run(["mypy", "--strict", "--cache-dir", program.file("mypy"), os.path.join(PYTHON, "gptman"),
                 os.path.join(TOP, "examples", "add.py")], is_one_text=True, env={**os.environ, "MYPYPATH": PYTHON})
    tally.equals(f"what mypy finds: {ended.out}", 0, ended.status)
    return None


SUBJECTS = {"the list of errors": try_list, "errors of a copy": try_copies, "errors of a call": try_errors,
            "the package, installed": try_package, "docstrings and types": try_types}
