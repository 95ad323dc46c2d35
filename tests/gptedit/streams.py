"""Standard streams that are closed or full, little memory, several programs at once, and hostile texts."""
import os
import random
import resource
import shutil
import subprocess

from harness import table
from harness.runs import by_shell
from commands import ADD_ESP, DISK, ESP_ENTRY, MIB, start
from layouts import RANDOM, draw, toml_of


def run_with(program, redirections, *words):
    """Runs it with these redirections of a shell, and gives the status."""
    return subprocess.run(by_shell("", [program.path, *words], redirections), cwd=program.folder, check=False,
                          stdin=subprocess.DEVNULL, stdout=subprocess.DEVNULL, stderr=subprocess.DEVNULL).returncode


def try_closed(tally, program):
    """Closed streams: nothing is written over the image but the table."""
    for redirections in ("0<&-", "1>&-", "2>&-", "0<&- 1>&-", "0<&- 1>&- 2>&-", "1>&- 2>&-"):
        start(program, False)
        status = run_with(program, redirections, *ADD_ESP)
        found = table.read(program.file("disk.img"))
        tally.equals(f"the table after add with {redirections}", {1: ESP_ENTRY}, found and found.entries)
        tally.equals(f"the status of add with {redirections}", 1 if "1>&-" in redirections else 0, status)
        before = program.state("disk.img")
        run_with(program, redirections, "remove", "disk.img", "9")
        tally.holds(f"a refusal with {redirections} leaves the image", program.state("disk.img") == before)
    if os.path.exists("/dev/full"):
        for words in (["show", "disk.img"], ["types"], ["dump", "disk.img"], ["show", "disk.img", "--json"],
                      ["check", "disk.img"], ["--help"], ["--version"], ["add", "--help"]):
            tally.equals(f"the status of {words} to a full disk", 1, run_with(program, ">/dev/full", *words))


def try_sequence(tally, program):
    """Where both streams are one, what is to be told of a change comes after its report."""
    start(program, False)
    words = by_shell("", [program.path, "apply", "disk.img", "-", "--replace"], "2>&1")
    lines = subprocess.run(words, cwd=program.folder, check=False, input="size=1M, bootable\n", text=True,
                           stdout=subprocess.PIPE).stdout.splitlines()
    tally.holds(f"the report comes first: {lines}", len(lines) > 1 and lines[0].startswith("+ 1 "))
    tally.equals("the last line", "line 1: bootable sets the attribute legacy-boot", lines[-1])


def try_little_memory(tally, program):
    """With too little memory a command says so, or is done; the image is as it was or as asked for."""
    start(program, False, RANDOM)
    old = table.read(program.file("disk.img")).entries
    new = draw(random.Random(5), 20)
    program.write("b.toml", toml_of(DISK, new).encode())
    good = program.state("disk.img")
    statuses = set()
    for kilobytes in list(range(2000, 8000, 100)) + list(range(8000, 40000, 1000)):
        def limit(kilobytes=kilobytes):
            resource.setrlimit(resource.RLIMIT_AS, (kilobytes * 1024, kilobytes * 1024))
        try:
            ended = program.run("apply", "disk.img", "b.toml", "--replace", preexec_fn=limit)
        except (OSError, subprocess.SubprocessError):
            continue
        found = table.read(program.file("disk.img"))
        if ended[0] == 0:
            tally.equals(f"the table with {kilobytes} KiB", new, found and found.entries)
            program.restore("disk.img", good)
        else:
            tally.equals(f"the table with {kilobytes} KiB", old, found and found.entries)
        if ended[0] == 1:
            tally.holds(f"{kilobytes} KiB: {ended[2]!r} says why", "memory" in ended[2])
        statuses.add(ended[0])
    tally.holds("some runs are done", 0 in statuses)
    return f"statuses {sorted(statuses)}"


def try_lock(tally, program):
    """While another program holds the lock a change waits, and a look does not."""
    if not shutil.which("flock"):
        return "flock is not installed: left out"
    start(program, False)
    path = program.file("disk.img")
    with subprocess.Popen(["flock", path, "sleep", "2"]) as holder:
        while subprocess.run(["flock", "-n", path, "true"], check=False).returncode == 0:
            pass
        tally.equals("show while the lock is held", 0, program.run("show", "disk.img")[0])
        tally.holds("the lock is held", holder.poll() is None)
        tally.equals("add once the lock is free", 0, program.run(*ADD_ESP)[0])
        tally.holds("add has waited", holder.poll() is not None)
    writers = [subprocess.Popen([program.path, "add", "disk.img", "--type", "linux", "--size", "1MiB"],
                                cwd=program.folder, stdout=subprocess.DEVNULL, stderr=subprocess.DEVNULL)
               for _ in range(20)]
    tally.equals("twenty at once", [0] * 20, [writer.wait() for writer in writers])
    tally.equals("their partitions", 21, len(table.read(program.file("disk.img")).entries))
    return None


def hostile_texts():
    """Texts that nobody writes."""
    random_ = random.Random(6)
    name = "".join(chr(random_.choice([random_.randrange(1, 0xD800), random_.randrange(0xE000, 0x110000)]))
                   for _ in range(18))
    return ["[" * MIB, "{" * MIB, "a." * (MIB // 2), '"' * MIB, "x=[" * (MIB // 3), "[[partition]]\n" * 70000,
            "[[partition]]\nnumber = " + "9" * 1000, '[[partition]]\nsize = "' + "9" * 100000 + 's"',
            '[[partition]]\nsize = "18446744073709551615s"\ntype = "linux"',
            '[[partition]]\nsize = "18446744073709551615TiB"\ntype = "linux"',
            '[[partition]]\nstart = "18446744073709551615s"\nsize = "1s"\ntype = "linux"',
            '[[partition]]\nnumber = 4294967295\nsize = "1s"\ntype = "linux"', "\0" * 1000, "\ufeff[disk]\n",
            "label: gpt\n" + "," * MIB, "label: gpt\n" + "size=1MiB\n" * 70000, "label: gpt\n" * 70000,
            'label: gpt\nname="' + "a" * MIB, "label: gpt\nstart=99999999999999999999, size=1\n",
            "[[partition]]\nname = '" + name.replace("'", "").replace("\n", "") + "'\nsize = '1s'\ntype = 'linux'",
            "[[partition]]\nattributes = [" + "1," * 100000 + "1]\nsize = '1s'\ntype = 'linux'"]


def try_hostile(tally, program):
    """Texts that nobody writes, and damaged images: an answer in time, and the image stays or is whole."""
    start(program, False, MIB)
    program.run("add", "disk.img", "--type", "linux", "--size", "rest", "--align", "1s")
    good = program.bytes_of("disk.img")
    for text in hostile_texts():
        status, out, err = program.run("apply", "disk.img", "-", "--replace", text=text)
        tally.holds(f"{text[:40]!r}.. is answered: {status} {err[:200]!r}", status in (0, 1) and bool(out or err))
        tally.holds(f"a whole table after {text[:40]!r}..", table.read(program.file("disk.img")))
        program.write("disk.img", good)
    random_ = random.Random(7)
    for number in range(60):
        image = bytearray(good)
        for _ in range(random_.randrange(1, 6)):
            at = random_.choice([512, 0, 1024, len(image) - 512, len(image) - 33 * 512]) + random_.randrange(512)
            image[at] = random_.randrange(256)
        program.write("disk.img", bytes(image))
        for words in (["show"], ["check"], ["check", "--json"], ["dump"], ["free"], ["repair"], ["grow"]):
            status = program.run(words[0], "disk.img", *words[1:])[0]
            tally.holds(f"{words} of damaged image {number}: {status}", status in (0, 1, 3))


SUBJECTS = {"closed and full streams": try_closed, "reports and what follows": try_sequence,
            "little memory": try_little_memory, "the lock": try_lock, "hostile texts and images": try_hostile}
