"""The programs: how each changes a table, and how each reads one.

They add a partition, the third one, from sector 26624 to 28671; systemd-repart chooses its place itself. Or
they make several changes by one command: the first partition goes, the second gets another name, and three
come. systemd-repart adds two, for which there is room, as it neither removes nor renames.
"""
import json
import os
import re
import shutil

from harness import recording

FIRST, COUNT = 26624, 2048
LAST = FIRST + COUNT - 1
TYPE = "af3dc60f838472478e793d69d8477de4"
REPART = "[Partition]\nType=srv\nLabel=%s\nSizeMinBytes=1M\nSizeMaxBytes=1M\n"
COMING = [(3, 2048, "foo"), (4, 4096, "bar"), (5, FIRST, "baz")]


class Program:
    """A program and its ways."""

    def __init__(self, name, add, read, **others):
        self.name = name
        self.needs = [add[0]] + others.get("reader", [])
        self.add = add
        self.read = read
        self.before = others.get("before", {})
        self.words = others.get("words", "")
        self.leaves = others.get("leaves", 3)
        self.version = others.get("version", [add[0], "--version"])

    def commands(self, start, image):
        """The commands that add the partition, from this start."""
        return [[image if word == "IMAGE" else word for word in command]
                for command in self.before.get(start, []) + [self.add]]

    def is_there(self):
        """Whether it is installed."""
        path = recording.ENVIRONMENT["PATH"]
        return all(shutil.which(needed, path=path) for needed in self.needs)

    def told_version(self):
        """The line in which it tells its version."""
        if not self.version:
            return self.needs[0]
        return recording.run(self.version).out.strip().split("\n")[0]


def programs(gptimg, folder):
    """All programs. The definitions of systemd-repart are laid into the folder."""
    define(folder, ["foo"])
    grow = {"after growth": [[gptimg, "IMAGE", "512", "grow"]]}
    repair = {start: [["cgpt", "repair", "IMAGE"]] for start in (
        "primary header zeroed", "primary entries damaged", "backup header zeroed", "after growth")}
    place = "start=%d, size=%d, name=foo\n" % (FIRST, COUNT)
    return [
        Program("gptimg", [gptimg, "IMAGE", "512", "add", "3", TYPE, "77" * 16, str(COUNT),
                           "first", "2048", "foo"], lambda image: read_gptimg(gptimg, image),
                before=grow, version=None),
        Program("sgdisk", ["sgdisk", "-n", "3:%d:%d" % (FIRST, LAST), "IMAGE"], read_sgdisk),
        Program("sfdisk", ["sfdisk", "-q", "--append", "IMAGE"], read_sfdisk, words=place),
        Program("parted", ["parted", "-s", "-f", "IMAGE", "unit", "s", "mkpart", "foo",
                           str(FIRST), str(LAST)], read_parted),
        Program("cgpt", ["cgpt", "add", "-i", "3", "-b", str(FIRST), "-s", str(COUNT), "-t",
                         "data", "-l", "foo", "IMAGE"], read_cgpt, before=repair,
                version=["dpkg-query", "-W", "-f", "Debian package cgpt ${Version}", "cgpt"]),
        Program("systemd-repart", ["systemd-repart", "--definitions=" + folder, "--dry-run=no",
                                   "--empty=refuse", "IMAGE"], read_sfdisk,
                reader=["sfdisk"]),
    ]


def define(folder, names):
    """Lays definitions of partitions with these names into a folder, for systemd-repart."""
    os.makedirs(folder, exist_ok=True)
    for place, name in enumerate(names):
        with open(os.path.join(folder, "%d0-%s.conf" % (place + 1, name)), "w", encoding="ascii") as file:
            file.write(REPART % name)


def plans(gptedit, folder):
    """The programs that make several changes by one command."""
    folder = os.path.join(folder, "plan")
    define(folder, [name for _, _, name in COMING[:2]])
    layout, script = os.path.join(folder, "layout.toml"), "label: gpt\n"
    script += "IMAGE2 : start=10240, size=16384, name=renamed\n"
    words = ["sgdisk", "-d", "1", "-c", "2:renamed"]
    with open(layout, "w", encoding="ascii") as file:
        file.write('[[partition]]\nnumber = 2\nname = "renamed"\n')
        for number, first, name in COMING:
            file.write('[[partition]]\nnumber = %d\ntype = "linux"\nname = "%s"\nstart = "%ds"\nsize = "%ds"\n'
                       % (number, name, first, COUNT))
            script += "IMAGE%d : start=%d, size=%d, name=%s\n" % (number, first, COUNT, name)
            words += ["-n", "%d:%d:%d" % (number, first, first + COUNT - 1), "-c", "%d:%s" % (number, name)]
    grow = {"after growth": [[gptedit, "grow", "IMAGE"]]}
    return [
        Program("gptedit apply", [gptedit, "apply", "IMAGE", layout, "--replace"],
                lambda image: read_json([gptedit, "show", "--json", image], image), before=grow, leaves=4),
        Program("sgdisk", words + ["IMAGE"], read_sgdisk, leaves=4),
        Program("sfdisk", ["sfdisk", "-q", "IMAGE"], read_sfdisk, words=script, leaves=4),
        Program("systemd-repart", ["systemd-repart", "--definitions=" + folder, "--dry-run=no",
                                   "--empty=refuse", "IMAGE"], read_sfdisk, reader=["sfdisk"], leaves=4),
    ]


def libraries(folder):
    """Small programs that add the partition by a library each, which trials/with_libraries.sh left in this folder."""
    def program(name, **others):
        add, show = (os.path.join(folder, word + name) for word in ("add_", "list_"))
        return Program("lib" + name, [add, "IMAGE", str(FIRST), str(LAST), "foo"],
                       lambda image: read_list(show, image), version=None, **others)

    grow = {"after growth": [[os.path.join(folder, "grow_gptman"), "IMAGE"]]}
    return [program("gptman", before=grow), program("fdisk"), program("parted")]


# How each lists a table: number -> first sector, last sector, and the name where it tells it. None
# where it lists none: by its status, or by words that it would make a new one.

def read_gptimg(gptimg, image):
    """The listing of `gptimg show`."""
    ended = recording.run([gptimg, image, "512", "show"])
    if ended.status:
        return None
    found = re.findall(r"^(\d+) \S+ \S+ (\d+)\.\.(\d+) \S+ (.*)$", ended.out, re.M)
    return {int(n): (int(first), int(last), name) for n, first, last, name in found}


def read_list(program, image):
    """The listing of a program that tells the number, both sectors and the name of a partition in a line."""
    ended = recording.run([program, image])
    if ended.status:
        return None
    found = re.findall(r"^(\d+) (\d+) (\d+) (.*)$", ended.out, re.M)
    return {int(n): (int(first), int(last), name) for n, first, last, name in found}


def read_sgdisk(image):
    """The listing of `sgdisk -p`."""
    ended = recording.run(["sgdisk", "-p", image])
    if ended.status or "Disk identifier (GUID)" not in ended.out or re.search(
            "Creating new GPT entries|converting MBR|invalid GPT", ended.out):
        return None
    found = re.findall(r"^ +(\d+) +(\d+) +(\d+) +[\d.]+ \w+ +\S+ *(.*)$", ended.out, re.M)
    return {int(n): (int(first), int(last), name) for n, first, last, name in found}


def read_sfdisk(image):
    """The listing of `sfdisk --json`. systemd-repart reads by the same library, libfdisk."""
    return read_json(["sfdisk", "--quiet", "--json", image], image)


def read_json(command, image):
    """The listing of a command that tells a table as JSON."""
    ended = recording.run(command)
    try:
        told = ended.out[ended.out.index("{"):ended.out.rindex("}") + 1]
        table = json.loads(told)["partitiontable"]
    except ValueError:
        return None
    if ended.status or table["label"] != "gpt":
        return None
    return {int(p["node"][len(image):]): (p["start"], p["start"] + p["size"] - 1, p.get("name", ""))
            for p in table.get("partitions", [])}


def read_parted(image):
    """The listing of `parted -m print`."""
    ended = recording.run(["parted", "-s", "-m", image, "unit", "s", "print"])
    if ended.status or ":gpt:" not in ended.out:
        return None
    found = re.findall(r"^(\d+):(\d+)s:(\d+)s:\d+s:[^:]*:(.*):[^:]*;$", ended.out, re.M)
    return {int(n): (int(first), int(last), name) for n, first, last, name in found}


def read_cgpt(image):
    """The listing of `cgpt show -q`, which tells no names."""
    ended = recording.run(["cgpt", "show", "-q", image])
    if ended.status:
        return None
    found = re.findall(r"^ *(\d+) +(\d+) +(\d+) ", ended.out, re.M)
    return {int(n): (int(first), int(first) + int(count) - 1, None) for first, count, n in found}
