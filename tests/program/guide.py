"""The examples of README.md, docs/GUIDE.md and docs/FAULTS.md, run from these documents themselves.

What stands under a heading `##` is run by one shell, in an empty folder, with the programs on PATH as gptimg, gptguid
and gptedit. In a block of kind `console` a line that begins with `$ ` is a command, one that begins with `> ` goes on
with it, and the other lines are what it prints. A block of kind `bash` or `toml` whose first line is `# NAME` is the
file NAME. What stands in a block of kind `text` or `rust`, or in none, is not run.

A block that names a tool which is not installed is left out, with a line. So what stands on such a block stands in it.
What other programs say of the images of docs/GUIDE.md is in recipes.py. The line of a document has the seconds that the
commands of each heading took.
"""
import os
import re
import shlex
import shutil
import subprocess
import time

import recipes
from given import DISK, text_of

# Tools that need not be installed.
TOOLS = ["sgdisk", "sfdisk", "mkfs.fat", "mmd", "mcopy", "mtype", "mkfs.ext4", "debugfs", "e2fsck", "resize2fs",
         "qemu-img", "flock"]
KINDS = ["console", "bash", "toml", "text", "rust"]


def try_readme(tally, program):
    """The example of README.md."""
    Document(tally, program, "README.md").run()


def try_guide(tally, program):
    """The recipes of docs/GUIDE.md, and what other programs say of their images."""
    guide = Document(tally, program, "docs/GUIDE.md", recipes.LEFT)
    guide.run()
    tally.equals("the headings of recipes.py are those of docs/GUIDE.md", set(), set(recipes.LEFT) - set(guide.seconds))
    return "seconds: " + ", ".join(f"{name} {seconds:.1f}" for name, seconds in guide.seconds.items())


def try_faults(tally, program):
    """The examples of docs/FAULTS.md, its names and its numbers."""
    Document(tally, program, "docs/FAULTS.md").run()
    page = text_of("docs/FAULTS.md")
    try_fault_names(tally, page)
    try_least_sizes(tally, program, page)


def try_fault_names(tally, page):
    """Counts whether the page has each name of a fault that the source of the program has."""
    names = re.findall('=> "([A-Z][A-Za-z]*)",', text_of("crates/gptman_disk/src/error.rt"))
    for name in names:
        tally.contains(f"docs/FAULTS.md: the fault {name}", f"`{name}", page)
    tally.holds("the source has names of faults", names)


def try_least_sizes(tally, program, page):
    """Counts whether each least size of a disk that the page has is one, and what is said of less."""
    rows = re.findall(r"^\| ([0-9,]+) bytes \| (\d+) \| (\d+) \| ([0-9,]+) \|$", page, re.M)
    tally.equals("how many least sizes docs/FAULTS.md has", 7, len(rows))
    for row in rows:
        sector, entries, least, size = (int(number.replace(",", "")) for number in row)
        tally.equals(f"the bytes of {least} sectors of {sector}", least * sector, size)
        for status, line, sectors in ((0, "ok", least), (1, "fault: InvalidPartitionBoundaries", least - 1),
                                      (1, "fault: InvalidPartitionBoundaries", entries + 2),
                                      (1, "fault: Overflow", entries + 1)):
            program.make_zeros("least.img", sectors * sector)
            program.says(status, line, "least.img", str(sector), "new", DISK)


class Document:
    """A document, and the examples under the heading that is read."""

    def __init__(self, tally, program, name, left=None):
        self.tally, self.program, self.name, self.left = tally, program, name, left or {}
        self.examples, self.said = program.file("examples"), program.file("said")
        self.heading, self.kind, self.file = "", "", None
        self.commands, self.wanted, self.block_start = [], [], 0
        self.ran, self.seconds, self.lacking = 0, {}, {}

    def run(self):
        """Runs its examples."""
        self.make_links()
        self.start_examples()
        for line in text_of(self.name).splitlines():
            self.read_line(line)
        self.run_examples()
        self.tally.equals(f"{self.name}: the last block ends", "", self.kind)
        self.tally.holds(f"{self.name}: it has examples", self.ran > 0)

    def make_links(self):
        """Puts the programs into a folder."""
        folder, program = self.program.file("bin"), self.program
        shutil.rmtree(folder, ignore_errors=True)
        os.mkdir(folder)
        for name, path in ("gptimg", program.path), ("gptguid", program.guid), ("gptedit", program.edit):
            os.symlink(path, os.path.join(folder, name))

    def read_line(self, line):
        """Takes a line: outside of a block, at either end of one, or inside."""
        if not self.kind and line.startswith("## "):
            self.run_examples()
            self.heading = line[3:]
            self.start_examples()
        elif not self.kind and line.startswith("```"):
            self.start_block(line[3:])
        elif line == "```":
            self.end_block()
        elif self.kind == "console":
            self.read_console(line)
        elif self.kind in ("bash", "toml"):
            self.read_file(line)

    def start_block(self, kind):
        """Begins a block of this kind."""
        self.kind, self.file, self.block_start = kind, None, len(self.commands)
        if kind not in KINDS:
            self.tally.equals(f"{self.name}, {self.heading}: the kind of a block", " or ".join(KINDS), kind)

    def end_block(self):
        """Ends a block, and leaves it out where a tool is missing."""
        self.kind = ""
        text = f" {' '.join(self.commands[self.block_start:])} "
        for tool in TOOLS:
            if re.search(rf"[\s(]{re.escape(tool)} ", text) and not self.tally.has(tool):
                del self.commands[self.block_start:], self.wanted[self.block_start:]
                self.lacking[self.heading] = tool
                return

    def read_console(self, line):
        """Takes a line of a console block: a command, more of it, or what it prints."""
        if line.startswith("$ "):
            self.commands.append(line[2:])
            self.wanted.append("")
        elif line.startswith("> "):
            self.commands[-1] += f"\n{line[2:]}"
        else:
            self.wanted[-1] += f"{line}\n"

    def read_file(self, line):
        """Takes a line of a file. The first one names it."""
        mode = "a" if self.file else "w"
        self.file = self.file or os.path.join(self.examples, line.removeprefix("# "))
        with open(self.file, mode, encoding="utf-8") as file:
            file.write(f"{line}\n")

    def start_examples(self):
        """Makes an empty folder for the examples under a heading."""
        for folder in self.examples, self.said:
            shutil.rmtree(folder, ignore_errors=True)
            os.mkdir(folder)
        self.commands, self.wanted = [], []

    def said_by(self, number):
        """The file to which a command prints."""
        return os.path.join(self.said, str(number))

    def run_examples(self):
        """Runs them, and counts whether each command printed what the document says."""
        script = os.path.join(self.said, "script")
        with open(script, "w", encoding="utf-8") as file:
            for number, command in enumerate(self.commands):
                file.write(f"{{ {command}\n}} > {shlex.quote(self.said_by(number))} 2>&1 < /dev/null\n")
        environment = {**os.environ, "LC_ALL": "C", "PATH": f"{self.program.file('bin')}:{os.environ['PATH']}"}
        begin = time.monotonic()
        subprocess.run(["timeout", "120", "bash", script], cwd=self.examples, env=environment, check=False)
        if self.commands:
            self.seconds[self.heading] = time.monotonic() - begin
        for number, (command, wanted) in enumerate(zip(self.commands, self.wanted)):
            printed = ""
            if os.path.exists(self.said_by(number)):
                printed = self.program.text(self.said_by(number))
            self.tally.equals(f"{self.name}, {self.heading}: {command}", wanted, printed)
            self.ran += 1
        self.try_left(environment)

    def try_left(self, environment):
        """Counts whether other programs say what they should of the images under a heading, which all its blocks made."""
        for command, wanted in self.left.get(self.heading, []):
            missing = recipes.missing_in(command, shutil.which) or self.lacking.get(self.heading)
            if missing:
                self.tally.leave_out(f"{missing} is not installed", f"{self.heading}: {command}")
                continue
            ended = subprocess.run(["bash", "-c", command], cwd=self.examples, env=environment, check=False,
                                   stdout=subprocess.PIPE, stderr=subprocess.DEVNULL)
            self.tally.equals(f"{self.name}, {self.heading}, left: {command}", wanted, ended.stdout.decode())
