"""A model of the changing commands, written from docs/FORMAT.md and docs/gptedit.1, plays random sequences of them
on random tables: `python3 tests/gptedit/model.py GPTEDIT [SEED [COMMANDS]]`, or a thousand commands in the gate.

It says of each command whether it is done, and what both copies hold afterwards. That no other byte is written and
that a dry run is like the real one is counted of each run (`runs.py`).
"""
import os
import random
import sys
import tempfile
import uuid

sys.path.insert(1, os.path.join(os.path.dirname(os.path.abspath(__file__)), ".."))
from harness import table  # noqa: E402
from harness.runs import set_environment, there  # noqa: E402
from harness.tally import Tally  # noqa: E402
from commands import EFI, LINUX, MIB, SWAP  # noqa: E402
from makers import IMAGE, tool  # noqa: E402
from runs import Program  # noqa: E402

COMMANDS = 1000
EACH = 12
TYPES = {"efi": EFI, "linux": LINUX, "swap": SWAP, "5b193300-fc78-40cd-8002-e86c45580b47":
         "5b193300-fc78-40cd-8002-e86c45580b47"}
NAMES = ["", "root", "Größe", "名前", "x" * 36, "a b", "data😀", 'q"\\']


class Model:
    """A table on a disk."""

    def __init__(self, size, sector, found):
        self.size, self.sector, self.table = size, sector, found

    @property
    def entries(self):
        """The used entries."""
        return self.table.entries

    def with_entries(self, entries):
        """The table with these entries, or None where it may not be written."""
        spans = sorted((entry.first, entry.last) for entry in entries.values())
        fits = all(self.table.first <= first <= last <= self.table.last for first, last in spans)
        apart = all(one[1] < other[0] for one, other in zip(spans, spans[1:]))
        unique = len({entry.guid for entry in entries.values()}) == len(entries)
        return self.table._replace(entries=entries) if fits and apart and unique else None

    def free(self, but=None):
        """The runs of free sectors, without those of one entry."""
        at, runs = self.table.first, []
        for first, last in sorted((e.first, e.last) for n, e in self.entries.items() if n != but):
            if at < first:
                runs.append((at, first - 1))
            at = max(at, last + 1)
        return runs + ([(at, self.table.last)] if at <= self.table.last else [])

    def sectors(self, text):
        """How many sectors a size is, or None where that is no whole number."""
        for unit, count in ("KiB", 1024), ("MiB", MIB), ("s", self.sector), ("B", 1):
            if text.endswith(unit):
                size = int(text[:-len(unit)]) * count
                return None if size % self.sector else size // self.sector
        raise ValueError(text)

    def place(self, count, align, is_last):
        """The first sector of a place for a partition of `count` sectors, or None."""
        found = None
        for first, last in self.free():
            begin = -(-first // align) * align
            if begin + count - 1 > last:
                continue
            if not is_last:
                return begin
            found = (last - count + 1) // align * align
        return found


class Player:
    """Draws commands, and says what each does: the words, the table afterwards (None where it is refused), and a
    text for standard input."""

    def __init__(self, random_, model, path):
        self.random, self.model, self.path = random_, model, path
        self.refusal = 1

    def guid(self):
        """A new GUID, seldom one that is there."""
        there_ = [entry.guid for entry in self.model.entries.values()]
        if there_ and self.random.random() < 0.06:
            return self.random.choice(there_)
        return str(uuid.UUID(int=self.random.getrandbits(128), version=4))

    def number(self):
        """The number of a used entry, seldom another."""
        used = list(self.model.entries)
        return self.random.choice(used) if used and self.random.random() < 0.93 else self.random.randrange(1, 9)

    def size(self):
        """The text of a size."""
        return self.random.choice(["1MiB", "64KiB", "4KiB", "2MiB", "1s", "7s", "100s", "2048s", "512B", "1000B",
                                   "3MiB", f"{self.random.randrange(1, 9000)}s", "0s", "900MiB"])

    def fields(self):
        """Random fields of an entry: the words for them, and the fields."""
        kind, name = self.random.choice(list(TYPES)), self.random.choice(NAMES)
        bits = sum({1 << self.random.randrange(64) for _ in range(self.random.randrange(3))})
        guid = self.guid()
        words = {"type": kind, "name": name, "guid": guid, "attributes": hex(bits)}
        return words, {"type": TYPES[kind], "name": name, "guid": guid, "attributes": bits}

    def add(self):
        """`add` with a start, or with a place."""
        model, (words, fields) = self.model, self.fields()
        align, text = self.random.choice(["1MiB", "4KiB", "1s", "64KiB"]), self.size()
        count, step = model.sectors(text), model.sectors(align) or 0
        line = ["add", IMAGE, "--size", text] + [f"--{name}={word}" for name, word in words.items()]
        free = [n for n in range(1, model.table.count + 1) if n not in model.entries]
        number = free[0] if free else None
        if self.random.random() < 0.2:
            number = self.random.randrange(1, model.table.count + 3)
            line += ["--number", str(number)]
            number = number if number in free else None
        if self.random.random() < 0.3:
            first = self.random.choice([self.random.randrange(model.size // model.sector), model.table.first, 2048])
            line += ["--start", f"{first}s"]
        else:
            is_last = self.random.random() < 0.3
            first = model.place(count, step, is_last) if count and step else None
            line += ["--align", align] + (["--place", "last"] if is_last else [])
        if not count or not number or first is None:
            return line, None, ""
        last, bits = first + count - 1, fields["attributes"]
        made = table.Entry(fields["type"], fields["guid"], first, last, bits, fields["name"])
        return line, model.with_entries({**model.entries, number: made}), ""

    def set(self):
        """`set` of some fields."""
        words, fields = self.fields()
        chosen = self.random.sample(sorted(words), self.random.randrange(1, 4))
        number = self.number()
        line = ["set", IMAGE, str(number)] + [f"--{name}={words[name]}" for name in chosen]
        if number not in self.model.entries:
            return line, None, ""
        made = self.model.entries[number]._replace(**{name: fields[name] for name in chosen})
        return line, self.model.with_entries({**self.model.entries, number: made}), ""

    def resize(self):
        """`resize` to a size or to `max`."""
        model, number = self.model, self.number()
        text = "max" if self.random.random() < 0.5 else self.size()
        line = ["resize", IMAGE, str(number), text]
        one = model.entries.get(number)
        count = None if text == "max" else model.sectors(text)
        if not one or text != "max" and not count:
            return line, None, ""
        if text == "max":
            step = max(MIB // model.sector, 1)
            end = max((last for first, last in model.free(number) if first <= one.first <= last), default=one.last)
            last = max(one.last, (end + 1) // step * step - 1)
        else:
            last = one.first + count - 1
        return line, model.with_entries({**model.entries, number: one._replace(last=last)}), ""

    def remove(self):
        """`remove` of one or two."""
        numbers = [self.number() for _ in range(self.random.choice([1, 1, 1, 2]))]
        line = ["remove", IMAGE] + [str(number) for number in numbers]
        if len(set(numbers)) < len(numbers) or any(number not in self.model.entries for number in numbers):
            return line, None, ""
        left = {number: entry for number, entry in self.model.entries.items() if number not in numbers}
        return line, self.model.with_entries(left), ""

    def sort(self):
        """`sort`."""
        entries = sorted(self.model.entries.values(), key=lambda entry: entry.first)
        return ["sort", IMAGE], self.model.table._replace(entries=dict(enumerate(entries, 1))), ""

    def repair(self):
        """`repair`."""
        return ["repair", IMAGE], self.model.table, ""

    def grow(self):
        """`grow` of an image that was made longer, or not."""
        model, more = self.model, self.random.choice([0, 0, MIB, MIB // 2, 3 * model_step(self.model)])
        first, last = table.bounds(model.size + more, model.sector, model.table.count)
        if not more:
            return ["grow", IMAGE], model.table, ""
        is_readable = table.read_copies(self.path, model.sector)[0]
        os.truncate(self.path, model.size + more)
        if not is_readable:  # the backup copy is not at the end, and the primary one is broken
            self.refusal = 3
            return ["grow", IMAGE], None, ""
        model.size += more
        return ["grow", IMAGE], model.table._replace(first=max(first, model.table.first), last=last), ""

    def new(self):
        """`new` over the table."""
        guid, count = self.guid(), self.random.choice([None, None, 56, 128, 4, 64])
        line = ["new", IMAGE, "--overwrite", "--guid", guid, "--sector", str(self.model.sector)]
        line += ["--entries", str(count)] if count else []
        count = count or self.model.table.count
        return line, table.Table(guid, *table.bounds(self.model.size, self.model.sector, count), count, {}), ""

    def apply(self):
        """`apply` of a whole layout, with and without --replace."""
        model, is_replacing = self.model, self.random.random() < 0.6
        wanted = {number: entry for number, entry in model.entries.items() if self.random.random() < 0.9}
        for number in list(wanted):
            if self.random.random() < 0.3:
                wanted[number] = wanted[number]._replace(name=self.random.choice(NAMES))
            if self.random.random() < 0.1:
                wanted[number] = wanted[number]._replace(last=wanted[number].last + self.random.choice([-1, 1, 64]))
        free = [n for n in range(1, model.table.count + 1) if n not in model.entries]
        place = model.place(8, 8, False)
        if free and place and self.random.random() < 0.5:
            wanted[free[0]] = table.Entry(LINUX, self.guid(), place, place + 7, 0, "new")
        text = layout_of(model.table.guid, wanted)
        line = ["apply", IMAGE, "-"] + (["--replace"] if is_replacing else [])
        is_lost = any(number not in wanted or wanted[number].first != entry.first or wanted[number].last < entry.last
                      for number, entry in model.entries.items())
        if not is_replacing and is_lost or any(entry.last < entry.first for entry in wanted.values()):
            return line, None, text
        return line, model.with_entries(wanted), text


def model_step(model):
    """A few sectors."""
    return 5 * model.sector


def layout_of(guid, entries):
    """A layout in TOML."""
    from layouts import toml_of
    return toml_of(guid, entries)


def made_by(program, random_, maker, size):
    """An image of a maker, and what its table is; None where it makes none."""
    program.make_image(IMAGE, size)
    sector = random_.choice([512, 4096]) if maker == "itself" else 512
    if maker == "itself":
        first, last = table.bounds(size, sector)
        count = random_.choice([128, 128, 56, 4, 256])
        first, last = table.bounds(size, sector, count)
        found = table.Table(str(uuid.UUID(int=random_.getrandbits(128))),
                            random_.choice([first, 300, 2048 if sector == 512 else 512]),
                            random_.choice([last, last, last - 77]), count, {})
        table.put(program.file(IMAGE), table.pieces_of(found, size, sector))
        return Model(size, sector, found)
    words = {"sgdisk": ["sgdisk", "-n", "1:0:+2M", "-n", "3:0:+999K", "-c", "3:three", IMAGE],
             "sfdisk": ["sfdisk", "-q", "--wipe", "never", IMAGE],
             "parted": ["parted", "-s", IMAGE, "mklabel", "gpt", "mkpart", "one", "1MiB", "3MiB", "mkpart", "two",
                        "5000s", "7000s"],
             "cgpt": ["sh", "-c", f"cgpt create {IMAGE} && cgpt boot -p {IMAGE} && cgpt add -i 2 -b 64 -s 1000 -t data "
                      f"-l two {IMAGE}"]}[maker]
    tool(program, *words, text="label: gpt\nsize=1MiB\nsize=900KiB, name=two\nstart=9000, size=8, name=odd\n")
    found = table.read(program.file(IMAGE))
    return Model(size, 512, found) if found else None


def play(tally, program, seed, commands):
    """Plays so many commands in sequences. Gives how many were done."""
    random_, played, done = random.Random(seed), 0, 0
    makers = ["itself", "itself"] + [name for name in ("sgdisk", "sfdisk", "parted", "cgpt") if there(name)]
    while played < commands:
        maker = random_.choice(makers)
        model = made_by(program, random_, maker, random_.choice([8, 16, 24]) * MIB)
        if not tally_made(tally, model, maker):
            return done
        player = Player(random_, model, program.file(IMAGE))
        for step in range(EACH):
            done += turn(tally, program, player, f"seed {seed}, command {played} ({maker}, {step})")
            played += 1
    return done


def tally_made(tally, model, maker):
    """Counts whether a maker made a table."""
    tally.holds(f"{maker} makes a table", model)
    return model


def damage(player, program):
    """Breaks one copy, seldom: a bit of its header or of its entries."""
    model = player.model
    if player.random.random() > 0.1:
        return
    end = (model.size // model.sector - 1) * model.sector
    places = [model.sector + 30, end + 30, 2 * model.sector + 64, (model.table.last + 1) * model.sector + 64]
    if table.read(program.file(IMAGE), model.sector):
        program.flip(IMAGE, player.random.choice(places))


def turn(tally, program, player, what):
    """One command: draws it, and counts whether it does what the model says. Says whether it was done."""
    damage(player, program)
    player.refusal = 1
    kinds = [player.add] * 6 + [player.set] * 3 + [player.resize] * 4 + [player.remove] * 2 + [player.apply] * 3
    words, wanted, text = player.random.choice(kinds + [player.sort, player.repair, player.grow, player.new])()
    model, before = player.model, player.model.table
    ended = program.run(*words, text=text)
    what = f"{what}: {' '.join(words)} {text[:200]!r}"
    tally.equals(f"{what} on {model.sector}, {before}: {ended}"[:1500], 0 if wanted else player.refusal, ended[0])
    os.truncate(player.path, model.size)
    copies = table.read_copies(program.file(IMAGE), model.sector)
    if words[0] == "new" and wanted and copies[0] and copies[0].count == before.count:
        # A new table of the same number of entries may keep the bounds.
        wanted = next((one for one in (wanted, wanted._replace(first=before.first, last=before.last))
                       if one == copies[0]), wanted)
    model.table = wanted or before
    if wanted and (wanted != before or words[0] == "repair"):
        tally.equals(f"both copies after {what}", (wanted, wanted), copies)
    else:
        tally.equals(f"the table after {what}", before, copies[0] or copies[1])
    if (copies[0] or copies[1]) != model.table:
        model.table = copies[0] or copies[1] or model.table
    return ended[0] == 0


def try_model(tally, program):
    """A thousand commands."""
    return f"{play(tally, program, 1, COMMANDS)} of {COMMANDS} commands are done"


SUBJECTS = {"random commands and their model": try_model}


def main():
    """Plays the commands of a seed."""
    set_environment()
    seed, commands = (list(map(int, sys.argv[2:4])) + [1, COMMANDS][len(sys.argv) - 2:])[:2]
    tally = Tally()
    with tempfile.TemporaryDirectory() as folder:
        done = play(tally, Program(os.path.realpath(sys.argv[1]), folder, tally), seed, commands)
    print(f"seed {seed}: {done} of {commands} commands are done")
    return tally.end()


if __name__ == "__main__":
    sys.exit(main())
