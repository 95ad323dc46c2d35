"""Runs of the program, and what each run may write.

An image starts with boot code and with random bytes in places (`make_image`). Each run of a command that is
counted compares every byte of its image: a command that only reads, a dry run and a refusal leave them all, and
a change leaves those outside of both copies of the table before and after it, and of 66 bytes of sector 0 where
these may be replaced.
"""
import json
import os
import re

from harness import runs, table
from harness.images import Reader, changed, is_in

GATE = ["commands", "refusals", "layouts", "matching", "shaping", "backups", "script_inputs", "appending", "texts", "scripts",
        "real_scripts", "outputs", "guards", "checks", "safety", "salvaging", "everyday", "traces", "marks", "stops",
        "streams", "rules", "maps", "completions", "queries", "targets", "settings", "kinds", "sizes", "fitting", "clones",
        "growparts", "machine", "model", "damaged", "peers"]
TRIALS = ["uses", "sources", "locks", "holders"]
MODULES = GATE + TRIALS
CHANGES = ["new", "add", "set", "resize", "remove", "sort", "grow", "repair", "randomize", "apply", "wipe"]
DRY = ("-n", "--dry-run")
OVERWRITES = ("--overwrite", "--force")
GUID = re.compile(r"[0-9a-fA-F]{8}(-[0-9a-fA-F]{4}){3}-[0-9a-fA-F]{12}")


class Program(runs.Program):
    """gptedit, in a folder of its own. Without a tally its runs are not compared."""

    def __init__(self, path, folder, tally=None):
        super().__init__(path, folder)
        self.tally = tally

    def run(self, *words, text="", **how):
        """Runs it with these words on standard input `text`. Gives its status and what it printed. What it
        writes is compared, and so is a dry run with it."""
        name = next((word for word in words[1:] if word.endswith(".img") and os.path.isfile(self.file(word))), None)
        if not self.tally or not name or how:
            return self.plain(*words, text=text, **how)
        before = self.state(name)
        is_change = words[0] in CHANGES and not set(words) & set(DRY) and "--help" not in words
        dry = self.plain(words[0], "--dry-run", *words[1:], text=text) if is_change else None
        if dry and self.state(name) != before:
            self.tally.holds(f"a dry run of {words} leaves the image", False)
            self.restore(name, before)
        ended = self.plain(*words, text=text)
        self.compare(name, words, before, ended, is_change)
        if dry:
            self.tally.equals(f"dry run and real run of {words} are alike", told(ended), told(dry))
        return ended

    def plain(self, *words, **how):
        """Runs it, and compares nothing."""
        return super().run(*words, **how)

    def json(self, *words, **how):
        """Runs it, and gives what it printed as JSON; nothing where that is none, which is counted."""
        ended = self.run(*words, **how)
        try:
            return json.loads(ended[1])
        except ValueError:
            self.tally.equals(f"what {words} prints is JSON", True, ended)
            return {}

    def compare(self, name, words, before, ended, is_change):
        """Counts whether only what this command may write was written."""
        after = self.state(name)
        what = f"{' '.join(words)} (status {ended[0]})"
        if not is_change or ended[0]:
            self.tally.holds(f"{what} leaves every byte", before == after)
            return
        allowed = self.allowed(name, words, before, after)
        stray = [span for span in changed(before, after) if not is_in(span, allowed)]
        self.tally.equals(f"bytes that {what} writes outside of the table", (before[0], []), (after[0], stray[:8]))

    def allowed(self, name, words, before, after):
        """The ranges of bytes that this command may write."""
        ranges, sectors = [], sector_sizes(words)
        for state in before, after:
            reader = Reader(state)
            for sector in sectors:
                ranges += table.ranges_in(reader, sector)
        old = Reader(before).read(510 - 64, 66)
        if may_replace(old) or set(words) & set(OVERWRITES) and words[0] in ("new", "wipe", "apply", "repair"):
            ranges.append((446, 512))
        if words[0] in ("new", "wipe") or "--create" in words:
            ranges += [(at, at + 8) for at in table.signature_places(before[0])]
        if words[0] == "wipe":
            ranges += [span for sector in table.SECTORS for span in table.usual_ranges(before[0], sector)]
        return ranges


def may_replace(mbr):
    """Whether these 66 bytes of sector 0 may be replaced: no 55 AA, an MBR without partitions, or a protective MBR
    alone."""
    if mbr[64:] != b"\x55\xaa" or not any(mbr[:64]):
        return True
    kinds = [mbr[i * 16 + 4] for i in range(4)]
    return 0xee in kinds and not any(kind not in (0, 0xee) for kind in kinds)


def sector_sizes(words):
    """The sizes of a sector that a run may be about."""
    given = [word.split("=")[-1] for before, word in zip(("", *words), words)
             if before == "--sector" or word.startswith("--sector=")]
    return [int(given[0])] if given and given[0].isdigit() and int(given[0]) else [512, 4096]


def told(ended):
    """What a dry run and a real run have alike: the status, refusals, and the lines of entries, without GUIDs."""
    status, out, err = ended
    lines = [GUID.sub("GUID", line) for line in out.splitlines() if re.match(r"[-+~] \d|\d+ -> |unchanged", line)]
    return status, lines, GUID.sub("GUID", err) if status not in (0, 2) else ""
