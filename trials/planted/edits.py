"""Edits: what is put for what in which file, and which of them can be in one tree."""
import glob
import os
import re
from typing import NamedTuple

HERE = os.path.dirname(os.path.abspath(__file__))
ITEM = re.compile(r"\s*(?:pub(?:\(\w+\))? )?(?:const )?(?:unsafe )?fn (\w+)"
                  r"|(?:pub(?:\(\w+\))? )?(?:const|static) (\w+):")


class Place(NamedTuple):
    """The function or the constant that an edit changes."""

    crate: str
    module: str
    name: str

    @property
    def is_constant(self):
        """Whether it is no function."""
        return self.name.isupper()


class Edit:
    """A wrong program: the rows that are to see it, and what is put for what in a file."""

    def __init__(self, path):
        self.name = os.path.basename(path)[:-len(".edit")]
        self.rows, self.pairs, file = "", [], ""
        with open(path, encoding="utf-8") as lines:
            for line in lines.read().splitlines():
                if line.startswith("rows: "):
                    self.rows = line[len("rows: "):]
                elif line.startswith("file: "):
                    file = line[len("file: "):]
                elif line.startswith("old: "):
                    self.pairs.append([file, line[len("old: "):], ""])
                elif line.startswith("new: "):
                    self.pairs[-1][2] = line[len("new: "):]

    def apply(self, tree):
        """Puts it into a tree. Gives why it cannot be."""
        for file, old, new in self.pairs:
            path = os.path.join(tree, file)
            if not os.path.exists(path):
                return f"there is no {file}"
            with open(path, encoding="utf-8") as source:
                text = source.read()
            if text.count(old) != 1:
                return f"{old.strip()!r} stands in {file} {text.count(old)} times"
            with open(path, "w", encoding="utf-8") as source:
                source.write(text.replace(old, new))
        return ""

    def places(self, tree):
        """What it changes in a tree that it is not in: the items that have its lines."""
        return {place_of(tree, file, old) for file, old, _ in self.pairs}


def place_of(tree, file, line):
    """The item of a file that a line is in: the last that begins before it."""
    with open(os.path.join(tree, file), encoding="utf-8") as source:
        text = source.read()
    found = "?"
    for one in (text[:text.find(line)] + line).splitlines():
        item = ITEM.match(one)
        found = (item[1] or item[2]) if item else found
    return Place(file.split("/")[1], os.path.basename(file)[:-len(".rt")], found)


def read_all(names):
    """The edits of these names, or all."""
    found = [Edit(path) for path in sorted(glob.glob(os.path.join(HERE, "edits", "*.edit")))]
    return [edit for edit in found if not names or edit.name in names]


def batches(edits, tree):
    """The edits in groups of which no two change one item."""
    groups = []
    for edit in edits:
        places = edit.places(tree)
        group = next((one for one in groups if not one[0] & places), None)
        if group:
            group[0].update(places)
            group[1].append(edit)
        else:
            groups.append((set(places), [edit]))
    return [group for _, group in groups]
