"""Edits of the sources: lines 'file:', 'old:' and 'new:', and more of these.

Wrong bodies that the prover must refuse are in crates/CRATE/must-fail, where `rt ci` has a check for each, and in
tests/refused/CRATE, where scripts/refused has one for many. Their controls are in trials/controls/CRATE.
"""

import glob
import os

import contracts

FOLDERS = ("crates/{}/must-fail", "tests/refused/{}")


def keyed(path):
    """The lines of an edit: key and text."""
    with open(path, encoding="utf-8") as edit:
        return [line.rstrip("\n").partition(": ")[::2] for line in edit if ": " in line]


def changes(path):
    """The changes of an edit: file, the old line and the new one."""
    found, said = [], {}
    for key, text in keyed(path):
        said[key] = text
        if key == "new":
            found.append((said["file"], said["old"], text))
    return found


def name_of(path):
    """The name of an edit."""
    return os.path.basename(path).removesuffix(".edit")


def in_folder(folder):
    """The edits in a folder."""
    return sorted(glob.glob(f"{folder}/*.edit"))


def of_crate(crate):
    """The edits that the prover must refuse in a crate."""
    return [path for folder in FOLDERS for path in in_folder(folder.format(crate))]


def crates():
    """The crates with such edits."""
    return [crate for crate in sorted(os.listdir("crates")) if of_crate(crate)]


def put(folder, pairs):
    """Makes changes below a folder; why not, where an old line is not there once."""
    for file, old, new in pairs:
        with open(f"{folder}/{file}", encoding="utf-8") as source:
            text = source.read()
        if text.count(old) != 1:
            return f"its old line is in {file} {text.count(old)} times"
        with open(f"{folder}/{file}", "w", encoding="utf-8") as source:
            source.write(text.replace(old, new))
    return ""


def functions_of(crate, path):
    """What the prover calls the functions that an edit changes; a line 'function:' names them where it changes none."""
    named = [contracts.symbol_of(text) for key, text in keyed(path) if key == "function"]
    return named or sorted({function_at(crate, file, old) for file, old, _ in changes(path)} - {None})


def function_at(crate, file, old):
    """What the prover calls the function in which a line is, or None where it is in none."""
    block = name = None
    for line in contracts.lines_of(f"crates/{crate}/{file}"):
        block = contracts.IMPL.match(line) or contracts.TRAIT.match(line) or (None if line.startswith("}") else block)
        begins = contracts.FN.match(line)
        name = contracts.named(begins, block, contracts.module_of(file)) if begins else None if line.startswith("}") else name
        if old in line:
            return name and contracts.symbol_of(name)
    return None


def batch(crate, left):
    """Edits that change functions of their own."""
    taken, group = set(), []
    for path in left:
        functions = set(functions_of(crate, path))
        if not functions & taken:
            group.append(path)
            taken |= functions
    return group
