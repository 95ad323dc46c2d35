"""The edits of trials still apply: each old line is in its file once, after the changes before it."""
import glob
import os

from given import TOP


def changes_of(path):
    """The changes of an edit: the file, the old line and the new one."""
    said, found = {}, []
    with open(path, encoding="utf-8") as lines:
        for line in lines.read().splitlines():
            key, mark, text = line.partition(": ")
            said[key] = text if mark else ""
            if key == "new" and mark:
                found.append((said["file"], said["old"], text))
    return found


def refusal_of(path, folder):
    """Why an edit does not apply below a folder, or nothing."""
    texts = {}
    for file, old, new in changes_of(path):
        if file not in texts:
            with open(os.path.join(folder, file), encoding="utf-8") as source:
                texts[file] = source.read()
        if texts[file].count(old) != 1:
            return f"{old.strip()!r} is in {file} {texts[file].count(old)} times"
        texts[file] = texts[file].replace(old, new)
    return "" if texts else "it has no change"


def try_edits(tally, _program):
    """Counts whether each edit of trials/planted, trials/caught and trials/controls applies."""
    folders = {path: TOP for name in ("planted/edits", "caught") for path in glob.glob(f"{TOP}/trials/{name}/*.edit")}
    for path in glob.glob(f"{TOP}/trials/controls/*/*.edit"):
        folders[path] = os.path.join(TOP, "crates", os.path.basename(os.path.dirname(path)))
    tally.holds("there are edits", len(folders) > 100)
    for path, folder in sorted(folders.items()):
        tally.equals(f"{os.path.relpath(path, TOP)} applies", "", refusal_of(path, folder))
