"""Copies of the crates, in which trials change something."""

import glob
import os
import shutil
import subprocess


def link(source, target):
    """Links a file, or copies it where it cannot be linked."""
    try:
        os.link(source, target)
    except OSError:
        shutil.copy2(source, target)


def copied(top):
    """Copies the crates into a folder, without their must-fail edits.

    The libraries that `rt check` or `rt lib` built come along, so that only what changed is proved again."""
    listed = subprocess.run(["git", "ls-files", "crates", "crates.txt", "HANDLES"], stdout=subprocess.PIPE, text=True, check=True)
    for path in listed.stdout.splitlines():
        if "/must-fail/" not in path and os.path.exists(path):
            os.makedirs(os.path.dirname(f"{top}/{path}"), exist_ok=True)
            shutil.copy(path, f"{top}/{path}")
    for library in glob.glob("crates/*/out/rlib"):
        shutil.copytree(library, f"{top}/{library}", copy_function=link)
