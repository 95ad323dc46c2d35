"""What `make install`, and the staging folder of `make dist` and `make package`, put where.

Both run in a copy of the tree in which each built file is an empty program, so nothing is built.
"""
import os
import shutil

from harness.runs import run, there
from given import TOP

# What the three targets copy, besides what is built.
SOURCES = ["Makefile", "scripts", "docs", "completions", "include", "python", "examples", "README.md",
           "CONTRIBUTING.md", "CHANGELOG.md", "LICENSE-APACHE", "LICENSE-MIT"]
BUILT = ["gptimg", "gptguid", "gptedit", "static/gptimg", "static/gptguid", "static/gptedit", "lib/libgptman.a",
         "lib/libgptman.so.1"]
# What a user or a package looks for, by its place below the prefix, with its mode.
PLACES = {"bin/gptedit": 0o755, "bin/gptimg": 0o755, "bin/gptguid": 0o755, "share/man/man1/gptedit.1": 0o644,
          "share/man/man1/gptimg.1": 0o644, "share/man/man1/gptguid.1": 0o644, "share/man/man3/gptman.3": 0o644,
          "share/man/man3/gptman_fd.3": 0o644, "share/bash-completion/completions/gptedit": 0o644,
          "share/zsh/site-functions/_gptedit": 0o644, "share/fish/vendor_completions.d/gptedit.fish": 0o644,
          "share/doc/gptman/docs/gptedit.schema.json": 0o644, "share/doc/gptman/examples/growpart": 0o755,
          "lib/libgptman.a": 0o644, "lib/pkgconfig/gptman.pc": 0o644,
          "include/gptman.h": 0o644, "include/gptman_fd.h": 0o644,
          "lib/python3/dist-packages/gptman/__init__.py": 0o644, "lib/python3/dist-packages/gptman/py.typed": 0o644}
# An empty form of the scripts that build.
EMPTY = "#!/bin/sh\n"


def make_tree(program):
    """A copy of the tree with empty programs, and its path."""
    tree = program.file("tree")
    shutil.rmtree(tree, ignore_errors=True)
    os.makedirs(tree)
    for name in SOURCES:
        copy = shutil.copytree if os.path.isdir(os.path.join(TOP, name)) else shutil.copy
        copy(os.path.join(TOP, name), os.path.join(tree, name))
    for name in BUILT:
        os.makedirs(os.path.dirname(os.path.join(tree, name)), exist_ok=True)
        shutil.copy("/bin/true", os.path.join(tree, name))
    for name, text in {"lib/gptman.pc": "prefix=/usr/local\nlibdir=${prefix}/lib\n", "scripts/static": EMPTY,
                       "scripts/build": EMPTY, "scripts/build_library": EMPTY}.items():
        with open(os.path.join(tree, name), "w", encoding="utf-8") as file:
            file.write(text)
    return tree


def found_in(folder):
    """The files below a folder: their paths without the suffix of a compressed one, with their modes."""
    return {os.path.relpath(os.path.join(path, name), folder).removesuffix(".gz"):
            os.lstat(os.path.join(path, name)).st_mode & 0o777
            for path, _, names in os.walk(folder) for name in names if not os.path.islink(os.path.join(path, name))}


def bytes_of(*path):
    """The bytes of a file."""
    with open(os.path.join(*path), "rb") as file:
        return file.read()


def try_places(tally, name, tree, folder):
    """Counts whether each file that is looked for is there with its mode, and two of them are the sources."""
    found = found_in(folder)
    for place, mode in PLACES.items():
        tally.equals(f"{name}: {place}", mode, found.get(place))
    for source in "docs/gptedit.schema.json", "examples/growpart":
        tally.equals(f"{name}: the bytes of {source}", bytes_of(tree, source),
                     bytes_of(folder, "share/doc/gptman", source))
    return found


def try_install(tally, program):
    """`make install` and scripts/stage agree on the places."""
    if not there("make"):
        return "make is not installed: left out"
    tree = make_tree(program)
    ended = run(["make", "-s", "install", f"DESTDIR={tree}/root", "PREFIX=/opt/gpt"], cwd=tree)
    tally.equals(f"the status of make install: {ended.out}", 0, ended.status)
    installed = try_places(tally, "make install", tree, f"{tree}/root/opt/gpt")
    if not there("strip"):
        return "strip is not installed: scripts/stage is left out"
    ended = run(["scripts/stage", f"{tree}/", "staged", "lib"], cwd=tree)
    tally.equals(f"the status of scripts/stage: {ended.out}", 0, ended.status)
    staged = try_places(tally, "scripts/stage", tree, f"{tree}/staged")
    tally.equals("what make install has and scripts/stage has not", [], sorted(set(installed) - set(staged)))
    tally.equals("what scripts/stage has and make install has not", set(),
                 {name for name in set(staged) - set(installed) if not name.startswith("share/doc/gptman/")})
    return None
