"""What docs/LIBRARY.md shows of a program, and the links of all documents."""
import glob
import os
import re

from given import TOP, text_of


def try_shown_program(tally, _program):
    """What docs/LIBRARY.md shows of the program that is proved stands in its source, line for line."""
    shown = "".join(re.findall(r"^```rust\n(.*?)^```$", text_of("docs/LIBRARY.md"), re.M | re.S))
    tally.holds("docs/LIBRARY.md shows some of the example", len(shown) > 500)
    tally.contains("the example in docs/LIBRARY.md", f"\n{shown}", text_of("crates/example_plan/src/main.rt"))


def try_links(tally, _program):
    """Each link of a document leads to a file of the repository, and to a heading of it where it names one."""
    folders = TOP, f"{TOP}/docs", f"{TOP}/docs/generated"
    for path in [path for folder in folders for path in sorted(glob.glob(f"{folder}/*.md"))]:
        for link in re.findall(r"\]\(([^)\n]*)\)", text_of(path)):
            if not link.startswith("https:"):
                try_link(tally, path, link)


def try_link(tally, path, link):
    """Counts whether the document's link leads somewhere."""
    name, (file, mark, anchor) = os.path.relpath(path, TOP), link.partition("#")
    file = os.path.join(os.path.dirname(path), file) if file else path
    tally.holds(f"{name}: the file of {link}", os.path.exists(file))
    if mark:
        tally.contains(f"{name}: the heading of {link}", anchor, anchors_of(file))


def anchors_of(path):
    """The anchors of a document's headings, as GitHub makes them."""
    headings = re.findall("^#+ +(.*)$", text_of(path), re.M)
    return [re.sub("[^A-Za-z0-9 _-]", "", heading).replace(" ", "-").lower() for heading in headings]
