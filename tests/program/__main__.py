"""Tries gptimg as a process: usage: tests/program [PROGRAM [GPTGUID [GPTEDIT]]].

Tried are its words and commands, its files, its standard streams, its memory, many of it at once, one that is killed,
and what README.md, docs/GUIDE.md and docs/FAULTS.md say that it prints. PROGRAM is ./gptimg at the top of the
repository where it is left out; `make gptimg` puts it there. GPTGUID is the program gptguid, and GPTEDIT gptedit: else
those of their crates, where `make gptguid`, `make gptedit` and `rt ci` leave them. What gptedit does by itself
tests/gptedit tries.

Prints a line for each subject, and in full what does not hold. The last line is 'N passed, M failed', and the status is
1 where something failed. Needs bash, coreutils and the program. What needs sgdisk, sfdisk, strace, flock, qemu-img,
mtools, or tools of file systems is tried where they are, and left out with a line where not; so is what only
some users may do.
"""
import os
import resource
import signal
import sys
import tempfile

sys.path.insert(1, os.path.join(os.path.dirname(os.path.abspath(__file__)), ".."))
from harness.runs import set_environment  # noqa: E402
from harness.tally import Tally  # noqa: E402
import commands  # noqa: E402
import counts  # noqa: E402
import data  # noqa: E402
import descriptors  # noqa: E402
import faults  # noqa: E402
import files  # noqa: E402
import growth  # noqa: E402
import guide  # noqa: E402
import guids  # noqa: E402
import installing  # noqa: E402
import kills  # noqa: E402
import memory  # noqa: E402
import other_tools  # noqa: E402
import output  # noqa: E402
import planted  # noqa: E402
import readme  # noqa: E402
import shapes  # noqa: E402
import static  # noqa: E402
import writers  # noqa: E402
from given import TOP  # noqa: E402
from gptimg import Gptimg  # noqa: E402

SUBJECTS = {
    "the program in docs/LIBRARY.md": readme.try_shown_program,
    "the links of the documents": readme.try_links,
    "words": commands.try_words,
    "words of no command": data.try_usage,
    "rows": data.try_rows,
    "tables of many shapes": shapes.try_shapes,
    "names": data.try_names,
    "commands": commands.try_commands,
    "closed descriptors": descriptors.try_closed_descriptors,
    "a system without /dev": descriptors.try_without_devices,
    "the program linked whole": static.try_static_program,
    "openings": descriptors.try_opens,
    "few descriptors": descriptors.try_few_descriptors,
    "output that fails": output.try_failing_output,
    "output in large pieces": output.try_pieces,
    "a table of many entries": output.try_many_entries,
    "files of other kinds": files.try_files,
    "files that may not be opened": files.try_permissions,
    "little memory": memory.try_little_memory,
    "entries counted past the end": counts.try_counts,
    "readers beside a writer": writers.try_readers,
    "ten writers at once": writers.try_ten_writers,
    "a turn for each writer": writers.try_turns,
    "killed writers": kills.try_kills,
    "a grow that is stopped": growth.try_stopped_growths,
    "GUIDs": guids.try_guids,
    "images of sgdisk": other_tools.try_sgdisk,
    "images of sfdisk": other_tools.try_sfdisk,
    "calls of the system": other_tools.try_calls,
    "calls of the system that fail": faults.try_failing_calls,
    "calls of the system that are interrupted": faults.try_interrupted_calls,
    "what is installed": installing.try_install,
    "edits of trials apply": planted.try_edits,
    "the example of README.md": guide.try_readme,
    "the recipes of docs/GUIDE.md": guide.try_guide,
    "the examples of docs/FAULTS.md": guide.try_faults,
}
DEFAULTS = ["gptimg", "crates/gptguid/out/gptguid", "crates/gptedit/out/gptedit"]


def main():
    """Tries every subject in a folder that is removed afterwards."""
    given = sys.argv[1:] + [os.path.join(TOP, path) for path in DEFAULTS[len(sys.argv) - 1:]]
    program, guid, edit = map(os.path.realpath, given)
    if not os.access(program, os.X_OK):
        print(f"there is no program {program}: run 'make gptimg'", file=sys.stderr)
        return 1
    for number in signal.SIGHUP, signal.SIGTERM:
        signal.signal(number, lambda *_: sys.exit(1))
    set_environment()
    resource.setrlimit(resource.RLIMIT_CORE, (0, 0))
    tally = Tally()
    with tempfile.TemporaryDirectory() as folder:
        gptimg = Gptimg(program, os.path.realpath(folder), tally, guid, edit)
        gptimg.make_images()
        for name, run in SUBJECTS.items():
            tally.subject(name, run, gptimg)
    return tally.end()


if __name__ == "__main__":
    sys.exit(main())
