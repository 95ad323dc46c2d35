"""Tries gptedit as a process: usage: tests/gptedit GPTEDIT [MODULE[/SUBJECT]..].

Prints a line for each subject, and in full what does not hold. The last line is 'N passed, M failed', and the
status is 1 where something failed. What needs sfdisk, sgdisk, parted, cgpt or strace is tried where they are, and
what needs loop devices where this user may make them; a line says what is left out.
"""
import importlib
import os
import sys
import tempfile

sys.path.insert(1, os.path.join(os.path.dirname(os.path.abspath(__file__)), ".."))
from harness.runs import set_environment  # noqa: E402
from harness.tally import Tally  # noqa: E402
from runs import GATE, Program  # noqa: E402


def main():
    """Tries every subject in a folder that is removed afterwards."""
    set_environment()
    tally = Tally()
    with tempfile.TemporaryDirectory() as folder:
        program = Program(os.path.realpath(sys.argv[1]), folder, tally)
        for word in sys.argv[2:] or GATE:
            name, _, chosen = word.partition("/")
            subjects = importlib.import_module(name).SUBJECTS
            for subject in [chosen] if chosen else subjects:
                tally.subject(subject, subjects[subject], program)
    return tally.end()


if __name__ == "__main__":
    sys.exit(main())
