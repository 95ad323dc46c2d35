"""Tries the library for C: usage: tests/library LIBRARY GPTIMG, where LIBRARY is what rt made of gptman_c.

Prints a line for each subject, and in full what does not hold. The last line is 'N passed, M failed', and the
status is 1 where something failed. Needs a compiler for C; tests/library.sh looks for one.
"""
import os
import sys
import tempfile

sys.path.insert(1, os.path.join(os.path.dirname(os.path.abspath(__file__)), ".."))
from harness.runs import Program, set_environment  # noqa: E402
from harness.tally import Tally  # noqa: E402
import calls  # noqa: E402
import examples  # noqa: E402
import helpers  # noqa: E402
import package  # noqa: E402
import tasks  # noqa: E402
import wild  # noqa: E402
from built import build  # noqa: E402


def main():
    """Tries every subject in a folder that is removed afterwards."""
    set_environment()
    tally = Tally()
    with tempfile.TemporaryDirectory() as folder:
        library = build(os.path.realpath(sys.argv[1]), folder)
        program = Program(os.path.realpath(sys.argv[2]), folder)
        for module in (examples, tasks, calls, helpers, package, wild):
            for name, run in module.SUBJECTS.items():
                tally.subject(name, run, library, program)
    return tally.end()


sys.exit(main())
