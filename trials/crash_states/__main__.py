"""Tells how many of the states that a stop may leave lose the partition table.

Each program adds the same partition to an image, and runs once under strace; those that make several
changes by one command do so; and so do small programs by a library each, with --libraries. Their
writes and syncs of the image are replayed. At each moment a stop may leave each write that is not
yet synced old, new, garbage or torn; each such state is read, and counted as lost where neither the
table before nor the one after is read from it (tests/harness/states.py and judging.py say how).

What it leaves out: writes through mapped memory and io_uring, and changes of length (a program that
makes one is told, and not judged); caches of a disk that lie about a sync; sectors other than 512
bytes; sectors that spoil others. Not every mixture of fates is tried, and the tried ones are not
equally likely: a share is no probability. That it is 0 or not says more.
"""
import argparse
import json
import os
import shutil
import sys
import tempfile

sys.path.insert(1, os.path.join(os.path.dirname(os.path.abspath(__file__)), "..", "..", "tests"))
import report  # noqa: E402
from judging import Trial, starts  # noqa: E402
from programs import libraries, plans, programs  # noqa: E402


def options():
    """The words of the command line."""
    parser = argparse.ArgumentParser(prog="crash_states", description=__doc__,
                                     formatter_class=argparse.RawDescriptionHelpFormatter)
    parser.add_argument("--gptimg", default="./gptimg", help="the program gptimg (./gptimg)")
    parser.add_argument("--gptedit", default="./gptedit", help="the program gptedit (./gptedit)")
    parser.add_argument("--libraries", metavar="FOLDER",
                        help="judge the programs of trials/with_libraries.sh in this folder, and no others")
    parser.add_argument("--mixtures", type=int, default=40,
                        help="mixtures by chance for each moment (40)")
    parser.add_argument("--json", help="write the results to this file")
    parser.add_argument("--chart", help="draw the chart to this SVG file")
    return parser.parse_args()


def installed(listed):
    """The programs that are there. Prints a line for each."""
    there = []
    for program in listed:
        if program.is_there():
            there.append(program)
            print("%s: %s" % (program.name, program.told_version()))
        else:
            print("%s: not installed, and left out" % program.name)
    return there


def results(chosen, mixtures, folder):
    """The result of each program from each start."""
    for start, base in starts().items():
        for program in chosen:
            yield Trial(program, start, base, folder).result(mixtures)


def judged(there, mixtures, folder):
    """The results of these programs. Tells each that was tried."""
    found = []
    for result in results(there, mixtures, folder):
        found.append(result)
        print("tried: %s, %s" % (result["program"], result["start"]), file=sys.stderr)
    return found


def write(path, text):
    """Writes a file, if there is a path."""
    if path:
        with open(path, "w", encoding="utf-8") as file:
            file.write(text)


def main():
    """Does it all."""
    chosen = options()
    if not shutil.which("strace"):
        sys.exit("strace is not installed, and without it no run can be recorded")
    with tempfile.TemporaryDirectory() as folder:
        folder = os.path.realpath(folder)
        if chosen.libraries:
            found = judged(installed(libraries(os.path.realpath(chosen.libraries))), chosen.mixtures, folder)
            print("One partition is added, by a library")
            print("\n".join(report.lines(found)))
            return
        one = judged(installed(programs(os.path.abspath(chosen.gptimg), folder)), chosen.mixtures, folder)
        several = judged(installed(plans(os.path.abspath(chosen.gptedit), folder)), chosen.mixtures, folder)
    print("One partition is added")
    print("\n".join(report.lines(one)))
    print("\nSeveral changes are made by one command")
    print("\n".join(report.lines(several)))
    write(chosen.json, json.dumps({"one": one, "several": several}, indent=1) + "\n")
    write(chosen.chart, report.chart(one))


if __name__ == "__main__":
    main()
