"""Several programs on one image: each that writes has its turn, and one that reads does not wait."""
import os
import subprocess
import threading
import time

from given import ADD, DATA, READERS, SAME, WRITERS, guid_of
from gptimg import from_backup
from harness.runs import Ended, status_of


def try_readers(tally, program):
    """Beside one program that writes, each that reads sees the old table or the new one, which may be read from its
    backup copy, as that is written first."""
    add = ["beside.img", "512", *ADD.split()]
    old = program.answer("good.img", "512", "show")
    program.copy("good.img", "beside.img")
    program.answer(*add)
    new = program.answer("beside.img", "512", "show")
    for _ in range(40):
        program.copy("good.img", "beside.img")
        shows = show_beside(program, 1, 2)
        writer = program.start("added", *add)
        shows += show_beside(program, 3, 4, 5, 6)
        tally.equals("add beside six shows: its status", 0, status_of(writer.wait()))
        for number, process in enumerate(shows, 1):
            seen = Ended(status_of(process.wait()), program.text(f"shown.{number}"), "")
            tally.is_one_of("show beside an add", seen, old, new, from_backup(new))


def show_beside(program, *numbers):
    """Starts shows of these numbers."""
    return [program.start(f"shown.{number}", "beside.img", "512", "show") for number in numbers]


def try_ten_writers(tally, program):
    """Ten partitions that are added at once are ten partitions, and what reads meanwhile reads a table."""
    for _ in range(20):
        program.make_table("ten.img", 51200)
        told, is_busy = [], threading.Event()
        is_busy.set()
        reader = threading.Thread(target=read_while, args=(program, is_busy, told))
        reader.start()
        try:
            wanted = add_ten(tally, program)
        finally:
            is_busy.clear()
            reader.join()
        tally.equals("ten adds at once: what another program was told", [], told)
        shown = program.answer("ten.img", "512", "show")
        tally.equals("ten adds at once: the lines of the table", wanted, shown.out.partition("\n")[2])
        program.says(0, SAME, "ten.img", "512", "check")


def read_while(program, is_busy, told):
    """Shows the table again and again as long as others write, and keeps what is no table."""
    while is_busy.is_set():
        process = program.start("shown", "ten.img", "512", "show")
        if process.wait():
            told.append(program.text("shown"))


def add_ten(tally, program):
    """Starts ten adds and waits for them. Gives the lines of the partitions that they say."""
    numbers, lines = range(1, 11), ""
    adds = [program.start(f"added.{number}", "ten.img", "512", "add", str(number), DATA, guid_of(number), "1", "first",
                          "1", f"name{number}") for number in numbers]
    for number, process in zip(numbers, adds):
        tally.equals("one of ten adds: its status", 0, status_of(process.wait()))
        place = program.text(f"added.{number}").rstrip("\n").removeprefix(f"{number} ")
        lines += f"{number} {DATA} {guid_of(number)} {place} 0000000000000000 name{number}\n"
    return lines


def try_turns(tally, program):
    """While another program holds the lock, what writes waits for it and what reads does not."""
    if not tally.has("flock"):
        return
    program.copy("good.img", "turn.img")
    before = program.sum_of("turn.img")
    holder = subprocess.Popen(["timeout", "60", "flock", "turn.img", "bash", "-c", ": > held; read -r -t 50 _"],
                              cwd=program.folder, stdin=subprocess.PIPE)
    while holder.poll() is None and not os.path.exists(program.file("held")):
        time.sleep(0.01)
    writers = start_writers(program)
    for line in READERS:
        reads_at_once(tally, program, line)
    time.sleep(0.5)
    writers_wait(tally, program, writers, before)
    holder.communicate(b"\n")
    tally.equals("the lock was held to the end", 0, status_of(holder.returncode))
    for line, process in zip(WRITERS, writers):
        tally.equals(f"gptimg {line} when its turn has come: its status", 0, status_of(process.wait()))
    program.says(0, SAME, "turn.img", "512", "check")


def start_writers(program):
    """Starts each command that writes. These are done in any order."""
    late = program.beside("timeout")
    return [late.start(f"turn.{number}", "60", program.path, "turn.img", "512", *line.split())
            for number, line in enumerate(WRITERS)]


def reads_at_once(tally, program, line):
    """Counts whether the line is done while the lock is held. Nothing was written yet."""
    wanted = program.answer("good.img", "512", *line.split())
    tally.equals(f"gptimg {line} while another program holds the lock", wanted,
                 program.command("timeout", "30", program.path, "turn.img", "512", *line.split()))


def writers_wait(tally, program, writers, before):
    """Counts whether none of the commands that write has ended, printed or written."""
    for number, (line, process) in enumerate(zip(WRITERS, writers)):
        tally.holds(f"gptimg {line} waits for its turn", process.poll() is None)
        tally.equals(f"gptimg {line} while it waits: what it printed", "", program.text(f"turn.{number}"))
    program.keeps_bytes("turn.img", before)
