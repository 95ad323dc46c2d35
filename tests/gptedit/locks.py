"""Locks: of other programs, of the programs that started this one, and of qemu; on block devices where root may make
loop devices. A line says what is left out."""
import os
import shutil
import signal
import subprocess
import time

from harness.runs import there
from makers import IMAGE, holds
from uses import NAME, Loop, can_loop, start

LINE = '"$0" set "$1" 1 --name z $2; echo "status $?" >&2'

# The sfdisk that growpart finds: gptedit is run first, and its status and reason are kept.
SFDISK = """#!/bin/sh
timeout 5 "$TRIED" set "$TRIED_ON" 1 --name z $TRIED_WITH >/dev/null 2>>"$TRIED_KEPT.err"
echo $? >>"$TRIED_KEPT"
exec "$TRIED_SFDISK" "$@"
"""


def try_locks(tally, program):
    """`--lock wait`, `fail` and `none`, while another program holds the lock."""
    if not there("flock"):
        return "flock is not installed: left out"
    start(program)
    path = program.file(IMAGE)
    with subprocess.Popen(["flock", path, "sleep", "3"]) as holder:
        while subprocess.run(["flock", "-n", path, "true"], check=False).returncode == 0:
            time.sleep(0.01)
        began = time.monotonic()
        ended = program.plain(*NAME, "--lock", "fail")
        tally.holds(f"--lock fail: {ended}", ended[0] == 4 and time.monotonic() - began < 2)
        ended = program.plain(*NAME, "--dry-run", "--lock", "fail")
        tally.holds(f"a dry run with --lock fail: {ended}", ended[0] == 4 and "holds the lock" in ended[2])
        ended = program.plain(*NAME, "--dry-run", "--lock", "none")
        tally.holds(f"a dry run with --lock none: {ended}", ended[0] == 0 and holder.poll() is None)
        ended = program.plain(*NAME, "--lock", "none")
        tally.holds(f"--lock none: {ended}", ended[0] == 0 and holder.poll() is None)
        ended = program.plain("show", IMAGE)
        tally.holds(f"show needs no lock: {ended}", ended[0] == 0 and holder.poll() is None)
        ended = program.plain(*NAME[:-1], "y")
        tally.holds(f"a line before it waits: {ended}", ended[0] == 0 and
                    f"waiting for the lock on {IMAGE}" in ended[2])
        tally.holds("it has waited", holder.poll() is not None)
    return None


def try_ancestors(tally, program):
    """An ancestor that holds the lock is not waited for: `flock` of a path and of a descriptor."""
    if not there("flock"):
        return "flock is not installed: left out"
    path = program.file(IMAGE)
    start(program)
    by_ancestor(tally, program, "flock", ["flock", path], path)
    start(program)
    by_ancestor(tally, program, "flock of a descriptor", ["sh", "-c", f'exec 9<>"{path}"; flock -x 9; "$@"; exit $?',
                                                          "sh"], path)
    return None


def by_ancestor(tally, program, what, holder, path):
    """Counts what a change of `path` does under a holder of its lock."""
    for more, wanted in ("", 4), ("--lock none", 0):
        began = time.monotonic()
        _, err = limited([*holder, "sh", "-c", LINE.replace("$2", more), program.path, path], program.folder)
        tally.holds(f"the status under {what} {more}: {err}", f"status {wanted}\n".encode() in err)
        tally.holds(f"--lock none is named under {what}: {err}", not wanted or b"--lock none" in err)
        tally.holds(f"it does not wait under {what}", time.monotonic() - began < 4)


def limited(words, folder, **how):
    """The status of a command and what it printed as an error; None where it does not end in some seconds."""
    with subprocess.Popen(words, cwd=folder, stdout=subprocess.DEVNULL, stderr=subprocess.PIPE, start_new_session=True,
                          **how) as process:
        try:
            return process.wait(5), process.stderr.read()
        except subprocess.TimeoutExpired:
            os.killpg(process.pid, signal.SIGKILL)
            return None, b"it waits"


def try_devices(tally, program):
    """An ancestor that holds the lock of a block device: `flock`, `udevadm lock`, growpart; and another program."""
    if not can_loop(program):
        return "no loop devices for this user: left out"
    start(program)
    with Loop(program) as loop:
        for what, holder in ("flock of a device", ["flock", loop.path]), \
                ("udevadm lock", ["udevadm", "lock", "-d", loop.path]):
            if not there(holder[0]) or not loop.call(*holder, "true"):
                print(f"        {what}: not to be had here, left out")
                continue
            by_ancestor(tally, program, what, holder, loop.path)
        with subprocess.Popen(["flock", loop.path, "sleep", "2"]) as other:
            while loop.call("flock", "-n", loop.path, "true"):
                time.sleep(0.01)
            ended = program.plain("set", loop.path, "1", "--name", "w", "--lock", "fail")
            tally.holds(f"a device that another program locks: {ended}", ended[0] == 4 and other.poll() is None)
        by_growpart(tally, program, loop)
    return None


def by_growpart(tally, program, loop):
    """Under growpart, which locks by a descriptor: the last time that it runs sfdisk is under its lock."""
    if not there("growpart", "sfdisk", "timeout"):
        print("        growpart is not installed: left out")
        return
    folder, kept = program.file("bin"), program.file("kept")
    os.makedirs(folder, exist_ok=True)
    program.write("bin/sfdisk", SFDISK.encode())
    os.chmod(program.file("bin/sfdisk"), 0o755)
    environment = dict(os.environ, PATH=f"{folder}:{os.environ['PATH']}", TRIED=program.path, TRIED_ON=loop.path,
                       TRIED_KEPT=kept, TRIED_SFDISK=shutil.which("sfdisk"))
    for more, wanted in ("", "4"), ("--lock none", "0"):
        for name in kept, f"{kept}.err":
            if os.path.exists(name):
                os.remove(name)
        ended = subprocess.run(["growpart", loop.path, "2"], cwd=program.folder, stdin=subprocess.DEVNULL, timeout=60,
                               stdout=subprocess.PIPE, stderr=subprocess.STDOUT, check=False,
                               env=dict(environment, TRIED_WITH=more))
        statuses = program.bytes_of("kept").decode().split() if os.path.exists(kept) else []
        err = program.bytes_of("kept.err").decode() if os.path.exists(f"{kept}.err") else ""
        tally.holds(f"growpart runs sfdisk: {ended.stdout}", statuses)
        tally.equals(f"the last status under growpart {more}: {err}", [wanted], statuses[-1:])
        tally.holds(f"it does not wait under growpart {more}: {statuses}", "124" not in statuses)
        tally.holds(f"--lock none is named under growpart: {err}", more or "--lock none" in err)


def try_input(tally, program):
    """The layout is read before the image is opened: no lock is held meanwhile."""
    if not there("flock"):
        return "flock is not installed: left out"
    start(program)
    with subprocess.Popen([program.path, "apply", IMAGE, "-", "--replace"], cwd=program.folder,
                          stdin=subprocess.PIPE, stdout=subprocess.DEVNULL) as process:
        time.sleep(0.5)
        status = subprocess.run(["flock", "-n", program.file(IMAGE), "true"], check=False).returncode
        tally.equals("the lock is free while standard input is read", 0, status)
        process.stdin.write(b"label: gpt\n")
        process.stdin.close()
        tally.equals("the status of apply", 0, process.wait())
    holds(tally, program, "apply of standard input", {})
    return None


def try_qemu(tally, program):
    """An image that qemu holds."""
    if not there("qemu-io") and not there("qemu-system-x86_64"):
        return "qemu is not installed: left out"
    start(program)
    path = program.file(IMAGE)
    words = ["qemu-io", "-f", "raw", path] if there("qemu-io") else [
        "qemu-system-x86_64", "-S", "-nographic", "-monitor", "stdio", "-serial", "none", "-drive",
        f"file={path},format=raw"]
    with subprocess.Popen(words, stdin=subprocess.PIPE, stdout=subprocess.DEVNULL,
                          stderr=subprocess.DEVNULL) as holder:
        inode = f":{os.stat(path).st_ino} "
        for _ in range(100):
            with open("/proc/locks", encoding="ascii") as locks:
                if inode in locks.read():
                    break
            time.sleep(0.1)
        for more, wanted in ([], 4), (["--lock", "fail"], 4), (["--lock", "none"], 0):
            status, err = limited([program.path, *NAME, *more], program.folder)
            tally.equals(f"an image that qemu holds, {more}: {err}", wanted, status)
        tally.equals("show of it", 0, program.plain("show", IMAGE)[0])
        holder.kill()
    tally.equals("it is free after qemu", 0, program.plain(*NAME[:-1], "y")[0])
    return None


SUBJECTS = {"--lock": try_locks, "ancestors that lock": try_ancestors, "locks of block devices": try_devices,
            "no lock while a layout is read": try_input, "qemu's lock": try_qemu}
