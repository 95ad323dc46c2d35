"""Devices in use by what stands over them: paths of images, mount points and levels of loop devices; where root may
make loop devices, else a line says so."""
import os
import subprocess

from harness.runs import there
from commands import ROOT
from locks import limited
from makers import IMAGE, entry, make
from uses import Loop, can_loop, start

ENTRIES = {1: entry(2048, 10239), 2: entry(12288, 20479, "two", ROOT)}


def is_in_use(tally, program, what, path, *texts, before=(), **how):
    """Counts whether a change of the partition in use is refused, with these texts, and one of the other is not. The
    program is run by the words before it."""
    remove = [*before, program.path, "remove", path]
    status, err = limited([*remove, "1"], program.folder, **how)
    tally.holds(f"{what}: it is in use: {status} {err}", status == 4 and b"--in-use" in err)
    for text in texts:
        tally.holds(f"{what}: {text!r} is said: {err}", text.encode() in err)
    tally.equals(f"{what}: --dry-run", 0, limited([*remove, "2", "-n"], program.folder, **how)[0])


def try_paths(tally, program):
    """The image of a loop device that is mounted, at paths that the system lists in another form, and at none."""
    if not can_loop(program):
        return "no loop devices for this user: left out"
    os.makedirs(program.file("at"), exist_ok=True)
    for name in "b\u00fccher 1.img", " blank ", "back\\slash.img", "line\n.img", "no \udcff.img", "x (deleted)":
        make(program, ENTRIES, name=name)
        with Loop(program, name) as loop, open(program.file(name), "rb") as file:
            if not loop.mounts_first(program.file("at")):
                return "the partition cannot be mounted: left out"
            if "\udcff" not in name:
                is_in_use(tally, program, f"the image {name!r} of a loop", program.file(name))
                os.link(program.file(name), program.file("other"))
                os.unlink(program.file(name))
                os.rename(program.file("other"), program.file(name))
                is_in_use(tally, program, f"{name!r} that was removed and is back", program.file(name))
            opened = f"/dev/fd/{file.fileno()}"
            is_in_use(tally, program, f"{name!r} by its descriptor", opened, pass_fds=[file.fileno()])
            os.unlink(program.file(name))
            is_in_use(tally, program, f"{name!r} that was removed", opened, pass_fds=[file.fileno()])
    return None


def try_mount_points(tally, program):
    """A mount point is named as it is, with hidden characters escaped."""
    if not can_loop(program):
        return "no loop devices for this user: left out"
    for name, shown in ("a b", "a b"), ("back\\slash \u00fc#", "back\\slash \u00fc#"), \
            ("up\u202e\n\t", "up\\u{202e}\\u{a}\\u{9}"):
        start(program)
        os.makedirs(program.file(name))
        with Loop(program) as loop:
            if not loop.mounts_first(program.file(name)):
                return "the partition cannot be mounted: left out"
            is_in_use(tally, program, f"mounted at {name!r}", loop.path, f"is mounted at {program.file('')}{shown}\n")
    return None


def try_levels(tally, program):
    """Loop devices over each other, over a partition and over a whole device."""
    if not can_loop(program):
        return "no loop devices for this user: left out"
    os.makedirs(program.file("at"), exist_ok=True)
    for count, part in (1, "p1"), (2, "p1"), (3, "p1"), (5, "p1"), (1, ""), (3, ""):
        start(program)
        with Loop(program) as loop:
            top = loop.path + part
            for _ in range(count):
                made = subprocess.run(["losetup", "-f", "--show", "-P", top], stdout=subprocess.PIPE, check=True)
                top = made.stdout.decode().strip()
                loop.later("losetup", "-d", top)
            if not part:
                loop.call("partx", "-u", top)
            if not loop.mounts_first(program.file("at"), top + ("" if part else "p1")):
                return "the partition cannot be mounted: left out"
            for path in loop.path, program.file(IMAGE):
                what = f"{count} loops over {part or 'the device'}"
                is_in_use(tally, program, what, path, "partition 1 is mounted at")
    return None


# How the kernel's list of devices is hidden.
HIDDEN = {"empty": "mount --bind /dev/null /proc/partitions", "absent": "mount -t proc -o subset=pid none /proc"}


def try_lists(tally, program):
    """The image of a loop device that is mounted, where the kernel's list of devices cannot be read."""
    if not can_loop(program) or not there("unshare"):
        return "no loop devices for this user, or no unshare: left out"
    start(program)
    os.makedirs(program.file("at"), exist_ok=True)
    with Loop(program) as loop:
        if not loop.mounts_first(program.file("at")):
            return "the partition cannot be mounted: left out"
        for what, mount in HIDDEN.items():
            before = ["unshare", "-m", "sh", "-c", f'{mount} && exec "$@"', "sh"]
            if not loop.call(*before, "true"):
                print(f"        the list of devices {what}: not to be had here, left out")
                continue
            is_in_use(tally, program, f"the list of devices {what}", program.file(IMAGE), before=before)
    return None


SUBJECTS = {"paths of a loop's image": try_paths, "loops over loops": try_levels,
            "names of mount points": try_mount_points, "lists of devices": try_lists}
