#!/usr/bin/env python3
"""Has a UEFI firmware and a Linux kernel start from an image that `gptedit apply --create` made.

usage: trials/boot_guest.py [PROGRAM]

PROGRAM is ./gptedit at the top of the repository where it is left out. The ESP of the image has a kernel, and partition
root an ext4. The firmware (EDK2 under qemu) starts the kernel from the ESP, and the guest finds the root by its name. So it
does with one copy of the table overwritten. The last line is 'N passed, M failed'. Some 20 seconds a start.

Needs qemu-system-x86_64, the firmware of Debian's package ovmf, a kernel in /boot with its modules (Debian's
linux-image-cloud-amd64), a static busybox, cpio, mtools, dosfstools and e2fsprogs: says so and ends with 0 where one is
missing.
"""

import glob
import os
import re
import shutil
import subprocess
import sys
import tempfile

HERE = os.path.dirname(os.path.abspath(__file__))
TOP = os.path.dirname(HERE)
sys.path.insert(1, os.path.join(TOP, "tests"))
from harness.tally import Tally  # noqa: E402
import guest  # noqa: E402

FIRMWARE = "/usr/share/OVMF"
TOOLS = ["qemu-system-x86_64", "busybox", "cpio", "mcopy", "mkfs.fat", "mkfs.ext4"]
MIB = 1 << 20
SIZE = 256 * MIB
ROOT = "c0ffee00-0000-4000-8000-000000000002"
LIMIT_SECONDS = 300

LAYOUT = f"""[[partition]]
name = "ESP"
type = "efi"
size = "128MiB"

[[partition]]
name = "root"
type = "root"
guid = "{ROOT}"
size = "rest"
"""

# What the firmware's shell runs.
STARTUP = r"\vmlinuz.efi initrd=\initrd console=ttyS0 quiet loglevel=0 gpt" + "\r\n"

# What the guest runs: it mounts the partition of this name, and prints what it finds there.
COMMANDS = """
mkdir /disk
for part in /sys/class/block/vda?*; do
    if grep -q '^PARTNAME=root$' $part/uevent; then
        mount -t ext4 /dev/${part##*/} /disk && echo "root is ${part##*/}: $(cat /disk/mark)"
    fi
done
echo end
poweroff -f
"""

# The names of the starts, and the bytes of the table that are overwritten before each.
STARTS = {"both copies good": None, "no primary copy": (512, 33 * 512), "no backup copy": (SIZE - 33 * 512, 33 * 512)}


def missing():
    """What this needs and is not there, or nothing."""
    for tool in TOOLS:
        if not shutil.which(tool):
            return tool
    for pattern in f"{FIRMWARE}/OVMF_CODE.fd", "/boot/vmlinuz-*":
        if not glob.glob(pattern):
            return pattern
    return None


def run(*words):
    """What a program prints, which has to end with 0."""
    return subprocess.run(words, stdin=subprocess.DEVNULL, stdout=subprocess.PIPE, text=True, check=True).stdout


def make_image(program, folder):
    """Makes the image: the table by the program, and file systems where that says that the partitions are."""
    disk, layout = f"{folder}/disk.img", f"{folder}/disk.toml"
    with open(layout, "w", encoding="utf-8") as file:
        file.write(LAYOUT)
    with open(disk, "wb") as file:
        file.truncate(SIZE)
    run(program, "apply", disk, layout, "--create")
    place = {name: [int(run(program, "show", disk, f"name={name}", field)) for field in ("offset", "size-bytes")]
             for name in ("ESP", "root")}
    initrd = guest.make_guest(folder, {}, {}, COMMANDS)
    with open(f"{folder}/startup.nsh", "w", encoding="ascii", newline="") as file:
        file.write(STARTUP)
    with open(f"{folder}/esp.fat", "wb") as file:
        file.truncate(place["ESP"][1])
    run("mkfs.fat", "-F", "32", f"{folder}/esp.fat")
    for source, name in (guest.newest_kernel(), "vmlinuz.efi"), (initrd, "initrd"), (f"{folder}/startup.nsh", "startup.nsh"):
        run("mcopy", "-i", f"{folder}/esp.fat", source, f"::/{name}")
    with open(f"{folder}/esp.fat", "rb") as esp, open(disk, "r+b") as file:
        file.seek(place["ESP"][0])
        shutil.copyfileobj(esp, file)
    os.mkdir(f"{folder}/files")
    with open(f"{folder}/files/mark", "w", encoding="ascii") as file:
        file.write(ROOT)
    run("mkfs.ext4", "-q", "-d", f"{folder}/files", "-E", f"offset={place['root'][0]}", disk, f"{place['root'][1] // 1024}k")
    return disk


def start(folder, disk):
    """What the firmware and the guest print when a machine starts from the disk."""
    shutil.copy(f"{FIRMWARE}/OVMF_VARS.fd", f"{folder}/variables.fd")
    words = ["qemu-system-x86_64", "-machine", "q35,accel=tcg", "-cpu", "max", "-m", "512", "-nographic", "-nodefaults",
             "-no-reboot", "-serial", "stdio", "-net", "none",
             "-drive", f"if=pflash,format=raw,readonly=on,file={FIRMWARE}/OVMF_CODE.fd",
             "-drive", f"if=pflash,format=raw,file={folder}/variables.fd", "-drive", f"file={disk},format=raw,if=virtio"]
    with subprocess.Popen(words, stdin=subprocess.DEVNULL, stdout=subprocess.PIPE, stderr=subprocess.STDOUT) as machine:
        try:
            printed, _ = machine.communicate(timeout=LIMIT_SECONDS)
        except subprocess.TimeoutExpired:
            machine.kill()
            printed, _ = machine.communicate()
    return printed.decode("latin1").replace("\r", "")


def main():
    """Starts a machine from the image, whole and with one copy of the table."""
    lacking = missing()
    if lacking:
        print(f"boot_guest.py: left out, as there is no {lacking}")
        return 0
    program = os.path.realpath(sys.argv[1] if len(sys.argv) > 1 else f"{TOP}/gptedit")
    tally = Tally()
    with tempfile.TemporaryDirectory() as folder:
        disk = make_image(program, folder)
        for name, lost in STARTS.items():
            shutil.copy(disk, f"{folder}/started.img")
            if lost:
                with open(f"{folder}/started.img", "r+b") as file:
                    file.seek(lost[0])
                    file.write(bytes(lost[1]))
            printed = start(folder, f"{folder}/started.img")
            tally.equals(f"the root of a start with {name}: {printed[-600:]!r}", [("vda2", ROOT)],
                         re.findall(r"^root is (\w+): (\S+)$", printed, re.M))
    return tally.end()


if __name__ == "__main__":
    sys.exit(main())
