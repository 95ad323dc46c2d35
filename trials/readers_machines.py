"""The readers that need a machine of their own, by qemu: a kernel, a boot loader, a firmware."""

import glob
import os
import re
import shutil
import subprocess

import guest
from readers_programs import places_of

QEMU = "qemu-system-x86_64"
UBOOT = "/usr/lib/u-boot/qemu-x86_64/u-boot.rom"
FIRMWARE = "/usr/share/OVMF"
LIMIT_SECONDS = 300

# What the Linux guest runs. Each partition that the kernel knows is a line `saw WHEN DISK START LENGTH`. The
# empty line comes first as what the BIOS printed last may not end with one.
COMMANDS_OF_GUEST = """
saw() {
    for part in /sys/block/vd?/vd*; do
        disk=${part%/*}
        [ ! -e "$part" ] || echo "saw $1 $(cat "$disk/serial") $(cat "$part/start") $(cat "$part/size")"
    done
}
echo
sleep 1
saw before
if grep -q repair /proc/cmdline; then
    for disk in /sys/block/vd?; do
        device=/dev/${disk##*/}
        sh /bin/repair.sh "$device" "$(blockdev --getss "$device")" && blockdev --rereadpt "$device"
    done
    saw after
fi
poweroff -f
"""

# What the firmware's shell runs: it lists the disks and partitions that the firmware knows.
START_OF_SHELL = "map -r\r\nreset -s\r\n"


def first_missing(tools, files):
    """The first of these tools and files that is not there, or nothing."""
    for tool in tools:
        if not shutil.which(tool):
            return tool
    for file in files:
        if not glob.glob(file):
            return file
    return None


def run_machine(words, typed=b""):
    """What a machine prints until it ends, of itself or after too long, with these bytes typed to it."""
    try:
        ended = subprocess.run(
            words, input=typed, stdout=subprocess.PIPE, stderr=subprocess.STDOUT, check=False,
            timeout=LIMIT_SECONDS,
        )
        printed = ended.stdout
    except subprocess.TimeoutExpired as late:
        printed = late.stdout or b""
    return re.sub(r"\x1b(\[[0-9;=?]*[a-zA-Z]|c)", "", printed.decode(errors="replace").replace("\r", ""))


def disk_words(images, **properties):
    """The words that give a machine these images as virtio disks, each with properties by its number."""
    words = []
    for number, image in enumerate(images):
        own = "".join(f",{name}={value(number)}" for name, value in properties.items())
        words += ["-drive", f"file={image},format=raw,if=none,id=disk{number}"]
        words += ["-device", f"virtio-blk-pci,drive=disk{number}{own}"]
    return words


class Linux:
    """The kernel, started with this option on its command line."""

    def __init__(self, name, gptimg, recipe, option=""):
        self.name = name
        self.gptimg = gptimg
        self.recipe = recipe
        self.option = option
        self.package = ""

    def missing(self):
        """What it needs and is not there, or nothing."""
        return first_missing((QEMU, "busybox", "cpio"), ("/boot/vmlinuz-*",))

    def read_all(self, images, folder):
        """The places that it knows of each image; after the repair, where the option asks for it."""
        programs, scripts = {"gptimg": self.gptimg}, {"repair.sh": self.recipe}
        initrd = guest.make_guest(folder, programs, scripts, COMMANDS_OF_GUEST)
        disks = disk_words(images, serial=str)
        printed = run_machine(guest.words_of_machine(initrd, self.option, disks))
        when = "after" if "repair" in self.option else "before"
        return [
            places_of(re.findall(rf"^saw {when} {number} (\d+) (\d+)$", printed, re.M), True)
            for number in range(len(images))
        ]


class UBoot:
    """The boot loader U-Boot, which reads disks on one kind of bus."""

    def __init__(self, name, bus, start, at_once):
        self.name = name
        self.bus = bus
        self.start = start
        self.at_once = at_once
        self.package = "u-boot-qemu"

    def missing(self):
        """What it needs and is not there, or nothing."""
        return first_missing((QEMU,), (UBOOT,))

    def read_all(self, images, _folder):
        """The places that it lists of each image."""
        places = []
        for first in range(0, len(images), self.at_once):
            places += self.read_some(images[first:first + self.at_once])
        return places

    def read_some(self, images):
        """The places that it lists of so many images as it has at once."""
        if self.bus == "ide":
            disks = [word for image in images for word in ("-drive", f"file={image},format=raw,if=ide")]
        else:
            disks = disk_words(images)
        lists = "".join(f"part list {self.bus} {number:x}\n" for number in range(len(images)))
        # Blanks and line ends come first, as the loader throws away what is typed before it asks. It takes
        # the digits of a number for hexadecimal ones.
        typed = " \n" * 40 + f"{self.start}\n{lists}reset\n"
        words = [
            QEMU, "-machine", "pc,accel=tcg", "-m", "512", "-nographic", "-nodefaults", "-no-reboot",
            "-serial", "stdio", "-bios", UBOOT, *disks,
        ]
        answers = run_machine(words, typed.encode()).split("=> part list ")[1:]
        found = [re.findall(r"^\s+\d+\t0x(\S+)\t0x(\S+)", answer, re.M) for answer in answers]
        return [places_of(pairs, base=16) for pairs in found]


class Edk2:
    """The UEFI firmware EDK2."""

    name = "EDK2"
    package = "ovmf"
    first_slot = 5

    def missing(self):
        """What it needs and is not there, or nothing."""
        return first_missing((QEMU,), (f"{FIRMWARE}/OVMF_CODE.fd", f"{FIRMWARE}/OVMF_VARS.fd"))

    def read_all(self, images, folder):
        """The places that it knows of each image."""
        os.mkdir(f"{folder}/start")
        with open(f"{folder}/start/startup.nsh", "w", encoding="ascii", newline="") as start:
            start.write(START_OF_SHELL)
        shutil.copy(f"{FIRMWARE}/OVMF_VARS.fd", f"{folder}/variables.fd")
        words = [
            QEMU, "-machine", "q35,accel=tcg", "-m", "256", "-nographic", "-nodefaults", "-serial", "stdio",
            "-drive", f"if=pflash,format=raw,readonly=on,file={FIRMWARE}/OVMF_CODE.fd",
            "-drive", f"if=pflash,format=raw,file={folder}/variables.fd", "-net", "none",
            "-drive", f"file=fat:ro:{folder}/start,format=raw,if=none,id=start,readonly=on",
            "-device", "virtio-blk-pci,drive=start,addr=0x4",
            *disk_words(images, addr=lambda number: hex(self.first_slot + number)),
        ]
        return self.places(run_machine(words), len(images))

    def places(self, printed, count):
        """The places that the firmware printed, of each of so many disks."""
        found = [set() for _ in range(count)]
        partition = r"Pci\(0x([0-9A-F]+),0x0\)/HD\(\d+,GPT,[^,]*,0x([0-9A-F]+),0x([0-9A-F]+)\)"
        for slot, first, length in re.findall(partition, printed):
            found[int(slot, 16) - self.first_slot].add((first, length))
        return [places_of(pairs, True, base=16) for pairs in found]


def machines(gptimg, recipe):
    """All of them. The Linux guest has this program as gptimg, and this recipe."""
    return [
        Linux("Linux", gptimg, recipe),
        Linux("Linux, option gpt", gptimg, recipe, "gpt"),
        Linux("Linux after repair.sh", gptimg, recipe, "repair"),
        UBoot("U-Boot, virtio", "virtio", "virtio scan", 12),
        UBoot("U-Boot, IDE", "ide", "ide reset", 4),
        Edk2(),
    ]
