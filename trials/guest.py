"""A Linux guest of qemu: its first file system, and the words that start it.

Needs qemu-system-x86_64, a kernel in /boot with its modules (Debian's linux-image-cloud-amd64), a static
busybox and cpio.
"""

import glob
import os
import re
import shutil
import subprocess

# How each guest begins: what the kernel shows of itself, the disks, and busybox's commands in /bin.
START = """#!/bin/busybox sh
/bin/busybox mount -t proc proc /proc
/bin/busybox mount -t sysfs sys /sys
/bin/busybox mount -t devtmpfs dev /dev
for module in {modules}; do /bin/busybox insmod /$module; done
/bin/busybox --install -s /bin
"""


def newest_kernel():
    """The kernel with the last name of those in /boot."""
    return sorted(glob.glob("/boot/vmlinuz-*"))[-1]


def version_of(kernel):
    """The version that the name of a kernel has, as uname -r tells it."""
    return kernel.split("vmlinuz-")[1]


def modules_for(version, names):
    """The files of these modules and of those that they need, each behind what it needs."""
    needs = {}
    with open(f"/lib/modules/{version}/modules.dep", encoding="utf-8") as lines:
        for line in lines:
            file, _, rest = line.rstrip("\n").partition(":")
            needs[file] = rest.split()
    found = []

    def take(file):
        for other in reversed(needs[file]):
            take(other)
        if file not in found:
            found.append(file)

    for name in names:
        take(next(it for it in needs if os.path.basename(it).split(".")[0] == name))
    return found


def copy_with_libraries(program, root, name):
    """Copies the program to bin under root, by this name, and the libraries that it is linked to."""
    shutil.copy(program, f"{root}/bin/{name}")
    linked = subprocess.run(["ldd", program], capture_output=True, text=True, check=False).stdout
    for file in re.findall(r"(/\S+)", linked):
        if os.path.exists(file):
            os.makedirs(root + os.path.dirname(file), exist_ok=True)
            shutil.copy(file, root + file)


def write_script(path, text):
    """Writes a file that can be run."""
    with open(path, "w", encoding="utf-8") as script:
        script.write(text)
    os.chmod(path, 0o755)


def copy_modules(version, root):
    """Copies the modules for disks of qemu to the top of root, and gives their names in order."""
    files = modules_for(version, ("virtio_pci", "virtio_blk"))
    for file in files:
        shutil.copy(f"/lib/modules/{version}/{file}", root)
    return [os.path.basename(file) for file in files]


def make_guest(folder, programs, scripts, commands):
    """Makes the first file system of a guest, and gives its path.

    `programs` and `scripts` have what stands in /bin by its name there: the path of a program, the text of
    a script. `commands` is what the guest runs once its disks are there.
    """
    root = f"{folder}/root"
    for name in ("bin", "proc", "sys", "dev"):
        os.makedirs(f"{root}/{name}")
    shutil.copy(shutil.which("busybox"), f"{root}/bin/busybox")
    for name, program in programs.items():
        copy_with_libraries(program, root, name)
    for name, text in scripts.items():
        write_script(f"{root}/bin/{name}", text)
    modules = copy_modules(version_of(newest_kernel()), root)
    write_script(f"{root}/init", START.replace("{modules}", " ".join(modules)) + commands)
    return pack(root, f"{folder}/initrd")


def pack(root, path):
    """Packs all files under root into an archive that a kernel unpacks, and gives its path."""
    files = subprocess.run(["find", "."], cwd=root, capture_output=True, check=True).stdout
    with open(path, "wb") as archive:
        subprocess.run(
            ["cpio", "--quiet", "-o", "-H", "newc"], cwd=root, input=files, stdout=archive, check=True
        )
    return path


def words_of_machine(initrd, options, disks):
    """The command line of a machine with these options for its kernel and these words for its disks."""
    return [
        "qemu-system-x86_64", "-machine", "q35,accel=tcg", "-cpu", "max", "-m", "256", "-nographic",
        "-nodefaults", "-no-reboot", "-serial", "stdio", "-kernel", newest_kernel(), "-initrd", initrd,
        "-append", f"console=ttyS0 quiet loglevel=0 {options}", *disks,
    ]
