#!/usr/bin/env bash
# Tells which programs, kernels and boot loaders read the table of a disk after a stop in the middle of an
# `add`, and has a Linux guest repair such disks with repair.sh of docs/GUIDE.md. A minute in all.
#
# usage: trials/with_readers.sh [PROGRAM]
#
# PROGRAM is ./gptimg at the top of the repository where it is left out. The last line is 'N passed, M
# failed'. Needs python3, says so and ends with 0 where it is missing, and leaves out each reader that is
# not installed, with a line. All of them: Debian's gdisk, fdisk, util-linux, cgpt, testdisk, parted,
# grub-common, qemu-system-x86, linux-image-cloud-amd64, busybox-static, cpio, u-boot-qemu and ovmf.
set -u
top=$(cd "$(dirname "$0")/.." && pwd) || exit
program=$(realpath "${1:-$top/gptimg}") || exit
PATH=$PATH:/usr/sbin:/sbin

if ! command -v python3 > /dev/null; then
    echo "with_readers.sh: left out, as there is no python3"
    exit 0
fi
python3 -B -m unittest discover -q "$top/trials" || exit
exec python3 -B "$top/trials/readers.py" --program "$program"
