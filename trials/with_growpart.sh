#!/usr/bin/env bash
# Runs examples/growpart on the mounted root of a Linux guest whose disk was enlarged, and cuts its power in the middle
# of that 8 times: the table is read, and the next start finishes the growth. Some 20 seconds a cut.
#
# usage: trials/with_growpart.sh [PROGRAM [OPTIONS OF trials/growpart_guest.py]]
#
# PROGRAM is ./gptedit at the top of the repository where it is left out. The last line is 'N passed, M failed'. Needs
# python3, qemu-system-x86_64, a kernel in /boot with its modules (Debian's package linux-image-cloud-amd64), a static
# busybox, cpio, e2fsprogs, fdisk, gdisk and util-linux; says so and ends with 0 where one is missing.
set -u
top=$(cd "$(dirname "$0")/.." && pwd) || exit
program=$(realpath "${1:-$top/gptedit}") || exit
PATH=$PATH:/usr/sbin:/sbin

for tool in python3 qemu-system-x86_64 busybox cpio partx resize2fs mkfs.ext4 debugfs e2fsck sfdisk sgdisk; do
    if ! command -v "$tool" > /dev/null; then
        echo "with_growpart.sh: left out, as there is no $tool"
        exit 0
    fi
done
if ! compgen -G "/boot/vmlinuz-*" > /dev/null; then
    echo "with_growpart.sh: left out, as there is no kernel in /boot"
    exit 0
fi
exec python3 -B "$top/trials/growpart_guest.py" --program "$program" "${@:2}"
