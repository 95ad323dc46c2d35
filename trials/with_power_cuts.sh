#!/usr/bin/env bash
# Cuts the power of a Linux kernel in the middle of commands of gptimg, 20 times, and reads what is left:
# the table after the last command that was done, or the one after the next. Some 7 seconds a cut.
#
# usage: trials/with_power_cuts.sh [PROGRAM [OPTIONS OF trials/power_cuts.py]]
#
# PROGRAM is ./gptimg at the top of the repository where it is left out. The last line is 'N passed, M
# failed'. Needs python3, qemu-system-x86_64, a kernel in /boot with its modules (Debian's package
# linux-image-cloud-amd64), a static busybox and cpio; says so and ends with 0 where one is missing.
set -u
top=$(cd "$(dirname "$0")/.." && pwd) || exit
program=$(realpath "${1:-$top/gptimg}") || exit

for tool in python3 qemu-system-x86_64 busybox cpio; do
    if ! command -v "$tool" > /dev/null; then
        echo "with_power_cuts.sh: left out, as there is no $tool"
        exit 0
    fi
done
if ! compgen -G "/boot/vmlinuz-*" > /dev/null; then
    echo "with_power_cuts.sh: left out, as there is no kernel in /boot"
    exit 0
fi
exec python3 -B "$top/trials/power_cuts.py" --program "$program" "${@:2}"
