#!/usr/bin/env bash
# Has a UEFI firmware (EDK2 under qemu) boot an image that gptimg made, and that image as a stop in the
# middle of an `add` may leave it. Each has to boot, to show the partitions of the old table or of the
# new one, and to be read by gptimg. Some 15 seconds for each of the eight.
#
# usage: trials/with_firmware.sh [PROGRAM]
#
# PROGRAM is ./gptimg at the top of the repository where it is left out. The last line is 'N passed, M
# failed'. Needs qemu-system-x86_64, the firmware of Debian's package ovmf, mkfs.fat and mtools; says so
# and ends with 0 where one is missing.
set -u
top=$(cd "$(dirname "$0")/.." && pwd) || exit
program=$(realpath "${1:-$top/gptimg}") || exit
firmware=/usr/share/OVMF

esp_type=28732ac11ff8d211ba4b00a0c93ec93b
linux_type=af3dc60f838472478e793d69d8477de4

# Where the ESP begins and how many sectors it has, of 512 bytes.
esp_start=2048
esp_size=98304

image_size=$((64 * 1024 * 1024))

passed=0
failed=0

skip_without() {
    local tool
    for tool in qemu-system-x86_64 mkfs.fat mcopy; do
        if ! command -v "$tool" > /dev/null; then
            echo "with_firmware.sh: left out, as there is no $tool"
            exit 0
        fi
    done
    if [ ! -e "$firmware/OVMF_CODE.fd" ]; then
        echo "with_firmware.sh: left out, as there is no $firmware/OVMF_CODE.fd"
        exit 0
    fi
}

# Runs the program on an image, which has to be done.
gpt() {
    "$program" "$1" 512 "${@:2}" > said || { cat said >&2; exit 1; }
}

# The image before the `add`, with an ESP whose start-up script prints a line, and the one after it.
make_images() {
    truncate -s "$image_size" before.img
    gpt before.img new 11111111111111111111111111111111
    gpt before.img mbr plain
    gpt before.img add 1 "$esp_type" 22222222222222222222222222222222 "$esp_size" first 2048 ESP
    gpt before.img add 2 "$linux_type" 44444444444444444444444444444444 20480 first 2048 root
    truncate -s $((esp_size * 512)) esp.fat
    mkfs.fat -F 32 -s 1 esp.fat > said
    printf 'echo IMAGE-BOOTED\r\nmap -r\r\nreset -s\r\n' > startup.nsh
    mcopy -i esp.fat startup.nsh ::/startup.nsh
    dd if=esp.fat of=before.img bs=512 seek="$esp_start" conv=notrunc status=none
    cp before.img after.img
    gpt after.img add 3 "$linux_type" 33333333333333333333333333333333 2048 first 2048 data
}

# The first byte and the length of a range of the table, which has 128 entries.
range_of() {
    case $1 in
        primary_header) echo 512 92 ;;
        primary_entries) echo 1024 16384 ;;
        backup_entries) echo $((image_size - 512 * 33)) 16384 ;;
        backup_header) echo $((image_size - 512)) 92 ;;
    esac
}

# Fills a range of the image with bytes 7.
tear() {
    head -c "$2" /dev/zero | tr '\0' '\7' |
        dd of=stopped.img bs=4096 oflag=seek_bytes seek="$1" conv=notrunc status=none
}

# Lays a range of the new image over the image.
renew() {
    dd if=after.img of=stopped.img bs=4096 iflag=skip_bytes,count_bytes skip="$1" count="$2" \
        oflag=seek_bytes seek="$1" conv=notrunc status=none
}

# Makes the image of a stop: the words name for each range whether it is new or torn, in the order in
# which an `add` writes them.
make_stopped() {
    cp before.img stopped.img
    local word first length
    for word in "$@"; do
        read -r first length < <(range_of "${word#*:}")
        "${word%%:*}" "$first" "$length"
    done
}

# What the firmware prints when it starts from the image.
start_firmware() {
    cp "$firmware/OVMF_VARS.fd" variables.fd
    timeout 150 qemu-system-x86_64 -machine q35,accel=tcg -m 256 -nographic -nodefaults -serial stdio \
        -drive "if=pflash,format=raw,readonly=on,file=$firmware/OVMF_CODE.fd" \
        -drive if=pflash,format=raw,file=variables.fd \
        -drive file=stopped.img,format=raw,if=virtio -net none 2>&1 |
        tr -d '\r' | sed 's/\x1b\[[0-9;=]*[a-zA-Z]//g'
}

# A stop that left this boots, the firmware sees so many partitions, and gptimg reads as many.
try_stop() {
    local name=$1 wanted=$2 booted seen read
    shift 2
    make_stopped "$@"
    start_firmware > log
    booted=$(grep -c '^IMAGE-BOOTED' log)
    seen=$(grep -aoE 'HD\([0-9]+,GPT' log | sort -u | wc -l)
    read=$("$program" stopped.img 512 show | tail -n +2 | wc -l)
    if [ "$booted $seen $read" = "1 $wanted $wanted" ]; then
        passed=$((passed + 1))
        echo "ok      $name: booted, $seen partitions"
    else
        failed=$((failed + 1))
        echo "FAILED  $name: booted $booted times, the firmware saw $seen partitions, gptimg $read, of $wanted"
    fi
}

skip_without
folder=$(mktemp -d) || exit
trap 'rm -rf "$folder"' EXIT
cd "$folder" || exit
make_images
both_new=(renew:backup_header renew:backup_entries)
try_stop "before the add" 2
try_stop "the backup header torn" 2 tear:backup_header
try_stop "the backup entries torn" 2 renew:backup_header tear:backup_entries
try_stop "the primary header torn" 3 "${both_new[@]}" tear:primary_header
try_stop "the primary entries torn" 3 "${both_new[@]}" tear:primary_entries
try_stop "the primary header new, its entries torn" 3 "${both_new[@]}" renew:primary_header tear:primary_entries
try_stop "the primary copy torn" 3 "${both_new[@]}" tear:primary_header tear:primary_entries
try_stop "after the add" 3 "${both_new[@]}" renew:primary_header renew:primary_entries
echo "$passed passed, $failed failed"
[ "$failed" -eq 0 ]
