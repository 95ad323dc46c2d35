"""What other programs say of the images that the recipes of docs/GUIDE.md leave.

For each heading the commands that a shell runs in the folder of its examples, with what each has to print. Values
come from the lengths of the images, in sectors of 512 bytes: a partition that takes the rest ends before the last
multiple of 2048 that leaves 33 sectors.
"""

ROWS = "sfdisk -q -l -o Start,End,Type"
TABLE_IS_GOOD = "sgdisk -v {} | grep -c 'No problems found'"
FILE_SYSTEM = "blkid -p -o value -s TYPE -O $(({} * 512)) {}"


def rest_of(mebibytes):
    """The last sector of a partition that takes the rest of an image of this length."""
    return (mebibytes * 2048 - 33) // 2048 * 2048 - 1


LEFT = {
    "A bootable image": [
        (f"{ROWS} disk.img | tail -n 2 | tr -s ' '",
         f" 2048 133119 EFI System\n133120 {rest_of(128)} Linux root (x86-64)\n"),
        (TABLE_IS_GOOD.format("disk.img"), "1\n"),
        (FILE_SYSTEM.format(2048, "disk.img"), "vfat\n"),
        (FILE_SYSTEM.format(133120, "disk.img"), "ext4\n"),
        ("e2fsck -f -n \"disk.img?offset=$((133120 * 512))\" > checked 2>&1; echo $?", "0\n"),
    ],
    "A layout file": [
        ("for n in $(seq 10); do sfdisk -q -l -o Start,End $n.img | tail -n 1 | tr -s ' '; done",
         "".join(f"18432 {rest_of(32 * number)}\n" for number in range(1, 11))),
        ("for n in $(seq 10); do sgdisk -v $n.img; done | grep -c 'No problems found'", "10\n"),
        ("sfdisk -d ab.img | grep -o 'name=.*'", 'name="standby", attrs="GUID:63"\nname="active"\n'),
        (TABLE_IS_GOOD.format("ab.img"), "1\n"),
    ],
    "Resize, rename, retype": [
        ("sfdisk -d disk.img | grep -c start=", "0\n"),
        (f"{ROWS} home.img | tail -n 1 | tr -s ' '", " 2048 34815 Linux filesystem\n"),
        ("debugfs -R 'stats -h' \"home.img?offset=$((2048 * 512))\" 2> /dev/null | "
         "awk '/^Block count:/ { n = $3 } /^Block size:/ { print n * $3 }'", "16777216\n"),
        (TABLE_IS_GOOD.format("home.img"), "1\n"),
    ],
    "Clones": [
        (f"{ROWS} clone.img | tail -n 1 | tr -s ' '", f" 2048 {rest_of(128)} Linux filesystem\n"),
        (TABLE_IS_GOOD.format("clone.img"), "1\n"),
        ("for image in disk.img clone.img; do sfdisk -d $image; done | "
         "grep -o -E '(label-id:|uuid=).{37}' | sort -u | wc -l", "4\n"),
    ],
    "A disk that grew, a disk that shrank": [
        (f"{ROWS} disk.img | tail -n 1 | tr -s ' '", f" 2048 {rest_of(128)} Linux filesystem\n"),
        (TABLE_IS_GOOD.format("disk.img"), "1\n"),
    ],
    "Keep a copy of the table": [
        ("sfdisk -d disk.img | diff - disk.sfdisk", ""),
        (TABLE_IS_GOOD.format("disk.img"), "1\n"),
    ],
    "Damage and repair": [(TABLE_IS_GOOD.format("disk.img"), "1\n")],
    "Sectors of 4096 bytes": [
        ("fdisk -b 4096 -o Start,End -l disk.img | tail -n 1 | tr -s ' '", " 256 12543\n"),
    ],
}
# The program that each of these commands needs first.
TOOLS = ["sfdisk", "sgdisk", "fdisk", "blkid", "debugfs", "e2fsck"]


def missing_in(command, has):
    """The first program that a command names and that is not there, or nothing."""
    words = command.replace('"', " ").split()
    return next((tool for tool in TOOLS if tool in words and not has(tool)), None)
