"""Scripts that packages of Debian give to sfdisk: the rows of real_scripts.py.

The packages are systemd 252.39-1~deb12u2 and 257.13-1~deb13u1, cryptsetup 2:2.6.1-4~deb12u2, dracut 059-4 and 106-6
(its orig.tar.gz), snapd 2.57.6-1+deb12u1, kpmcore 22.12.3-1, mmdebstrap 1.5.7-1+deb13u1, libguestfs 1:1.48.6-2, lvm2
2.03.16-2, u-boot 2023.01+dfsg-2+deb12u3, cloud-init 22.4.2-1+deb12u4 and cloud-initramfs-tools 0.18.debian13+deb12u1.
The mirror no longer has the sources of mkosi 14-2, nbdkit 1.32.5-1, live-build 1:20230502, grml-debootstrap 0.103 and
ganeti-instance-debootstrap 0.16-8. udisks2 2.9.4-4+deb12u2 and fai 6.0.3+deb12u1 have no scripts. Those of util-linux
and cloud-utils are in peer_rows. Other packages were not looked into.

Variables of a shell have the values of x86-64, and others that a comment above the row says.
"""
from typing import NamedTuple

from commands import MIB

GIB = 1 << 30
ROOT, VERITY = "4f68bce3-e8cd-4db1-96e7-fbcaf984b709", "2c7357ed-ebd2-46d9-aec1-23d437ec2bf5"
LUKS, PLAIN = "ca7d7ccb-63ed-4c53-861c-1742536059cc", "7ffec5c9-2d00-49b7-8941-3ea10a5586b7"
SYSTEMD, NEWER = "systemd 252, test", "systemd 257, test/units"
CRYPTSETUP, SNAPD, KPMCORE = "cryptsetup, debian/tests", "snapd", "kpmcore, src/plugins/sfdisk"
MARKED = "both may: gptedit has the attribute legacy-boot for `bootable`, and sfdisk ignores it"
ROUNDED = "ours right: sfdisk makes it 3 MiB, too short for the 3328 KiB that are written there"
MBR_TYPE = "type of the partition: it is a type of MBR partition tables, and the script is for a GPT; use for example" \
           " linux, swap or uefi"
OUTSIDE = "partition 1 does not fit into a free range at this alignment"


class Script(NamedTuple):
    """A script: its file, the size of the image, the partitions that gptedit makes, those of sfdisk where they differ,
    and why."""

    where: str
    size: int
    text: str
    wants: tuple = ()
    theirs: tuple = None
    why: str = ""
    count: int = 128
    sector: int = 512


SCRIPTS = []


def real(where, size, text, *wants, **more):
    """Adds a script, and the lines of its partitions as peer_reader.py has them."""
    SCRIPTS.append(Script(where, size, text, wants, **more))


# root_size=1000, data_size=50
real(f"{SYSTEMD}/test-functions", 1000 * MIB, """label: gpt
type=0FC63DAF-8483-4772-8E79-3D69D8477DE4 name=root size=950M bootable
type=0FC63DAF-8483-4772-8E79-3D69D8477DE4 name=data
""", '1 2048..1947647 linux "root" attributes 4', '2 1947648..2045951 linux "data"',
     theirs=('1 2048..1947647 linux "root"', '2 1947648..2045951 linux "data"'), why=MARKED)
real(f"{SYSTEMD}/units/testsuite-24.sh", 64 * MIB, """label: gpt
type=0FC63DAF-8483-4772-8E79-3D69D8477DE4 name=header_store size=32M
type=0FC63DAF-8483-4772-8E79-3D69D8477DE4 name=keyfile_store
""", '1 2048..67583 linux "header_store"', '2 67584..129023 linux "keyfile_store"')
# For an image of 1580 KiB with 16 KiB of hashes. The GUIDs stand for the halves of its root hash.
real(f"{SYSTEMD}/units/testsuite-50.sh, root", 11392 * 512,
     f"label: gpt\nsize=2MiB, type={ROOT}, uuid=11111111-2222-3333-4444-555566667777\n",
     f"1 2048..6143 {ROOT} guid 11111111-2222-3333-4444-555566667777")
real(f"{SYSTEMD}/units/testsuite-50.sh, verity", 11392 * 512,
     f"size=32KiB, type={VERITY}, uuid=88889999-aaaa-bbbb-cccc-ddddeeeeffff\n",
     f"1 2048..2111 {VERITY} guid 88889999-aaaa-bbbb-cccc-ddddeeeeffff")
real(f"{SYSTEMD}/units/testsuite-50.sh, signature", 11392 * 512,
     "size=8KiB, type=41092b05-9fc8-4523-994f-2def0408b176\n", "1 2048..2063 41092b05-9fc8-4523-994f-2def0408b176")
# For an image of 205 MiB with 1664 KiB of hashes.
real(f"{NEWER}/TEST-50-DISSECT.sh, verity", 512 * MIB,
     f"size=3328KiB, type={VERITY}, uuid=88889999-aaaa-bbbb-cccc-ddddeeeeffff\n",
     f"1 2048..8703 {VERITY} guid 88889999-aaaa-bbbb-cccc-ddddeeeeffff",
     theirs=(f"1 2048..8191 {VERITY} guid 88889999-aaaa-bbbb-cccc-ddddeeeeffff",), why=ROUNDED)
real(f"{SYSTEMD}/units/testsuite-58.sh, unaligned", 10 * GIB,
     "label: gpt\n\nstart=2048, size=69044\nstart=71092, size=3591848\n", "1 2048..71091 linux",
     "2 71092..3662939 linux")
real(f"{SYSTEMD}/units/testsuite-58.sh, a root and the rest", 100 * MIB,
     "label: gpt\n\nsize=50M, type=4F68BCE3-E8CD-4DB1-96E7-FBCAF984B709\n,\n", f"1 2048..104447 {ROOT}",
     "2 104448..202751 linux")
for _size in 8, 12:
    real(f"{SYSTEMD}/units/testsuite-58.sh, partscript on {_size} GiB", _size * GIB, """label: gpt
label-id: C9FFE979-A415-C449-B729-78C7AA664B10
unit: sectors
first-lba: 40

start=40, size=524288, type=C12A7328-F81F-11D2-BA4B-00A0C93EC93B, uuid=F2E89C8A-DC5D-4C4C-A29C-6CFB643B74FD, name="ESP \
System Partition"
start=524328, size=14848000, type=4F68BCE3-E8CD-4DB1-96E7-FBCAF984B709, uuid=60F33797-1D71-4DCB-AA6F-20564F036CD0, \
name="root-x86-64"
""", '1 40..524327 efi "ESP System Partition" guid f2e89c8a-dc5d-4c4c-a29c-6cfb643b74fd',
         f'2 524328..15372327 {ROOT} "root-x86-64" guid 60f33797-1d71-4dcb-aa6f-20564f036cd0')
real(f"{SYSTEMD}/units/testsuite-60.sh", 30 * MIB, 'label:gpt\n\nname="loop0-part1"\n',
     '1 2048..59391 linux "loop0-part1"')
real(f"{SYSTEMD}/units/testsuite-64.sh, btrfs", 350 * MIB,
     "label: gpt\n\n" + "".join(f'name="diskpart{n}", size=85M\n' for n in range(1, 5)),
     '1..4 2048 x174080 linux "diskpart#"')
# An array of four disks of 64 MiB.
real(f"{SYSTEMD}/units/testsuite-64.sh, md", 126 * MIB, """label: gpt

uuid="deadbeef-dead-dead-beef-111111111111", name="mdpart1", size=8M
uuid="deadbeef-dead-dead-beef-222222222222", name="mdpart2", size=32M
uuid="deadbeef-dead-dead-beef-333333333333", name="mdpart3", size=16M
""", '1 2048..18431 linux "mdpart1" guid deadbeef-dead-dead-beef-111111111111',
     '2 18432..83967 linux "mdpart2" guid deadbeef-dead-dead-beef-222222222222',
     '3 83968..116735 linux "mdpart3" guid deadbeef-dead-dead-beef-333333333333')
# num_part=8
real(f"{SYSTEMD}/TEST-64-UDEV-STORAGE/test.sh, names", 18 * MIB,
     "label: gpt\n\n" + 'name="Hello world", size=2M\n' * 8, '1..8 2048 x4096 linux "Hello world"')
real(f"{SYSTEMD}/TEST-64-UDEV-STORAGE/test.sh, multipath", 16 * MIB, """label: gpt

name="first_partition", size=5M
uuid="deadbeef-dead-dead-beef-000000000000", name="failover_part", size=5M
""", '1 2048..12287 linux "first_partition"',
     '2 12288..22527 linux "failover_part" guid deadbeef-dead-dead-beef-000000000000')
real(f"{SYSTEMD}/TEST-64-UDEV-STORAGE/test.sh, swap", 64 * MIB, """label: gpt

name="test_swap", size=32M
uuid="deadbeef-dead-dead-beef-000000000000", name="test_part", size=5M
""", '1 2048..67583 linux "test_swap"',
     '2 67584..77823 linux "test_part" guid deadbeef-dead-dead-beef-000000000000')
for _where, _sector, _size in ((f"{SYSTEMD}/units/testsuite-72.sh", 512, 10), (f"{NEWER}/TEST-72-SYSUPDATE.sh", 512, 6),
                               (f"{NEWER}/TEST-72-SYSUPDATE.sh", 4096, 34)):
    _first = MIB // _sector
    real(f"{_where}, sectors of {_sector}", _size * MIB, f"""label: gpt
unit: sectors
sector-size: {_sector}

size=2048, type={ROOT}, name=_empty
size=2048, type={ROOT}, name=_empty
size=2048, type={VERITY}, name=_empty
size=2048, type={VERITY}, name=_empty
""", f'1..2 {_first} x2048 {ROOT} "_empty"', f'3..4 {_first + 4096} x2048 {VERITY} "_empty"', sector=_sector)
real("systemd 252, src/test/test-loop-block.c", 256 * MIB, f"""label: gpt
size=32M, type=C12A7328-F81F-11D2-BA4B-00A0C93EC93B
size=32M, type=BC13C2FF-59E6-4262-A352-B275FD6F7172
size=32M, type=0657FD6D-A4AB-43C4-84E5-0933C84B4F4F
size=32M, type={ROOT}
size=32M, type=933AC7E1-2EB4-4F13-B844-0E14E2AEF915
""", "1 2048..67583 efi", "2 67584..133119 linux-boot", "3 133120..198655 linux-swap", f"4 198656..264191 {ROOT}",
     "5 264192..329727 linux-home")
real(f"{NEWER}/TEST-58-REPART.sh, a small ESP", 102 * MIB,
     "label: gpt\nsize=10M, type=C12A7328-F81F-11D2-BA4B-00A0C93EC93B\n", "1 2048..22527 efi")
real(f"{NEWER}/TEST-58-REPART.sh, an ESP that is shut in", 150 * MIB, """label: gpt
size=10M, type=C12A7328-F81F-11D2-BA4B-00A0C93EC93B,
size=10M, type=4F68BCE3-E8CD-4DB1-96E7-FBCAF984B709,
""", "1 2048..22527 efi", f"2 22528..43007 {ROOT}")
real(f"{NEWER}/TEST-58-REPART.sh, XBOOTLDR", 150 * MIB,
     "label: gpt\nsize=10M, type=BC13C2FF-59E6-4262-A352-B275FD6F7172,\n", "1 2048..22527 linux-boot")
# num_part=10, and num_part=40 with i=1
real(f"{NEWER}/TEST-64-UDEV-STORAGE.sh, ten", 128 * MIB,
     "".join(f'name="test{n}", size=2M\n' for n in range(1, 11)), '1..10 2048 x4096 linux "test#"')
real(f"{NEWER}/TEST-64-UDEV-STORAGE.sh, forty", 128 * MIB, 'name="testlabel-1", size=1M\n' * 40,
     '1..40 2048 x2048 linux "testlabel-1"')
real(f"{NEWER}/TEST-64-UDEV-STORAGE.sh, a label", 128 * MIB, "label: gpt\n")
real(f"{NEWER}/TEST-87-AUX-UTILS-VM.bootctl.sh", 256 * MIB, """label: gpt
type=C12A7328-F81F-11D2-BA4B-00A0C93EC93B name=esp  size=64M
type=0FC63DAF-8483-4772-8E79-3D69D8477DE4 name=root size=64M bootable
type=BC13C2FF-59E6-4262-A352-B275FD6F7172 name=boot
""", '1 2048..133119 efi "esp"', '2 133120..264191 linux "root" attributes 4', '3 264192..522239 linux-boot "boot"',
     theirs=('1 2048..133119 efi "esp"', '2 133120..264191 linux "root"', '3 264192..522239 linux-boot "boot"'),
     why=MARKED)
# BOOT=bios and BOOT=efi
real(f"{CRYPTSETUP}/utils/init, BIOS", 2 * GIB,
     "label: gpt\nunit: sectors\n\nstart=2048, size=4096, type=21686148-6449-6E6F-744E-656564454649\n",
     "1 2048..6143 bios-boot")
real(f"{CRYPTSETUP}/utils/init, UEFI", 2 * GIB,
     "label: gpt\nunit: sectors\n\nstart=2048, size=129024, type=C12A7328-F81F-11D2-BA4B-00A0C93EC93B\n",
     "1 2048..131071 efi")
real(f"{CRYPTSETUP}/cryptroot-sysvinit.d/setup", 2 * GIB, """unit: sectors

start=131072, size=262144, type=0FC63DAF-8483-4772-8E79-3D69D8477DE4
start=393216, size=131072, type=CA7D7CCB-63ED-4C53-861C-1742536059CC
start=524288, size=131072, type=7FFEC5C9-2D00-49B7-8941-3EA10A5586B7
start=655360, type=CA7D7CCB-63ED-4C53-861C-1742536059CC
""", "1 131072..393215 linux", f"2 393216..524287 {LUKS}", f"3 524288..655359 {PLAIN}", f"4 655360..4192255 {LUKS}")
for _where, _size, _last in (("lvm", 3 * GIB, 6289407), ("legacy", 2 * GIB, 4192255), ("nested", GIB, 2095103)):
    real(f"{CRYPTSETUP}/cryptroot-{_where}.d/setup", _size, """unit: sectors

start=131072, size=262144, type=0FC63DAF-8483-4772-8E79-3D69D8477DE4
start=393216, type=CA7D7CCB-63ED-4C53-861C-1742536059CC
""", "1 131072..393215 linux", f"2 393216..{_last} {LUKS}")
real(f"{CRYPTSETUP}/cryptroot-md.d/setup", 1536 * MIB, """unit: sectors

start=131072, size=262144, type=0FC63DAF-8483-4772-8E79-3D69D8477DE4
start=393216, size=131072, type=CA7D7CCB-63ED-4C53-861C-1742536059CC
start=524288, type=CA7D7CCB-63ED-4C53-861C-1742536059CC
""", "1 131072..393215 linux", f"2 393216..524287 {LUKS}", f"3 524288..3143679 {LUKS}")
real("dracut 059, test/TEST-60-BONDBRIDGEVLANIFCFG/create-root.sh", 120 * MIB, ",1M\n,\n", "1 2048..4095 linux",
     "2 4096..243711 linux")
# Arrays of disks of 100 and of 512 MiB, less their metadata.
real("dracut 059, test/TEST-14-IMSM/create-root.sh", 95 * MIB, ",4M\n,28M\n,28M\n,28M\n", "1 2048..10239 linux",
     "2..4 10240 x57344 linux")
real("dracut 106, test/TEST-23-IMSM/create-root.sh", 486 * MIB, ",4M\n,112M\n,112M\n,112M\n", "1 2048..10239 linux",
     "2..4 10240 x229376 linux")
real("dracut 059, test/TEST-16-DMSQUASH/create-root.sh", 160 * MIB, "2048,161792\n", "1 2048..163839 linux")
real("dracut 106, test/TEST-30-DMSQUASH/test.sh", 512 * MIB, "2048,652688\n", "1 2048..654735 linux")
real(f"{SNAPD}, tests/main/uc20-create-partitions/task.yaml", 5 * 10 ** 9, """label: gpt

start=2048, size=2048, type=21686148-6449-6E6F-744E-656564454649, name="BIOS Boot"
start=4096, size=2457600, type=C12A7328-F81F-11D2-BA4B-00A0C93EC93B, name="ubuntu-seed"
""", '1 2048..4095 bios-boot "BIOS Boot"', '2 4096..2461695 efi "ubuntu-seed"')
for _count in 32, 128, 256:
    real(f"{SNAPD}, osutil/disks/testdata/generate.sh, {_count} entries", 128 * MIB,
         f"label: gpt\ntable-length: {_count}\n", count=_count)
real(f"{SNAPD}, gadget/install/partition_test.go", 8388609 * 512, """\
/dev/node3 : start=     2461696, size=      262144, type=0FC63DAF-8483-4772-8E79-3D69D8477DE4, name="Save"
/dev/node4 : start=     2723840, size=     5664735, type=0FC63DAF-8483-4772-8E79-3D69D8477DE4, name="Writable"
""", '3 2461696..2723839 linux "Save"', '4 2723840..8388574 linux "Writable"')
real(f"{KPMCORE}/sfdiskdevice.cpp, a table", 128 * MIB, "label: gpt\nwrite\n")
# A partition of 100 MiB at 1 MiB.
real(f"{KPMCORE}/sfdiskpartitiontable.cpp, a partition", 128 * MIB, "start=2048 size=204800\nwrite\n",
     "1 2048..206847 linux")
# SIZE=25G
real("mmdebstrap 1.5.7, mmdebstrap-autopkgtest-build-qemu", 25 * GIB + (262144 + 34) * 512, """label: gpt
unit: sectors

start=2048, size=260096, type=C12A7328-F81F-11D2-BA4B-00A0C93EC93B
start=262144, type=0FC63DAF-8483-4772-8E79-3D69D8477DE4
""", "1 2048..262143 efi", "2 262144..52690943 linux")
real("libguestfs, generator/actions_core_deprecated.ml", 128 * MIB, ",\n", "1 2048..260095 linux")

# Scripts for MBR partition tables, and others that are refused: what is said of them, and what sfdisk does with them
# if it is not told that the label is gpt. u-boot's README has -uM, which sfdisk no longer knows. cloud-init's disk has
# 262144 sectors.
REFUSED = [
    (f"{KPMCORE}/sfdiskdevice.cpp, an MBR", 128 * MIB, "label: dos\nwrite\n",
     ["line 1: label of the headers: it must be gpt; other partition tables are not supported"], "an MBR"),
    (f"{KPMCORE}/sfdiskpartitiontable.cpp, extended", 128 * MIB, "start=2048 type=5 size=204800\nwrite\n",
     ["line 1: " + MBR_TYPE], "an MBR"),
    (f"{KPMCORE}/sfdiskpartitiontable.cpp, an answer for -N", 128 * MIB, "start=2048 size=204800\nY\n",
     ["line 2: start of the partition: it must be a number of sectors, "], "an error"),
    ("lvm2, test/shell/losetup-partscan.sh", 1000 * MIB, "1 2\n",
     ["partitions would overlap, or lie outside the usable sectors, 34..2047966\n"], "an MBR"),
    ("lvm2, test/shell/pvcreate-operation-md.sh", 60 * MIB, ",,83\n", ["line 1: " + MBR_TYPE], "an MBR"),
    ("u-boot, test/py/tests/test_ut.py, mmc1.img", 20 * MIB, "type=c", ["line 1: " + MBR_TYPE], "an MBR"),
    ("u-boot, test/py/tests/test_ut.py, scsi.img", 2 * MIB, "type=83", ["line 1: " + MBR_TYPE], "an MBR"),
    ("u-boot, board/gateworks/gw_ventana/README", 128 * MIB, "10,,L\n", [OUTSIDE], "an MBR"),
    ("cloud-init, cc_disk_setup.py, one", 128 * MIB, "0,\n", [OUTSIDE], "an error"),
    ("cloud-init, cc_disk_setup.py, [100]", 128 * MIB, ",,83\n", ["line 1: " + MBR_TYPE], "an MBR"),
    ("cloud-init, cc_disk_setup.py, [50, 50]", 128 * MIB, ",131072,83\n,,83\n",
     ["line 1: " + MBR_TYPE, "line 2: " + MBR_TYPE], "an MBR"),
    ("cloud-init, cc_disk_setup.py, [33, [66, 82]]", 128 * MIB, ",86507,83\n,,82\n",
     ["line 1: " + MBR_TYPE, "line 2: " + MBR_TYPE], "an MBR"),
    ("cloud-initramfs-tools, growroot/doc/example.txt", 21028864 * 512, """# partition table of /dev/sda
unit: sectors

/dev/sda1 : start=       63, size=  2883585, Id=83
/dev/sda2 : start= 10000000, size=  9441649, Id=83
/dev/sda3 : start= 19441649, size=  1587215, Id=82
/dev/sda4 : start=        0, size=        0, Id= 0
""", [f"line {n}: " + MBR_TYPE for n in range(4, 8)], "an MBR"),
]

# Scripts that the packages give to `sfdisk --append`: the script before, why gptedit refuses this one by itself (None:
# it does not), and the partitions that it adds.
KEPT = "is not in the layout\nadd it there to keep it"
APPENDED = [
    (f"{SYSTEMD}/units/testsuite-50.sh, root", f"{SYSTEMD}/units/testsuite-50.sh, verity", KEPT,
     [f"2 6144..6207 {VERITY} guid 88889999-aaaa-bbbb-cccc-ddddeeeeffff"]),
    (f"{CRYPTSETUP}/utils/init, BIOS", f"{CRYPTSETUP}/cryptroot-sysvinit.d/setup", KEPT,
     ["2 131072..393215 linux", f"3 393216..524287 {LUKS}", f"4 524288..655359 {PLAIN}", f"5 655360..4192255 {LUKS}"]),
    (f"{CRYPTSETUP}/utils/init, UEFI", f"{CRYPTSETUP}/cryptroot-legacy.d/setup", KEPT,
     ["2 131072..393215 linux", f"3 393216..4192255 {LUKS}"]),
    (f"{SNAPD}, tests/main/uc20-create-partitions/task.yaml", f"{SNAPD}, gadget/install/partition_test.go", KEPT,
     ['3 2461696..2723839 linux "Save"', '4 2723840..8388574 linux "Writable"']),
    (f"{KPMCORE}/sfdiskdevice.cpp, a table", f"{KPMCORE}/sfdiskpartitiontable.cpp, a partition", None,
     ["1 2048..206847 linux"]),
]
