"""Tests of the trial of readers: its states, what it takes of an answer, and its table."""

import contextlib
import io
import os
import sys
import unittest

sys.path.insert(1, os.path.join(os.path.dirname(os.path.abspath(__file__)), "..", "tests"))
from harness import table
from harness.states import Image, listing
from harness.tally import Tally
import readers
from readers_machines import Edk2
from readers_programs import places_of, programs
from readers_stops import FIRST, IMAGE_BYTES, NEW, OLD, SECTOR, STOPS, image_left

# What a stop leaves in front of a table that is read: the answers of the programs, as they printed them.
ANSWERS = {
    "gptimg": "sector 512 form primary disk 11 usable 34..2014 entries 128 align 8\n"
              "1 a2a0 2222 2048..10239 0000000000000000 1 2 3..4\n",
    "sgdisk": "Total free space is 122813 sectors (60.0 MiB)\n\n"
              "Number  Start (sector)    End (sector)  Size       Code  Name\n"
              "   1            2048           10239   4.0 MiB     8300  one\n",
    "libfdisk (sfdisk)": '   "firstlba": 34,\n   "partitions": [\n      {\n         "node": "00.img1",\n'
                         '         "start": 2048,\n         "size": 8192,\n         "type": "0FC6"\n',
    "libblkid (partx)": "START   END\n 2048 10239\n",
    "cgpt": "        2048        8192       1  Linux data\n",
    "testdisk": "     Partition\t\t\tStart        End    Size in sectors\n"
                " 1 P Linux filesys. data         2048      10239       8192 [one]\n",
    "parted -s": "BYT;\n/tmp/00.img:131072s:file:512:512:gpt::;\n1:2048s:10239s:8192s::one:;\n",
    "GRUB (grub-fstest)": "Device loop0: No known filesystem detected - Sector size 512B - Total size 64KiB\n"
                          "\tPartition loop0,gpt1: No known filesystem detected - "
                          "Partition start at 1024KiB - Total size 4096KiB\n",
}


GUIDS = [f"{number}0000000-0000-4000-8000-000000000000" for number in (1, 2, 3)]


class Stops(unittest.TestCase):
    """The states, read by the rules of the format."""

    def setUp(self):
        entries = {number: table.Entry(GUIDS[0], GUIDS[number], *place, 0, "data")
                   for number, place in enumerate(NEW, 1)}
        made = table.Table(GUIDS[0], *table.bounds(IMAGE_BYTES), 128, entries)
        self.new = table.image_of(made, IMAGE_BYTES)
        self.old = table.image_of(made._replace(entries={1: entries[1]}), IMAGE_BYTES)

    def test_table_is_that_of_the_format(self):
        for stop in STOPS:
            found = Image(image_left(stop, self.old, self.new)).table()
            places = tuple(sorted(it[:2] for it in listing(found).values()))
            self.assertEqual(places, stop.table(), stop.name)

    def test_primary_copy_is_good_where_it_says(self):
        for stop in STOPS:
            copy = table.copy_at(Image(image_left(stop, self.old, self.new)), SECTOR, 1)
            self.assertEqual(copy is not None, stop.has_good_primary(), stop.name)

    def test_there_are_twelve_and_half_of_them_have_a_broken_primary_copy(self):
        self.assertEqual(len({image_left(stop, self.old, self.new) for stop in STOPS}), 12)
        self.assertEqual(sum(stop.has_good_primary() for stop in STOPS), 6)

    def test_torn_entries_are_a_new_sector_and_a_garbage_one(self):
        stop = next(it for it in STOPS if it.name == "primary entries torn")
        left = image_left(stop, self.old, self.new)
        self.assertEqual(left[:3 * SECTOR], self.new[:3 * SECTOR])
        self.assertNotEqual(left[3 * SECTOR:4 * SECTOR], self.new[3 * SECTOR:4 * SECTOR])
        self.assertEqual(left[4 * SECTOR:], self.new[4 * SECTOR:])


class Answers(unittest.TestCase):
    """What is taken of an answer."""

    def test_each_program(self):
        for program in programs("gptimg"):
            self.assertEqual(program.places(ANSWERS[program.name]), (FIRST,), program.name)
            self.assertEqual(program.places("Error: unrecognised disk label\n"), (), program.name)

    def test_firmware(self):
        printed = ("     BLK1: Alias(s):\n          PciRoot(0x0)/Pci(0x5,0x0)\n     BLK2: Alias(s):\n"
                   "          PciRoot(0x0)/Pci(0x5,0x0)/HD(1,GPT,0101-01,0x800,0x2000)\n"
                   "          PciRoot(0x0)/Pci(0x4,0x0)/HD(1,MBR,0xBE1AFDFA,0x3F,0xFBFC1)\n")
        self.assertEqual(Edk2().places(printed * 2, 2), [(FIRST,), ()])

    def test_places_are_in_order(self):
        self.assertEqual(places_of([("2800", "47ff"), ("800", "27ff")], base=16), NEW)


class Table(unittest.TestCase):
    """The table that is printed, and what is judged."""

    def test_words(self):
        seen = [stop.table() for stop in STOPS[:5]] + [(), (), OLD, NEW, (FIRST, (3, 4)), ()] + [NEW]
        words = readers.Row("gptimg", seen, 3, 2).words()
        seen = ["none", "none", "old ones", "all", "wrong ones", "none"]
        self.assertEqual(words, ["gptimg", "6 of 6", *seen, "2 of 3"])
        self.assertEqual(len(readers.head()), len(words))

    def judged(self, rows):
        """How many images are counted as read right, and how many as read wrong."""
        tally = Tally()
        with contextlib.redirect_stdout(io.StringIO()):
            readers.judge(tally, rows)
        return tally.passed, tally.failed

    def test_judged_are_two(self):
        right = [stop.table() for stop in STOPS]
        rows = [readers.Row(name, right, 0, 0) for name in readers.JUDGED]
        self.assertEqual(self.judged(rows + [readers.Row("parted -s", [()] * 12, 0, 0)]), (24, 0))
        self.assertEqual(self.judged([readers.Row("gptimg", [()] + right[1:], 0, 0)]), (11, 1))

    def test_recipe_is_in_the_guide(self):
        self.assertIn("gptimg", readers.file_of_guide("repair.sh"))


if __name__ == "__main__":
    unittest.main()
