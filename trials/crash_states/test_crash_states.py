"""What is known of the tool beforehand: python3 -m unittest discover trials/crash_states"""
import os
import sys
import unittest

sys.path.insert(1, os.path.join(os.path.dirname(os.path.abspath(__file__)), "..", "..", "tests"))
from harness import recording  # noqa: E402
from harness.states import SECTOR, Enumeration, Image, Write, listing  # noqa: E402
import judging  # noqa: E402

OLD = judging.PARTITIONS
NEW = OLD + [(26624, 28671, "foo")]
END = judging.SIZE - SECTOR


def copies(image):
    """The writes of the primary copy and of the backup copy of an image."""
    array = 128 * 128
    return [[Write(at, image[at:at + size]) for at, size in places] for places in (
        [(512, 512), (1024, array)], [(END, 512), (END - array, array)])]


class Order(unittest.TestCase):
    """Writes in an order of which it is known whether a stop can lose the table."""

    def lost(self, start, events, garbage=True):
        """How many states lose the table."""
        base = judging.starts()[start]
        tables = [Image(image).table() for image in (base, judging.image_of(NEW))]
        states = Enumeration(base, events, garbage=garbage).states()
        return sum(image.table() not in tables for _, _, image in states)

    def setUp(self):
        self.primary, self.backup = copies(judging.image_of(NEW))

    def test_one_copy_and_then_the_other(self):
        """Nothing is lost from two good copies, whichever is written first."""
        for first, second in (self.primary, self.backup), (self.backup, self.primary):
            self.assertEqual(self.lost("both good", first + ["fsync"] + second + ["fsync"]), 0)

    def test_both_copies_and_then_a_sync(self):
        """Something is lost, also without garbage."""
        events = self.backup + self.primary + ["fsync"]
        self.assertGreater(self.lost("both good", events), 0)
        self.assertGreater(self.lost("both good", events, garbage=False), 0)

    def test_only_good_copy_first(self):
        """Something is lost from one good copy if that is written first, and nothing if last."""
        good_first = self.backup + ["fsync"] + self.primary + ["fsync"]
        good_last = self.primary + ["fsync"] + self.backup + ["fsync"]
        for start in "primary header zeroed", "primary entries damaged":
            self.assertGreater(self.lost(start, good_first), 0)
            self.assertEqual(self.lost(start, good_last), 0)
        self.assertEqual(self.lost("backup header zeroed", good_first), 0)


class Images(unittest.TestCase):
    """Images and what is read from them."""

    def test_starts(self):
        """Each start holds the table of two partitions."""
        for name, base in judging.starts().items():
            self.assertEqual(listing(Image(base).table()), dict(enumerate(OLD, 1)), name)

    def test_garbage_in_a_write_within_a_sector(self):
        """It spoils the sector that is written, and no other."""
        image = Image(bytes(4 * SECTOR))
        Write(700, b"x" * 92).lay(image, "g")
        self.assertEqual(image.read(0, 4 * SECTOR), bytes(512) + bytes([7] * 512) + bytes(1024))

    def test_write_over_the_end_of_a_sector(self):
        """It has a part in each of both sectors, and each has a fate of its own."""
        image = Image(bytes(4 * SECTOR))
        Write(1000, b"x" * 100).lay(image, "no")
        self.assertEqual(image.read(0, 4 * SECTOR), bytes(1000) + b"x" * 24 + bytes(1024))


class Traces(unittest.TestCase):
    """Lines of strace."""

    LINES = [
        r'7 openat(AT_FDCWD</>, "\x2f\x64", O_RDWR) = 3<\x2f\x64>',
        r'7 lseek(3<\x2f\x64>, 512, SEEK_SET) = 512',
        r'7 write(3<\x2f\x64>, "\x41\x42", 2) = 2',
        r'7 write(4<\x2f\x65>, "\x41\x42", 2) = 2',
        r'7 write(3<\x2f\x64>, "\x43", 1) = 1',
        r'7 pwrite64(3<\x2f\x64>, "\x44", 1, 9) = 1',
        r'7 fsync(3<\x2f\x64> <unfinished ...>',
        r'7 <... fsync resumed>) = 0',
        r'7 write(3<\x2f\x64>, "\x43", 1) = -1 EIO',
    ]

    def test_calls(self):
        """Writes of the image are seen, each at its place."""
        seen = [event if isinstance(event, str) else (event.at, event.data)
                for event in recording.Reader("/d").events_of(self.LINES)]
        self.assertEqual(seen, [(512, b"AB"), (514, b"C"), (9, b"D"), "fsync"])

    def test_calls_that_are_not_recorded(self):
        """They are told."""
        for line in (r'7 ftruncate(3<\x2f\x64>, 9) = 0',
                     r'7 copy_file_range(5<\x2f\x65>, NULL, 3<\x2f\x64>, NULL, 9, 0) = 9',
                     r'7 mmap(NULL, 9, PROT_READ|PROT_WRITE, MAP_SHARED, 3<\x2f\x64>, 0) = 0x7f',
                     r'7 openat(AT_FDCWD</>, "\x2f\x64", O_RDWR|O_SYNC) = 3<\x2f\x64>'):
            with self.assertRaises(recording.Unseen):
                recording.Reader("/d").events_of([line])


if __name__ == "__main__":
    unittest.main()
