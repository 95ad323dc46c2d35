"""Images in a folder: sparse ones, ones with random bytes in places, what states they have, and damage to them."""
import os
import random

from harness import table

PIECE = 4096
MIB = 1 << 20
BOOT_CODE = random.Random(46).randbytes(446)


def noise_places(size):
    """Where an image of this size has random bytes at its start: behind the MBR, beside both copies, and in a
    piece at each MiB."""
    ends = [64 * PIECE, size - 64 * PIECE]
    places = {at // PIECE * PIECE for at in (17408, 20480, 24576, MIB - PIECE, *ends)}
    places |= {size // PIECE * PIECE - back * PIECE for back in range(5, 9)}
    step = MIB if size <= 256 * MIB else 16 * MIB
    places |= set(range(MIB, min(size, 1 << 30), step))
    return sorted(at for at in places if 17408 <= at and at + PIECE <= size - 33 * 512)


def pieces_in(file):
    """The length of an open file, and the pieces of it that are not all zeros. Holes are not read."""
    pieces, at, size = [], 0, os.fstat(file.fileno()).st_size
    while at < size:
        try:
            at = os.lseek(file.fileno(), at, os.SEEK_DATA)
        except OSError:
            break
        at -= at % PIECE
        piece = os.pread(file.fileno(), PIECE, at)
        if piece.strip(b"\0"):
            pieces.append((at, piece))
        at += PIECE
    return size, pieces


class Folder:
    """A folder, and the files in it."""

    def __init__(self, folder):
        self.folder = folder

    def file(self, name):
        """The path of a file in the folder."""
        return os.path.join(self.folder, name)

    def make_zeros(self, name, size):
        """Makes an image of zeros, in the place of any that is there."""
        with open(self.file(name), "wb") as file:
            file.truncate(size)

    def make_image(self, name, size):
        """Makes an image with boot code and random bytes in places, in the place of any that is there."""
        random_ = random.Random(size)
        self.make_zeros(name, size)
        if size < 1024:
            return
        with open(self.file(name), "r+b") as file:
            file.write(BOOT_CODE)
            for at in noise_places(size):
                file.seek(at)
                file.write(random_.randbytes(PIECE))

    def write(self, name, data):
        """Makes a file with these bytes."""
        with open(self.file(name), "wb") as file:
            file.write(data)

    def bytes_of(self, name):
        """The bytes of a file."""
        with open(self.file(name), "rb") as file:
            return file.read()

    def put(self, name, at, data):
        """Writes bytes to a file from byte `at` on."""
        table.put(self.file(name), [(at, data)])

    def set_length(self, name, size):
        """Gives a file another length."""
        os.truncate(self.file(name), size)

    def flip(self, name, at):
        """Flips a bit of a byte."""
        self.put(name, at, bytes([self.bytes_of(name)[at] ^ 1]))

    def set_fields(self, name, at, *fields):
        """Sets fields of the header at this byte, each its place, its format and its value, and its checksum."""
        with open(self.file(name), "rb") as file:
            file.seek(at)
            header = file.read(92)
        self.put(name, at, table.with_fields(header, *fields))

    def state(self, name):
        """The length of an image, and the pieces of it that are not all zeros."""
        with open(self.file(name), "rb", buffering=0) as file:
            return pieces_in(file)

    def restore(self, name, state):
        """Makes the image that has this state."""
        size, pieces = state
        self.make_zeros(name, size)
        table.put(self.file(name), pieces)


class Reader:
    """The bytes of an image in a state."""

    def __init__(self, state):
        self.size, pieces = state
        self.pieces = dict(pieces)

    def read(self, at, count):
        """These bytes, fewer where the image ends before."""
        end, data = min(at + count, self.size), b""
        while at < end:
            begin = at % PIECE
            piece = self.pieces.get(at - begin, bytes(PIECE)).ljust(PIECE, b"\0")
            data += piece[begin:begin + end - at]
            at += PIECE - begin
        return data


def changed(before, after):
    """The ranges of bytes that differ between two states, within each piece."""
    old, new = dict(before[1]), dict(after[1])
    spans = []
    for at in sorted(old.keys() | new.keys()):
        was, now = (pieces.get(at, b"").ljust(PIECE, b"\0") for pieces in (old, new))
        if was != now:
            spans += spans_of(at, was, now)
    return spans


def spans_of(at, was, now):
    """The ranges in which two pieces from byte `at` on differ."""
    spans = []
    for i, (one, other) in enumerate(zip(was, now)):
        if one == other:
            continue
        if spans and spans[-1][1] == at + i:
            spans[-1] = (spans[-1][0], at + i + 1)
        else:
            spans.append((at + i, at + i + 1))
    return spans


def is_in(span, ranges):
    """Whether ranges, put together, have each byte of one."""
    at = span[0]
    for begin, end in sorted(ranges):
        if begin <= at < end:
            at = end
    return at >= span[1]
