"""Disks: the steps that the library plans are made here, over a file descriptor."""

from __future__ import annotations

import ctypes
import errno
import fcntl
import operator
import os
import sys
import uuid
from ctypes import byref, c_uint8, c_uint16, c_uint64
from dataclasses import dataclass, field
from typing import Any, Callable, Iterator, NamedTuple, Tuple, TypeVar, Union

from . import _calls
from ._calls import call
from .errors import AsksAgain, BadArgument, Error, LacksBytes, LacksRoom, NoSpaceLeft, OtherLayout

OVER_DOS = 1
SYNC = 2
MBR_START, MBR_LENGTH = 446, 66
MOST_ENTRIES, MOST_BYTES, MOST_ROUNDS = 1 << 20, 1 << 28, 12
SECTOR_SIZES = 512, 1024, 2048, 4096
BLKSSZGET = 0x1268
UNUSED = bytes(16)

StrPath = Union[str, bytes, "os.PathLike[str]"]
Ends = Tuple[bytes, int, bytes, int, int, int]
Self = TypeVar("Self", bound="_File")


@dataclass
class Partition:
    """A used entry of a table.

    Bytes after the end of a name that was read are kept while the name is unchanged.

    Attributes:
        type_guid: the type of the partition; not all zeros.
        first_lba: its first sector, from 0.
        last_lba: its last sector, which belongs to it.
        name: at most 36 units of UTF-16, without zeros.
        attributes: 64 bits, as UEFI defines them.
        unique_guid: its own GUID; random if it is left out.
    """

    type_guid: uuid.UUID
    first_lba: int
    last_lba: int
    name: str = ""
    attributes: int = 0
    unique_guid: uuid.UUID = field(default_factory=uuid.uuid4)

    _units = b""  # those that were read, for its name


class Copies(NamedTuple):
    """The state of both copies of a table.

    Attributes:
        primary_fault: the name of the error of the copy in sector 1, or None.
        backup_fault: the name of the error of the copy in the last whole sector, or None.
        are_same: whether both places hold one table, each in the form for its place.
    """

    primary_fault: str | None
    backup_fault: str | None
    are_same: bool


class Step(NamedTuple):
    """A step of a plan.

    Attributes:
        kind: 1 for a write, 2 for a sync.
        offset: the byte of the disk at which a write begins.
        start: where its bytes begin in those of the plan.
        end: where they end there.
    """

    kind: int
    offset: int
    start: int
    end: int


def check(path: StrPath, sector_size: int = 512) -> Copies:
    """Returns the state of both copies of a table, also if no table can be read.

    Args:
        path: a disk image or block device.
        sector_size: as for `Disk`.

    Raises:
        Error: the library refuses the call, for example `BadArgument`.
        OSError: the system refuses a call.
    """
    with _File(path, sector_size) as file:
        return file.check()


def _fitting(number: int, bits: int, what: str) -> int:
    """Returns the number if it fits; ctypes would cut it."""
    number = operator.index(number)
    if not 0 <= number < 1 << bits:
        raise ValueError(f"{what} is {number}; it must be from 0 to {(1 << bits) - 1}")
    return number


def _bytes_of(guid: uuid.UUID) -> ctypes.Array[c_uint8]:
    return (c_uint8 * 16)(*guid.bytes_le)


def _guid_of(raw: ctypes.Array[c_uint8]) -> uuid.UUID:
    return uuid.UUID(bytes_le=bytes(raw))


def _text_of(units: bytes) -> str:
    """Returns the text before the first zero."""
    return units.decode("utf-16-le", "surrogatepass").split("\0")[0]


def _units_of(partition: Partition) -> bytes:
    """Returns the 72 bytes of the name: those that were read, if it is still that name."""
    if len(partition._units) == 72 and _text_of(partition._units) == partition.name:
        return partition._units
    units = partition.name.encode("utf-16-le", "surrogatepass")
    if len(units) > 72:
        raise ValueError(f"the name has {len(units) // 2} units of UTF-16; at most 36 fit")
    if "\0" in partition.name:
        raise ValueError("the name must not contain zeros")
    return units.ljust(72, b"\0")


def _entry_of(partition: Partition) -> _calls.Entry:
    if partition.type_guid.bytes_le == UNUSED:
        raise ValueError("the type of a partition must not be all zeros; to remove a partition, call remove")
    return _calls.Entry(_bytes_of(partition.type_guid), _bytes_of(partition.unique_guid),
                        _fitting(partition.first_lba, 64, "first_lba"), _fitting(partition.last_lba, 64, "last_lba"),
                        _fitting(partition.attributes, 64, "attributes"),
                        (c_uint16 * 36).from_buffer_copy(_units_of(partition)))


def _partition_of(entry: _calls.Entry) -> Partition:
    units = bytes(entry.name)
    partition = Partition(_guid_of(entry.type_guid), entry.first_lba, entry.last_lba, _text_of(units),
                          entry.attributes, _guid_of(entry.unique_guid))
    partition._units = units
    return partition


class _File:
    """A disk image or block device, whose two ends are read for each call of the library."""

    def __init__(self, path: StrPath, sector_size: int, writable: bool = False, lock: bool = True,
                 over_dos: bool = False) -> None:
        self._flags = OVER_DOS if over_dos else 0
        self._lengths = 0, 0
        self._fd = os.open(path, os.O_RDWR if writable else os.O_RDONLY)
        try:
            self.sector_size = sector_size or self._reported_size()
            if writable and lock:
                self._lock()
            self.size = os.lseek(self._fd, 0, os.SEEK_END)
        except BaseException:
            self.close()
            raise

    def __enter__(self: Self) -> Self:
        return self

    def __exit__(self, *_: object) -> None:
        self.close()

    def close(self) -> None:
        """Closes the file, which releases the lock. Writes nothing."""
        if self._fd >= 0:
            os.close(self._fd)
            self._fd = -1

    def check(self) -> Copies:
        """Returns the state of both copies of the table on the disk now.

        Raises:
            Error: the library refuses the call.
            OSError: the system refuses a call.
        """
        copies = _calls.Copies()
        self._ask(lambda ends, needed: call("check", *ends, byref(copies), needed))
        primary, backup = (_calls.fault_name(number) if number else None
                           for number in (copies.primary_fault, copies.backup_fault))
        return Copies(primary, backup, bool(copies.are_same))

    def write_mbr(self, bootable: bool = False) -> None:
        """Writes a protective MBR: one partition over the whole disk, for programs that do not read GUID partition
        tables.

        Args:
            bootable: whether the partition is marked as bootable.

        Raises:
            DosDisk: the first sector has partitions of its own.
            Error: the library refuses the call.
            OSError: the system refuses a call.
        """
        data = (c_uint8 * MBR_LENGTH)()
        os.fsync(self._fd)
        if not self._flags:
            self._ask(lambda ends, needed: call("dos", *ends[:5], needed))
        self._renew()
        answer = call("mbr", self.size, self.sector_size, bool(bootable), data, MBR_LENGTH)
        if answer:
            raise Error.of(answer)
        self._write_all(bytes(data), MBR_START)
        os.fsync(self._fd)

    def _reported_size(self) -> int:
        """Returns the sector size of a block device, or 0 if it is none."""
        try:
            return int.from_bytes(fcntl.ioctl(self._fd, BLKSSZGET, bytes(4)), sys.byteorder)
        except OSError:
            return 0

    def _lock(self) -> None:
        """Waits until no other program holds the advisory lock on the file; goes on if the file system has none."""
        try:
            fcntl.flock(self._fd, fcntl.LOCK_EX)
        except OSError:
            pass

    def _make(self, plan: Callable[[], tuple[list[Step], bytes]]) -> None:
        """Makes the steps of a plan in order. Syncs what was written before, so that the plan is made of what is
        stored."""
        os.fsync(self._fd)
        steps, data = plan()
        for kind, offset, start, end in steps:
            if kind == SYNC:
                os.fsync(self._fd)
            else:
                self._write_all(data[start:end], offset)

    def _renew(self) -> None:
        """Sets the lengths of the disk and of its ends, which are at least those that most tables need."""
        if self.sector_size not in SECTOR_SIZES:
            raise BadArgument
        self.size = os.lseek(self._fd, 0, os.SEEK_END)
        first, last = 2 * self.sector_size + 16384, self.sector_size + 16384
        self._lengths = max(self._lengths[0], first), max(self._lengths[1], last)

    def _rounds(self) -> Iterator[Ends]:
        """Yields the ends as a call takes them, as often as a call may ask for longer ones. If they would meet, the
        first is the whole disk."""
        self._renew()
        for _ in range(MOST_ROUNDS):
            first, last = self._lengths
            if first + last >= self.size:
                first, last = self.size, 0
            head, tail = self._read_all(first, 0), self._read_all(last, self.size - last)
            yield head, first, tail, last, self.size, self.sector_size

    def _ask(self, make: Callable[[Ends, Any], int],
             has_more: Callable[[_calls.Needed], bool] | None = None) -> tuple[Ends, _calls.Needed]:
        """Makes a call of the library, and again with longer ends or arrays while it asks for them. `has_more` makes
        the arrays longer, and returns whether they are. Returns the ends with which the call succeeded, and what it
        needed."""
        needed = _calls.Needed()
        for ends in self._rounds():
            answer = make(ends, byref(needed))
            if answer == LacksBytes.number:
                self._add(ends, needed)
            elif answer == LacksRoom.number and has_more is not None:
                if not has_more(needed):
                    break
            elif answer:
                raise Error.of(answer)
            else:
                return ends, needed
        raise AsksAgain

    def _add(self, ends: Ends, needed: _calls.Needed) -> None:
        """Extends the end that is nearer to the bytes that are needed. These are on the disk, and in neither end."""
        _, had_first, _, had_last, size, _ = ends
        first, last = needed.from_ + needed.length, size - needed.from_
        if first > size or first <= had_first or last <= had_last:
            raise AsksAgain
        if min(first, last) > MOST_BYTES:
            raise LacksBytes
        self._lengths = (first, had_last) if first <= last else (had_first, last)

    def _read_all(self, length: int, at: int) -> bytes:
        pieces = []
        while length:
            piece = os.pread(self._fd, length, at)
            if not piece:
                raise OSError(errno.EIO, "the disk ends before its length")
            pieces.append(piece)
            length, at = length - len(piece), at + len(piece)
        return b"".join(pieces)

    def _write_all(self, data: bytes, at: int) -> None:
        while data:
            done = os.pwrite(self._fd, data, at)
            if not done:
                raise OSError(errno.EIO, "nothing was written")
            data, at = data[done:], at + done


class Disk(_File):
    """A disk image or block device, with the table that it holds.

    Change `partitions`, and `write` writes the table. Each call reads the disk again, so a call may follow one that
    failed.

    Attributes:
        partitions: the used entries by their numbers, from 1.
        disk_guid: the GUID of the disk.
        first_usable_lba: the first sector that a partition may use.
        last_usable_lba: the last one.
        align: `find_place` returns multiples of this number of sectors.
        entry_count: the number of entries, used or not.
        is_backup: whether the table is that of the backup copy, as the primary copy is damaged.
        primary_header_lba, primary_entries_lba, backup_header_lba, backup_entries_lba: the sectors of both copies, by
            the header that was read; the entries of the other copy are where `write` stores them.
        sector_size: in bytes.
        size: the length of the disk in bytes.
    """

    partitions: dict[int, Partition]
    _unused: dict[int, _calls.Entry]

    def __init__(self, path: StrPath, sector_size: int = 512, writable: bool = False,
                 new: tuple[uuid.UUID, int] | None = None, lock: bool = True, over_dos: bool = False) -> None:
        """Opens a disk and reads its table.

        Args:
            path: a disk image or block device.
            sector_size: 512, 1024, 2048 or 4096 bytes; 0 takes what the block device reports.
            writable: whether the disk is opened for writing.
            new: for `create`.
            lock: whether to wait for the advisory lock of flock if the disk is opened for writing, and to hold it
                until the disk is closed.
            over_dos: whether a disk with partitions of DOS may be overwritten.

        Raises:
            InvalidSignature, ReadError: there is no table, or no good copy of it.
            Error: the library refuses the call otherwise.
            OSError: the system refuses a call.
        """
        super().__init__(path, sector_size, writable or new is not None, lock, over_dos)
        try:
            if new:
                guid, count = new
                self._make(lambda: self._plan_new(guid, count))
            self.read()
        except BaseException:
            self.close()
            raise

    @classmethod
    def create(cls, path: StrPath, sector_size: int = 512, disk_guid: uuid.UUID | None = None, entry_count: int = 128,
               lock: bool = True, over_dos: bool = False) -> Disk:
        """Writes a new table without partitions, over any that is there, and no protective MBR.

        Args:
            path, sector_size, lock, over_dos: as for `Disk`.
            disk_guid: the GUID of the disk; random if it is left out.
            entry_count: the number of entries.

        Returns:
            The disk, opened for writing.

        Raises:
            ValueError: `entry_count` is not from 0 to 2^32 - 1.
            Overflow, InvalidPartitionBoundaries: the disk is too short.
            DosDisk: the first sector has partitions of its own.
            Error: the library refuses the call otherwise.
            OSError: the system refuses a call.
        """
        return cls(path, sector_size, True, (disk_guid or uuid.uuid4(), entry_count), lock, over_dos)

    def read(self) -> None:
        """Reads the table again. Changes that were not written are lost.

        Raises:
            Error, OSError: as for `Disk`.
        """
        table, entries = _calls.Table(), (_calls.Entry * 128)()

        def has_more(_: _calls.Needed) -> bool:
            nonlocal entries
            if table.entry_count > MOST_ENTRIES:
                raise LacksRoom
            had, entries = len(entries), (_calls.Entry * table.entry_count)()
            return len(entries) > had

        self._ask(lambda ends, needed: call("read", *ends, byref(table), entries, len(entries), needed), has_more)
        self.disk_guid = _guid_of(table.disk_guid)
        self.first_usable_lba, self.last_usable_lba = int(table.first_usable_lba), int(table.last_usable_lba)
        self.align, self.entry_count = int(table.align), int(table.entry_count)
        self.is_backup = bool(table.is_backup)
        self.primary_header_lba, self.backup_header_lba = int(table.primary_header_lba), int(table.backup_header_lba)
        self.primary_entries_lba = int(table.primary_entries_lba)
        self.backup_entries_lba = int(table.backup_entries_lba)
        numbered = dict(enumerate(entries[:self.entry_count], 1))
        self.partitions = {number: _partition_of(entry) for number, entry in numbered.items()
                           if bytes(entry.type_guid) != UNUSED}
        # Unused entries that are not all zeros are kept.
        self._unused = {number: entry for number, entry in numbered.items()
                        if number not in self.partitions and bytes(entry) != bytes(128)}

    def write(self) -> None:
        """Writes the table with `partitions` as its used entries. A crash leaves the old table or the new one. Entries
        that were not changed keep every byte, unused ones too.

        Raises:
            ValueError: an entry cannot have this number, name, type or place; nothing is written.
            ConflictPartitionGUID, InvalidPartitionBoundaries: the partitions are not those of a valid table.
            OtherLength: the disk has another length than the table was made for; see `fit`.
            OtherLayout: the table does not have the stated layout.
            DosDisk: the first sector has partitions of its own.
            Error: the library refuses the call otherwise.
            OSError: the system refuses a call.
        """
        self._make(self.plan)
        self._unused = {number: entry for number, entry in self._unused.items() if number not in self.partitions}

    def remove(self, number: int) -> None:
        """Removes a partition: `write` fills its entry with zeros, also that of an unused entry.

        Args:
            number: the number of the entry, from 1.
        """
        self.partitions.pop(number, None)
        self._unused.pop(number, None)

    def plan(self) -> tuple[list[Step], bytes]:
        """Returns the steps of `write`, and the bytes that they write.

        Raises:
            ValueError, Error, OSError: as for `write`.
        """
        steps, data, ends = self._plan("write", self._entries(), self.entry_count)
        self._refuse_gap(ends)
        return steps, data

    def fit(self) -> None:
        """Fits the table to the length that the disk has now, and reads it. A crash leaves the old table or the fitted
        one. Changes to `partitions` that were not written are lost.

        Raises:
            InvalidPartitionBoundaries: a partition would end after the last usable sector.
            DosDisk: the first sector has partitions of its own.
            Error: the library refuses the call otherwise.
            OSError: the system refuses a call.
        """
        self._make(self.plan_fit)
        self.read()

    def plan_fit(self) -> tuple[list[Step], bytes]:
        """Returns the steps of `fit`, and the bytes that they write.

        Raises:
            Error, OSError: as for `fit`.
        """
        return self._plan("fit")[:2]

    def find_place(self, size: int, choice: str = "first") -> int | None:
        """Finds a free place for a partition.

        Args:
            size: how many sectors the partition has.
            choice: "first", "last", or "best", which is in the smallest free range that is large enough.

        Returns:
            The first sector of the place, or None if no free range is large enough.

        Raises:
            ValueError: `choice` is none of these, or a number does not fit.
            BadArgument: `align` is 0.
        """
        table = _calls.Table(first_usable_lba=_fitting(self.first_usable_lba, 64, "first_usable_lba"),
                             last_usable_lba=_fitting(self.last_usable_lba, 64, "last_usable_lba"),
                             align=_fitting(self.align, 64, "align"))
        first = c_uint64()
        answer = call("place", byref(table), self._entries(), self.entry_count, _fitting(size, 64, "size"),
                      ("first", "last", "best").index(choice) + 1, byref(first))
        if answer == NoSpaceLeft.number:
            return None
        if answer:
            raise Error.of(answer)
        return first.value

    def _entries(self) -> ctypes.Array[_calls.Entry]:
        """Returns all entries as they will be written."""
        wrong = [number for number in self.partitions if not 1 <= number <= self.entry_count]
        if wrong:
            raise ValueError(f"the table has {self.entry_count} entries and no entry {wrong[0]}")
        entries = (_calls.Entry * max(self.entry_count, 1))()
        for number, entry in self._unused.items():
            entries[number - 1] = entry
        for number, partition in self.partitions.items():
            entries[number - 1] = _entry_of(partition) if partition is not None else _calls.Entry()
        return entries

    def _refuse_gap(self, ends: Ends) -> None:
        """Refuses a table whose last usable sector is lower than usual, unless the backup entries are directly after
        it: a write puts them there, over what another program may have there."""
        table, copies, needed, count = _calls.Table(), _calls.Copies(), _calls.Needed(), self.entry_count
        answer = call("read", *ends, byref(table), (_calls.Entry * count)(), count, byref(needed))
        if answer:
            raise Error.of(answer)
        last, array = self.size // self.sector_size - 1, -(-128 * count // self.sector_size)
        if table.is_backup or last - table.last_usable_lba - 1 <= array:
            return
        answer = call("check", *ends, byref(copies), byref(needed))
        if answer == LacksBytes.number or not answer and not copies.are_same:
            raise OtherLayout
        if answer:
            raise Error.of(answer)

    def _plan_new(self, disk_guid: uuid.UUID, entry_count: int) -> tuple[list[Step], bytes]:
        """Returns the steps that write a new table, and the bytes that they write."""
        table = _calls.Table(disk_guid=_bytes_of(disk_guid), entry_count=_fitting(entry_count, 32, "entry_count"))
        return self._plan("new", byref(table))[:2]

    def _plan(self, name: str, *what: object) -> tuple[list[Step], bytes, Ends]:
        """Returns the steps that a call plans, their bytes, and the ends that they are planned from."""
        steps, data = (_calls.Step * 0)(), (c_uint8 * 0)()

        def plan(ends: Ends, needed: Any) -> int:
            return call(name, *ends, *what, steps, len(steps), data, len(data), needed, self._flags)

        def has_more(needed: _calls.Needed) -> bool:
            nonlocal steps, data
            had = len(steps), len(data)
            steps, data = (_calls.Step * needed.steps)(), (c_uint8 * needed.bytes)()
            return len(steps) > had[0] or len(data) > had[1]

        ends, needed = self._ask(plan, has_more)
        made = steps[:needed.steps]
        return [Step(s.kind, s.offset, s.start, s.start + s.length) for s in made], bytes(data), ends
