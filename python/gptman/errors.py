"""The errors of the library: one class for each name that it has, with its number. docs/FAULTS.md says what to do."""

from ._calls import fault_name as _fault_name


class Error(Exception):
    """The base of all errors that the library returns.

    Attributes:
        number: the number of the error in include/gptman.h, from 1.
    """

    number = 0

    @property
    def name(self) -> str:
        """The name of the error, which is that of its class."""
        return type(self).__name__

    def __str__(self) -> str:
        text = self.__doc__ if type(self) is not Error else None
        return text or f"{self.name} {self.number}"

    @classmethod
    def of(cls, number: int) -> "Error":
        """Returns the error with this number: an instance of its class, or of `Error` if no class has the number."""
        error = next((kind() for kind in Error.__subclasses__() if kind.number == number), Error())
        error.number = number
        return error


class Io(Error):
    """A part of the copy is past the end of the disk. If the system refuses a call, that is `OSError`."""


class InvalidSignature(Error):
    """There is no header, or no table if neither copy has one."""


class InvalidRevision(Error):
    """The version of the header is not 1.0."""


class InvalidHeaderSize(Error):
    """The size of the header is not 92 bytes."""


class InvalidChecksum(Error):
    """The header does not match its checksum."""


class InvalidPartitionEntryArrayChecksum(Error):
    """The entries do not match their checksum."""


class ReadError(Error):
    """Neither copy of the table can be read; `check` reports the error of each."""


class NoSpaceLeft(Error):
    """A copy of the table, or the MBR, does not fit on the disk."""


class ConflictPartitionGUID(Error):
    """Two partitions have the same unique GUID."""


class InvalidPartitionBoundaries(Error):
    """Partitions overlap, are outside the usable sectors or end before they begin, or the disk is too short."""


class InvalidPartitionNumber(Error):
    """The table has no entry of this number."""


class UnusedPartition(Error):
    """The entry is unused."""


class PartitionNotFound(Error):
    """There is no such partition."""


class Overflow(Error):
    """The disk is too short for one copy, a place is past byte 2^64, or the table to be fitted has no entries."""


class OutOfMemory(Error):
    """An allocation failed in the library; this says nothing about the disk."""


class InvalidPartitionEntrySize(Error):
    """The size of an entry is not 128 bytes."""


class OtherLength(Error):
    """The table was made for a disk of another length; `Disk.fit` fits it."""


class OtherLayout(Error):
    """The table does not have the layout of docs/FORMAT.md, or a write could overwrite data of another program."""


class DosDisk(Error):
    """The first sector is an MBR with partitions of its own; `over_dos=True` permits a write anyway."""


class LacksBytes(Error):
    """The table needs more than 256 MiB at one end of the disk."""


class LacksRoom(Error):
    """The table has more than 1,048,576 entries."""


class BadArgument(Error):
    """The sector size is not 512, 1024, 2048 or 4096 bytes, or another argument is invalid."""


class AsksAgain(Error):
    """The library asked again for what it had, which no known version does."""


_kinds = {kind.__name__: kind for kind in Error.__subclasses__()}
for _number in range(1, 256):
    _kind = _kinds.get(_fault_name(_number))
    if _kind:
        _kind.number = _number
