"""The calls of libgptman.so.1 with their types, as include/gptman.h has them."""

from __future__ import annotations

import ctypes
import os
from ctypes import POINTER, c_char_p, c_size_t, c_uint8, c_uint16, c_uint32, c_uint64
from pathlib import Path
from typing import Any

NAME = "libgptman.so.1"
ABI = 1
LONGEST_NAME = 35


class Table(ctypes.Structure):
    """table"""

    _fields_ = [("disk_guid", c_uint8 * 16), ("first_usable_lba", c_uint64), ("last_usable_lba", c_uint64),
                ("align", c_uint64), ("entry_count", c_uint32), ("is_backup", c_uint32),
                ("primary_header_lba", c_uint64), ("primary_entries_lba", c_uint64), ("backup_header_lba", c_uint64),
                ("backup_entries_lba", c_uint64), ("reserved", c_uint64 * 6)]


class Entry(ctypes.Structure):
    """partition"""

    _fields_ = [("type_guid", c_uint8 * 16), ("unique_guid", c_uint8 * 16), ("first_lba", c_uint64),
                ("last_lba", c_uint64), ("attributes", c_uint64), ("name", c_uint16 * 36)]


class Step(ctypes.Structure):
    """step"""

    _fields_ = [("kind", c_uint64), ("offset", c_uint64), ("length", c_uint64), ("start", c_uint64)]


class Needed(ctypes.Structure):
    """needed"""

    _fields_ = [("steps", c_uint64), ("bytes", c_uint64), ("from_", c_uint64), ("length", c_uint64)]


class Copies(ctypes.Structure):
    """copies"""

    _fields_ = [("primary_fault", c_uint32), ("backup_fault", c_uint32), ("are_same", c_uint32),
                ("reserved", c_uint32 * 5)]


DISK = [c_char_p, c_size_t, c_char_p, c_size_t, c_uint64]
ENDS = [*DISK, c_uint64]
ENTRIES = [POINTER(Entry), c_size_t]
BYTES = [POINTER(c_uint8), c_size_t]
NEEDED = [POINTER(Needed)]
PLAN = [POINTER(Step), c_size_t, *BYTES, *NEEDED, c_uint32]

# The arguments of each call. Each returns a number of 32 bits.
CALLS: dict[str, list[Any]] = {
    "read": [*ENDS, POINTER(Table), *ENTRIES, *NEEDED],
    "write": [*ENDS, *ENTRIES, *PLAN],
    "new": [*ENDS, POINTER(Table), *PLAN],
    "fit": [*ENDS, *PLAN],
    "check": [*ENDS, POINTER(Copies), *NEEDED],
    "dos": [*DISK, *NEEDED],
    "mbr": [c_uint64, c_uint64, c_uint32, *BYTES],
    "place": [POINTER(Table), *ENTRIES, c_uint64, c_uint32, POINTER(c_uint64)],
    "crc32": [c_char_p, c_size_t],
    "fault_name": [c_uint32, c_char_p, c_size_t],
    "version": [],
    "abi": [],
}


def find() -> str:
    """Returns what to load: GPTMAN_LIBRARY, the library in or beside the package, that of its prefix, which is PREFIX
    for a package in PREFIX/lib/python3*/*-packages, or the bare name, for the system's loader."""
    package = Path(__file__).resolve().parent
    folders = [package, package.parent]
    if package.parents[1].name.startswith("python3"):
        folders.append(package.parents[2])
    found = [str(folder / NAME) for folder in folders if (folder / NAME).is_file()]
    return os.environ.get("GPTMAN_LIBRARY") or (found + [NAME])[0]


def load() -> ctypes.CDLL:
    """Loads the library and gives its calls their types.

    Raises:
        ImportError: the library is not there, is not one, or has another binary interface.
    """
    try:
        loaded = ctypes.CDLL(find())
        for name, types in CALLS.items():
            function = getattr(loaded, f"gptman_{name}")
            function.argtypes, function.restype = types, c_uint32
    except (OSError, AttributeError) as error:
        raise ImportError(f"{error}; install {NAME}, or set GPTMAN_LIBRARY to its path") from None
    if loaded.gptman_abi() != ABI:
        raise ImportError(f"{find()} has the binary interface {loaded.gptman_abi()}, not {ABI}")
    return loaded


library = load()


def call(name: str, *words: Any) -> int:
    """Makes the call with this name, and returns its answer."""
    answer: int = getattr(library, f"gptman_{name}")(*words)
    return answer


def fault_name(number: int) -> str:
    """Returns the name of an answer of a call, or "Unknown" if none has this number."""
    text = ctypes.create_string_buffer(LONGEST_NAME)
    call("fault_name", number, text, LONGEST_NAME)
    return text.value.decode()


def crc32(data: bytes) -> int:
    """Returns the CRC-32 that a table has of its headers and entries.

    Args:
        data: the bytes to sum.
    """
    return call("crc32", bytes(data), len(data))


def version() -> tuple[int, int, int]:
    """Returns the version of the library: major, minor and patch."""
    number = call("version")
    return number >> 16, number >> 8 & 255, number & 255
