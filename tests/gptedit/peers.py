"""Cases of the tests of sfdisk, fdisk, gdisk, parted, cgpt, growpart and systemd-repart: the table that the other
program leaves, and whether gptedit leaves the same. peer_reader.py describes the rows.

Each row runs its command lines on an image that is made from the format, until one fails. The table that they leave is
read by the format too; of `show --json`, `dump` and `free --json` the output is compared. A row that is listed as
different or refused fails if gptedit does what the other program does, so that the list stays true.
"""
import glob
import json
import os
import re
import struct
import tempfile
import tomllib
import zlib

from harness import table
from commands import NAMED, SFDISK
from makers import IMAGE
from peer_reader import ROWS, TYPES, VERDICTS, rows_of
from runs import Program

# A folder in memory, where a sync takes no time.
MEMORY = "/dev/shm"
FIELDS = {"revision": (8, "<I"), "size": (12, "<I"), "checksum": (16, "<I"), "reserved": (20, "<I"), "own": (24, "<Q"),
          "other": (32, "<Q"), "first": (40, "<Q"), "last": (48, "<Q"), "at": (72, "<Q"), "count": (80, "<I"),
          "entry-size": (84, "<I"), "array-checksum": (88, "<I")}


def set_field(path, at, sector, name, value):
    """Sets a field of the header at a byte, and then its checksums, unless the field is one."""
    place, form = FIELDS[name]
    with open(path, "r+b") as file:
        file.seek(at)
        raw = bytearray(file.read(sector))
        struct.pack_into(form, raw, place, value)
        size, count, each = (struct.unpack_from("<I", raw, FIELDS[key][0])[0] for key in
                             ("size", "count", "entry-size"))
        if name in ("count", "entry-size"):
            file.seek(struct.unpack_from("<Q", raw, FIELDS["at"][0])[0] * sector)
            struct.pack_into("<I", raw, FIELDS["array-checksum"][0], zlib.crc32(file.read(count * each)))
        if name != "checksum":
            raw[16:20] = bytes(4)
            struct.pack_into("<I", raw, 16, zlib.crc32(raw[:size].ljust(size, b"\0")))
        file.seek(at)
        file.write(raw)


def make_change(program, row, word, words):
    """Changes an image as a line of its row says."""
    path = program.file(IMAGE)
    if word == "length":
        program.set_length(IMAGE, row.length)
        return
    at = int(words[0]) * row.sector + (os.path.getsize(path) if words[0].startswith("-") else 0)
    if word == "zero":
        program.put(IMAGE, at, bytes(int(words[1]) * row.sector))
    elif word == "put":
        program.put(IMAGE, at + int(words[1]), bytes.fromhex(words[2]) * int("".join(words[3:])[1:] or 1))
    elif word == "copy":
        program.put(IMAGE, int(words[2]) * row.sector, program.bytes_of(IMAGE)[at:at + int(words[1]) * row.sector])
    else:
        set_field(path, at, row.sector, words[1], int(words[2], 0))


def make(program, row):
    """Makes the image of a row."""
    program.make_image(IMAGE, row.size)
    if row.start:
        backup_at = table.bounds(row.size, row.sector, row.start.count)[1] + 1
        pieces = table.pieces_of(row.start, row.size, row.sector, backup_at=backup_at)
        if row.backup:
            other = row.start._replace(entries={**row.start.entries, **row.backup})
            pieces[3:] = table.copies_of(other, row.size, row.sector, backup_at=backup_at)[2:]
        table.put(program.file(IMAGE), pieces)
    for word, words in row.changes:
        make_change(program, row, word, words)


def bits_of(text):
    """The attributes that are printed so in JSON, as by sfdisk."""
    names = {name: bit for bit, name in SFDISK.items()}
    words = re.split(r"[ ,]+", text.replace("GUID:", "")) if text else []
    return sum(1 << (names[word] if word in names else int(word)) for word in words)


def printed_json(out):
    """The table that `show --json` prints."""
    found = json.loads(out)["partitiontable"]
    entries = {int(re.search(r"\d+$", one["node"])[0]): table.Entry(
        one["type"].lower(), one["uuid"].lower(), one["start"], one["start"] + one["size"] - 1,
        bits_of(one.get("attrs", "")), one.get("name", "")) for one in found["partitions"]}
    return table.Table(found["id"].lower(), found["firstlba"], found["lastlba"], None, entries)


def printed_layout(out):
    """The table that `dump` prints."""
    found, names, entries = tomllib.loads(out), {name: bit for bit, name in NAMED.items()}, {}
    for one in found.get("partition", []):
        first, count = (int(one[key].removesuffix("s")) for key in ("start", "size"))
        bits = sum(1 << int(names.get(word, word)) for word in one.get("attributes", []))
        entries[one["number"]] = table.Entry(TYPES.get(one["type"], one["type"]), one["guid"], first, first + count - 1,
                                             bits, one.get("name", ""))
    disk = found["disk"]
    bounds = (int(disk[key].removesuffix("s")) for key in ("first-usable", "last-usable"))
    return table.Table(disk["guid"], *bounds, disk["entries"], entries)


def seen(program, row, words, out):
    """The table that a run left, or that a command printed which reads; None if there is none."""
    if words[0] not in ("dump", "show"):
        return table.read(program.file(IMAGE), row.sector)
    try:
        return printed_layout(out) if words[0] == "dump" else printed_json(out)
    except (ValueError, KeyError):
        return None


def mbr_of(program):
    """The start, the length and the boot mark of the protective MBR, or all 66 bytes if it is none."""
    raw = program.bytes_of(IMAGE)[446:512]
    start, length = struct.unpack_from("<II", raw, 8)
    is_one = raw[4] == 0xee and raw[64:] == b"\x55\xaa" and not any(raw[16:64])
    return f"{start} {length} {raw[0]:02x}" if is_one else raw.hex()


def free_in(out):
    """The free ranges in JSON; None if there are none."""
    try:
        found = json.loads(out)
    except ValueError:
        return None
    found = found if isinstance(found, list) else found["gptman"]["free"]
    return [(one["start_sectors"], one["start_sectors"] + one["size_sectors"] - 1) for one in found]


def as_guid(guid, wanted, before):
    """A GUID: `new` if that is wanted and no GUID before was this one, and None if any is right."""
    return "new" if wanted == "new" and guid not in before else wanted and guid


def as_wanted(one, wanted, start):
    """An entry without the parts of which any value is right."""
    if not wanted:
        return one
    before = [other.guid for other in start.entries.values()] if start else []
    place = {} if wanted.first is not None else {"first": None, "last": None}
    return one._replace(guid=as_guid(one.guid, wanted.guid, before), **place)


def result_of(program, row, runs, wanted):
    """Runs command lines until one fails. Returns those parts of the result that are wanted, and the last run."""
    before = program.state(IMAGE)
    for words, text in runs:
        ended = program.run(*words, text=text)
        if ended.status:
            break
    found = seen(program, row, words, ended.out) if wanted.keys() & {"entries", "guid", "bounds", "count"} else None
    entries, old = wanted.get("entries") or {}, [row.start.guid] if row.start else []
    parts = {"status": lambda: "not 0" if wanted["status"] == "not 0" and 0 < ended.status < 6 else ended.status,
             "is_same": lambda: program.state(IMAGE) == before,
             "entries": lambda: found and {n: as_wanted(one, entries.get(n), row.start) for n, one in
                                           found.entries.items()},
             "guid": lambda: found and as_guid(found.guid, wanted["guid"], old),
             "bounds": lambda: found and (found.first, found.last), "count": lambda: found and found.count,
             "mbr": lambda: mbr_of(program), "free": lambda: free_in(ended.out)}
    return {key: parts[key]() for key in wanted}, ended


def with_kept(row, wanted):
    """What is wanted, and what a change of partitions keeps: the GUID and the bounds of the table that was there."""
    is_kept = row.start and wanted.get("entries") and not row.length
    return {"guid": row.start.guid, "bounds": (row.start.first, row.start.last), **wanted} if is_kept else wanted


def hold(tally, program, row):
    """Counts whether gptedit does in a row what the row says."""
    make(program, row)
    before, theirs = program.state(IMAGE), with_kept(row, row.wanted)
    for runs, wanted in (row.runs, with_kept(row, row.ours) if row.ours else theirs), (row.instead, theirs):
        if runs:
            program.restore(IMAGE, before)
            got, ended = result_of(program, row, runs, wanted)
            words = " ".join(runs[-1][0])
            tally.equals(f"{row.where}: {row.verdict} {row.reason}: gptedit {words}: {ended}", wanted, got)


def try_rows(tally, program, name):
    """The rows of a file; returns how many are equal, differ and are refused."""
    rows = rows_of(name)
    with tempfile.TemporaryDirectory(dir=MEMORY if os.access(MEMORY, os.W_OK) else None) as folder:
        for row in rows:
            tally.holds(f"{row.where} has a command line, a verdict and what belongs to it", row.is_whole())
            hold(tally, Program(program.path, folder, tally), row)
    counts = [sum(row.verdict == verdict for row in rows) for verdict in VERDICTS]
    return f"{len(rows)} rows: {counts[0]} equal, {counts[1]} differ, {counts[2]} refused"


def subjects():
    """A subject for each file of rows."""
    names = sorted(os.path.basename(path) for path in glob.glob(os.path.join(ROWS, "*.txt")))
    return {f"cases of {name.removesuffix('.txt')}": lambda tally, program, name=name: try_rows(tally, program, name)
            for name in names if name != "types.txt"}


SUBJECTS = subjects()
