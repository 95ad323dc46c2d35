"""add.py IMAGE FIRST LAST NAME: adds a partition for Linux from sector FIRST to LAST.

Its number is the lowest that is not used.
"""

import sys
import uuid

import gptman

LINUX = uuid.UUID("0fc63daf-8483-4772-8e79-3d69d8477de4")

path, first, last, name = sys.argv[1:]
with gptman.Disk(path, writable=True) as disk:
    number = next(number for number in range(1, disk.entry_count + 1) if number not in disk.partitions)
    disk.partitions[number] = gptman.Partition(LINUX, int(first), int(last), name)
    disk.write()
