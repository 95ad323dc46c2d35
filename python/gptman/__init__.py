"""GUID partition tables that survive a crash, by the library libgptman.so.1.

    import gptman

    with gptman.Disk("disk.img") as disk:
        for number, partition in disk.partitions.items():
            print(number, partition.first_lba, partition.last_lba, partition.name)

The library reads and plans, which is proved; this package does the input and output, which is tested. It loads the
library from the path in the environment variable GPTMAN_LIBRARY, else from beside the package, else from the prefix
that both are installed under, else as the system's loader finds it. The import fails with `ImportError` if it is not
there.
"""

from ._calls import crc32 as crc32, version as version
from ._disk import Copies as Copies, Disk as Disk, Partition as Partition, Step as Step, check as check
from .errors import *

# Another name of `Error`.
Fault = Error
