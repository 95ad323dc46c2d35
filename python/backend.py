"""Builds the wheel of gptman for `pip install .`, with Python's own modules only: no setuptools, no network.

The same sources give the same bytes. There is no source distribution: the repository is the source.
"""

import base64
import glob
import hashlib
import os
import zipfile

VERSION = "0.1.0"
INFO = f"gptman-{VERSION}.dist-info"
METADATA = f"""Metadata-Version: 2.1
Name: gptman
Version: {VERSION}
Summary: GUID partition tables that survive a crash
License: Apache-2.0 OR MIT
Requires-Python: >=3.8
"""
WHEEL = """Wheel-Version: 1.0
Generator: gptman
Root-Is-Purelib: true
Tag: py3-none-any
"""


def build_wheel(folder, config_settings=None, metadata_directory=None):
    """Writes the wheel to a folder and returns its name, as PEP 517 has it. Runs in the folder of pyproject.toml."""
    files = {f"{INFO}/METADATA": METADATA.encode(), f"{INFO}/WHEEL": WHEEL.encode()}
    for path in sorted(glob.glob("gptman/*.py")) + ["gptman/py.typed"] + sorted(glob.glob("../LICENSE-*")):
        with open(path, "rb") as file:
            files[path.replace("..", INFO)] = file.read()
    record = "".join(f"{path},sha256={digest_of(data)},{len(data)}\n" for path, data in files.items())
    files[f"{INFO}/RECORD"] = f"{record}{INFO}/RECORD,,\n".encode()
    name = f"gptman-{VERSION}-py3-none-any.whl"
    with zipfile.ZipFile(os.path.join(folder, name), "w") as wheel:
        for path, data in files.items():
            wheel.writestr(zipfile.ZipInfo(path), data, zipfile.ZIP_DEFLATED)
    return name


def digest_of(data):
    """The SHA-256 of bytes, as RECORD has it."""
    return base64.urlsafe_b64encode(hashlib.sha256(data).digest()).rstrip(b"=").decode()
