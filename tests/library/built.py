"""The library, linked, and programs in C over it."""
import os
import subprocess
from typing import NamedTuple

TOP = os.path.realpath(os.path.join(os.path.dirname(os.path.abspath(__file__)), "..", ".."))
WARNINGS = ["-Wall", "-Wextra", "-Werror", "-pedantic"]


class Library(NamedTuple):
    """The folder with libgptman.a and libgptman.so.1, which is the one to try things in."""

    folder: str

    def compile(self, source, name, *words, language="c99"):
        """Compiles a program in C or C++ over the static library."""
        compiler = "c++" if "+" in language else "cc"
        path = os.path.join(self.folder, name)
        subprocess.run([compiler, "-std=" + language, *WARNINGS, "-I" + os.path.join(TOP, "include"), source,
                        os.path.join(self.folder, "libgptman.a"), "-o", path, *words], check=True)
        return path

    def environment(self):
        """That in which Python finds the module and the library."""
        return {**os.environ, "PYTHONPATH": os.path.join(TOP, "python"), "PYTHONDONTWRITEBYTECODE": "1",
                "GPTMAN_LIBRARY": os.path.join(self.folder, "libgptman.so.1")}


def build(archive, folder):
    """Links the library into the folder, as `make lib` does."""
    subprocess.run([os.path.join(TOP, "scripts", "link_library"), archive, folder], check=True)
    os.environ["GPTMAN_LIBRARY"] = os.path.join(folder, "libgptman.so.1")
    return Library(folder)
