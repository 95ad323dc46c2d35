"""Arguments at random, and requests for memory that are refused in turn, by the program wild.c."""
import os
import re
import subprocess

from harness.runs import there
from built import TOP
from handles import SANITIZED

WRAPPED = ["-Wl,--wrap=malloc", "-Wl,--wrap=realloc", "-Wl,--wrap=free"]
CALLS = "read check write new fit dos mbr place get_name set_name fault_name".split()


def compile_wild(library, name, *words):
    return library.compile(os.path.join(TOP, "tests", "library", "wild.c"), name, "-O1", *words, *WRAPPED)


def start(program):
    """The image from whose ends most calls are made."""
    program.make_image("disk.img", 1 << 17)
    program.run("disk.img", "512", "new", "00112233445566778899aabbccddeeff")


def tell(ended):
    """The note of a run that ended, and what each call was done of its times."""
    note = ended.stdout.decode().strip()
    times, done = re.search(r"(\d+) calls of each at random, done of them: (.*)", note).groups() if note else (1, "")
    return note, {name: int(number) / int(times) for name, number in re.findall(r"(\w+) (\d+)", done)}


def try_wild(tally, library, program):
    """No access is wrong, no answer is none of those that are named, all memory is given back, and each call is done
    in a quarter of its times and more."""
    start(program)
    path = compile_wild(library, "wild")
    ended = subprocess.run([path, program.file("disk.img"), "3000"], stdout=subprocess.PIPE, stderr=subprocess.PIPE,
                           check=False)
    tally.equals("what wild says, and its status", ("", 0), (ended.stderr.decode(), ended.returncode))
    note, done = tell(ended)
    tally.equals("the calls that are tried", set(CALLS), set(done))
    for name, share in done.items():
        tally.holds(f"{name} is done in {share:.0%} of its times", share >= 0.25)
    tally.holds(f"some requests for memory are refused: {note}", not note.startswith("0 "))
    if not there("valgrind"):
        return f"{note}; valgrind is not installed: accesses are not watched by it"
    words = ["valgrind", "-q", "--error-exitcode=9", path, program.file("disk.img"), "20"]
    ended = subprocess.run(words, stdout=subprocess.PIPE, stderr=subprocess.PIPE, check=False)
    tally.equals(f"valgrind finds nothing: {ended.stderr.decode()[:400]}", 0, ended.returncode)
    tally.equals("the calls that are done under valgrind", set(CALLS),
                 {name for name, share in tell(ended)[1].items() if share})
    return f"{note}; 20 of each under valgrind"


def try_sanitizers(tally, library, program):
    """Nor do the sanitizers of accesses and of undefined behaviour find anything, where the compiler has them."""
    start(program)
    try:
        path = compile_wild(library, "wild-sanitized", *SANITIZED)
    except subprocess.CalledProcessError:
        return "left out: the compiler has no sanitizers"
    # A request that is too large is refused, as without them.
    ended = subprocess.run([path, program.file("disk.img"), "1000"], stdout=subprocess.PIPE, stderr=subprocess.PIPE,
                           check=False, env={**os.environ, "ASAN_OPTIONS": "allocator_may_return_null=1"})
    tally.equals(f"the sanitizers find nothing: {ended.stderr.decode()[:400]}", 0, ended.returncode)
    return tell(ended)[0]


SUBJECTS = {"arguments at random": try_wild, "arguments at random, sanitized": try_sanitizers}
