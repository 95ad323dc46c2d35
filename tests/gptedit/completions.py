"""What bash completes: the commands and options that the help of the program prints, its types, and the words that
the manual page has for values. The same in fish, and the file for zsh is read by it, where they are installed."""
import os
import re
import subprocess

FOLDER = os.path.join(os.path.dirname(os.path.abspath(__file__)), "..", "..", "completions")
COMMANDS = ["show", "check", "free", "dump", "salvage", "types", "new", "add", "set", "resize", "remove", "sort", "grow",
            "repair", "randomize", "apply", "wipe"]
OPTION = re.compile(r"^ +(?:(-\w), )?(--[\w-]+)", re.M)
SCRIPT = """. "$1"
shift
COMP_WORDS=(gptedit "$@")
COMP_CWORD=$#
_gptedit
printf '%s\\n' "${COMPREPLY[@]}"
"""


def completed(*words):
    """What bash completes the last of these words to."""
    run = ["bash", "-c", SCRIPT, "bash", f"{FOLDER}/gptedit.bash", *words]
    done = subprocess.run(run, stdout=subprocess.PIPE, stderr=subprocess.STDOUT, text=True, check=False)
    return done.stdout.split()


def options_in(text):
    """The options that a help text lists."""
    return sorted({form for forms in OPTION.findall(text) for form in forms if form})


def try_commands(tally, program):
    """The first word, and the options of each command."""
    tally.equals("the first word", sorted([*COMMANDS, "help", "--help", "--version"]), sorted(completed("")))
    tally.equals("what help is of", sorted(COMMANDS), sorted(completed("help", "")))
    tally.equals("nothing more", [], completed("help", "add", ""))
    tally.equals("a beginning", ["randomize"], completed("ra"))
    tally.equals("a wrong beginning", [], completed("x"))
    tally.equals("commands that have help", set(COMMANDS), set(re.findall(r"^  (\w+)", program.plain("--help")[1], re.M)) - {"help"})
    for command in COMMANDS:
        tally.equals(f"options of {command}", options_in(program.plain(command, "--help")[1]), sorted(completed(command, "disk.img", "-")))
        tally.equals(f"words of {command} that are no options", [], completed(command, ""))


def try_values(tally, program):
    """Values of options."""
    names = [line.split()[0] for line in program.plain("types")[1].splitlines()[1:]]
    tally.holds("there are types", len(names) > 200)
    tally.equals("types", names, completed("add", "disk.img", "--type", ""))
    tally.equals("types that begin with sw", ["swap"], completed("set", "disk.img", "1", "--type", "sw"))
    # bash splits a word at the sign.
    tally.equals("types after =", names, completed("add", "disk.img", "--type", "="))
    tally.equals("types that begin with sw after =", ["swap"], completed("set", "disk.img", "1", "--type", "=", "sw"))
    tally.equals("places after =", ["first", "last", "best"], completed("add", "disk.img", "--place", "="))
    tally.equals("values of --name after =", [], completed("add", "disk.img", "--name", "=", ""))
    tally.equals("places", ["first", "last", "best"], completed("add", "disk.img", "--place", ""))
    tally.equals("locks", ["wait", "fail", "none"], completed("new", "disk.img", "--lock", ""))
    tally.equals("sector sizes", ["512", "1024", "2048", "4096", "auto"], completed("show", "disk.img", "--sector", ""))
    for option in "--name", "--guid", "--size", "--start", "--end", "--align", "--attributes", "--number", "--entries", "--backup":
        tally.equals(f"values of {option}", [], completed("add", "disk.img", option, ""))


def try_zsh(tally, _program):
    """The file for zsh is a script of zsh."""
    if tally.has("zsh"):
        done = subprocess.run(["zsh", "-n", f"{FOLDER}/_gptedit"], stdout=subprocess.PIPE, stderr=subprocess.STDOUT, text=True, check=False)
        tally.equals("zsh reads its file", (0, ""), (done.returncode, done.stdout))


def try_fish(tally, program):
    """What fish completes."""
    if tally.has("fish"):
        tally.equals("the first word in fish", {*COMMANDS, "help"}, set(in_fish("gptedit ")))
        tally.equals("places in fish", {"first", "last", "best"}, set(in_fish("gptedit add disk.img --place ")))
        for command in COMMANDS:
            wanted = {word for word in options_in(program.plain(command, "--help")[1]) if word.startswith("--")}
            tally.equals(f"options of {command} in fish", wanted, set(in_fish(f"gptedit {command} disk.img --")))


def in_fish(line):
    """The words to which fish completes the last word of a line."""
    run = ["fish", "--no-config", "-c", f"source {FOLDER}/gptedit.fish; complete -C '{line}'"]
    done = subprocess.run(run, stdout=subprocess.PIPE, stderr=subprocess.STDOUT, text=True, check=False)
    return [found.split("\t")[0] for found in done.stdout.splitlines()]


SUBJECTS = {"commands": try_commands, "values": try_values, "zsh": try_zsh, "fish": try_fish}
