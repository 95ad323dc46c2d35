"""Counts what holds and what does not, subject by subject."""
import shutil


def cut(value):
    """The value as text in one line, cut where it is long."""
    text = repr(value)
    return text if len(text) <= 1000 else f"{text[:1000]}.. ({len(text)} characters)"


def print_line(name, does_hold, line):
    """Prints the line of a subject."""
    print(f"{'ok      ' if does_hold else 'FAILED  '}{name}: {line}", flush=True)


class Tally:
    """How many things held and did not. Prints a line for each subject, and in full what does not hold."""

    def __init__(self):
        self.passed = 0
        self.failed = 0

    def counts(self, what, does_hold, wanted, got):
        """Counts whether something holds: what was tried, whether it holds, what was wanted, what came."""
        if does_hold:
            self.passed += 1
        else:
            self.failed += 1
            print(f"FAILED  {what}\n        wanted: {cut(wanted)}\n        got:    {cut(got)}")

    def equals(self, what, wanted, got):
        """Counts whether two values are the same."""
        self.counts(what, wanted == got, wanted, got)

    def holds(self, what, does_hold):
        """Counts whether something holds."""
        self.equals(what, True, bool(does_hold))

    def contains(self, what, wanted, got):
        """Counts whether a text has another one in it."""
        self.counts(what, wanted in got, wanted, got)

    def is_one_of(self, what, got, *wanted):
        """Counts whether a value is one of the wanted ones."""
        self.counts(what, got in wanted, wanted, got)

    def told(self, name, does_hold, line):
        """Counts whether something holds that is a subject by itself, and prints its line."""
        self.passed += does_hold
        self.failed += not does_hold
        print_line(name, does_hold, line)

    def leave_out(self, why, what):
        """Prints what is left out, and why."""
        print(f"-- {why}: {what} is left out")

    def has(self, tool):
        """Whether a tool is installed. Prints a line where it is not."""
        if shutil.which(tool):
            return True
        self.leave_out(f"{tool} is not installed", "what is tried with it")
        return False

    def subject(self, name, run, *words):
        """Tries a subject, and prints a line of how many things were tried in it, and the note that it gives."""
        passed, failed = self.passed, self.failed
        try:
            note = run(self, *words)
        except Exception as error:  # what comes after it is tried all the same
            note = None
            place = error.__traceback__.tb_next
            where = f" in line {place.tb_lineno}" if place else ""
            self.equals(f"{name} is not finished", None, f"{error!r}{where}")
        tried = self.passed + self.failed - passed - failed
        print_line(name, self.failed == failed, f"{tried} tried" + (f", {note}" if note else ""))

    def end(self):
        """Prints the last line, and gives the status."""
        print(f"{self.passed} passed, {self.failed} failed")
        return 1 if self.failed else 0
