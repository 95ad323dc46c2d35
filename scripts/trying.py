"""Tries wrong bodies of functions: in a copy of the crates, one body for each function and check."""

import glob
import shutil
from typing import NamedTuple

import contracts
import prover

# A check of more functions takes more memory than its share.
MOST = 16


class Trial(NamedTuple):
    """A wrong body: its function, the lines that it replaces, what it puts there, the clauses that it breaks, and its text.

    Where it stands in a function of its own beside the right one, that has the function's name and `added`. Where it
    replaces more than a line, the proof of the right body goes with it."""

    call: contracts.Call
    at: int
    until: int
    new: str
    breaks: list
    text: str
    added: str = ""

    def symbol(self):
        """The end of what the prover calls the function, without signs."""
        return contracts.symbol_of(self.call.name) + self.added


def checked(copy, group):
    """What is said of each function with these bodies, and all that the prover prints."""
    copy.restore()
    for trial in sorted(group, key=lambda trial: -trial.at):
        path = f"{copy.folder}/{trial.call.file}"
        lines = contracts.lines_of(path)
        lines[trial.at : trial.until] = [trial.new]
        if trial.until > trial.at + 1:
            for proof in glob.glob(f"{copy.folder}/proofs/**/{trial.symbol().replace('::', '/')}", recursive=True):
                shutil.rmtree(proof)
        with open(path, "w", encoding="utf-8") as source:
            source.write("\n".join(lines))
    return copy.run({trial.symbol() for trial in group})


def groups(trials):
    """The bodies in groups of which no two are of one function."""
    while trials:
        group, left = {}, []
        for trial in trials:
            is_apart = trial.symbol() not in group and len(group) < MOST
            left += [] if is_apart else [trial]
            group.update({trial.symbol(): trial} if is_apart else {})
        yield list(group.values())
        trials = left


def clauses_of(goals, call):
    """The clauses of the call that these goals name, each once."""
    return [name for name in dict.fromkeys(contracts.clause_of(goal, call) for goal in goals) if name is not None]


def judged(said, trial):
    """The clauses that refuse a body, which of those that it breaks do not, and what the prover says of the call."""
    one = prover.of_function(said, trial.symbol()) or prover.Said("the check does not tell of it", [], [], False)
    words, refused, given_up = one.verdict, one.refused, one.given_up
    clauses = clauses_of(refused, trial.call)
    late = [name.strip("-") for name in trial.breaks] if "returns" in refused + given_up else clauses_of(given_up, trial.call)
    clauses += [name for name in late if (name or "-") in trial.breaks and name not in clauses]
    return clauses, {*trial.breaks} - {name or "-" for name in clauses}, f"{words[:80]} {refused} {given_up}"


def tried(crate, trials, wants_all=True):
    """The clauses that refuse each body, by call, and what is wrong: a body that none refuses, or not all that it breaks."""
    found, wrong, left = {}, [], [*groups(trials)]
    copy = prover.Copy(crate, prover.commands()[crate])
    while left:
        group = left.pop(0)
        said, whole = checked(copy, group)
        if not said:
            raise SystemExit(whole)
        for trial in group:
            clauses, lacking, words = judged(said, trial)
            if clauses and not (wants_all and lacking):
                found.setdefault(trial.call.name, []).append((clauses, trial.text))
            elif len(group) > 1:  # it may call another function that is wrong in this group
                left.append([trial])
            else:
                wrong.append(f"{crate}: {trial.call.name}: {trial.text}: {words} {' '.join(lacking)}")
    copy.remove()
    return found, wrong


def lines_for(clauses, body):
    """The line that is kept of a body."""
    return f"    {' '.join(name or '-' for name in clauses)}: {body}"
