"""Reads the commands of gptedit and their options from the table in its source."""

import re
from typing import NamedTuple

SOURCE = "crates/gptedit_words/src/commands.rt"
TEXT = r'"((?:[^"\\]|\\.|\\\n)*)"'
PLACES = ("Place", "Places", "MayPlace")


class Argument(NamedTuple):
    """An argument: an option with its hyphens, or a place, and what it takes."""

    name: str
    letter: str
    value: str
    about: str
    is_place: bool


class Command(NamedTuple):
    """A command, with its own arguments and the options that it shares with others."""

    name: str
    about: str
    own: list
    shared: list

    def options(self):
        """All its options."""
        return [one for one in self.own + self.shared if not one.is_place]


def plain(text):
    """The text of a literal."""
    return re.sub(r"\\\n\s*", "", text).replace("{n}", " ").replace('\\"', '"')


def argument_of(kind, inside, texts):
    """The argument that `Argument::kind(inside)` is."""
    words = [plain(text) if text else texts.get(name, name) for text, name in re.findall(TEXT + r"|\b([A-Z][A-Z_]+)\b(?!::)", inside)]
    letter = re.search(r"'(.)'", inside)
    value = words[1] if kind == "Value" else "N" if kind == "Number" else ""
    return Argument(words[0], letter[1] if letter else "", value, words[-1], kind in PLACES)


def arguments_in(source, texts, named):
    """The arguments that a list has, inline or by their names."""
    found = []
    for match in re.finditer(r"Argument::(\w+)\(((?:" + TEXT + r"|[^()\"])*)\)|\b([A-Z]{2,})\b", re.sub(r"^\s*//.*$", "", source, flags=re.M)):
        if match[1]:
            found.append(argument_of(match[1], match[2], texts))
        elif match[4] in named:
            found.append(named[match[4]])
    return found


def commands():
    """All commands, in the order of the help."""
    with open(SOURCE, encoding="utf-8") as file:
        source = file.read()
    texts = {name: plain(text) for name, text in re.findall(r"^const (\w+): &str = " + TEXT + ";", source, re.M)}
    named = {}
    for name, kind, inside in re.findall(r"^const (\w+): Argument = Argument::(\w+)\((.*?)\);$", source, re.M | re.S):
        named[name] = argument_of(kind, inside, texts)
    lists = {name: arguments_in(inside, texts, named) for name, inside in re.findall(r"^const (\w+): &\[Argument\] = &\[(.*?)\];$", source, re.M | re.S)}
    found = []
    blocks = re.findall(r"^    Definition \{\n        name: " + TEXT + r",\n        about: " + TEXT + r",\n.*?arguments: &\[(.*?)\],\n        options: (.*?),\n    \}", source, re.M | re.S)
    for name, about, own, options in blocks:
        shared = lists[options] if options in lists else arguments_in(options, texts, named)
        found.append(Command(name, plain(about), arguments_in(own, texts, named), shared))
    return found
