"""Checks JSON against a JSON schema, by the keywords that docs/gptedit.schema.json uses."""
import json
import re

NOTES = {"$schema", "title", "description", "definitions"}
TYPES = {"object": dict, "array": list, "string": str, "boolean": bool, "integer": int, "null": type(None)}


class Schema:
    """A schema. Where it is strict, a member that `properties` does not name is a fault, although the schema permits
    it: the schema is to describe every member that is printed."""

    def __init__(self, path, is_strict=True):
        self.is_strict = is_strict
        with open(path, encoding="utf-8") as file:
            self.root = json.load(file)

    def rule(self, name=None):
        """The schema of a definition, or the whole schema."""
        return self.root["definitions"][name] if name else self.root

    def faults(self, value, rule, place="$"):
        """What is wrong with a value, as a list of texts."""
        unknown = set(rule) - NOTES - set(KEYWORDS)
        found = [f"{place}: keywords that are not supported: {sorted(unknown)}"] if unknown else []
        for keyword, wanted in rule.items():
            if keyword in KEYWORDS:
                found += KEYWORDS[keyword](self, value, wanted, place)
        return found


def is_type(value, name):
    """Whether a value has a type of JSON."""
    return isinstance(value, TYPES[name]) and (name == "boolean" or not isinstance(value, bool))


def plain(holds, place, value, wanted):
    """A fault, unless something holds."""
    return [] if holds else [f"{place}: {json.dumps(value)[:200]} is not {json.dumps(wanted)[:200]}"]


def by_reference(schema, value, wanted, place):
    """`$ref` to a definition."""
    return schema.faults(value, schema.rule(re.fullmatch("#/definitions/(.*)", wanted)[1]), place)


def by_any(schema, value, wanted, place):
    """`anyOf`: the faults by the rule that finds the fewest, above all of the value itself."""
    def cost(found):
        return sum(fault.startswith(f"{place}:") for fault in found), len(found)
    return min((schema.faults(value, rule, place) for rule in wanted), key=cost)


def by_required(_schema, value, wanted, place):
    """`required`."""
    return [f"{place}: {name} is missing" for name in wanted if isinstance(value, dict) and name not in value]


def by_properties(schema, value, wanted, place):
    """`properties`."""
    found = []
    for name, one in value.items() if isinstance(value, dict) else ():
        if name in wanted:
            found += schema.faults(one, wanted[name], f"{place}.{name}")
        elif schema.is_strict:
            found.append(f"{place}.{name} is not described")
    return found


def by_items(schema, value, wanted, place):
    """`items`."""
    each = enumerate(value) if isinstance(value, list) else ()
    return [fault for i, one in each for fault in schema.faults(one, wanted, f"{place}[{i}]")]


KEYWORDS = {
    "$ref": by_reference, "anyOf": by_any, "required": by_required, "properties": by_properties,
    "items": by_items,
    "type": lambda _schema, value, wanted, place: plain(is_type(value, wanted), place, value, wanted),
    "enum": lambda _schema, value, wanted, place: plain(value in wanted, place, value, wanted),
    "const": lambda _schema, value, wanted, place: plain(value == wanted, place, value, wanted),
    "pattern": lambda _schema, value, wanted, place: plain(not isinstance(value, str) or re.search(wanted, value),
                                                           place, value, wanted),
    "minimum": lambda _schema, value, wanted, place: plain(not is_type(value, "integer") or value >= wanted, place,
                                                           value, {"minimum": wanted}),
    "minItems": lambda _schema, value, wanted, place: plain(not isinstance(value, list) or len(value) >= wanted,
                                                            place, value, {"minItems": wanted}),
}
