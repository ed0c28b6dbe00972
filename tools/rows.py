"""Reads the rows that scripts run: docs/ROWS.md says how they are written."""
import json
import os
import re
from typing import List, NamedTuple, Pattern

ROOT = os.path.dirname(os.path.dirname(os.path.realpath(__file__)))
FIELD = re.compile(r"([a-z][a-z ]*)(?:: (\S.*)|:| = (\".*\"))")


class Field(NamedTuple):
    """A field of a row: where it stands, its key, and its text."""

    place: str
    key: str
    text: str


class Row(NamedTuple):
    """A row: where it stands, its name, and its fields."""

    place: str
    name: str
    fields: List[Field]

    def texts(self, key: str) -> List[str]:
        return [it.text for it in self.fields if it.key == key]


def read_rows(path: str, keys: Pattern[str]) -> List[Row]:
    """The rows of a file, whose fields have such keys. A ValueError says where it isn't one."""
    with open(path, encoding="utf-8") as file:
        lines = file.read().split("\n")
    rows: List[Row] = []
    at = 0
    while at < len(lines):
        line, place = lines[at], f"{os.path.relpath(path, ROOT)}:{at + 1}"
        at += 1
        if line.startswith("== "):
            rows.append(Row(place, line[3:], []))
        elif line and not line.startswith("#"):
            found = FIELD.fullmatch(line)
            if not found or not rows or not keys.fullmatch(found[1]):
                raise ValueError(f"{place}: neither a row nor a field: {line}")
            text = json.loads(found[3]) if found[3] else found[2] or ""
            if line.endswith(":") and not found[2]:
                start = at
                while at < len(lines) and lines[at].startswith("  "):
                    at += 1
                text = "\n".join(it[2:] for it in lines[start:at])
            rows[-1].fields.append(Field(place, found[1], text))
    return rows
