"""The fields of a case as the program reads and prints them."""
from typing import NamedTuple

from rules import Tree
from classes import Classed
from states import State

# what an entry of an output is before a call
UNTOUCHED = 9


class EachByte(NamedTuple):
    """Bytes of which the one at a place is each byte in turn."""

    data: bytes
    place: int

    def all(self):
        start, end = self.data[: self.place], self.data[self.place + 1 :]
        return [start + bytes([byte]) + end for byte in range(256)]


def shown(field):
    if isinstance(field, int):
        return str(field)
    if isinstance(field, bytes):
        return field.hex() or "-"
    if isinstance(field, EachByte):
        return f"{field.data[: field.place].hex()}**{field.data[field.place + 1 :].hex()}"
    if isinstance(field, (Tree, Classed)):
        return " ".join(map(shown, field))
    if isinstance(field, State):
        return " ".join([str(field.arcs), *map(trimmed, field.lists), str(field.committed)])
    return ",".join(map(str, field)) or "-"


def trimmed(entries):
    """A list as shown, without the zeros at its end."""
    end = len(entries)
    while end > 0 and entries[end - 1] == 0:
        end -= 1
    return shown(entries[:end])
