"""The tables of this folder, read for the tests of each kit."""
from __future__ import annotations

import os
import re
from dataclasses import dataclass
from typing import List, Optional

HERE = os.path.dirname(os.path.abspath(__file__))


@dataclass(frozen=True)
class Case:
    """A text, what it reads as, and the text that is written for it, if it is accepted."""

    table: str
    line: int
    text: bytes
    answer: str
    written: Optional[bytes]


def spelled(field: str) -> bytes:
    """Returns the bytes of a text in the notation of the tables."""
    repeated = re.sub(r"\{([0-9]+)\*([^}]*)\}", lambda it: it[2] * int(it[1]), field)
    return re.sub(rb"%([0-9a-f]{2})", lambda it: bytes([int(it[1], 16)]), repeated.encode("utf-8"))


def cases(name: str) -> List[Case]:
    """Returns the cases of a table."""
    found = []
    with open(os.path.join(HERE, name), encoding="utf-8", newline="\n") as table:
        for number, line in enumerate(table, 1):
            fields = line.rstrip("\n").split("\t")
            if len(fields) > 1 and not line.startswith("#"):
                written = spelled(fields[2]) if len(fields) > 2 else None
                found.append(Case(name, number, spelled(fields[0]), fields[1], written))
    return found
