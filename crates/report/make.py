#!/usr/bin/env python3
"""Writes the sample job, `stdin`, and the report on it, `stdout`.

The files go into the folder that is named, or else beside this script.
"""
import struct
import sys
from pathlib import Path

ARCS = [(0, 6), (1, 1), (1, 5), (0, 4)]
MEMBERS = [(100, 8), (100, 4), (100, 4)]

REPORT = """\
cost 16 members 3
audit group 1 of 1: 0
level ok
0 at 2: proposed 8 by-arc 4 level 6
1 at 3: proposed 4 by-arc 8 level 6
2 at 4: proposed 4 by-arc 4 level 4
"""


def job(note, arcs, members):
    rows = b"".join(struct.pack("<HHI", parent, 0, cost) for parent, cost in arcs)
    shares = b"".join(struct.pack("<Qq", cap, proposed) for cap, proposed in members)
    arcs_at = len(note)
    members_at = arcs_at + len(rows)
    trailer = struct.pack("<IIHHHBB", arcs_at, members_at, len(arcs), len(members), 1, 0x54, 0x4A)
    return note + rows + shares + trailer


def main(folder):
    sample = job(b"", ARCS, MEMBERS)
    assert len(sample) == 96
    (folder / "stdin").write_bytes(sample)
    (folder / "stdout").write_text(REPORT)


if __name__ == "__main__":
    main(Path(sys.argv[1]) if len(sys.argv) > 1 else Path(__file__).resolve().parent)
