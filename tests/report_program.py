#!/usr/bin/env python3
"""Runs the report program on jobs and compares what it prints: report_program.py PROGRAM

The expected text is worked out by the test vectors' script, with no call of the engine.
"""
import random
import subprocess
import sys
from pathlib import Path

sys.dont_write_bytecode = True
TOP = Path(__file__).resolve().parent.parent
sys.path.insert(0, str(TOP / "crates/test_vectors/script"))
sys.path.insert(0, str(TOP / "crates/report"))

from by_arc import by_arc_split
from job import FIRST, SECOND, held_job
from level import level_split
from make import job as packed
from networks import T, U, W, broom, chain, comb, random_caps, random_proposal, random_tree, star
from rules import (
    MOST_CAP,
    MOST_SHARE,
    Refusal,
    all_marked,
    best_group,
    member_count,
    member_vertices,
    whole_cost,
)
from writer import job_bytes


def audit_lines(tree, proposal):
    """A line where the total is off, then one where a group overpays; else a pass."""
    difference = sum(proposal) - whole_cost(tree)
    over, group = best_group(tree, proposal)
    found = [f"audit total {difference}"] if difference else []
    if over:
        found.append(f"audit group {over} of {len(group)}: " + " ".join(map(str, group)))
    return found or ["audit pass"]


def lines(data):
    """The lines of the report on a job."""
    try:
        _, tree, caps, proposal, _ = held_job(data, FIRST)
    except Refusal as refusal:
        return [str(refusal)]
    count = len(caps)
    found = [f"cost {whole_cost(tree)} members {count}", *audit_lines(tree, proposal)]
    try:
        level = level_split(tree, caps)
        found.append("level ok")
    except Refusal as refusal:
        level = ["-"] * count
        found.append(f"level {refusal} short {refusal.shortfall}")
    by_arc = by_arc_split(tree)
    for j, vertex in enumerate(member_vertices(tree)):
        found.append(f"{j} at {vertex}: proposed {proposal[j]} by-arc {by_arc[j]} level {level[j]}")
    return found


def job_of(tree, caps, proposal, note=b""):
    return packed(note, list(zip(tree.parents, tree.costs)), list(zip(caps, proposal)))


def second(data):
    """A job of version 1 as one of version 2."""
    return job_bytes(held_job(data, FIRST), SECOND)


def jobs():
    yield job_of(T, [100] * 3, [8, 4, 4])
    yield second(job_of(T, [100] * 3, [8, 4, 4]))
    yield job_of(T, [3, 8, 100], [8, 4, 5], b"note")
    yield job_of(T, [100] * 3, [7, 5, 4])
    yield job_of(T, [100] * 3, [-1, 13, 4])
    yield job_of(T, [100] * 3, [9, 9, 9])
    yield job_of(T, [100] * 3, [-1, -1, -1])
    yield job_of(U, [3, 100], [0, -7])
    yield job_of(W, [100] * 3, [7, 7, 6])
    for size in (0, 15, 16, 24_823, 24_824, 30_000):
        yield bytes(size)
    for shape in (chain, star, broom, comb):
        tree = all_marked(shape(1023), [10**9] * 1023)
        count = member_count(tree)
        for share in (-MOST_SHARE, MOST_SHARE):
            data = job_of(tree, [MOST_CAP] * count, [share] * count, bytes(255))
            yield data
            yield second(data)
    dice = random.Random(20261115)
    for arcs in [dice.randint(1, 12) for _ in range(60)]:
        tree = random_tree(dice, arcs)
        more = dice.randint(-1, 1)
        proposal = [share + more for share in random_proposal(dice, tree)]
        data = job_of(tree, random_caps(dice, tree), proposal, bytes(dice.randrange(4)))
        yield data
        at = dice.randrange(len(data))
        yield data[:at] + bytes([dice.randrange(256)]) + data[at + 1 :]


def main(program):
    tried = 0
    for data in jobs():
        expected = "".join(line + "\n" for line in lines(data))
        printed = subprocess.run([program], input=data, capture_output=True, check=True).stdout.decode()
        if printed != expected:
            sys.exit(f"report: other text on the job {data.hex()[:400]}\n{printed[:400]}")
        tried += 1
    print(f"report: {tried} jobs")


if __name__ == "__main__":
    main(sys.argv[1])
