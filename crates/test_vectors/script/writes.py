"""The cases of the job writer."""
import random

from rules import MOST_ARCS, MOST_CAP, MOST_COST, MOST_SHARE, dead_end_marks
from entries import answer
from job import FIRST, MOST_NOTE, TRAILER, first_job
from job_cases import BEYOND_CAP, BEYOND_SHARE, GREATEST, LARGE, LEAST, MOST_OUTPUT, NOTES, T_ARCS, one
from marks import lists
from networks import chain, comb, random_caps, random_proposal, random_tree, star, with_entry
from trees import FAULTY_ARCS, damaged
from writer import job_bytes

# parents, costs, caps and proposals
T_VALUES = *T_ARCS, [100, 100, 100], [8, 4, 4]
ONE_VALUES = [0], [7], [100], [-1]

# the longest note, one byte more, and the longest that a case may have
LONG_NOTES = [bytes(MOST_NOTE), bytes(MOST_NOTE + 1), b"\xff" * 300]


def write(values, note=b"", more=0):
    """A case whose output is longer than the job by `more` bytes, or shorter where that is negative."""
    data = one.job(*values, note=note)
    assert job_bytes(first_job(note, *values), FIRST) == data
    return "write", note, *values, len(data) + more


def numbered(parents):
    """Values on these arcs: costs and caps from 0 up, shares from 0 down."""
    count = sum(dead_end_marks(parents))
    return parents, list(range(len(parents))), list(range(count)), list(range(0, -count, -1))


def small_writes():
    """Every network of up to 5 arcs."""
    dice = random.Random(3)
    for arcs in range(1, 6):
        for parents in lists(*map(range, range(1, arcs + 1))):
            members = range(sum(dead_end_marks(parents)))
            costs = [dice.randrange(10) for _ in parents]
            caps, proposals = [dice.randrange(10) for _ in members], [dice.randint(-9, 9) for _ in members]
            note = dice.randbytes(dice.randrange(3))
            yield write((parents, costs, caps, proposals), note, dice.randrange(3))


def write_notes():
    for values in (T_VALUES, ONE_VALUES):
        for note in NOTES + LONG_NOTES:
            yield write(values, note)
    # a note that looks like a job, like a trailer, and like the output before the call
    for note in (one.t_job, one.t_job[-TRAILER:], b"\x09" * 20):
        yield write(T_VALUES, note)


def output_lengths():
    for values in (T_VALUES, ONE_VALUES):
        for note in (b"", b"x", bytes(range(MOST_NOTE))):
            *called, length = write(values, note)
            for out in (0, 1, 15, 16, length - 16, length - 1, length, length + 1, length + 16, MOST_OUTPUT):
                yield *called, out


def write_limits():
    """Costs, caps, shares and parents at their limits and past them, and numbers of every byte."""
    parents, costs, caps, proposals = T_VALUES
    for cost in (0, 255, 256, 2**16, 2**24, 0x01020304, MOST_COST - 1, MOST_COST, LARGE, 2**31, 2**32 - 1):
        for place in range(4):
            yield write((parents, with_entry(costs, place, cost), caps, proposals))
    for cap in (0, 256, 0x0102030405, MOST_CAP - 1, MOST_CAP, BEYOND_CAP, 2**53, 2**63, 2**64 - 1):
        for place in range(3):
            yield write((*T_ARCS, with_entry(caps, place, cap), proposals))
    shares = [0, -1, -256, 0x0102030405, -0x0102030405, 2**32, -(2**32), MOST_SHARE, -MOST_SHARE]
    for share in shares + [BEYOND_SHARE, -BEYOND_SHARE, LEAST, LEAST + 1, GREATEST]:
        for place in range(3):
            yield write((*T_ARCS, caps, with_entry(proposals, place, share)))
    yield write((*T_ARCS, [MOST_CAP] * 3, [-MOST_SHARE, 0, MOST_SHARE]))
    # 7 at the lowest member
    for caps in ([0, BEYOND_CAP, 2**64 - 1], [2**64 - 1, BEYOND_CAP, 0]):
        yield write((*T_ARCS, caps, [LEAST] * 3))
    for proposals in ([0, BEYOND_SHARE, LEAST], [LEAST, 0, BEYOND_SHARE]):
        yield write((*T_ARCS, [MOST_CAP] * 3, proposals))
    for parent in (255, 256, 257, 299, 300):
        yield write(numbered(chain(299) + [parent, 0, 0]))


def large_writes():
    """As many arcs as there can be, the longest job, and more arcs than there can be."""
    note = bytes(range(MOST_NOTE))
    caps = [MOST_CAP - j for j in range(MOST_ARCS)]
    proposals = [(-1) ** j * (MOST_SHARE - j) for j in range(MOST_ARCS)]
    longest = star(MOST_ARCS), chain(MOST_ARCS), caps, proposals
    assert write(longest, note)[-1] == FIRST.most_bytes
    yield write(longest, note)
    yield write(longest, note, -1)
    yield write(numbered(star(MOST_ARCS)), note, MOST_OUTPUT - FIRST.most_bytes)
    yield write((chain(MOST_ARCS), [MOST_COST - arc for arc in range(MOST_ARCS)], [MOST_CAP], [-MOST_SHARE]))
    yield write(numbered(chain(MOST_ARCS)), note)
    yield write(numbered(comb(MOST_ARCS)), b"comb")
    # a fault in the last entry
    yield write(numbered(chain(MOST_ARCS - 1) + [MOST_ARCS]))
    parents, costs, caps, proposals = numbered(star(MOST_ARCS))
    yield write((parents, with_entry(costs, MOST_ARCS - 1, LARGE), caps, proposals))
    yield write((parents, costs, with_entry(caps, MOST_ARCS - 1, BEYOND_CAP), proposals))
    yield write((parents, costs, caps, with_entry(proposals, MOST_ARCS - 1, -BEYOND_SHARE)))
    # 1 alone, and before 3
    for parents in ([], star(MOST_ARCS + 1), chain(MOST_ARCS + 1), star(1100), [1] * (MOST_ARCS + 1)):
        yield "write", b"", *numbered(parents), MOST_OUTPUT


def without_last(entries):
    return entries[:-1]


def with_one_more(entries):
    return [*entries, 0]


def with_second(entry):
    return lambda entries: with_entry(entries, 1, entry)


# the refusals in their order: number, place, and two changes of one of T's fields that lead to it
ORDER = [
    (1, 0, "parents", [lambda parents: [], lambda parents: parents * 256]),
    (2, 0, "costs", [without_last, with_one_more]),
    (3, 2, "parents", [with_second(2), with_second(2**16 - 1)]),
    (4, 2, "costs", [with_second(LARGE), with_second(2**32 - 1)]),
    (6, 0, "caps", [without_last, with_one_more]),
    (7, 1, "caps", [with_second(BEYOND_CAP), with_second(2**64 - 1)]),
    (6, 0, "proposals", [without_last, with_one_more]),
    (7, 1, "proposals", [with_second(BEYOND_SHARE), with_second(LEAST)]),
    (19, 0, "note", [lambda note: bytes(MOST_NOTE + 1), lambda note: bytes(300)]),
    (20, 0, "length", [lambda length: 0, lambda length: length - 1]),
]


def changed(changes):
    """T's case with these changes, the last first: what shortens or lengthens a list comes after what is in it."""
    parents, costs, caps, proposals = T_VALUES
    fields = dict(note=b"", parents=parents, costs=costs, caps=caps, proposals=proposals, length=len(one.t_job))
    for field, change in reversed(changes):
        fields[field] = change(fields[field])
    return "write", *fields.values()


def from_fault(first):
    """Each fault of a refusal alone, with each of the next refusal, and with one of every later refusal."""
    (field, choices), *later = [(field, choices) for _, _, field, choices in ORDER[first:]]
    for choice in choices:
        yield [(field, choice)]
        for next_field, next_choices in later[:1]:
            for next_choice in next_choices:
                yield [(field, choice), (next_field, next_choice)]
        for pick in range(2 if len(later) > 1 else 0):
            yield [(field, choice), *((other, others[pick]) for other, others in later)]


def write_order():
    for first, (number, place, _, _) in enumerate(ORDER):
        refused = f"refused {number} at {place}"
        asked = f"length {len(one.t_job)}" if number == 20 else refused
        for changes in from_fault(first):
            case = changed(changes)
            assert answer(case) == f"{asked}, {refused}; others kept", case
            yield case
    # 3 and 4 at one arc before the next, and both before all that follows
    for parents, costs in FAULTY_ARCS:
        members = sum(dead_end_marks(parents))
        yield "write", b"", parents, costs, [1] * members, [1] * members, 200
        yield "write", bytes(MOST_NOTE + 1), parents, costs, [BEYOND_CAP], [LEAST] * 9, 0


def random_writes():
    dice = random.Random(20)
    for turn in range(240):
        tree = random_tree(dice, dice.randint(1, 12))
        caps, proposals = random_caps(dice, tree), random_proposal(dice, tree)
        note = dice.randbytes(dice.choice([0, 0, 1, 5, 16, 40]))
        values = tree.parents, tree.costs, caps, proposals
        yield write(values, note, dice.choice([0, 0, 1, 30]))
        if turn % 4 == 0:
            yield write(values, note, -dice.randint(1, 40))
        if turn % 4 == 1:
            faulty = damaged(dice, tree)
            yield "write", note, faulty.parents, faulty.costs, caps, proposals, dice.randrange(400)
        j = dice.randrange(len(caps))
        if turn % 4 == 2:
            yield write((*values[:3], with_entry(proposals, j, dice.choice([-1, 1]) * BEYOND_SHARE)), note)
        if turn % 4 == 3:
            yield write((*values[:2], with_entry(caps, j, BEYOND_CAP), proposals), note)
    for arcs in (60, 250, MOST_ARCS):
        tree = random_tree(dice, arcs)
        values = tree.parents, tree.costs, random_caps(dice, tree), random_proposal(dice, tree)
        yield write(values, dice.randbytes(9))
