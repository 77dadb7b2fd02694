"""The cases in which faults of a job meet: the readers and the conversions name the first of them in their order."""
from itertools import combinations, product

from rules import MOST_ARCS
from entries import answer
from job import TRAILER
from job_cases import BEYOND_CAP, BEYOND_SHARE, LARGE, LEAST, T_ARCS, one, two
from networks import with_entry

PARENT, SECOND_NUMBER, COST = range(3)
CAP, SHARE, FLOOR = range(3)


def with_cell(rows, place, column, entry):
    return with_entry(rows, place, tuple(with_entry(rows[place], column, entry)))


def in_arc(arc, column, *entries):
    """Changes of T's job: a number in the row of an arc."""
    return [lambda t, e=entry: t | {"arcs": with_cell(t["arcs"], arc - 1, column, e)} for entry in entries]


def in_member(j, column, *entries):
    return [lambda t, e=entry: t | {"members": with_cell(t["members"], j, column, e)} for entry in entries]


def setting(field, *choices):
    return [lambda t, c=choice: t | {field: c} for choice in choices]


def too_many_arcs(t):
    return t | {"arcs": t["arcs"] * 256}


def no_marks(t):
    return t | {"arcs": [(parent, 0, cost) for parent, _, cost in t["arcs"]]}


def without_last(t):
    return t | {"members": t["members"][:-1]}


def with_one_more(t):
    return t | {"members": t["members"] + t["members"][-1:]}


def vertex_2_unmarked(t):
    """A member less."""
    return without_last(t | {"arcs": with_cell(t["arcs"], 1, SECOND_NUMBER, 0)})


def first_faults(v):
    """Up to those of the arcs, in their order: the refusal, its place and changes of T's job that lead to it."""
    wrong = v.form.most_second + 1
    return [
        (11, 0, setting("bytes", TRAILER - 1)),
        (12, 0, setting("signature", {"version": 3 - v.form.version}, {"closing": b"JT"})),
        (13, 0, setting("shift", 1, 2**32 - 8)),
        (v.form.second_refusal, 2, in_arc(2, SECOND_NUMBER, wrong, 2**16 - 1)),
        (1, 0, [too_many_arcs]),
        (3, 1, in_arc(1, PARENT, 1, 2**16 - 1)),
        (4, 1, in_arc(1, COST, LARGE, 2**32 - 1)),
    ]


MEMBERS = [
    (15, 0, [without_last, with_one_more]),
    (7, 1, in_member(1, CAP, BEYOND_CAP, 2**64 - 1)),
    (7, 1, in_member(1, SHARE, BEYOND_SHARE, LEAST)),
]
MARKS = [
    (17, 1, in_arc(1, SECOND_NUMBER, 1)),
    (18, 0, [no_marks]),
]
FLOORS = [
    (7, 1, in_member(1, FLOOR, BEYOND_CAP, 2**64 - 1)),
    (27, 0, in_member(0, FLOOR, 101, BEYOND_CAP - 1)),
]
BACK = [
    (29, 2, [vertex_2_unmarked]),
    (30, 1, in_member(1, FLOOR, 1, 100)),
]
OUTPUT = [(20, 0, setting("out", 0, 15))]


def short_lists(v):
    return [(10, 0, setting("lent", *(with_entry(v.enough, k, MOST_ARCS - 1) for k in (0, v.form.lists - 1))))]


# version, conversion or not, faults in the order of their refusals
ORDERS = [
    (one, False, short_lists(one) + first_faults(one) + MEMBERS),
    (two, False, short_lists(two) + first_faults(two) + MARKS + MEMBERS + FLOORS),
    (one, True, first_faults(one) + MEMBERS + OUTPUT),
    (two, True, first_faults(two) + MARKS + MEMBERS + FLOORS + BACK + OUTPUT),
]


def changed(v, converting, changes):
    """The case of T's job with these changes, the last first: what takes rows comes after what is in them."""
    t = dict(
        arcs=v.arc_rows(*T_ARCS),
        members=v.member_rows([100, 100, 100], [8, 4, 4]),
        signature={},
        shift=0,
        bytes=None,
        lent=v.enough,
        out=200,
    )
    for change in reversed(changes):
        t = change(t)
    data = v.of_rows(t["arcs"], t["members"])
    rows = 8 * len(t["arcs"])
    fields = t["shift"], (rows + t["shift"]) % 2**32, len(t["arcs"]), len(t["members"])
    data = data[:-TRAILER] + v.trailer(*fields, **t["signature"])
    data = data if t["bytes"] is None else data[-t["bytes"] :]
    return v.convert(data, t["out"]) if converting else v.read(data, t["lent"])


def stand_together(number, other):
    """A marked vertex with a child is a marked vertex."""
    return (number, other) != (17, 18)


def from_fault(faults, first):
    """Each fault alone, with each of the next that can stand with it, and with all later ones.

    A job with 1 is long: it has one fault before it and one after it, and stands in no longer list.
    """
    number, _, choices = faults[first]
    later = [fault for fault in faults[first + 1 :] if stand_together(number, fault[0])]
    yield from ([choice] for choice in choices)
    for following, _, others in later[:1]:
        pairs = list(product(choices, others))
        yield from pairs[:1] if 1 in (number, following) else pairs
    if number != 1:
        rest = [others for other, _, others in later if other != 1]
        for choice, pick in product(choices, (0, -1)):
            yield [choice, *(others[pick] for others in rest)]


def job_order():
    for v, converting, faults in ORDERS:
        for first, (number, place, _) in enumerate(faults):
            for changes in from_fault(faults, first):
                case = changed(v, converting, changes)
                assert answer(case) == f"refused {number} at {place}; others kept", case
                yield case


# a tree with children at vertices 1 and 2, and the faults of each of its arcs
TWO_DEEP = [0, 1, 2, 2, 1], [1, 2, 3, 4, 5]
ARC_FAULTS = [(arc, column, entry) for arc in range(1, 6) for column, entry in ((PARENT, arc), (COST, LARGE))]
MARK_FAULTS = [(arc, SECOND_NUMBER, 1) for arc in (1, 2)]


def arc_order():
    """3, 4 and 17, two of them at one arc or at two."""
    for v, faults in ((one, ARC_FAULTS), (two, ARC_FAULTS + MARK_FAULTS)):
        for several in [*combinations(faults, 1), *combinations(faults, 2)]:
            rows = v.arc_rows(*TWO_DEEP)
            for arc, column, entry in several:
                rows = with_cell(rows, arc - 1, column, entry)
            data = v.of_rows(rows, v.member_rows([1] * 3, [1] * 3))
            yield v.read(data)
            yield v.convert(data)
    # 17 because of the last entry, and with 3 at an arc before it, at the same and after it
    for parents, marks in (
        ([0, 0, 0, 1], [1, 1, 1, 1]),
        ([0, 2, 0, 3], [0, 0, 1, 1]),
        ([0, 0, 3, 3], [0, 0, 1, 1]),
        ([0, 0, 4, 2], [0, 1, 0, 1]),
    ):
        data = two.job(parents, [1] * 4, [1] * sum(marks), [1] * sum(marks), seconds=enumerate(marks, 1))
        yield two.read(data)
        yield two.convert(data)
