"""The cases of the version 2 reader that version 1 has not: marks and floors."""
import random

from rules import MOST_ARCS, MOST_CAP, Tree
from job import FIRST, MOST_NOTE, SECOND, TRAILER, held_job
from job_cases import BEYOND_CAP, LARGE, LEAST, T_ARCS, one, two
from marks import SPARE, badly_marked, lists
from networks import T, broom, chain, random_bounds, random_proposal, random_tree, star, thinned, with_entry
from shown import EachByte


def marked(tree, caps, proposals, floors, **rest):
    """A job of version 2 with the tree's own marks."""
    return two.job(tree.parents, tree.costs, caps, proposals, floors, seconds=enumerate(tree.marks, 1), **rest)


def numbered(tree, **rest):
    """As many member rows as there are marks of 1; each has numbers of its own."""
    members = range(tree.marks.count(1))
    return marked(tree, [j + 9 for j in members], [-j for j in members], [j + 3 for j in members], **rest)


def job_marks():
    """Every network of up to 3 arcs with marks from 0 to 2, and every marking of T with member rows of any number."""
    for arcs in (1, 2, 3):
        for parents in lists(*map(range, range(1, arcs + 1))):
            for marks in lists(*[[0, 1, 2]] * arcs):
                yield two.read(numbered(Tree(parents, [1, 2, 4][:arcs], marks)))
    for marks in lists(*[[0, 1]] * 4):
        for members in range(5):
            yield two.read(marked(T._replace(marks=marks), [9] * members, [4] * members, [0] * members))
    for tree in SPARE:
        yield two.read(numbered(tree))


def job_floors():
    """7 on floors before 27, each at the lowest member; the limits, and numbers of every byte."""
    floors = [0, 1, 4, 5, 256, 0x0102030405, MOST_CAP - 1, MOST_CAP, BEYOND_CAP, 2**53, 2**63, 2**64 - 1]
    for floor in floors:
        for place in range(3):
            for caps in ([7, 12, 4], [MOST_CAP] * 3, [MOST_CAP, MOST_CAP - 1, 2**40]):
                yield two.read(two.job(*T_ARCS, caps, [7, 5, 4], with_entry([2, 3, 4], place, floor)))
    for several in lists(*[[0, 5, 6, BEYOND_CAP]] * 3):
        yield two.read(two.job(*T_ARCS, [5, 5, 5], [7, 5, 4], several))
    # 7 on proposals before 7 on floors and before 27
    for floor in (BEYOND_CAP, 101):
        yield two.read(two.job(*T_ARCS, [100] * 3, [0, 0, LEAST], [floor] * 3))


def many_marked():
    """As many arcs as there can be: faults in the last row, and marks that depend on it."""
    costs = star(MOST_ARCS)
    last = MOST_ARCS - 1
    floors, caps = [MOST_CAP - j for j in range(MOST_ARCS)], [MOST_CAP] * MOST_ARCS
    yield two.read(two.job(star(MOST_ARCS), costs, caps, costs, with_entry(floors, last, BEYOND_CAP)))
    yield two.read(two.job(star(MOST_ARCS), costs, with_entry(caps, last, 7), costs, with_entry(floors, last, 8)))
    yield two.read(two.no_rows(MOST_ARCS, seconds={MOST_ARCS: 2}))
    # 17 because of the last entry, and 18
    for parent in (1, MOST_ARCS - 1):
        tree = Tree(star(last) + [parent], costs, [1] * MOST_ARCS)
        yield two.read(marked(tree, [], [], []))
    for shape in (chain, star):
        yield two.read(marked(Tree(shape(MOST_ARCS), costs, costs), [], [], []))
    # a member at the last vertex alone
    for shape in (chain, star, broom):
        yield two.read(numbered(Tree(shape(MOST_ARCS), chain(MOST_ARCS), [0] * last + [1]), note=b"last"))


def turned_away():
    """Each version's jobs at the other's reader: 11 where they are longer than it takes, else 12."""
    for note in (b"", b"note"):
        yield two.read(one.plain(*T_ARCS, note=note))
        yield one.read(two.plain(*T_ARCS, note=note))
    full = star(MOST_ARCS), chain(MOST_ARCS)
    yield two.read(one.plain(*full, note=bytes(MOST_NOTE)))
    yield one.read(two.plain(*full, note=bytes(MOST_NOTE)))
    # about the longest of version 1: the rows have 24,800 bytes
    tree = Tree(star(1000), chain(1000), [1] * 700 + [0] * 300)
    for note in (7, 8):
        data = numbered(tree, note=bytes(note))
        assert len(data) == FIRST.most_bytes - 7 + note and held_job(data, SECOND).tree == tree
        yield one.read(data)


def changed_byte(dice, data):
    place = dice.choice([dice.randrange(len(data)), dice.randrange(len(data) - TRAILER, len(data))])
    return data[:place] + bytes([(data[place] + dice.choice([1, 2, 128, 255])) % 256]) + data[place + 1 :]


def random_marked():
    """Small jobs with caps and floors, some of them refused; each with one byte changed, and some with bad marks."""
    dice = random.Random(33007)
    for turn in range(250):
        tree = thinned(dice, random_tree(dice, dice.randint(1, 9)))
        note = dice.randbytes(dice.choice([0, 0, 0, 1, 5, 16]))
        caps, floors = random_bounds(dice, tree)
        proposals = random_proposal(dice, tree)
        data = marked(tree, caps, proposals, floors, note=note)
        yield two.read(data, [dice.choice([1023, 1100]) for _ in two.enough])
        yield two.read(changed_byte(dice, data))
        if turn % 3 == 0:
            faulty = badly_marked(dice, tree)
            if len(faulty.marks) == len(tree.marks):
                yield two.read(marked(faulty, caps, proposals, floors, note=note))
        if turn % 3 == 1:
            costs = with_entry(tree.costs, dice.randrange(len(tree.costs)), LARGE)
            yield two.read(marked(tree._replace(costs=costs), caps, proposals, floors, note=note))


# two arcs in a row with one member
SMALL = [0, 1], [5, 7], [100], [-1]


def every_byte():
    """Each byte of a small job changed to every value: the version 2 reader and both conversions."""
    for v, case in ((two, two.read), (two, two.convert), (one, one.convert)):
        data = v.job(*SMALL)
        for place in range(len(data)):
            yield case(EachByte(data, place))
