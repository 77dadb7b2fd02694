"""The cases of the conversions between the versions."""
import random

from rules import MOST_ARCS, MOST_CAP, MOST_SHARE, Tree, dead_end_marks
from job import FIRST, MOST_NOTE, SECOND, TRAILER
from job_cases import MOST_OUTPUT, NOTES, T_ARCS, VERSIONS, one, other, two
from marked_jobs import changed_byte, marked
from marks import SPARE, lists
from networks import T, chain, comb, random_bounds, random_caps, random_proposal, random_tree, star, thinned


def length_of(v, data):
    """The length of the job in the other version."""
    members = int.from_bytes(data[-6:-4], "little")
    return len(data) + members * (other(v).form.member_row - v.form.member_row)


def both_ways(*values, more=0, **rest):
    """A case of each conversion, with outputs longer than the job by `more` bytes."""
    for v in VERSIONS:
        data = v.job(*values, **rest)
        yield v.convert(data, length_of(v, data) + more)


def small_conversions():
    """Every network of up to 4 arcs."""
    dice = random.Random(10)
    for arcs in range(1, 5):
        for parents in lists(*map(range, range(1, arcs + 1))):
            members = range(sum(dead_end_marks(parents)))
            caps, proposals = [dice.randrange(10) for _ in members], [dice.randint(-9, 9) for _ in members]
            costs = [dice.randrange(10) for _ in parents]
            yield from both_ways(parents, costs, caps, proposals, note=dice.randbytes(dice.randrange(3)), more=arcs % 3)


def converted_notes():
    for note in NOTES + [b"\x09" * 20, one.t_job, two.t_job, two.t_job[-TRAILER:]]:
        yield from both_ways(*T_ARCS, [1, 2, 3], [4, 5, 6], note=note)
        yield from both_ways([0], [7], [8], [-9], note=note, more=3)


def converted_lengths():
    """20, and outputs that are longer than the job."""
    for v in VERSIONS:
        for note in (b"", bytes(range(MOST_NOTE))):
            data = v.job(*T_ARCS, [100, 100, 100], [8, 4, 4], note=note)
            length = length_of(v, data)
            assert length == len(other(v).job(*T_ARCS, [100, 100, 100], [8, 4, 4], note=note))
            for out in (0, 1, 15, 16, len(data), length - 1, length, length + 1, length + 24, MOST_OUTPUT):
                yield v.convert(data, out)


def converted_limits():
    """As many arcs and members as there can be: the longest jobs, and one byte more."""
    caps = [MOST_CAP - j for j in range(MOST_ARCS)]
    proposals = [(-1) ** j * (MOST_SHARE - j) for j in range(MOST_ARCS)]
    values = star(MOST_ARCS), chain(MOST_ARCS), caps, proposals
    for v, length in ((one, SECOND.most_bytes), (two, FIRST.most_bytes)):
        longest = v.job(*values, note=bytes(range(MOST_NOTE)))
        assert len(longest) == v.form.most_bytes
        assert length_of(v, longest) == length
        for out in (length - 1, length):
            yield v.convert(longest, out)
        yield v.convert(b"x" + longest, MOST_OUTPUT)
    numbers = list(range(MOST_ARCS))
    members = numbers[: sum(dead_end_marks(comb(MOST_ARCS)))]
    yield from both_ways(comb(MOST_ARCS), numbers, members, members, more=9000)
    # 14 and 16 before 1
    more = MOST_ARCS + 1
    for v in VERSIONS:
        yield v.convert(v.no_rows(more, seconds={more: v.form.most_second + 1}))


def wrong_version():
    """A job of the version that is to be written: 11 where it is longer than the other version takes, else 12."""
    for v in VERSIONS:
        for note in (b"", b"note"):
            yield v.convert(other(v).plain(*T_ARCS, note=note))
    yield one.convert(two.plain(star(MOST_ARCS), chain(MOST_ARCS)))


def bounded(tree, floors, **rest):
    """A job whose caps are above all floors."""
    count = tree.marks.count(1)
    return marked(tree, [50] * count, list(range(count)), [floors[j % len(floors)] for j in range(count)], **rest)


def spare_conversions():
    """29 at the lowest dead end without a mark, before 30 at the lowest member with a floor."""
    for marks in lists([0], *[[0, 1]] * 3):
        for floors in ([0], [1], [0, 50], [0, 0, 2]):
            data = bounded(T._replace(marks=marks), floors)
            yield two.convert(data, length_of(two, data))
    for tree in SPARE:
        yield two.convert(bounded(tree, [0], note=b"x"), 1000)
    # the last vertex, the last member
    last = MOST_ARCS - 1
    yield two.convert(bounded(Tree(comb(MOST_ARCS), star(MOST_ARCS), [0, 1] + [0] * (last - 1)), [0]), MOST_OUTPUT)
    for marks, floors in (([1] * last + [0], [0]), ([1] * MOST_ARCS, [0] * last + [1])):
        yield two.convert(bounded(Tree(star(MOST_ARCS), star(MOST_ARCS), marks), floors), MOST_OUTPUT)


def random_conversions():
    """Trees there and back, some with a byte changed, and some with dead ends where nobody lives or with floors."""
    dice = random.Random(2910)
    for turn in range(200):
        tree = random_tree(dice, dice.randint(1, 12))
        note = dice.randbytes(dice.choice([0, 0, 1, 5, 16, 40]))
        values = tree.parents, tree.costs, random_caps(dice, tree), random_proposal(dice, tree)
        yield from both_ways(*values, note=note, more=dice.choice([0, 0, 1, 30]))
        if turn % 4 == 0:
            yield from both_ways(*values, note=note, more=-dice.randint(1, 40))
        if turn % 4 == 1:
            for v in VERSIONS:
                yield v.convert(changed_byte(dice, v.job(*values, note=note)), 600)
        if turn % 4 == 2:
            thin = thinned(dice, tree)
            caps, floors = random_bounds(dice, thin)
            yield two.convert(marked(thin, caps, random_proposal(dice, thin), floors, note=note), 600)
        if turn % 4 == 3:
            caps, floors = random_bounds(dice, tree)
            yield two.convert(two.job(*values[:2], caps, values[3], floors, note=note), 600)
    for arcs in (60, 250, MOST_ARCS):
        tree = random_tree(dice, arcs)
        values = tree.parents, tree.costs, random_caps(dice, tree), random_proposal(dice, tree)
        yield from both_ways(*values, note=dice.randbytes(9))
