"""The cases of the by-arc split."""
import random
from itertools import permutations, product

from rules import MOST_COST, Tree, all_marked, member_count
from networks import T, T_SPARE, broom, chain, comb, random_tree, star, thinned
from trees import FAULTY


def by_arc_of(tree):
    return "byarc", tree, member_count(tree)


def leftovers():
    """What is left over of every size, among users of one arc and of two."""
    for cost in range(12):
        yield by_arc_of(all_marked([0, 1, 1, 1, 1, 1], [cost, 0, 0, 0, 0, 0]))
        yield by_arc_of(all_marked([0, 1, 1, 1, 1, 1], [cost, 3, 0, 1, 0, 2]))
        # members 0 and 2 under one arc, 1 and 3 under another
        yield by_arc_of(all_marked([0, 1, 1, 2, 3, 2, 3], [cost, cost + 1, 5, 0, 1, 0, 0]))
    yield by_arc_of(all_marked([0, 1, 1, 0], [0] * 4))


def forked(top, runs, homes):
    """A run of arcs, and runs from its end, with these costs; member j's arc leaves run homes[j]'s end and costs 0.

    Nobody lives at the end of a run that no member's arc leaves.
    """
    parents, costs, ends = chain(len(top)), list(top), []
    for run in runs:
        end = len(top)
        for cost in run:
            parents.append(end)
            costs.append(cost)
            end = len(parents)
        ends.append(end)
    inner = len(parents)
    parents += [ends[home] for home in homes]
    return Tree(parents, costs + [0] * len(homes), [0] * inner + [1] * len(homes))


def turns():
    """Arcs one above the other with the same users."""
    for count in (2, 3, 4):
        for costs in product(range(count), repeat=3):
            yield by_arc_of(forked(costs, [[]], [0] * count))
    # a whole part besides, and some turns more than there are users
    for count in (3, 5):
        for cost in range(1, 2 * count):
            yield by_arc_of(forked([cost] * (count + 2), [[]], [0] * count))
    # who has paid most has not had most units
    for own in product((0, 5), repeat=2):
        yield by_arc_of(all_marked([0, 1, 2, 2], [1, 1, *own]))
    for own in permutations((0, 1, 9)):
        for costs in ([1, 1, 1], [2, 1, 2], [1, 2, 2]):
            yield by_arc_of(all_marked([0, 1, 2, 3, 3, 3], [*costs, *own]))
    # many users
    for count in (63, 64, 65):
        for costs in ([1, 1], [1, count - 1], [count - 1, count - 1], [count // 2, count // 2 + 1, 3]):
            yield by_arc_of(forked(costs, [[]], [0] * count))
    # every network of five arcs
    for parents in product(*map(range, range(1, 6))):
        yield by_arc_of(all_marked(list(parents), [1] * 5))


def meeting_branches():
    """Arcs above branches in which the members have had different numbers of units."""
    for homes in ([0, 0, 1, 1], [1, 1, 0, 0], [0, 1, 0, 1], [1, 0, 0, 1]):
        for below in (1, 2, 3, 8):
            for cost in range(5):
                yield by_arc_of(forked([cost], [[1] * below, []], homes))
            # one branch catches up, and then all take turns
            yield by_arc_of(forked([1] * 11, [[1] * below, []], homes))
            yield by_arc_of(forked([3] * 6, [[1] * below, [1]], homes))
    # two units for a member that has had none, beside two with five each: one unit each
    for homes in ([0, 0, 1], [0, 1, 0], [1, 0, 0]):
        for costs in ([1], [2], [2, 2], [2, 1, 2], [1] * 14):
            yield by_arc_of(forked(costs, [[1] * 10, []], homes))
    # none, two and seven units each
    for homes in ([0, 0, 1, 1, 2, 2], [2, 2, 1, 1, 0, 0], [0, 1, 2, 0, 1, 2], [2, 1, 0, 0, 1, 2]):
        for costs in ([1], [2], [3], [4], [5], [3, 3], [4, 4, 4], [5, 4, 3, 2, 1], [1] * 30):
            yield by_arc_of(forked(costs, [[], [1] * 4, [1] * 14], homes))
    # a branch in a branch
    for costs in ([1, 1, 1, 0], [2, 3, 1, 1], [3, 1, 2, 1], [5, 2, 3, 1], [4, 3, 1, 1]):
        yield by_arc_of(all_marked([0, 1, 2, 3, 4, 4, 3, 2, 1], [*costs, 0, 0, 0, 0, 0]))
        yield by_arc_of(all_marked([0, 1, 2, 2, 1, 3, 4, 3, 4, 5, 5], [*costs, 1, 0, 0, 0, 0, 0, 0]))


def spare_turns():
    """Arcs without users before, between and after those that leave units over."""
    for cost in (0, 1, 2, 7):
        # a plot between two members, before them and behind them
        for marks in ([0, 0, 1, 0, 1], [0, 0, 0, 1, 1], [0, 0, 1, 1, 0]):
            own = [0 if mark else cost for mark in marks[2:]]
            yield by_arc_of(Tree([0, 1, 2, 2, 2], [1, 1, *own], marks))
        # a run with nobody at its end, between two arcs with the same users
        yield by_arc_of(Tree([0, 1, 1, 3, 2, 2], [1, 1, cost, 5, 0, 0], [0, 0, 0, 0, 1, 1]))
        yield by_arc_of(Tree([0, 0, 2, 1, 4, 4], [1, cost, 5, 1, 0, 0], [0, 0, 0, 0, 1, 1]))
        # one of three branches
        for homes in ([0, 0, 2, 2], [2, 0, 2, 0]):
            yield by_arc_of(forked([1, 2], [[1, 1, 1], [cost, 1], []], homes))
            yield by_arc_of(forked([3, 1], [[1], [1, cost, 3], [3, 1, 1]], homes))


def large_turns():
    """As many arcs as there can be, and units left over at many of them."""
    # 511 arcs above 512 members; each serves one of them, or all but one
    for cost in (1, 511):
        yield by_arc_of(forked([cost] * 511, [[]], [0] * 512))
    # the most turns that 32 members can have
    yield by_arc_of(forked([31] * 991, [[]], [0] * 32))
    # one member has 255 units alone, since both others have had as many
    yield by_arc_of(forked([2] + [1] * 509, [[1] * 510, []], [0, 0, 1]))
    # every second member has had units below
    yield by_arc_of(forked([100] * 20, [[20] * 500, []], [j % 2 for j in range(503)]))
    # two arcs with 1,021 users
    for costs in ([1, 1020], [1020, 1020], [510, 511]):
        yield by_arc_of(forked(costs, [[]], [0] * 1021))
    for costs in ([1] * 1023, [2] * 1023, [arc * arc % 300 for arc in range(1023)]):
        yield by_arc_of(all_marked(comb(1023), costs))


def large_divisions():
    for shape in (chain, star, broom, comb):
        parents = shape(1023)
        yield by_arc_of(all_marked(parents, [MOST_COST] * len(parents)))
        yield by_arc_of(all_marked(parents, [(7919 * arc) % 1000 for arc in range(len(parents))]))
    # an arc with 1,022 users, and every leftover near the ends
    for cost in (0, 1, 2, 1020, 1021, 1022, 1023, MOST_COST - 1, MOST_COST):
        yield by_arc_of(all_marked([0] + [1] * 1022, [cost] + [0] * 1022))


def division_refusals():
    for length in (0, 2, 4):
        yield "byarc", T, length
    for length in (1, 3):
        yield "byarc", T_SPARE, length
    for tree in FAULTY:
        yield "byarc", tree, member_count(tree) + 1
        yield by_arc_of(tree)


def random_divisions():
    dice = random.Random(20261115)
    for arcs in [dice.randint(1, 9) for _ in range(300)] + [dice.randint(20, 60) for _ in range(40)]:
        yield by_arc_of(random_tree(dice, arcs))


def random_turns():
    """Small costs, which are mostly left over; in every fourth of the smaller trees nobody lives at some dead ends."""
    dice = random.Random(2005)
    for turn in range(320):
        tree = random_tree(dice, dice.randint(4, 16), most_costs=[1, 2, 3, 5, 9])
        yield by_arc_of(tree if turn % 4 else thinned(dice, tree))
    for turn in range(40):
        tree = random_tree(dice, dice.randint(20, 60), ["any", "deep"], [1, 3, 9, 30])
        yield by_arc_of(tree if turn % 4 else thinned(dice, tree))
    for arcs in (100, 150, 200, 250, 300, 1023):
        for most in (1, 9):
            yield by_arc_of(random_tree(dice, arcs, ["deep"], [most]))
