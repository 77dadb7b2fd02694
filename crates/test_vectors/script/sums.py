"""The cases of the running sums of caps."""
import random
from itertools import product

from rules import MOST_CAP, MOST_COST, all_marked, member_count
from networks import T, T_SPARE, U, W, broom, chain, comb, random_caps, random_tree, star, thinned
from trees import FAULTY
from levels import GREATEST
from marks import SPARE, spare_run


def sums_of(tree, caps):
    return "capsums", tree, caps, len(tree.parents)


def small_sums():
    for tree in (T, U, W, T_SPARE, all_marked([0, 0], [3, 0]), all_marked([0, 1, 2, 2, 1, 0], [0] * 6)):
        for caps in product((0, 1, 10), repeat=member_count(tree)):
            yield sums_of(tree, list(caps))
    # each cap is a bit of its own, so that a sum shows whose caps are in it
    for tree in SPARE:
        yield sums_of(tree, [1 << j for j in range(member_count(tree))])


def large_sums():
    """As many arcs as there can be: one member below all of them, a member at each, and shapes between."""
    for shape in (chain, star, broom, comb):
        tree = all_marked(shape(1023), [1] * 1023)
        count = member_count(tree)
        yield sums_of(tree, [MOST_CAP] * count)
        yield sums_of(tree, [j * 3 + 1 for j in range(count)])
        yield sums_of(tree._replace(marks=[0] * 1022 + [1]), [MOST_CAP])
    yield sums_of(spare_run(1023), [MOST_CAP])


def sum_limits():
    for cap in (MOST_CAP - 1, MOST_CAP, MOST_CAP + 1, 2**63, GREATEST):
        yield sums_of(all_marked([0], [7]), [cap])
        for place in range(3):
            caps = [7, 12, 4]
            caps[place] = cap
            yield sums_of(T, caps)
    # a cost at its limit and above it
    for cost in (MOST_COST, MOST_COST + 1):
        yield sums_of(T._replace(costs=[6, 1, cost, 4]), [3, 9, 4])


def sum_refusals():
    outside = MOST_CAP + 1
    # 6 before 7, and both before 8, for every length of the output list; it has an entry an arc, not one a member
    for caps in ([], [outside], [0, 0, 0, outside], [0, outside, GREATEST], [outside] * 3, [3, 9, 4]):
        for length in (0, 3, 4, 5, 1023, 1100):
            yield "capsums", T, caps, length
    # the tree before all of these
    for tree in FAULTY:
        for caps in ([], [outside], [1, GREATEST, 2], [0] * 5):
            yield sums_of(tree, caps)
            yield "capsums", tree, caps, 7


def random_sums():
    dice = random.Random(216)
    for turn in range(150):
        tree = random_tree(dice, dice.randint(1, 14))
        if turn % 2 == 0 and len(tree.parents) > 1:
            tree = thinned(dice, tree)
        caps = random_caps(dice, tree)
        yield sums_of(tree, caps)
        if turn % 8 == 0:
            yield "capsums", tree, caps, len(tree.parents) + dice.choice([-1, 1])
    for arcs in (60, 250, 1023):
        tree = thinned(dice, random_tree(dice, arcs))
        yield sums_of(tree, random_caps(dice, tree))
