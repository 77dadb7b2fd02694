"""The cases of the level split and of the caps check."""
import random
from itertools import product

from rules import MOST_CAP, MOST_COST, all_marked, member_count
from networks import T, T_SPARE, U, W, broom, chain, comb, random_caps, random_tree, star
from trees import FAULTY

GREATEST = 2**64 - 1


def level_of(tree, caps, floors=None, length=None):
    """With floors of 0 and an output of the right length, where none are handed in."""
    count = member_count(tree)
    floors = [0] * count if floors is None else floors
    return "level", tree, caps, floors, count if length is None else length


def small_levels():
    for tree in (T, U, W, all_marked([0, 0], [3, 0]), all_marked([0, 1, 1, 0], [0, 0, 0, 5])):
        for caps in product((0, 1, 3, 4, 5, 9, 12), repeat=member_count(tree)):
            yield level_of(tree, list(caps))
    for caps in product((0, 1, 3, 4, 5, 6, 7, 100), repeat=2):
        yield level_of(T_SPARE, list(caps))
    for cap in (0, 6, 7, 8):
        yield level_of(all_marked([0], [7]), [cap])
        yield level_of(all_marked(chain(3), [2, 0, 5]), [cap])
    # arcs of cost 0 alone
    for caps in ([0, 0, 0], [0, 5, 0], [9, 9, 9]):
        yield level_of(all_marked([0, 1, 1, 0], [0] * 4), caps)


def level_ties():
    """Equal shares, after arcs below that raise some users first."""
    for units in range(10):
        yield level_of(all_marked([0, 1, 1, 1, 1], [units, 0, 0, 0, 0]), [9] * 4)
        yield level_of(all_marked([0, 1, 1, 1, 1], [units, 0, 2, 1, 2]), [9] * 4)
        yield level_of(all_marked([0, 1, 1, 1, 1], [units, 0, 2, 1, 2]), [1, 3, 9, 3])
        yield level_of(all_marked([0, 1, 1, 1, 1], [units, 0, 0, 0, 0]), [2, 1, 9, 9])
        # members 0 and 2 under one arc, 1 and 3 under another
        yield level_of(all_marked([0, 1, 1, 2, 3, 2, 3], [units, 3, 2, 0, 1, 0, 0]), [9] * 4)
        yield level_of(all_marked([0, 1, 1, 2, 3, 2, 3], [units, 3, 2, 0, 1, 0, 0]), [1, 4, 9, 3])


def several_short():
    """9 at several arcs: the highest is named."""
    for caps in product((0, 1, 5), repeat=3):
        yield level_of(all_marked(star(3), [2, 4, 6]), list(caps))
        yield level_of(all_marked([0, 1, 1, 0, 4], [3, 2, 2, 1, 2]), list(caps))
    # the arc above falls short by more than the one that is named
    yield level_of(all_marked([0, 1, 1], [100, 3, 3]), [2, 4])
    yield level_of(all_marked([0, 1, 1], [100, 3, 3]), [4, 2])
    # a shortfall below the top alone
    yield level_of(all_marked([0, 1, 2, 2, 1], [0, 1, 4, 4, 0]), [4, 4, 100])
    yield level_of(all_marked([0, 1, 2, 2, 1], [0, 0, 4, 4, 0]), [4, 4, 0])
    for arcs in (5, 60):
        yield level_of(all_marked(chain(arcs), [1] * arcs), [0])
        for cap in (1, arcs // 2, arcs - 1, arcs):
            yield level_of(all_marked(chain(arcs), [1] * arcs), [cap])


def cap_limits():
    for cap in (MOST_CAP - 1, MOST_CAP, MOST_CAP + 1, 2**63, GREATEST):
        yield level_of(all_marked([0], [7]), [cap])
        yield level_of(all_marked([0, 1, 1], [MOST_COST, 0, 0]), [cap, cap])
        for place in range(3):
            caps = [7, 12, 4]
            caps[place] = cap
            yield level_of(T, caps)
            yield "caps", 3, caps
    for count, length in ((0, 0), (0, 1), (1, 0), (1, 1), (1022, 1023), (1024, 1023), (1023, 1023)):
        yield "caps", count, [0] * length
    for count in (1099, 1100):
        yield "caps", count, [0] * 1100
    yield "caps", 1100, [0] * 1099 + [MOST_CAP + 1]
    yield "caps", 1023, [MOST_CAP] * 1023


def cap_refusals():
    outside = MOST_CAP + 1
    # 6 before 7, 7 before 8; without either, 8 before 9
    lists = [[], [outside], [0, GREATEST], [0, 0, 0, outside], [GREATEST] * 4, [0] * 4, [100] * 2]
    # 7 at the lowest member
    lists += [[0, outside, GREATEST], [GREATEST, 0, outside], [MOST_CAP, outside, 0], [outside] * 3]
    lists += [[0, 0, GREATEST], [100, 100, 100], [3, 8, 100], [0, 0, 0]]
    for caps in lists:
        yield "caps", 3, caps
        for length in (0, 2, 3, 4, 1023, 1100):
            yield level_of(T, caps, length=length)
    # the tree before all of these
    for tree in FAULTY:
        for caps in ([], [outside], [1, GREATEST, 2], [0] * 5):
            yield level_of(tree, caps)
            yield level_of(tree, caps, length=7)
    for parents in (star(1024), [1] * 1024):
        yield level_of(all_marked(parents, [MOST_COST + 1] * 3), [outside])


def large_costs():
    """Costs of up to 1,000,000,000, with caps about what the arcs need."""
    for parents in (T.parents, U.parents, [0, 1, 1, 1, 0, 5, 5], chain(4), star(4), comb(9)):
        for less in (0, 1, MOST_COST // 3):
            tree = all_marked(parents, [MOST_COST - less * (arc % 3) for arc in range(len(parents))])
            count, whole = member_count(tree), sum(tree.costs)
            for cap in (MOST_CAP, whole, whole // count, whole // count + 1, MOST_COST):
                yield level_of(tree, [cap] * count)
            yield level_of(tree, [whole - j * (MOST_COST // 3) for j in range(count)])
    # all but one member at a cap, and the rest of the cost to the last; then one unit less
    costs = [MOST_COST, 5, 0, 7, 1]
    for short in (0, 1):
        for last in range(4):
            caps = [100, 200, 300, 400]
            caps[last] = sum(costs) - sum(caps) + caps[last] - short
            yield level_of(all_marked([0, 1, 1, 1, 1], costs), caps)


def worst_levels():
    """As many arcs as there can be, with as many users as there can be at many of them."""
    dice = random.Random(1023)
    for shape in (broom, comb, star, chain):
        tree = all_marked(shape(1023), [MOST_COST] * 1023)
        count = member_count(tree)
        yield level_of(tree, [MOST_CAP] * count)
        yield level_of(tree._replace(costs=[1] * 1023), [1023] * count)
        for most in (3, MOST_COST, MOST_COST):
            tree = tree._replace(costs=[dice.randint(0, most) for _ in range(1023)])
            yield level_of(tree, random_caps(dice, tree))
        tree = tree._replace(costs=[MOST_COST] * 512 + [0] * 511)
        # caps of every size, from 0 on; the last member's is enough for all
        yield level_of(tree, [j * 10**8 for j in range(count - 1)] + [MOST_CAP])
        # caps that add up to the whole cost or to less than a unit a member below it
        yield level_of(tree, [sum(tree.costs) // count] * count)
    # the greatest shares that two members can have
    parents = chain(1021) + [1021, 1021]
    for cap in (MOST_COST, 10**11, MOST_CAP):
        yield level_of(all_marked(parents, [MOST_COST] * 1022 + [MOST_COST - 1]), [cap, MOST_CAP])


def random_levels():
    dice = random.Random(400)
    for turn in range(400):
        tree = random_tree(dice, dice.randint(1, 10))
        caps = random_caps(dice, tree)
        yield level_of(tree, caps)
        if turn % 8 == 0:
            yield level_of(tree, caps, length=len(caps) + dice.choice([-1, 1]))
        if turn % 8 == 1:
            yield "caps", len(caps) + dice.choice([-1, 0, 1]), caps
        if turn % 8 == 2:
            j = dice.randrange(len(caps))
            yield level_of(tree, caps[:j] + [caps[j] + MOST_CAP] + caps[j + 1 :])
    for _ in range(60):
        tree = random_tree(dice, dice.randint(20, 60))
        yield level_of(tree, random_caps(dice, tree))
