"""The cases of the widest margin in a branch."""
import random
from itertools import product

from rules import MOST_ARCS, MOST_COST, Tree, all_marked
from networks import T, T_SPARE, U, W, broom, chain, comb, random_tree, star, thinned
from trees import FAULTY, margin_of
from levels import GREATEST
from divisions import forked
from marks import SPARE, lists

# with their answers by hand
STATED_MARGINS = [
    (("margin", T, 1, 2), "margin 3 users 2: 4,8"),
    (("margin", all_marked([0, 1, 2, 2, 4, 2], [2, 5, 1, 2, 1, 3]), 1, 3), "margin 2 users 3: 4,5,5"),
    (("margin", U, 1, 2), "margin 3 users 2: 4,3"),
    (("margin", W, 1, 2), "margin 5 users 2: 6,6"),
    (("margin", all_marked([0, 1, 1], [0, 5, 0]), 1, 2), "margin 0 users 2: 5,0"),
    (("margin", T, 4, 1), "refused 26 at 4: 9"),
    (("margin", T_SPARE, 1, 1), "refused 26 at 1: 9"),
    (("margin", T, 0, 2), "refused 25 at 0: 9,9"),
    (("margin", T, 2, 1), "refused 25 at 2: 9"),
    (("margin", T, 5, 2), "refused 25 at 5: 9,9"),
    (("margin", T, GREATEST, 2), "refused 25 at 18446744073709551615: 9,9"),
    (("margin", T, 1, 3), "refused 8 at 0: 9,9,9"),
    (("margin", T, 4, 0), "refused 26 at 4: -"),
    (("margin", T._replace(marks=[0] * 4), 0, 2), "refused 18 at 0: 9,9"),
]


def every_arc(tree):
    """At each arc, and at one below and above their numbers."""
    return [margin_of(tree, arc) for arc in range(len(tree.parents) + 2)]


def every_branch(tree):
    """At each arc from the source."""
    return [margin_of(tree, arc) for arc, parent in enumerate(tree.parents, 1) if parent == 0]


def one_branch(parents, costs):
    """The tree with every dead end marked and the other arcs from the source hung below arc 1."""
    return all_marked([0] + [max(1, parent) for parent in parents[1:]], costs)


def branch(parents, costs):
    return margin_of(one_branch(parents, costs), 1)


def small_margins():
    for tree in (T, U, W, T_SPARE, all_marked([0, 0], [3, 0]), all_marked([0, 1, 2, 2], [1, 1, 0, 0])):
        yield from every_arc(tree)
    for tree in SPARE[1:]:
        yield from every_branch(tree)
    # every network of up to five arcs in one branch
    for arcs in (3, 4, 5):
        for parents in product([0], *(range(1, arc) for arc in range(2, arcs + 1))):
            for costs in ([7, 0, 0, 0, 0], [5, 1, 2, 1, 3], [2, 9, 0, 1, 4]):
                yield branch(parents, costs[:arcs])


def margin_ties():
    """Every size of what is left over, and arcs whose child arcs ask for more than their need and the margin."""
    for units in range(12):
        yield branch([0, 1, 1, 1, 1], [units, 0, 0, 0, 0])
        yield branch([0, 1, 1, 1, 1], [units, 0, 2, 1, 2])
        # users 0 and 2 under one arc, 1 and 3 under another
        yield branch([0, 1, 1, 2, 3, 2, 3], [units, 3, 2, 0, 1, 0, 0])
        # an arc of some users that costs nothing up to so much that they ask for nothing more
        yield branch([0, 1, 1, 2, 2, 2], [9, units, 1, 0, 0, 0])
        # more and more at a user's arc, and at an arc of two in a part of the branch
        yield branch([0, 1, 2, 2, 4, 2], [2, 5, 1, 2, units, 3])
        yield branch([0, 1, 1, 3, 4, 4], [8, 1, 1, units, 0, 2])


def no_margin():
    """A user's arc, a part of the branch or the users' own arcs have the whole cost."""
    for cost in (0, 1, 5, MOST_COST):
        yield branch([0, 1, 1], [0, cost, 0])
        yield branch([0, 1, 1], [0, 0, cost])
        yield branch([0, 1, 1, 2, 2], [0, cost, 0, 1, 2])
        yield branch([0, 1, 1, 3, 3], [0, 0, cost, 0, 0])
        yield branch([0, 1, 1, 1], [0, cost, 2, cost])
        # two units are too few for a margin of 1
        yield branch([0, 1, 1, 1], [2, cost, 2, cost])
    yield branch([0, 1, 1, 1], [0] * 4)


def runs():
    """Arcs one above the other with the same users: all of them, or some."""
    for top in ([0], [0, 6], [6, 0], [1, 0, 3, 2], [1] * 8):
        yield margin_of(forked(top, [[]], [0] * 4), 1)
        for below in ([[], []], [[3], []], [[1, 1, 1], []], [[1, 2, 1], [0, 0, 5]], [[], [], [7]]):
            homes = [j % len(below) for j in range(5)]
            yield margin_of(forked(top, below, homes), 1)
            yield margin_of(forked(top, below, sorted(homes)), 1)
    # one user at the end of a run
    for costs in ([1, 1, 1, 1, 1, 1], [9, 1, 2, 3, 4, 5], [9, 0, 5, 0, 5, 1]):
        yield branch([0, 1, 1, 3, 4, 5], costs)
        yield branch([0, 1, 2, 3, 1, 1], costs)
    # deep above several users and above many
    for count in (2, 10, 30):
        yield margin_of(forked([1] * 30, [[]], [0] * count), 1)
        yield margin_of(forked([3, 1] * 10, [[2] * 9, [1] * 4], [j % 3 % 2 for j in range(count)]), 1)


def spare_plots():
    """Plots in the branch and beside it: their arcs count nowhere."""
    for cost in (0, 1, MOST_COST):
        # a plot beside the users, one in a part of the branch, a run of them, and one that leaves arc 2 to all users
        yield margin_of(Tree([0, 1, 1, 1, 0], [6, 1, 5, cost, 4], [0, 1, 1, 0, 1]), 1)
        yield margin_of(Tree([0, 1, 2, 2, 1], [8, 3, 1, cost, 2], [0, 0, 1, 0, 1]), 1)
        yield margin_of(Tree([0, 1, 1, 1, 4, 5], [6, 1, 5, cost, cost, cost], [0, 1, 1, 0, 0, 0]), 1)
        yield margin_of(Tree([0, 1, 1, 2, 2], [3, 4, cost, 1, 2], [0, 0, 0, 1, 1]), 1)
        # a branch with two users, one without any, and one with a single user
        yield from every_arc(Tree([0, 1, 1, 0, 4, 0], [6, 1, 5, cost, cost, 2], [0, 1, 1, 0, 0, 1]))
        yield from every_branch(Tree([0, 1, 1, 0, 4, 4], [6, 1, cost, 3, 1, 2], [0, 1, 0, 0, 1, 1]))
    # every choice of marks: two parts of a branch, and two branches whose members take turns
    for marks in lists([0], [0], [0], *[[0, 1]] * 4):
        yield margin_of(Tree([0, 1, 1, 2, 2, 3, 3], [9, 4, 1, 2, 3, 0, 5], marks), 1)
    for marks in lists([0], [0], *[[0, 1]] * 5):
        yield margin_of(Tree([0, 0, 1, 2, 1, 2, 1], [9, 4, 1, 2, 3, 0, 5], marks), 1)


def other_branches():
    """A branch alone, and the same with another before it, behind it and between its arcs."""
    parents, costs = [0, 1, 1, 2, 2, 1], [7, 4, 2, 1, 3, 0]
    yield branch(parents, costs)
    for cost in (0, 3, MOST_COST):
        before = [0, 1, 1, *(parent + 3 if parent else 0 for parent in parents)]
        yield from every_branch(all_marked(before, [cost, 1, cost, *costs]))
        yield from every_branch(all_marked([*parents, 0, 7, 7, 7], [*costs, cost, 1, 0, cost]))
        between = [0, 0, 1, 2, 1, 3, 2, 3, 1]
        yield from every_branch(all_marked(between, [7, cost, 4, 1, 2, 1, cost, 3, 0]))
        # three branches whose members take turns
        yield from every_branch(all_marked([0, 0, 0] + [1, 2, 3] * 3, [9, cost, 7] + [1, 2, cost] * 3))


def costly_branches():
    for parents in (T.parents, [0, 1, 1, 1, 2, 3, 3], comb(9), [0, 1, 2, 3, 3, 3]):
        for less in (0, 1, MOST_COST // 3):
            yield branch(parents, [MOST_COST - less * (arc % 3) for arc in range(len(parents))])
    # most of the cost at one arc: used by all, by some, and by one
    for place in range(7):
        costs = [0, 1, 2, 3, 4, 5, 6]
        costs[place] = MOST_COST
        yield branch([0, 1, 2, 2, 3, 3, 1], costs)
    # a need of many units for two users, and for many
    for count in (2, 11):
        yield margin_of(forked([MOST_COST] * 30, [[MOST_COST], []], [j % 2 for j in range(count)]), 1)


def large_margins():
    """As many arcs as there can be."""
    costs = [arc * arc % 10 for arc in range(1023)]
    yield branch(star(1023), [MOST_COST] + [arc % 5 for arc in range(1022)])
    yield branch(chain(1021) + [1021, 1021], [9] * 1021 + [0, 7])
    yield branch(comb(1023), [9 - arc * 9 // 1023 for arc in range(1023)])
    yield branch(broom(1023), [9] * 512 + costs[512:])
    # two arcs at each vertex
    yield branch([arc // 2 for arc in range(1, 1024)], [9] * 200 + costs[200:])
    dice = random.Random(88)
    parents = random_tree(dice, 1023, ["any"]).parents
    yield margin_of(thinned(dice, one_branch(parents, [MOST_COST] + costs[1:])), 1)


def margin_refusals():
    # 25 before 26, and both before 8
    for arc in range(6):
        for length in (0, 1, 2, 3, 4, 1023, 1100):
            yield "margin", T, arc, length
        for tree in (T_SPARE, T._replace(marks=[0, 0, 0, 1])):
            for length in (0, 1, 2):
                yield "margin", tree, arc, length
    # numbers that are 0, 1 or 4 in a part of their bits
    for far in (2**8, 2**10, 2**16, 2**31, 2**32, 2**48, 2**63):
        for arc in (far, far + 1, far + 4):
            yield "margin", T, arc, 2
    for arc in (MOST_ARCS, MOST_ARCS + 1, GREATEST - 1, GREATEST):
        for length in (0, 1, 2):
            yield "margin", T, arc, length
    # the tree before all of these
    for tree in FAULTY:
        yield "margin", tree, 0, 1
    for tree in FAULTY[::5]:
        yield "margin", tree, GREATEST, 7


def random_margins():
    """Branches with two to ten users, some with plots; then several branches in one tree."""
    dice = random.Random(808)
    for turn in range(90):
        tree = random_tree(dice, dice.randint(4, 17), most_costs=(1, 3, 9, 9))
        # every second has a first arc whose cost is enough for wide margins
        first = dice.randint(10, 99) if turn % 2 == 0 else tree.costs[0]
        tree = one_branch(tree.parents, [first, *tree.costs[1:]])
        yield margin_of(thinned(dice, tree) if turn % 5 == 0 else tree, 1)
    for _ in range(8):
        tree = random_tree(dice, 14, ["wide"], (9, 30))
        yield from (case for case in every_branch(tree) if case[3] > 1)
    tree = random_tree(dice, 50, ["any"], (9,))
    yield branch(tree.parents, [200, *tree.costs[1:]])
