"""The cases of proposals that do not add up: groups are searched for whatever the total is."""
import random
from itertools import product

from rules import MOST_COST, MOST_SHARE, all_marked, member_count
from networks import T, T_SPARE, U, W, comb, random_payers, random_tree, star, thinned
from trees import proposed


def wrong_totals():
    """Totals above the whole cost, and totals below it, with a group that overpays and without one."""
    for tree in (T, U, W, T_SPARE):
        for proposal in product((-1, 0, 4, 8, 20), repeat=member_count(tree)):
            yield from proposed(tree, list(proposal))
    for share in (-1, -MOST_SHARE):
        yield from proposed(T, [share] * 3)
    # three members pay a unit each for the arc above them: more than it costs, just its cost, and less
    for above in range(7):
        yield from proposed(all_marked([0, 1, 1, 1, 0], [above, 2, 5, 1, 9]), [3, 6, 2, 0])


def everyone_named():
    """Each member pays a unit more than in a split that passes; then all but one do."""
    dice = random.Random(4)
    trees = [T, U, W, T_SPARE, all_marked(star(5), [3] * 5), all_marked(comb(31), [arc % 4 for arc in range(31)])]
    trees += [random_tree(dice, arcs) for arcs in (5, 9, 12)]
    for tree in trees:
        raised = [share + 1 for share in random_payers(dice, tree)]
        yield from proposed(tree, raised)
        for j, share in enumerate(raised):
            yield from proposed(tree, [*raised[:j], share - 1, *raised[j + 1 :]])


def total_limits():
    """The greatest and the least total that there can be, and one unit from each."""
    for cost, share, inward in ((0, MOST_SHARE, -1), (MOST_COST, -MOST_SHARE, 1)):
        tree = all_marked(star(1023), [cost] * 1023)
        yield from proposed(tree, [share] * 1023)
        yield from proposed(tree, [share] * 1022 + [share + inward])


def random_totals():
    """Shares of either sign, and splits that pass with a little less or more from each member."""
    dice = random.Random(44)
    for turn in range(160):
        tree = random_tree(dice, dice.randint(1, 12))
        if turn % 2 == 0:
            tree = thinned(dice, tree)
        most = dice.choice([2, 9, max(tree.costs) + 1, MOST_SHARE])
        yield from proposed(tree, [dice.randint(-most, most) for _ in range(member_count(tree))])
        yield from proposed(tree, [share + dice.randint(-1, 2) for share in random_payers(dice, tree)])
