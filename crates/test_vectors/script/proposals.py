"""The cases of a proposal: its total, the search for a group, and its check."""
import random

from rules import MOST_SHARE, all_marked, member_count, whole_cost
from networks import T, T_SPARE, U, W, chain, comb, random_payers, random_proposal, random_tree, star
from trees import FAULTY, proposed

LEAST, GREATEST = -(2**63), 2**63 - 1


def small_proposals():
    """Shares from -2 to 9 over small networks; those that add up, and some that do not."""
    for tree in (T, U, W, all_marked([0, 0], [3, 0]), all_marked([0, 1, 1, 0], [0, 0, 0, 5]), T_SPARE):
        count = member_count(tree)
        for first in range(-2, 10):
            for second in range(-2, 10):
                rest = [whole_cost(tree) - first - second] if count == 3 else []
                yield from proposed(tree, [first, second, *rest])


def ties():
    """Several groups reach the greatest overpayment."""
    # a member with share 0 over an arc of cost 0
    yield from proposed(all_marked([0, 0, 0], [0, 0, 4]), [4, 0, 0])
    yield from proposed(all_marked([0, 0, 0], [0, 0, 4]), [0, 4, 0])
    yield from proposed(all_marked([0, 0, 0, 0], [0] * 4), [5, 0, 0, -5])
    yield from proposed(all_marked([0, 0, 0, 0], [0] * 4), [0] * 4)
    yield from proposed(all_marked([0, 1, 1, 1, 0], [0, 0, 0, 0, 9]), [5, 0, 0, 4])
    yield from proposed(all_marked([0, 1, 1, 1, 0], [2, 0, 0, 0, 9]), [7, 0, 0, 4])
    yield from proposed(all_marked([0, 1, 2, 2, 1, 0], [3, 0, 0, 0, 0, 1]), [0, 4, 1, -1])
    # a member, or a branch, that pays just what it adds
    yield from proposed(T, [8, 5, 3])
    yield from proposed(all_marked([0, 0, 0, 0], [3, 4, 5, 6]), [3, 5, 5, 5])
    yield from proposed(all_marked([0, 1, 1, 0, 4, 4, 0], [4, 1, 1, 6, 2, 2, 5]), [3, 3, 5, 5, 5])
    yield from proposed(all_marked([0, 1, 1, 0, 4, 4, 0], [4, 1, 1, 6, 2, 2, 5]), [3, 3, 6, 5, 4])
    # an inner branch pays just its arc, and the run above it does not gain
    yield from proposed(all_marked([0, 1, 2, 2, 1, 0], [5, 3, 1, 1, 2, 4]), [3, 2, 8, 3])


def traps():
    # several members overpay: the greatest group has them all
    yield from proposed(all_marked(star(4), [5, 5, 5, 5]), [6, 8, 3, 3])
    yield from proposed(all_marked(star(4), [5, 5, 5, 5]), [3, 8, 3, 6])
    # no single member overpays, nor any pair
    yield from proposed(all_marked([0, 1, 1, 1, 0], [10, 1, 1, 1, 8]), [5, 5, 5, 6])
    # a group that overpays inside one that does so less, and the other way round
    yield from proposed(all_marked([0, 1, 1, 0], [3, 1, 1, 9]), [9, -2, 7])
    yield from proposed(all_marked([0, 1, 1, 0], [3, 1, 1, 9]), [4, 4, 6])
    # negative shares
    for proposal in ([-1, -2, -3], [-1, -1, 18], [18, -1, -1], [-1, 18, -1], [0, 0, 16], [0, 0, 0]):
        yield from proposed(T, proposal)
    for difference in (-(10**9), -10, -1, 1, 9, 10, 10**9):
        yield from proposed(T, [7, 5 + difference, 4])


def share_limits():
    for share in (MOST_SHARE, MOST_SHARE + 1, 2**53, GREATEST):
        for signed in (share, -share):
            yield from proposed(all_marked([0], [7]), [signed])
            yield from proposed(all_marked(star(2), [0, 0]), [signed, -signed])
            for place in range(3):
                proposal = [7, 5, 4]
                proposal[place] = signed
                yield from proposed(T, proposal)
                yield "shares", 3, proposal
    for share in (LEAST, LEAST + 1):
        yield from proposed(all_marked([0], [0]), [share])
        yield "shares", 2, [0, share]
    for count, length in ((0, 0), (0, 1), (1, 0), (1, 1), (1022, 1023), (1024, 1023), (1023, 1023)):
        yield "shares", count, [0] * length
    for count in (1099, 1100):
        yield "shares", count, [0] * 1100
    yield "shares", 1100, [0] * 1099 + [MOST_SHARE + 1]
    yield "shares", 1023, [-MOST_SHARE] * 1023


def share_refusals():
    outside = MOST_SHARE + 1
    # 6 before 7
    proposals = [[], [outside], [0, -outside], [0, 0, 0, outside], [LEAST] * 4]
    # 7 at the lowest member
    proposals += [[0, outside, -outside], [-outside, 0, outside], [MOST_SHARE, -outside, 0]]
    proposals += [[0, 0, GREATEST], [LEAST, 0, 0], [outside] * 3]
    for proposal in proposals:
        yield from proposed(T, proposal)
        yield "shares", 3, proposal
    # the tree before both
    for tree in FAULTY:
        for proposal in ([], [outside], [1, LEAST, 2], [0] * 5):
            yield from proposed(tree, proposal)


def full_proposals():
    """As many members as there can be."""
    everyone = all_marked(star(1023), [1] * 1023)
    ones_each = [1] * 1023
    yield from proposed(everyone, ones_each)
    yield from proposed(everyone, [1] * 1022 + [2])
    for payer in (0, 64, 1022):
        proposal = [1] * 1023
        proposal[payer] += 5
        proposal[(payer + 7) % 1023] -= 5
        yield from proposed(everyone, proposal)
    yield from proposed(everyone, [2] * 1022 + [-1021])
    yield from proposed(everyone, [-1021] + [2] * 1022)
    yield from proposed(everyone._replace(costs=[0] * 1023), [1 - 2 * (j % 2) for j in range(1022)] + [0])
    for share in (MOST_SHARE, -MOST_SHARE):
        yield from proposed(everyone, [share] * 1023)
    for stray in (-1, 0, 1):
        yield from proposed(everyone, [MOST_SHARE, -MOST_SHARE] * 511 + [1023 + stray])
    yield from proposed(everyone, [1] * 1022 + [-MOST_SHARE - 1])
    yield from proposed(everyone, [1] * 1022)
    yield from proposed(everyone, [1] * 1024)


def deep_proposals():
    costs = [arc % 7 for arc in range(1023)]
    for stray in (-1, 0, 1):
        yield from proposed(all_marked(chain(1023), costs), [sum(costs) + stray])
    dice = random.Random(511)
    for arcs in (40, 301, 1023):
        tree = all_marked(comb(arcs), [dice.randint(0, 9) for _ in range(arcs)])
        yield from proposed(tree, random_payers(dice, tree))
        for _ in range(3):
            yield from proposed(tree, random_proposal(dice, tree))
    # one member pays for all
    tree = all_marked(comb(1023), [1] * 1023)
    yield from proposed(tree, [0] * 511 + [1023])
    yield from proposed(tree, [1023] + [0] * 511)
    # each pays its own arc and the one above
    yield from proposed(tree, [2] * 511 + [1])


def random_proposals():
    dice = random.Random(20)
    for _ in range(320):
        tree = random_tree(dice, dice.randint(1, 12))
        yield from proposed(tree, random_proposal(dice, tree))
        if dice.randrange(4) == 0:
            yield from proposed(tree, random_payers(dice, tree))
