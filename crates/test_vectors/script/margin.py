"""The widest margin in a branch and the split that gives it, straight from the rule and with no call of the engine."""
from itertools import combinations
from math import comb, inf
from typing import NamedTuple

from rules import arc_needs, arc_users
from level import MOST_UNITS, give_steps, give_units

# up to here every group, and every split, is tried too, and compared
MOST_USERS = 10
MOST_SPLITS = 2000


class Branch(NamedTuple):
    """The arcs with users at or below an arc from the source, in rising order; all else by the arcs' numbers.

    The users are numbered from 0 within the branch. A group of them has bit j for user j.
    """

    arcs: list
    parents: dict
    costs: dict
    needs: dict
    users: dict
    groups: dict

    @property
    def top(self):
        return self.arcs[0]

    @property
    def need(self):
        return self.needs[self.top]

    @property
    def everyone(self):
        return self.groups[self.top]


def branch_of(tree, top):
    found = arc_users(tree)
    number = {member: j for j, member in enumerate(found[top - 1])}
    users = {arc: [number[i] for i in of] for arc, of in enumerate(found, 1) if of and of[0] in number}
    needs = arc_needs(tree)
    return Branch(
        list(users),
        {arc: tree.parents[arc - 1] for arc in users},
        {arc: tree.costs[arc - 1] for arc in users},
        {arc: needs[arc - 1] for arc in users},
        users,
        {arc: sum(1 << j for j in of) for arc, of in users.items()},
    )


def own_cost(branch, group):
    """The costs of the arcs that only the group uses."""
    return sum(cost for arc, cost in branch.costs.items() if branch.groups[arc] & ~group == 0)


def least_of_all(own_costs, shares):
    """The least margin: every group but none and everyone is tried, with the own cost of each."""
    paid = [0]
    for share in shares:
        paid += [share + others for others in paid]
    return min(amount - cost for amount, cost in list(zip(paid, own_costs))[1:-1])


def least_from_leaves(branch, shares):
    """The same for any number of users: at each vertex the margin of all below it, and the least of some of them."""
    margins = {}
    for arc in reversed(branch.arcs):
        every, some = margins.pop(arc) if arc in margins else (shares[branch.users[arc][0]], inf)
        every -= branch.costs[arc]
        parent = branch.parents[arc]
        if parent in margins:
            # none, all or some of those below each of the two
            all_before, before = margins[parent]
            some = min(before + min(0, every, some), all_before + min(0, some), every, some)
            every += all_before
        margins[parent] = every, some
    return margins[0][1]


def raised_needs(branch, margin):
    """For each arc its raised need, and the sum of those of its child arcs."""
    raised, below = {}, dict.fromkeys([0, *branch.arcs], 0)
    for arc in reversed(branch.arcs):
        extra = 0 if branch.groups[arc] == branch.everyone else margin
        raised[arc] = max(branch.needs[arc] + extra, below[arc])
        below[branch.parents[arc]] += raised[arc]
    return raised, below


def can_have(branch, margin):
    """Whether the raised need of the first arc is its need."""
    return raised_needs(branch, margin)[0][branch.top] == branch.need


def widest(branch):
    """The greatest margin that can be had; a user alone cannot have more than the need."""
    least, past = 0, branch.need + 1
    while past - least > 1:
        middle = (least + past) // 2
        if can_have(branch, middle):
            least = middle
        else:
            past = middle
    assert can_have(branch, least) and not can_have(branch, past)
    return least


def groups_short(branch, margin):
    """Groups with no user in common, whose own costs and margins are more than the need."""
    raised, below = raised_needs(branch, margin)
    groups, arcs = [], [branch.top]
    while arcs:
        arc = arcs.pop()
        if raised[arc] > below[arc]:
            groups.append(branch.groups[arc])
        else:
            arcs += [child for child, parent in branch.parents.items() if parent == arc]
    return groups


def check_greatest(branch, margin):
    """No split gives every group a unit more: some groups would pay more than the need together.

    Everybody else would pay more than 0, since a user alone is a group too.
    """
    groups = groups_short(branch, margin + 1)
    assert sum(groups) & ~branch.everyone == 0 and branch.everyone not in groups
    assert all(one & other == 0 for one, other in combinations(groups, 2))
    assert sum(own_cost(branch, group) + margin + 1 for group in groups) > branch.need


def all_splits(need, count):
    """Every split of the need in which nobody pays less than 0, which is less than any margin."""
    for bars in combinations(range(need + count - 1), count - 1):
        ends = [-1, *bars, need + count - 1]
        yield [end - start - 1 for start, end in zip(ends, ends[1:])]


def shares_at(give, branch, margin):
    """Arcs from the last down give out the raised need less the sum of the child arcs', with caps that stop nobody."""
    raised, below = raised_needs(branch, margin)
    count = len(branch.users[branch.top])
    shares, caps = [0] * count, [branch.need + 1] * count
    for arc in reversed(branch.arcs):
        give(shares, caps, branch.users[arc], raised[arc] - below[arc])
    return shares


def check_all(branch, margin, shares):
    """The margin is the least over all groups, and of all splits the greatest such where there are few enough."""
    own_costs = [own_cost(branch, group) for group in range(branch.everyone + 1)]
    assert least_of_all(own_costs, shares) == margin
    if comb(branch.need + len(shares) - 1, len(shares) - 1) <= MOST_SPLITS:
        splits = all_splits(branch.need, len(shares))
        assert margin == max(least_of_all(own_costs, split) for split in splits)


def margin_split(tree, arc):
    """The widest margin, and the users' shares."""
    branch = branch_of(tree, arc)
    margin = widest(branch)
    shares = shares_at(give_steps, branch, margin)
    assert sum(shares) == branch.need == own_cost(branch, branch.everyone), (tree, arc)
    assert least_from_leaves(branch, shares) == margin, (tree, arc)
    check_greatest(branch, margin)
    if branch.need <= MOST_UNITS:
        assert shares == shares_at(give_units, branch, margin), (tree, arc)
    if len(shares) <= MOST_USERS:
        check_all(branch, margin, shares)
    return margin, shares
