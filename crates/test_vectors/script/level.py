"""The level split under caps and floors (specification, §5), with no call of the engine."""
from collections import Counter
from heapq import heapify, heappop, heapreplace
from itertools import combinations, product
from math import prod

from rules import Refusal, arc_needs, arc_users, counted_costs, group_cost, member_vertices, whole_cost

# up to here the slow calculations are made too, and compared
MOST_UNITS = 2000
MOST_MEMBERS = 5
MOST_LISTS = 2000


def adjusted_needs(tree, floors):
    """For each arc its adjusted need, and the sum of those of its child arcs.

    At a member's arc it is the cost or the floor, at another the need or that sum, whichever is more; 0 without users.
    """
    number = {vertex: j for j, vertex in enumerate(member_vertices(tree))}
    rows = list(enumerate(zip(tree.parents, arc_users(tree), counted_costs(tree), arc_needs(tree)), 1))
    adjusted, below = [0] * len(rows), [0] * (len(rows) + 1)
    for arc, (parent, users, cost, need) in reversed(rows):
        if arc in number:
            adjusted[arc - 1] = max(cost, floors[number[arc]])
        elif users:
            adjusted[arc - 1] = max(need, below[arc])
        below[parent] += adjusted[arc - 1]
    return adjusted, below[1:]


def first_refusal(tree, caps, floors):
    """The first refusal from arc m down, with its arc and shortfall; or None.

    At each arc 9 where the users' caps fall short of the adjusted need, then 28 where the arc leaves the source and its
    adjusted need is above its need.
    """
    adjusted, _ = adjusted_needs(tree, floors)
    rows = zip(tree.parents, arc_users(tree), arc_needs(tree), adjusted)
    for arc, (parent, users, need, wanted) in reversed(list(enumerate(rows, 1))):
        short = wanted - sum(caps[j] for j in users)
        if short > 0:
            return 9, arc, short
        if parent == 0 and wanted > need:
            return 28, arc, 0
    return None


def give_units(shares, caps, users, amount):
    """Unit by unit, each to the smallest share among the users below their cap; ties to the lowest number."""
    below_cap = [(shares[j], j) for j in users if shares[j] < caps[j]]
    heapify(below_cap)
    for _ in range(amount):
        _, j = below_cap[0]
        shares[j] += 1
        if shares[j] < caps[j]:
            heapreplace(below_cap, (shares[j], j))
        else:
            heappop(below_cap)


def give_steps(shares, caps, users, amount):
    """The same in bulk: from each level where a user starts or stops rising to the next, while the amount lasts."""
    below_cap = [j for j in users if shares[j] < caps[j]]
    # how many users start at a level, less those that stop there
    change = Counter(shares[j] for j in below_cap)
    change.subtract(caps[j] for j in below_cap)
    level = rising = 0
    for following in sorted(change):
        if amount < rising * (following - level):
            break
        amount -= rising * (following - level)
        level = following
        rising += change[level]
    if rising > 0:
        level += amount // rising
        amount %= rising
    for j in users:
        if shares[j] <= level < caps[j]:
            shares[j] = level + (amount > 0)
            amount -= amount > 0
        else:
            shares[j] = max(shares[j], min(caps[j], level))
    assert amount == 0


def split(give, tree, caps, floors):
    """Each arc from m down gives out its adjusted need less the sum of those of its child arcs."""
    shares = [0] * len(caps)
    for users, wanted, below in reversed(list(zip(arc_users(tree), *adjusted_needs(tree, floors)))):
        give(shares, caps, users, wanted - below)
    return shares


def all_lists(tree, caps, floors):
    """Every whole list from the floors to the caps and in the core; None where there are too many to try.

    A member pays at most the cost of its own network, and at least what is left after the others pay that of theirs.
    """
    if len(caps) > MOST_MEMBERS:
        return None
    everyone = range(len(caps))
    group_costs = {
        group: group_cost(tree, group)
        for size in range(len(caps) + 1)
        for group in combinations(everyone, size)
    }
    whole = group_costs[tuple(everyone)]
    others = [group_costs[tuple(k for k in everyone if k != j)] for j in everyone]
    least = [max(floors[j], whole - others[j]) for j in everyone]
    ranges = [range(least[j], min(caps[j], group_costs[(j,)]) + 1) for j in everyone]
    if not all(ranges):
        return []
    if prod(map(len, ranges)) > MOST_LISTS:
        return None
    return [
        list(shares)
        for shares in product(*ranges)
        if sum(shares) == whole
        and all(sum(shares[j] for j in group) <= cost for group, cost in group_costs.items())
    ]


def least_squares(lists):
    return min(sum(share * share for share in shares) for shares in lists)


def level_split(tree, caps, floors=None):
    """The shares, or refusal 9 or 28; the floors are 0 where none are handed in."""
    none = [0] * len(caps)
    case = tree, caps, floors or none
    found = first_refusal(*case)
    lists = all_lists(*case)
    if found:
        assert not lists, case
        # a shortfall is the one that there is without floors
        assert found[0] == 28 or found == first_refusal(tree, caps, none), case
        raise Refusal(*found)
    shares = split(give_steps, *case)
    if whole_cost(tree) <= MOST_UNITS:
        assert shares == split(give_units, *case), case
    if lists is not None:
        assert shares in lists, case
        assert least_squares([shares]) == least_squares(lists), case
    return shares
