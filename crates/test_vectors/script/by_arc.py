"""The by-arc split (specification, §6), with no call of the engine."""
from itertools import combinations
from math import factorial

from rules import arc_users, best_group, group_cost, member_vertices, path, whole_cost

# up to here the Shapley value is worked out by its definition, and compared
MOST_MEMBERS = 6


def shapley(tree, count, i):
    """n! times the Shapley value of member i: over all groups without i, the weight times what i adds."""
    others = [j for j in range(count) if j != i]
    return sum(
        factorial(size)
        * factorial(count - size - 1)
        * (group_cost(tree, [*group, i]) - group_cost(tree, group))
        for size in range(count)
        for group in combinations(others, size)
    )


def divide(cost, users, shares, tallies):
    """One arc gives each of its k users cost div k, and one unit more to the cost mod k users with the fewest tallies.

    Ties go to the lowest numbers, and the tallies of those served rise by one.
    """
    part, left = divmod(cost, len(users))
    before = list(shares)
    for j in users:
        shares[j] += part
    for j in sorted(users, key=lambda j: (tallies[j], j))[:left]:
        shares[j] += 1
        tallies[j] += 1
    gifts = [share - had for share, had in zip(shares, before)]
    assert sum(gifts) == cost
    assert gifts.count(part + 1) == left


def check_tallies(tree, shares, tallies):
    """Each tally is what the share has beyond the equal parts; those of members at one parent differ by one at most."""
    users = arc_users(tree)
    beside = {}
    for j, vertex in enumerate(member_vertices(tree)):
        arcs = path(tree.parents, vertex)
        assert tallies[j] == shares[j] - sum(tree.costs[arc - 1] // len(users[arc - 1]) for arc in arcs)
        assert tallies[j] <= len(arcs)
        beside.setdefault(tree.parents[vertex - 1], []).append(tallies[j])
    assert all(max(found) - min(found) <= 1 for found in beside.values())


def by_arc_split(tree):
    """Each member's share: the arcs are taken from the last down to 1, and those without users are passed over."""
    vertices = member_vertices(tree)
    count = len(vertices)
    shares, tallies = [0] * count, [0] * count
    for cost, users in reversed(list(zip(tree.costs, arc_users(tree)))):
        if users:
            divide(cost, users, shares, tallies)
    check_tallies(tree, shares, tallies)
    assert sum(shares) == whole_cost(tree)
    assert best_group(tree, shares)[0] == 0
    if count <= MOST_MEMBERS:
        for i, share in enumerate(shares):
            away = abs(factorial(count) * share - shapley(tree, count, i))
            assert away < factorial(count) * len(path(tree.parents, vertices[i]))
    return shares
