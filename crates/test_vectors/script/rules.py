"""The rules of docs/SPECIFICATION.md, straight from its text and with no call of the engine."""
from itertools import combinations
from typing import NamedTuple

MOST_ARCS = 1023
MOST_COST = 1_000_000_000
MOST_SHARE = 2_000_000_000_000
MOST_CAP = 2_000_000_000_000
WORDS, WORD_BITS = 16, 64


class Refusal(Exception):
    def __init__(self, number, place=0, shortfall=0):
        super().__init__(f"refused {number} at {place}")
        self.shortfall = shortfall


def refusal_of(call, *fields):
    """What a check finds or a call is refused, or None."""
    try:
        call(*fields)
    except Refusal as refusal:
        return str(refusal)
    return None


class Tree(NamedTuple):
    """The lists as handed in; entry 0 belongs to arc 1 and to vertex 1."""

    parents: list
    costs: list
    marks: list


def dead_end_marks(parents):
    """1 at each vertex that no entry names, 0 elsewhere."""
    named = set(parents)
    return [int(vertex not in named) for vertex in range(1, len(parents) + 1)]


def all_marked(parents, costs):
    """The tree in which every dead end is marked."""
    return Tree(parents, costs, dead_end_marks(parents))


def check_lengths(parents, *others):
    """1, then 2."""
    if not 1 <= len(parents) <= MOST_ARCS:
        raise Refusal(1)
    if any(len(other) != len(parents) for other in others):
        raise Refusal(2)


def check_parent(arc, parent):
    """3."""
    if not parent < arc:
        raise Refusal(3, arc)


def check_arc(arc, parent, cost):
    """3, then 4."""
    check_parent(arc, parent)
    if cost > MOST_COST:
        raise Refusal(4, arc)


def check_unmarked(parents, costs):
    """The checks of a tree without marks: 1, 2, then 3 and 4 arc by arc."""
    check_lengths(parents, costs)
    for arc, (parent, cost) in enumerate(zip(parents, costs), 1):
        check_arc(arc, parent, cost)


def check_tree(tree):
    """1, 2, then 3, 4, 16 and 17 arc by arc, then 18."""
    check_lengths(*tree)
    named = set(tree.parents)
    for arc, (parent, cost, mark) in enumerate(zip(*tree), 1):
        check_arc(arc, parent, cost)
        if mark not in (0, 1):
            raise Refusal(16, arc)
        if mark == 1 and arc in named:
            raise Refusal(17, arc)
    if 1 not in tree.marks:
        raise Refusal(18)


def check_group(words, count):
    """5 at the lowest bit at or beyond the number of members."""
    for bit in ones(words):
        if bit >= count:
            raise Refusal(5, bit)


def check_entries(count, entries, least, most):
    """6, then 7 at the lowest member whose entry is outside its range."""
    if len(entries) != count:
        raise Refusal(6)
    for j, entry in enumerate(entries):
        if not least <= entry <= most:
            raise Refusal(7, j)


def check_proposal(count, proposal):
    check_entries(count, proposal, -MOST_SHARE, MOST_SHARE)


def check_caps(count, caps):
    check_entries(count, caps, 0, MOST_CAP)


def check_floors(count, caps, floors):
    """6 and 7 as of caps, then 27 at the lowest member whose floor is above its cap."""
    check_entries(count, floors, 0, MOST_CAP)
    for j, (floor, cap) in enumerate(zip(floors, caps)):
        if floor > cap:
            raise Refusal(27, j)


def check_branch(tree, arc):
    """25 unless it is an arc from the source, then 26 where it has fewer than two users."""
    if not 1 <= arc <= len(tree.parents) or tree.parents[arc - 1] != 0:
        raise Refusal(25, arc)
    if len(arc_users(tree)[arc - 1]) < 2:
        raise Refusal(26, arc)


def check_output(out, length):
    """8 unless the output list has exactly this length."""
    if len(out) != length:
        raise Refusal(8)


def member_vertices(tree):
    """The marked vertices, in rising order."""
    return [vertex for vertex, mark in enumerate(tree.marks, 1) if mark == 1]


def member_count(tree):
    return len(member_vertices(tree))


def path(parents, vertex):
    """The arcs from a vertex up to the source: those that a member at the vertex uses."""
    arcs = []
    while vertex != 0:
        arcs.append(vertex)
        vertex = parents[vertex - 1]
    return arcs


def arc_users(tree):
    """For each arc the members at or below the vertex that it enters, in rising order."""
    users = [[] for _ in tree.parents]
    for j, vertex in enumerate(member_vertices(tree)):
        for arc in path(tree.parents, vertex):
            users[arc - 1].append(j)
    return users


def counted_costs(tree):
    """The costs; 0 for an arc without users."""
    return [cost if users else 0 for cost, users in zip(tree.costs, arc_users(tree))]


def whole_cost(tree):
    return sum(counted_costs(tree))


def ones(words):
    """The bits that are set in a group's words, in rising order."""
    return [
        WORD_BITS * w + b for w in range(WORDS) for b in range(WORD_BITS) if words[w] >> b & 1
    ]


def words_of(bits):
    words = [0] * WORDS
    for bit in bits:
        words[bit // WORD_BITS] |= 1 << bit % WORD_BITS
    return words


def arc_needs(tree):
    """For each arc the counted costs of all arcs at or below it."""
    needs = [0] * len(tree.parents)
    for arc, cost in enumerate(counted_costs(tree), 1):
        for above in path(tree.parents, arc):
            needs[above - 1] += cost
    return needs


def cap_sums(tree, caps):
    """For each arc the caps of its users added up: at a member's arc its cap, elsewhere the sums of its child arcs."""
    sums = [sum(caps[j] for j in users) for users in arc_users(tree)]
    number = {vertex: j for j, vertex in enumerate(member_vertices(tree))}
    for arc, total in enumerate(sums, 1):
        children = (below for below, parent in zip(sums, tree.parents) if parent == arc)
        assert total == (caps[number[arc]] if arc in number else sum(children)), (tree, caps)
    return sums


def group_cost(tree, group):
    """The costs of all arcs that at least one of the members uses."""
    vertices = member_vertices(tree)
    used = {arc for j in group for arc in path(tree.parents, vertices[j])}
    return sum(tree.costs[arc - 1] for arc in used)


def overpayment(tree, proposal, group):
    """What the members of a group pay less what its own network costs."""
    return sum(proposal[j] for j in group) - group_cost(tree, group)


MOST_TRIED = 12


def best_of_all(tree, proposal):
    """The greatest overpayment, with the smallest group that reaches it: every group is tried."""
    members = range(len(proposal))
    tried = [
        (overpayment(tree, proposal, group), list(group))
        for size in range(len(proposal) + 1)
        for group in combinations(members, size)
    ]
    most = max(over for over, _ in tried)
    reach = [group for over, group in tried if over == most]
    smallest = [group for group in reach if len(group) == len(reach[0])]
    assert len(smallest) == 1, (tree, proposal)
    return most, smallest[0]


def best_from_leaves(tree, proposal):
    """The same for any number of members: at each arc nobody, or the best below it together."""
    over = [0] * (len(tree.parents) + 1)
    group = [[] for _ in over]
    for j, vertex in enumerate(member_vertices(tree)):
        over[vertex], group[vertex] = proposal[j], [j]
    for arc in range(len(tree.parents), 0, -1):
        cost = tree.costs[arc - 1]
        if over[arc] > cost:
            parent = tree.parents[arc - 1]
            over[parent] += over[arc] - cost
            group[parent] += group[arc]
    return over[0], sorted(group[0])


def best_group(tree, proposal):
    over, group = best_from_leaves(tree, proposal)
    assert over == overpayment(tree, proposal, group), (tree, proposal)
    if len(proposal) <= MOST_TRIED:
        assert (over, group) == best_of_all(tree, proposal), (tree, proposal)
    return over, group
