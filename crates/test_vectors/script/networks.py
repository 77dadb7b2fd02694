"""Networks, groups, proposals and caps that the cases use."""
from rules import (
    MOST_CAP,
    MOST_COST,
    MOST_SHARE,
    all_marked,
    arc_users,
    counted_costs,
    member_count,
    whole_cost,
    words_of,
)

T = all_marked([0, 1, 1, 0], [6, 1, 5, 4])
U = all_marked([0, 1, 1], [7, 0, 0])
W = all_marked([0, 1, 1, 0], [10, 1, 1, 8])

# T with nobody at vertex 3
T_SPARE = T._replace(marks=[0, 1, 0, 1])


def star(arcs):
    return [0] * arcs


def chain(arcs):
    return list(range(arcs))


def comb(arcs):
    """A chain of the odd vertices; each even one is a child of the odd one before it."""
    return [0] + [v - 2 | 1 for v in range(2, arcs + 1)]


def broom(arcs):
    """A chain of half the arcs; all other vertices are children of its last."""
    handle = (arcs + 1) // 2
    return chain(handle) + [handle] * (arcs - handle)


def with_entry(entries, place, entry):
    """The list with another entry at a place."""
    return [*entries[:place], entry, *entries[place + 1 :]]


def all_groups(count):
    return [words_of(j for j in range(count) if g >> j & 1) for g in range(1 << count)]


def random_parent(dice, shape, arc):
    if shape == "deep":
        return dice.randrange(max(0, arc - 2), arc)
    if shape == "wide":
        return dice.randrange(min(arc, 3))
    return dice.randrange(arc)


def random_tree(dice, arcs, shapes=("any", "deep", "wide"), most_costs=(1, 9, 9, 1000, MOST_COST)):
    shape = dice.choice(shapes)
    most = dice.choice(most_costs)
    parents = [random_parent(dice, shape, arc) for arc in range(1, arcs + 1)]
    return all_marked(parents, [dice.randint(0, most) for _ in range(arcs)])


def thinned(dice, tree):
    """The tree with the marks of some members taken off; one is left at least."""
    marks = [dice.choice([0, mark]) for mark in tree.marks]
    if 1 not in marks:
        marks[-1] = 1
    return tree._replace(marks=marks)


def random_group(dice, count):
    share = dice.random()
    return words_of(j for j in range(count) if dice.random() < share)


def random_payers(dice, tree):
    """A proposal that passes: each arc is paid by one of its users."""
    proposal = [0] * member_count(tree)
    for cost, can_pay in zip(tree.costs, arc_users(tree)):
        if can_pay:
            proposal[dice.choice(can_pay)] += cost
    return proposal


def random_proposal(dice, tree):
    """Mostly one that adds up: a few amounts go from one member to another."""
    proposal = random_payers(dice, tree)
    costliest = max(counted_costs(tree))
    most = dice.choice([1, 2, costliest, costliest, 2 * whole_cost(tree), MOST_SHARE // 10])
    for _ in range(dice.randrange(6)):
        amount = dice.randint(0, most)
        proposal[dice.randrange(len(proposal))] += amount
        proposal[dice.randrange(len(proposal))] -= amount
    if dice.randrange(8) == 0:
        proposal[dice.randrange(len(proposal))] += dice.choice([-1, 1, most, -most])
    return proposal


def random_caps(dice, tree):
    """From caps that nobody reaches to caps that just suffice; some do not."""
    caps = random_payers(dice, tree)
    slack = dice.choice([0, 1, 3, max(counted_costs(tree)), whole_cost(tree)])
    for j, cap in enumerate(caps):
        caps[j] = dice.choice([cap, cap + dice.randint(0, slack), cap + slack])
    change = dice.choice(["none", "none", "none", "one unit", "nothing", "most"])
    j = dice.randrange(len(caps))
    if change == "one unit":
        caps[j] = max(0, caps[j] - 1)
    if change == "nothing":
        caps[j] = 0
    if change == "most":
        caps[j] = MOST_CAP
    return caps


def random_bounds(dice, tree):
    """Caps and floors about a list that passes: some stop nobody, some leave no other list, and some none."""
    paid = random_payers(dice, tree)
    slack = dice.choice([0, 1, 3, max(counted_costs(tree)), whole_cost(tree)])
    caps = [share + dice.choice([0, dice.randint(0, slack), slack]) for share in paid]
    floors = [max(0, share - dice.choice([0, dice.randint(0, slack), slack])) for share in paid]
    change = dice.choice(["none"] * 4 + ["caps"] * 2 + ["floors"] * 2 + ["both"] * 2 + ["above"])
    i, j = dice.randrange(len(paid)), dice.randrange(len(paid))
    if change in ("caps", "both"):
        caps[i] = max(0, caps[i] - dice.randint(1, slack + 1))
        floors[i] = min(floors[i], caps[i])
    if change in ("floors", "both"):
        floors[j] += dice.randint(1, slack + 1)
        caps[j] = max(floors[j], caps[j])
    if change == "above":
        floors[j] = caps[j] + dice.choice([1, 1, slack + 1])
    return caps, floors
