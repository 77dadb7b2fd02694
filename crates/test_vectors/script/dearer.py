"""The cases of dearer arcs: the level split on a tree, and on the same tree with one arc, or several, dearer.

Where both splits are given their shares are held to the laws of the specification (§5).
"""
import random

from rules import MOST_CAP, MOST_COST, Refusal, all_marked, arc_needs, arc_users, check_floors, member_count, path
from networks import T, T_SPARE, U, W, broom, chain, comb, random_bounds, random_tree, star, thinned, with_entry
from level import level_split
from levels import level_of
from floors import ladder
from marks import spare_run

# nobody reaches these
AMPLE = [2000] * 3


def dearer(tree, arc, rise):
    """The tree with an arc dearer by so much."""
    return tree._replace(costs=with_entry(tree.costs, arc - 1, tree.costs[arc - 1] + rise))


# trees in whose widest margin, and in whose by-arc split, the share of a member falls where an arc is dearer
FALLS = all_marked([0, 1, 1, 1], [2, 0, 1, 1])
FALLS_BY_ARC = all_marked([0, 1, 2, 1, 2], [1, 1, 0, 0, 0])

# with their answers by hand
STATED_DEARER = [
    (level_of(T, AMPLE), "split 3: 6,6,4"),
    (level_of(dearer(T, 1, 3), AMPLE), "split 3: 8,7,4"),
    (level_of(dearer(T, 1, 1000), AMPLE), "split 3: 506,506,4"),
    (level_of(dearer(T, 2, 2), AMPLE), "split 3: 7,7,4"),
    (level_of(dearer(T, 4, 3), AMPLE), "split 3: 6,6,7"),
    (level_of(dearer(T_SPARE, 3, 9), AMPLE[:2]), "split 2: 7,4"),
    (("margin", FALLS, 1, 3), "margin 0 users 3: 2,1,1"),
    (("margin", dearer(FALLS, 1, 1), 1, 3), "margin 1 users 3: 1,2,2"),
    (("byarc", FALLS_BY_ARC, 3), "members 3: 1,1,0"),
    (("byarc", dearer(FALLS_BY_ARC, 2, 1), 3), "members 3: 2,0,1"),
]


def given(tree, caps, floors):
    """The shares, or None where the split is refused."""
    try:
        check_floors(len(caps), caps, floors)
        return level_split(tree, caps, floors)
    except Refusal:
        return None


def check_rises(tree, dear, caps, floors):
    """No share falls, and in each branch the rises add up to what the need of its arc from the source rises by."""
    lists = given(tree, caps, floors), given(dear, caps, floors)
    if None in lists:
        return None
    rises = [after - before for before, after in zip(*lists)]
    assert all(rise >= 0 for rise in rises), (tree, dear, caps, floors)
    rows = zip(tree.parents, arc_users(tree), arc_needs(tree), arc_needs(dear))
    for parent, users, before, after in rows:
        assert parent != 0 or sum(rises[j] for j in users) == after - before, (tree, dear, caps, floors)
    return rises


def check_one(tree, arc, rise, caps, floors):
    """The rises add up to that of the arc, which is the most, and are 0 on the other branches; 0 at all without users."""
    rises = check_rises(tree, dearer(tree, arc, rise), caps, floors)
    if rises is None:
        return
    users = arc_users(tree)
    assert sum(rises) == (rise if users[arc - 1] else 0), (tree, arc, rise, caps, floors)
    branch = users[path(tree.parents, arc)[-1] - 1]
    for j, more in enumerate(rises):
        assert more <= rise and (j in branch or more == 0), (tree, arc, rise, caps, floors)


def with_dearer(tree, arc, rise, caps, floors=None):
    """The cases of a tree, and of the tree with the arc dearer."""
    floors = [0] * len(caps) if floors is None else floors
    check_one(tree, arc, rise, caps, floors)
    return [level_of(tree, caps, floors), level_of(dearer(tree, arc, rise), caps, floors)]


def every_arc(tree, rises, caps, floors=None):
    for arc in range(1, len(tree.parents) + 1):
        for rise in rises:
            yield from with_dearer(tree, arc, rise, caps, floors)


def small_rises():
    for tree in (T, U, W, T_SPARE, ladder([3, 2, 4, 1, 0, 1, 2])):
        count = member_count(tree)
        yield from every_arc(tree, range(9), [100] * count)
        yield from every_arc(tree, (0, 1, 2, 5), [9, 7, 12, 8][:count])
        yield from every_arc(tree, (1, 3), [30] * count, [6, 5, 0, 1][:count])
    # two branches whose members take turns
    turns = all_marked([0, 0, 1, 2, 1, 2], [4, 4, 1, 1, 2, 2])
    yield from every_arc(turns, (1, 2, 7), [9, 8, 20, 20])
    yield from every_arc(turns, (1, 2, 7), [9, 8, 20, 20], [0, 5, 3, 0])


def large_rises():
    """Up to the limit of a cost, on the largest trees."""
    for parents in (star(1023), comb(1023), broom(1023), chain(1023)):
        tree = all_marked(parents, [7] * 1023)
        for arc, rise in ((1, MOST_COST - 7), (512, 1), (1023, 1000)):
            yield from with_dearer(tree, arc, rise, [MOST_CAP] * member_count(tree))
    spare = spare_run(1023)
    for arc in (1, 500, 1023):
        yield from with_dearer(spare, arc, 5, [MOST_CAP] * member_count(spare))


def random_rises():
    """One dearer arc, then several, under caps and floors that often leave a split of both."""
    dice = random.Random(13)
    for turn in range(400):
        tree = random_tree(dice, dice.randint(1, 14), most_costs=(1, 9, 9, 1000))
        tree = thinned(dice, tree) if turn % 4 == 0 else tree
        most = dice.choice([1, 3, 50])
        arc, rise = dice.randint(1, len(tree.parents)), dice.randint(0, most)
        more = [dice.choice([0, 0, dice.randint(0, most)]) for _ in tree.parents]
        several = tree._replace(costs=[cost + rise for cost, rise in zip(tree.costs, more)])
        caps, floors = random_bounds(dice, dice.choice([tree, dearer(tree, arc, rise), several]))
        floors = [0] * len(caps) if turn % 2 else floors
        yield from with_dearer(tree, arc, rise, caps, floors)
        check_rises(tree, several, caps, floors)
        yield level_of(several, caps, floors)
