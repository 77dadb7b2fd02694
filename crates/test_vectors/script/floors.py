"""The cases of floors in the level split."""
import random

from rules import (
    MOST_CAP,
    MOST_COST,
    Refusal,
    Tree,
    all_marked,
    check_floors,
    dead_end_marks,
    group_cost,
    member_count,
    whole_cost,
)
from networks import T, T_SPARE, U, W, broom, chain, comb, random_bounds, random_tree, star, thinned, with_entry
from trees import FAULTY
from level import all_lists, level_split
from levels import GREATEST, level_of
from marks import SPARE, lists, spare_run

PAST = MOST_CAP + 1

# with their answers by hand
STATED_FLOORS = [
    (("level", T, [100, 100, 100], [7, 0, 0], 3), "split 3: 7,5,4"),
    (("level", T, [100, 100, 100], [0, 7, 0], 3), "split 3: 5,7,4"),
    (("level", T, [100, 100, 100], [8, 0, 0], 3), "refused 28 at 1 short 0: 9,9,9"),
    (("level", T, [100, 100, 100], [0, 0, 5], 3), "refused 28 at 4 short 0: 9,9,9"),
    (("level", T, [4, 7, 4], [0, 7, 0], 3), "refused 9 at 1 short 1: 9,9,9"),
    (("level", T, [2, 100, 100], [3, 0, 0], 3), "refused 27 at 0 short 0: 9,9,9"),
    (("level", T, [0, 0, 5], [0, 0, 5], 3), "refused 28 at 4 short 0: 9,9,9"),
    (("level", T, [100, 100, 3], [8, 0, 0], 3), "refused 9 at 4 short 1: 9,9,9"),
    (("level", T, [100, 4, 100], [8, 0, 0], 3), "refused 9 at 3 short 1: 9,9,9"),
    (("level", T, [3, 9, 4], [3, 9, 4], 3), "split 3: 3,9,4"),
    (("level", T, [2, 100, 100], [3, 0, 0], 2), "refused 27 at 0 short 0: 9,9"),
    (("level", T, [2, 100, 100], [3, 0, PAST], 3), "refused 7 at 2 short 0: 9,9,9"),
    (("level", T, [100, 100, PAST], [0, 0], 3), "refused 7 at 2 short 0: 9,9,9"),
    (("level", T, [100, 100, 100], [0, 0], 2), "refused 6 at 0 short 0: 9,9"),
    (("level", U, [100, 100], [5, 0], 2), "split 2: 5,2"),
    (("level", T_SPARE, [100, 100], [7, 0], 2), "split 2: 7,4"),
    (("level", T_SPARE, [100, 100], [8, 0], 2), "refused 28 at 1 short 0: 9,9"),
]


def one_floor(tree, j, floor):
    """With a floor for one member alone, and caps that stop nobody."""
    none = [0] * member_count(tree)
    return level_of(tree, [MOST_CAP] * len(none), with_entry(none, j, floor))


def free(tree, floors):
    """With caps that stop nobody."""
    return level_of(tree, [100] * member_count(tree), floors)


def small_floors():
    for floors in lists((0, 1, 2, 6, 7, 8), (0, 5, 6, 7, 11, 12), (0, 4, 5)):
        yield free(T, floors)
        yield level_of(T, [7, 9, 4], floors)
        yield level_of(T, [4, 11, 5], floors)
    for floors in lists((0, 1, 6, 11, 12), (0, 1, 7, 11, 12), (0, 8, 9)):
        yield free(W, floors)
    for floors in lists(range(9), range(9)):
        yield free(U, floors)
        yield free(T_SPARE, floors)
        yield level_of(U, [3, 7], floors)
    for cap, floor in lists((0, 6, 7, 8), (0, 6, 7, 8)):
        yield level_of(all_marked([0], [7]), [cap], [floor])
        yield level_of(all_marked(chain(3), [2, 0, 5]), [cap], [floor])
    # arcs of cost 0 alone
    for floors in ([0, 0, 0], [1, 0, 0], [0, 0, 1], [9, 9, 9]):
        yield level_of(all_marked([0, 1, 1, 0], [0] * 4), [9] * 3, floors)
    # every choice for two members
    for one, other in lists(*[[(cap, floor) for cap in range(5) for floor in range(cap + 1)]] * 2):
        yield level_of(all_marked([0, 1, 1], [2, 1, 0]), *map(list, zip(one, other)))


def equal_floors():
    """Floors equal to the caps: every list in the core, and those that are a unit off."""
    others = all_marked([0, 1, 2, 2, 1], [2, 1, 0, 2, 1]), all_marked([0, 0, 1, 2, 1], [3, 1, 0, 2, 1])
    for tree in (T, U, W, T_SPARE, *others):
        count = member_count(tree)
        for shares in all_lists(tree, [100] * count, [0] * count):
            yield level_of(tree, shares, shares)
            for j in range(count):
                more, less = with_entry(shares, j, shares[j] + 1), with_entry(shares, j, shares[j] - 1)
                yield level_of(tree, more, more)
                yield level_of(tree, more, shares)
                if shares[j] > 0:
                    yield level_of(tree, less, less)
                    yield level_of(tree, shares, less)


def ladder(costs):
    """Members 0 to 3 at the end of a run of four arcs and beside its second, third and fourth."""
    return all_marked([0, 1, 2, 3, 1, 2, 3], costs)


def surplus():
    """Floors above what the arcs below cost: the arcs above give out so much less, one after another."""
    for units in range(13):
        for costs in ([3, 2, 4, 1, 0, 1, 2], [0, 5, 0, 1, 2, 0, 1], [4, 0, 3, 2, 1, 1, 0]):
            tree = ladder(costs)
            yield free(tree, [units, 0, 0, 0])
            yield free(tree, [0, units, 0, 0])
            yield free(tree, [0, 0, units, 2])
            yield free(tree, [2, 1, 1, units])
            yield level_of(tree, [12, 2, 3, 4], [units, 0, 0, 0])
            yield level_of(tree, [6, 12, 2, 5], [1, units, 2, 0])
    # two floors that meet, in a branch and below an arc that other members use too
    for one, other in lists(range(0, 10, 2), range(7)):
        yield free(all_marked([0, 1, 1, 1], [9, 1, 2, 0]), [one, other, 0])
        yield free(all_marked([0, 1, 2, 2, 1, 1], [6, 3, 1, 2, 0, 1]), [one, other, 0, 2])
        yield free(all_marked([0, 0, 1, 2, 1, 2], [6, 5, 1, 2, 0, 1]), [one, other, 2, 0])


def walk_order():
    """9 and 28 at several arcs: the first from arc m down, be it the one or the other."""
    # an arc that is right, one whose caps fall short, one whose floors ask for too much
    for states in lists(*[[0, 1, 2]] * 3):
        costs = [2, 4, 6]
        caps = [cost - 1 if state == 1 else 9 for cost, state in zip(costs, states)]
        floors = [cost + 1 if state == 2 else 0 for cost, state in zip(costs, states)]
        yield level_of(all_marked(star(3), costs), caps, floors)
    # branches of two members: right, short at either member's arc, short at the branch's, too much in either way
    choices = [
        ([9, 9], [0, 0]),
        ([0, 9], [0, 9]),
        ([9, 1], [4, 1]),
        ([3, 3], [0, 3]),
        ([9, 9], [6, 0]),
        ([9, 9], [4, 4]),
    ]
    for (caps, floors), (more_caps, more_floors) in lists(choices, choices):
        tree = all_marked([0, 1, 1, 0, 4, 4], [4, 1, 2, 4, 1, 2])
        yield level_of(tree, caps + more_caps, floors + more_floors)
        # the members of the two take turns
        tree = all_marked([0, 0, 1, 2, 1, 2], [4, 4, 1, 1, 2, 2])
        turns = [[a, b, c, d] for (a, c), (b, d) in ((caps, more_caps), (floors, more_floors))]
        yield level_of(tree, *turns)


def floor_refusals():
    # 6 and 7 on the caps, 6 and 7 on the floors, 27, 8, then 9 and 28
    caps_lists = [[], [100] * 2, [100] * 4, [PAST, 0, 0], [0, 0, GREATEST], [100] * 3, [4, 7, 4], [3, 8, 100]]
    floors_lists = [
        [],
        [0] * 2,
        [101] * 2,
        [0] * 4,
        [PAST] * 4,
        [PAST, 0, 0],
        [101, 0, GREATEST],
        [101, PAST, 0],
        [5, 0, 0],
        [0, 101, 101],
        [0, 0, 5],
        [8, 0, 0],
        [0] * 3,
    ]
    for caps, floors in lists(caps_lists, floors_lists):
        for length in (2, 3, 4):
            yield level_of(T, caps, floors, length)
    for length in (0, 1, 1023, 1100):
        for floors in ([101, 0, 0], [8, 0, 0], [7, 0, 0], [0] * 3):
            yield level_of(T, [100] * 3, floors, length)
    # 27 at the lowest member, and none where the two are equal
    for floors in lists((2, 3), (8, 9), (4, 5)):
        yield level_of(T, [2, 8, 4], floors)
    # the tree before all of these
    for tree in FAULTY:
        yield level_of(tree, [0] * member_count(tree), [1] * member_count(tree))
    for tree in FAULTY[::3]:
        yield level_of(tree, [100] * member_count(tree), [PAST], 7)
        yield level_of(tree, [100] * member_count(tree), [])


def floor_limits():
    for floor in (MOST_CAP - 1, MOST_CAP, PAST, 2**63, GREATEST):
        yield one_floor(all_marked([0], [7]), 0, floor)
        yield level_of(all_marked([0], [7]), [floor], [floor])
        yield level_of(all_marked([0, 1, 1], [MOST_COST, 0, 0]), [MOST_CAP] * 2, [floor] * 2)
        for j in range(3):
            yield one_floor(T, j, floor)
            yield level_of(T, [MOST_CAP - 1] * 3, with_entry([0] * 3, j, floor))
    # about the greatest need that there can be
    need = 1023 * MOST_COST
    for floor in (need, need + 1, MOST_CAP):
        yield one_floor(all_marked(chain(1023), [MOST_COST] * 1023), 0, floor)
    pair = all_marked(chain(1021) + [1021, 1021], [MOST_COST] * 1023)
    for floors in ([need // 2, 0], [need - MOST_COST, MOST_COST], [MOST_COST, need - MOST_COST + 1]):
        yield level_of(pair, [MOST_CAP] * 2, floors)
    # the greatest sums of floors, at one arc and at many
    for shape in (broom, comb, star):
        tree = all_marked(shape(1023), [9] * 1023)
        yield level_of(tree, [MOST_CAP] * member_count(tree), [MOST_CAP] * member_count(tree))
    # costs of up to 1,000,000,000, and floors up to the most that a member can pay and one more
    for parents in (T.parents, U.parents, [0, 1, 1, 1, 0, 5, 5], comb(9)):
        tree = all_marked(parents, [MOST_COST - arc % 3 for arc in range(len(parents))])
        for j in range(member_count(tree)):
            most = group_cost(tree, [j])
            for floor in (most // 2, most - 1, most, most + 1):
                yield one_floor(tree, j, floor)


def large_floors():
    """As many arcs as there can be: long runs, many users, many branches."""
    dice = random.Random(27)
    shapes = [broom(1023), comb(1023), star(1023), chain(1023), [arc // 2 for arc in range(1, 1024)]]
    shapes += [random_tree(dice, 1023, [shape]).parents for shape in ("any", "deep", "wide")]
    for parents in shapes:
        tree = all_marked(parents, [dice.randint(0, 9) for _ in range(1023)])
        yield level_of(tree, *random_bounds(dice, tree))
        tree = thinned(dice, tree)
        yield level_of(tree, *random_bounds(dice, tree))
        count = member_count(tree)
        # the most that one member can pay, deep down
        yield one_floor(tree, count - 1, group_cost(tree, [count - 1]))
        # every second floor the level share; then all, and one a unit above its share
        shares = level_split(tree, [MOST_CAP] * count)
        yield level_of(tree, [9999] * count, [share * (j % 2) for j, share in enumerate(shares)])
        yield level_of(tree, [9999] * count, with_entry(shares, count // 2, shares[count // 2] + 1))
    for shape in (broom, comb):
        tree = all_marked(shape(1023), [MOST_COST - arc for arc in range(1023)])
        yield level_of(tree, *random_bounds(dice, tree))


def spare_floors():
    """Plots where nobody lives: their arcs count nowhere, and no floor belongs to them."""
    dice = random.Random(2728)
    for tree in SPARE:
        for _ in range(6):
            yield level_of(tree, *random_bounds(dice, tree))
        for j in range(member_count(tree)):
            for more in (0, 1):
                yield one_floor(tree, j, group_cost(tree, [j]) + more)
        # every dead end taken for a member
        yield level_of(tree, [MOST_CAP] * member_count(tree), [0] * sum(dead_end_marks(tree.parents)))
    for tree in (spare_run(1023), Tree(broom(1023), [1] * 1023, [0] * 1022 + [1])):
        for more in (0, 1):
            yield one_floor(tree, 0, whole_cost(tree) + more)


def is_refused(tree, caps, floors):
    """Whether the answer is 27, 9 or 28."""
    try:
        check_floors(len(caps), caps, floors)
        level_split(tree, caps, floors)
    except Refusal:
        return True
    return False


def tried_floors():
    """Small networks against all lists: refused exactly where there is none."""
    dice = random.Random(3)
    for turn in range(1200):
        tree = random_tree(dice, dice.randint(1, 8), most_costs=(1, 3, 5, 9))
        tree = thinned(dice, tree) if turn % 4 == 0 else tree
        bounds = random_bounds(dice, tree)
        found = all_lists(tree, *bounds)
        if found is not None:
            assert is_refused(tree, *bounds) == (not found), (tree, *bounds)
            yield level_of(tree, *bounds)


def random_floors():
    dice = random.Random(282)
    for turn in range(300):
        tree = random_tree(dice, dice.randint(1, 12))
        tree = thinned(dice, tree) if turn % 4 == 0 else tree
        caps, floors = random_bounds(dice, tree)
        yield level_of(tree, caps, floors)
        if turn % 8 == 0:
            yield level_of(tree, caps, floors, len(caps) + dice.choice([-1, 1]))
        if turn % 8 == 1:
            yield level_of(tree, caps, floors + [0])
        if turn % 8 == 2:
            j = dice.randrange(len(caps))
            yield level_of(tree, caps, with_entry(floors, j, floors[j] + PAST))
    for turn in range(60):
        tree = random_tree(dice, dice.randint(20, 60))
        tree = thinned(dice, tree) if turn % 4 == 0 else tree
        yield level_of(tree, *random_bounds(dice, tree))
