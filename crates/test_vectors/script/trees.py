"""The cases of the tree, members, dead ends, needs and group costs."""
import random

from rules import MOST_COST, Refusal, Tree, all_marked, arc_users, check_tree, member_count, words_of
from classes import Classed
from networks import T, T_SPARE, U, W, all_groups, chain, random_group, random_proposal, random_tree, star


def proposed(tree, proposal):
    """A case of each command that takes a tree and a proposal."""
    return [("total", tree, proposal), ("search", tree, proposal)]


def margin_of(tree, arc):
    """At an arc, with an output list as long as it has users: an empty one where there is no such arc, or no tree."""
    length = 0
    try:
        check_tree(tree)
        if 1 <= arc <= len(tree.parents):
            length = len(arc_users(tree)[arc - 1])
    except Refusal:
        pass
    return "margin", tree, arc, length


def divided(tree, classes):
    """The tree with each cost divided into so many, which differ by one at most, the lower ones first."""
    costs = [(cost + c) // classes for c in range(classes) for cost in tree.costs]
    return Classed(tree.parents, costs, tree.marks, classes)


def classes_of(classed):
    """With an output list of the right length, for a number of classes that is not far above the most."""
    return "classes", classed, classed.classes * member_count(classed)


def every_entry(tree, words=words_of([0])):
    """A case of each command, with output lists, a proposal and caps of the right length."""
    count = member_count(tree)
    arcs = len(tree.parents)
    return [
        ("check", tree),
        ("count", tree),
        ("members", tree, count),
        ("needs", tree, arcs),
        ("group", tree, words),
        *proposed(tree, [0] * count),
        ("shares", count, [0] * count),
        ("level", tree, [sum(tree.costs)] * count, [0] * count, count),
        ("caps", count, [0] * count),
        ("byarc", tree, count),
        ("deadends", tree.parents, tree.costs, arcs),
        ("capsums", tree, list(range(1, count + 1)), arcs),
        margin_of(tree, 1),
        classes_of(divided(tree, 2)),
    ]


def small_networks():
    for tree in (T, U, W, all_marked([0], [0]), all_marked([0], [MOST_COST]), all_marked([0, 1], [3, 4])):
        yield from every_entry(tree)
        for words in all_groups(member_count(tree)):
            yield "group", tree, words


def limits():
    for shape in (chain, star):
        tree = all_marked(shape(1023), [1] * 1023)
        everyone = words_of(range(member_count(tree)))
        yield from every_entry(tree, everyone)
        costly = tree._replace(costs=[MOST_COST] * 1023)
        yield "needs", costly, 1023
        yield "group", costly, everyone
        yield "check", all_marked(shape(1022), [1] * 1022)
        yield "check", all_marked(shape(1024), [1] * 1024)
    yield from every_entry(all_marked(star(1024), [0] * 1024))
    yield "check", all_marked(star(1024), [MOST_COST] * 1024)
    yield "check", all_marked(star(1100), [1] * 1100)
    yield "check", all_marked(chain(1023), [1] * 1022 + [MOST_COST + 1])
    yield "check", all_marked(chain(1022) + [1023], [1] * 1023)
    for arcs in (0, 1, 2):
        yield from every_entry(all_marked(star(arcs), [0] * arcs))
    for cost in (MOST_COST - 1, MOST_COST, MOST_COST + 1, 2**31, 2**32 - 1):
        yield from every_entry(all_marked([0, 1, 0], [1, cost, 2]))
    for parent in (0, 1, 2, 3, 4, 2**15, 2**16 - 1):
        yield from every_entry(all_marked([0, 1, parent], [1, 2, 3]))


def group_bits():
    for bits in ([2], [3], [0, 3], [63], [64], [1023], [3, 64, 1023], [1, 70, 65], [64, 1023]):
        yield "group", T, words_of(bits)
    yield "group", T, words_of(range(1024))
    for count in (63, 64, 65, 128, 1023):
        tree = all_marked(star(count), [j % 10 for j in range(count)])
        for bits in ([0], [count - 1], [count], range(count), range(count + 1), range(0, count, 3)):
            yield "group", tree, words_of(bits)
    yield "group", all_marked(star(1023), [1] * 1023), words_of(range(1024))


LARGE = MOST_COST + 1

# parents and costs with more than one fault, or with one that comes before those of other lists
FAULTY_ARCS = [
    # 1 before 2
    ([], [1]),
    # 2 before 3 and 4
    ([0], []),
    ([1], []),
    ([1], [1, 2]),
    ([0, 1], [LARGE]),
    ([0, 1], [1, 2, LARGE]),
    # 3 and 4 at one arc before the next
    ([1], [LARGE]),
    ([0, 2], [LARGE, 1]),
    ([1, 0], [1, LARGE]),
    ([0, 2, 0], [1, LARGE, LARGE]),
    ([0, 0, 3], [1, LARGE, 1]),
    ([0, 2, 3], [1, 1, 1]),
    ([0, 1, 2], [1, LARGE, LARGE]),
]

FAULTY_MARKS = [
    # 1 before 2
    Tree([], [], [1]),
    # 2 with one list or both of another length
    Tree([0, 1], [1, 2], []),
    Tree([0, 1], [1, 2], [0]),
    Tree([0, 1], [1, 2], [0, 1, 0]),
    Tree([0, 1], [1], [0]),
    Tree([0, 1], [1, 2, 3], [0, 1, 0]),
    Tree([0, 1], [1], [0, 1, 0]),
    # 2 before 3, 4, 16, 17 and 18
    Tree([1], [5], []),
    Tree([0, 1], [LARGE, 1], [0]),
    Tree([0, 1], [1, 2], [2]),
    Tree([0, 1], [1, 2], [1]),
    Tree([0], [7], [0, 0]),
    # 3 before 16 and before 17 at one arc
    Tree([1], [5], [2]),
    Tree([0, 2], [1, 2], [0, 1]),
    # 4 before 16 and before 17 at one arc
    Tree([0], [LARGE], [2]),
    Tree([0, 1], [LARGE, 1], [1, 1]),
    # 3 and 4 before 16 and 17 at the next arc
    Tree([1, 0], [1, 2], [0, 2]),
    Tree([1, 0, 2], [1, 2, 3], [0, 1, 1]),
    Tree([0, 0], [LARGE, 1], [1, 2]),
    Tree([0, 0, 2], [LARGE, 1, 2], [0, 1, 1]),
    # 16 before 3, 4 and 17 at the next arc
    Tree([0, 2], [1, 2], [2, 0]),
    Tree([0, 1], [1, LARGE], [2, 1]),
    Tree([0, 0, 2], [1, 2, 3], [2, 1, 1]),
    # 17 before 3, 4 and 16 at the next arc, and before 3 at a later one
    Tree([0, 2, 1], [1, 2, 3], [1, 0, 0]),
    Tree([0, 1], [1, LARGE], [1, 1]),
    Tree([0, 1], [1, 2], [1, 2]),
    Tree([0, 1, 0, 9], [1, 2, 3, 4], [1, 1, 1, 1]),
    # 17 at arc 1, because of the last entry
    Tree([0, 0, 0, 1], [1, 2, 3, 4], [1, 1, 1, 1]),
    # an entry beyond all vertices names none of them: 3, or 17 because of another entry
    Tree([0, 2**16 - 1], [1, 2], [1, 1]),
    Tree([0, 1024], [1, 2], [1, 1]),
    Tree([0, 1025], [1, 2], [1, 1]),
    Tree([0, 2**16 - 1, 1], [1, 2, 3], [1, 0, 1]),
    Tree([0, 1025, 0], [1, 2, 3], [0, 1, 2]),
    # 18, and 3, 4 and 16 at the last arc before it
    T._replace(marks=[0, 0, 0, 0]),
    Tree([0], [7], [0]),
    Tree([0, 2], [1, 2], [0, 0]),
    Tree([0, 1], [1, LARGE], [0, 0]),
    Tree([0, 1], [1, 2], [0, 2]),
    # marks that are 0 or 1 in a part of their bits
    *(Tree([0, 1], [1, 2], [0, mark]) for mark in (3, 255, 256, 257, 2**15, 2**15 + 1, 2**16 - 1)),
]

FAULTY = [all_marked(*arcs) for arcs in FAULTY_ARCS] + FAULTY_MARKS


def listing(tree, length):
    """The entries that write and take nothing but a tree, with an output list of this length."""
    yield "members", tree, length
    yield "needs", tree, length
    yield "deadends", tree.parents, tree.costs, length


def refusal_order():
    # 1 before 2, 3 and 4
    for costs in ([], star(1023), star(1025), [LARGE] * 1024):
        yield "check", all_marked([1] * 1024, costs)
    # the tree before 5 and 8
    for tree in FAULTY:
        yield from every_entry(tree)
        yield "group", tree, words_of([1023])
        for length in (0, 2, 5):
            yield from listing(tree, length)
    for tree in (T, T_SPARE, all_marked([0], [7]), all_marked(chain(5), [1] * 5), all_marked(star(5), [2] * 5)):
        for length in (0, 1, 2, 3, 4, 5, 6, 1023, 1100):
            yield from listing(tree, length)


def damaged(dice, tree):
    """The tree with one fault in its parents or costs."""
    parents, costs = list(tree.parents), list(tree.costs)
    arc = dice.randint(1, len(parents))
    fault = dice.choice(["parent", "cost", "both", "shorter", "longer", "no parents"])
    if fault in ("parent", "both"):
        parents[arc - 1] = dice.choice([arc, arc + 1, 2**16 - 1])
    if fault in ("cost", "both"):
        costs[dice.randrange(len(costs))] = dice.choice([MOST_COST + 1, 2**32 - 1])
    if fault == "shorter":
        costs.pop()
    if fault == "longer":
        costs.append(0)
    if fault == "no parents":
        parents.clear()
    return all_marked(parents, costs)


def random_trees():
    dice = random.Random(2003)
    for turn in range(300):
        tree = random_tree(dice, dice.randint(1, 12))
        count = member_count(tree)
        yield from every_entry(tree, random_group(dice, count))
        yield "group", tree, random_group(dice, count)
        yield "group", tree, random_group(dice, count + 2)
        if count <= 6 and turn % 5 == 0:
            for words in all_groups(count):
                yield "group", tree, words
        if turn % 3 == 0:
            yield from every_entry(damaged(dice, tree), random_group(dice, count + 1))
        if turn % 3 == 1:
            yield "members", tree, count + dice.choice([-1, 1])
            yield "needs", tree, len(tree.parents) + dice.choice([-1, 1])


def large_trees():
    dice = random.Random(14)
    for arcs in (100, 500, 1023):
        tree = random_tree(dice, arcs)
        count = member_count(tree)
        yield from every_entry(tree, random_group(dice, count))
        yield "group", tree, words_of(range(count))
        yield "group", tree, random_group(dice, count)
        for _ in range(2):
            yield from proposed(tree, random_proposal(dice, tree))
