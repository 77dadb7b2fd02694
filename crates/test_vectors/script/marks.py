"""The cases of marks: dead ends where nobody lives, and marks that are refused."""
import random
from itertools import product

from rules import MOST_CAP, MOST_COST, Tree, dead_end_marks, member_count, whole_cost, words_of
from networks import (
    T,
    T_SPARE,
    all_groups,
    broom,
    random_caps,
    random_group,
    random_payers,
    random_proposal,
    random_tree,
    star,
    thinned,
)
from trees import LARGE, every_entry, proposed
from levels import level_of
from divisions import by_arc_of


def lists(*choices):
    """Every list with one of the choices in each place."""
    return map(list, product(*choices))


def small_marks():
    for parents in lists([0], [0, 1], [0, 1, 2]):
        for marks in lists(*[[0, 1]] * 3):
            yield from every_entry(Tree(parents, [1, 2, 4], marks))
        for marks in lists(*[[0, 1, 2]] * 3):
            yield "check", Tree(parents, [1, 2, 4], marks)
    # every fault at two arcs, with every other
    for parents in lists(*[[0, 1, 2]] * 2):
        for costs in lists(*[[1, LARGE]] * 2):
            for marks in lists(*[[0, 1, 2]] * 2):
                yield "check", Tree(parents, costs, marks)


def spare_run(arcs):
    """A member at vertex 2, and beside it a run of all other vertices, at whose end nobody lives."""
    return Tree([0, 1, 1, *range(3, arcs)], [arc % 7 + 1 for arc in range(arcs)], [0, 1] + [0] * (arcs - 2))


SPARE = [
    T_SPARE,
    # nobody in a branch from the source
    T._replace(marks=[0, 1, 1, 0]),
    T._replace(marks=[0, 0, 0, 1]),
    Tree([0, 1, 1, 0, 4, 4], [3, 1, 4, 1, 5, 9], [0, 0, 0, 0, 1, 1]),
    Tree([0, 1, 1, 0, 4, 4], [3, 1, 4, 1, 5, 9], [0, 1, 1, 0, 0, 0]),
    # nobody in a branch below an inner vertex
    Tree([0, 1, 2, 2, 1, 0], [2, 7, 1, 8, 2, 8], [0, 0, 0, 0, 1, 1]),
    Tree([0, 1, 2, 2, 1, 1], [6, 7, 1, 8, 0, 3], [0, 0, 1, 0, 0, 1]),
    spare_run(40),
    # members between dead ends where nobody lives
    Tree(star(7), [1, 2, 3, 4, 5, 6, 7], [0, 1, 0, 0, 1, 1, 0]),
    Tree([0, 1, 1, 1, 1, 1], [11, 2, 0, 3, 1, 2], [0, 0, 1, 0, 1, 1]),
    # no cost but that of arcs without users
    Tree([0, 1, 1, 0], [0, 0, 5, 9], [0, 1, 0, 0]),
    # the greatest cost where nobody pays it, above and below, and beside the same where somebody does
    Tree(T.parents, [6, 1, MOST_COST, 4], T_SPARE.marks),
    Tree([0, 1, 1, 0, 4], [6, 1, 5, MOST_COST, MOST_COST], [0, 1, 1, 0, 0]),
    Tree([0, 1, 1, 0, 0], [MOST_COST] * 5, [0, 1, 0, 1, 0]),
]


def spare_networks():
    dice = random.Random(16)
    for tree in SPARE:
        count = member_count(tree)
        yield from every_entry(tree)
        for words in all_groups(count):
            yield "group", tree, words
        for _ in range(5):
            yield from proposed(tree, random_proposal(dice, tree))
            yield level_of(tree, random_caps(dice, tree))
        paid = random_payers(dice, tree)
        yield from proposed(tree, paid)
        # arcs without users taken into the total
        yield from proposed(tree, [paid[0] + sum(tree.costs) - whole_cost(tree), *paid[1:]])
        # every dead end taken for a member
        ends = sum(dead_end_marks(tree.parents))
        yield "members", tree, ends
        yield "group", tree, words_of(range(ends))
        yield from proposed(tree, [0] * ends)
        yield level_of(tree, [MOST_CAP] * ends)
        yield level_of(tree, [MOST_CAP] * count, length=ends)
        yield "byarc", tree, ends
    # a cost above the limit is refused where nobody pays it too
    yield from every_entry(Tree(T.parents, [6, 1, LARGE, 4], T_SPARE.marks))


def many_marks():
    """As many arcs as there can be."""
    ones_each, last = [1] * 1023, [0] * 1022 + [1]
    tree = Tree(star(1023), [MOST_COST] * 100 + [1] * 922 + [7], last)
    yield from every_entry(tree)
    yield from proposed(tree, [7])
    for tree in (Tree(broom(1023), ones_each, last), spare_run(1023)):
        yield "needs", tree, 1023
        yield level_of(tree, [MOST_CAP])
        yield by_arc_of(tree)
    # every second vertex, so that the members fill half of the words
    tree = Tree(star(1023), ones_each, [vertex % 2 for vertex in range(1023)])
    for bits in (range(511), [511], [1022]):
        yield "group", tree, words_of(bits)
    for marks in (last[1:], last + [0], [0] * 1023, [0] * 1022 + [2]):
        yield "check", Tree(star(1023), ones_each, marks)
    # 17 because of the last entry
    for parent in (1, 1022):
        yield "check", Tree(star(1022) + [parent], ones_each, ones_each)
    # 1 before 2
    yield "check", Tree(star(1024), star(1024), ones_each)


def badly_marked(dice, tree):
    """The tree with one fault in its marks."""
    marks = list(tree.marks)
    with_child = [parent for parent in tree.parents if parent != 0]
    fault = dice.choice(["value", "none", "shorter", "longer"] + ["child"] * len(with_child))
    if fault == "value":
        marks[dice.randrange(len(marks))] = dice.choice([2, 256, 2**16 - 1])
    if fault == "child":
        marks[dice.choice(with_child) - 1] = 1
    if fault == "none":
        marks = [0] * len(marks)
    if fault == "shorter":
        marks.pop()
    if fault == "longer":
        marks.append(0)
    return tree._replace(marks=marks)


def random_marks():
    dice = random.Random(1617)
    for turn in range(90):
        tree = thinned(dice, random_tree(dice, dice.randint(2, 12)))
        count = member_count(tree)
        yield from every_entry(tree, random_group(dice, count))
        yield "group", tree, random_group(dice, count + 1)
        for _ in range(2):
            yield from proposed(tree, random_proposal(dice, tree))
            yield level_of(tree, random_caps(dice, tree))
        if turn % 3 == 0:
            yield from every_entry(badly_marked(dice, tree), random_group(dice, count))
    for arcs in (60, 250, 1023):
        tree = thinned(dice, random_tree(dice, arcs))
        yield "needs", tree, arcs
        yield "group", tree, random_group(dice, member_count(tree))
        yield from proposed(tree, random_proposal(dice, tree))
        yield level_of(tree, random_caps(dice, tree))
        yield by_arc_of(tree)
