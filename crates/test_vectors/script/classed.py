"""The cases of the split in cost classes: what each class is split into, and the totals."""
import random
from itertools import permutations, product

from rules import MOST_COST, Tree, all_marked
from classes import MOST_CLASSES, Classed, added_shares, class_split, summed_tree
from networks import T, T_SPARE, U, W, chain, comb, random_tree, star, thinned
from trees import LARGE, classes_of, divided, proposed
from levels import GREATEST
from divisions import forked
from marks import SPARE, lists

QUARTER = MOST_COST // MOST_CLASSES


def in_classes(tree, *costs):
    """The tree with a list of costs a class in place of its own."""
    return Classed(tree.parents, sum(costs, []), tree.marks, len(costs))


T_COSTS = [1, 1, 0, 4], [5, 0, 5, 0]
T_CLASSED = in_classes(T, *T_COSTS)

# with their answers by hand
STATED_CLASSES = [
    (classes_of(T_CLASSED), "members 3: 2,0,4,3,7,0: 6,10,0,0,6,10,0,0"),
    (classes_of(in_classes(T_SPARE, *T_COSTS)), "members 2: 2,4,5,0: 6,5,0,0,6,5,0,0"),
    (classes_of(in_classes(T, T.costs)), "members 3: 4,8,4: 16,0,0,0,16,0,0,0"),
    (classes_of(in_classes(U, U.costs)), "members 2: 4,3: 7,0,0,0,7,0,0,0"),
    (classes_of(in_classes(U, U.costs, U.costs)), "members 2: 4,3,4,3: 7,7,0,0,7,7,0,0"),
    (
        classes_of(Classed([0], [QUARTER] * 4, [1], 4)),
        "members 1: 250000000,250000000,250000000,250000000"
        ": 250000000,250000000,250000000,250000000,250000000,250000000,250000000,250000000",
    ),
    (classes_of(Classed([0], [QUARTER] * 3 + [QUARTER + 1], [1], 4)), "refused 4 at 1: 9,9,9,9: 0,0,0,0,0,0,0,0"),
    (classes_of(Classed([0], [2**32 - 1] * 4, [1], 4)), "refused 4 at 1: 9,9,9,9: 0,0,0,0,0,0,0,0"),
    (classes_of(Classed([0, 1], [1, LARGE, 1, 0], [0, 1], 2)), "refused 4 at 2: 9,9: 0,0,0,0,0,0,0,0"),
    (
        classes_of(in_classes(T_SPARE, [0, 0, MOST_COST, 0], [0, 0, 1, 0])),
        "refused 4 at 3: 9,9,9,9: 0,0,0,0,0,0,0,0",
    ),
    (("classes", Classed([], [], [], 0), 0), "refused 32 at 0: -: 0,0,0,0,0,0,0,0"),
    (("classes", Classed([], [], [], 5), 0), "refused 32 at 0: -: 0,0,0,0,0,0,0,0"),
    (("classes", Classed([], [], [], GREATEST), 0), "refused 32 at 0: -: 0,0,0,0,0,0,0,0"),
    (("classes", Classed([], [], [], 1), 0), "refused 1 at 0: -: 0,0,0,0,0,0,0,0"),
    (("classes", Classed(T.parents, T.costs, T.marks, 2), 6), "refused 2 at 0: 9,9,9,9,9,9: 0,0,0,0,0,0,0,0"),
    (
        ("classes", T_CLASSED._replace(costs=[1, 1, 0, 4, 5, 0, 5]), 6),
        "refused 2 at 0: 9,9,9,9,9,9: 0,0,0,0,0,0,0,0",
    ),
    (("classes", T_CLASSED._replace(classes=1), 3), "refused 2 at 0: 9,9,9: 0,0,0,0,0,0,0,0"),
    (("classes", T_CLASSED, 3), "refused 8 at 0: 9,9,9: 0,0,0,0,0,0,0,0"),
]


def shared_out(tree, homes, classes):
    """The tree with the whole cost of each arc in one class, and nothing in the others."""
    costs = [[cost if home == c else 0 for cost, home in zip(tree.costs, homes)] for c in range(classes)]
    return in_classes(tree, *costs)


def small_classes():
    # every division of 7, which is left over by 1 among two users
    for classes in (1, 2, 3):
        for units in product(range(8), repeat=classes):
            if sum(units) == 7:
                yield classes_of(in_classes(U, *([cost, 0, 0] for cost in units)))
    # every choice of one of two classes for each arc, and four arcs in four classes
    for homes in product(range(2), repeat=4):
        yield classes_of(shared_out(T, homes, 2))
        yield classes_of(shared_out(T_SPARE, homes, 2))
    for homes in permutations(range(4)):
        yield classes_of(shared_out(T, homes, 4))
    for tree in (T, U, W, all_marked([0], [7]), all_marked([0, 0], [3, 0]), all_marked(chain(3), [2, 0, 5])):
        for classes in (1, 3, 4):
            yield classes_of(divided(tree, classes))
            yield classes_of(in_classes(tree, *[tree.costs] * classes))
            yield classes_of(in_classes(tree, *[[0] * len(tree.costs)] * classes))


def class_turns():
    """Units left over in one class count in no other."""
    # one arc, and two arcs one above the other, with the same users
    for count, arcs, classes in ((2, 1, 4), (2, 2, 2), (3, 2, 2)):
        for costs in product(range(count), repeat=arcs * classes):
            tree = forked([0] * arcs, [[]], [0] * count)
            by_class = [costs[c * arcs : (c + 1) * arcs] for c in range(classes)]
            yield classes_of(in_classes(tree, *([*top, *tree.costs[arcs:]] for top in by_class)))
    # one class below an arc and another above it; then all in each
    for homes in ([0, 0, 1, 1], [0, 1, 0, 1], [1, 1, 0]):
        for below in (1, 3):
            tree = forked([1], [[1] * below, []], homes)
            top = [1] + [0] * (len(tree.costs) - 1)
            rest = [0] + tree.costs[1:]
            for costs in ((top, rest), (rest, top), (tree.costs, top), (rest, top, tree.costs)):
                yield classes_of(in_classes(tree, *costs))
    for classes in (2, 3, 4):
        for count in (2, 5, 64):
            yield classes_of(in_classes(forked([1] * 4, [[]], [0] * count), *[[1] * 4 + [0] * count] * classes))


def spare_classes():
    """Arcs without users count in no class; what they cost together has the limit all the same."""
    for tree in SPARE:
        for classes in (3, 4):
            yield classes_of(divided(tree, classes))
    for marks in lists([0], *[[0, 1]] * 3):
        yield classes_of(in_classes(T._replace(marks=marks), *T_COSTS))
    for parents in lists([0], [0, 1], [1]):
        for marks in lists(*[[0, 1]] * 3):
            yield classes_of(in_classes(Tree(parents, [], marks), [1, 2, 4], [0, 7, 3], [5, 1, 1]))
    # a class that has costs of such arcs alone, and sums at the limit and above it
    for first, second in ((0, 5), (0, MOST_COST), (MOST_COST, 0), (1, MOST_COST - 1), (1, MOST_COST), (LARGE, 0)):
        yield classes_of(in_classes(T_SPARE, [6, 1, first, 4], [0, 0, second, 0]))
        yield classes_of(in_classes(T_SPARE, [0, 0, second, 0], [6, 1, first, 4]))


def large_classes():
    """As many arcs as there can be."""
    digits = ([(arc + c) % 10 for arc in range(1023)] for c in range(MOST_CLASSES))
    yield classes_of(in_classes(all_marked(star(1023), []), *digits))
    yield classes_of(in_classes(all_marked(chain(1023), []), [MOST_COST] * 1023, [0] * 1023))
    tree = forked([0] * 511, [[]], [0] * 512)
    yield classes_of(in_classes(tree, *([c] * 1023 for c in (1, 2, 3, 5))))
    yield classes_of(divided(all_marked(comb(1023), [arc * arc % 20 for arc in range(1023)]), 3))


def random_classed(dice, arcs, classes):
    """A tree of any shape, with costs of another size in each class; none is above its part of the limit."""
    tree = random_tree(dice, arcs)
    most = [dice.choice([1, 2, 5, 9, 99, MOST_COST // classes]) for _ in range(classes)]
    return in_classes(tree, *([dice.randint(0, each) for _ in range(arcs)] for each in most))


def random_classes():
    """In every third nobody lives at some dead ends; of every third the shares are added up and audited."""
    dice = random.Random(1232)
    for turn in range(66):
        classed = random_classed(dice, dice.randint(2, 12), dice.choice([1, 2, 3, 3, 4, 4]))
        if turn % 3 == 0:
            classed = thinned(dice, classed)
        yield classes_of(classed)
        if turn % 3 == 1:
            shares, _ = class_split(classed)
            yield from proposed(summed_tree(classed), added_shares(classed, shares))
    for turn in range(8):
        classed = random_classed(dice, dice.randint(20, 60), turn % 4 + 1)
        yield classes_of(thinned(dice, classed) if turn < 4 else classed)
    yield classes_of(random_classed(dice, 200, 4))
