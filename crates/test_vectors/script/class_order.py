"""The cases of what the split in cost classes is refused: numbers of classes, lengths, sums, and the order of all."""
import random

from rules import MOST_COST, Tree, member_count
from classes import MOST_CLASSES, Classed
from classed import in_classes, random_classed
from networks import T, T_SPARE, star, with_entry
from trees import FAULTY, LARGE, classes_of, divided
from levels import GREATEST

SOME = range(1, MOST_CLASSES + 1)

# costs of one arc whose sum needs more than 32 bits; in its low 32 bits it is mostly within the limit
WIDE = [
    [2**32 - 1] * 4,
    [2**32 - 1, 1],
    [1, 2**32 - 1],
    [2**32 - 1, LARGE],
    [2**32 - 1, LARGE + 1],
    [2**31, 2**31],
    [2**31, 0, 2**31],
    [2**30] * 4,
    [2**32 - 1, 2**32 - 1, 2],
    [2**32 - 1, 2**32 - 1, 2**32 - 1, 3],
    [MOST_COST, MOST_COST, MOST_COST, 2**32 - 3 * MOST_COST],
]


def at_arc(tree, arc, costs):
    """The tree with these costs at an arc, a class each; each other arc costs 1 in each class."""
    return in_classes(tree, *(with_entry([1] * len(tree.parents), arc - 1, cost) for cost in costs))


def shifted(tree, cost):
    """The tree with the cost at one arc in each class, which is another arc in another class."""
    arcs = len(tree.parents)
    return in_classes(tree, *(with_entry([0] * arcs, c, cost) for c in range(MOST_CLASSES)))


def class_sums():
    """4 where an arc costs too much in all classes together, in one class alone too."""
    for classes in SOME:
        parts = [(MOST_COST + c) // classes for c in range(classes)]
        alone = [with_entry([0] * classes, c, MOST_COST) for c in range(classes)]
        for costs in [parts, *alone]:
            raised = [with_entry(costs, c, costs[c] + 1) for c in range(classes)]
            for tried in [costs, *raised]:
                yield classes_of(at_arc(T, 3, tried))
        yield classes_of(at_arc(T, 1, parts))
        yield classes_of(at_arc(T, 4, with_entry(parts, 0, parts[0] + 1)))
    for costs in WIDE:
        yield classes_of(at_arc(T, 2, costs))
        # at an arc without users
        yield classes_of(at_arc(T_SPARE, 3, costs))
    # sums above the limit at two arcs, in other classes
    yield classes_of(in_classes(T, [0, MOST_COST, 0, LARGE], [0, 1, 0, 0]))
    yield classes_of(in_classes(T, [0, 0, 0, LARGE], [0, 0, LARGE, 0]))
    # the limit at every arc; costs of different arcs are not added
    yield classes_of(in_classes(T, *[[MOST_COST // 4] * 4] * 4))
    yield classes_of(shifted(T, MOST_COST))


def class_counts():
    """32 where the number of classes is outside 1 to 4, before all else."""
    # numbers that are 0 to 4 in a part of their bits, and that times T's arcs or members are few
    for far in (0, 2**8, 2**16, 2**31, 2**32, 2**62, 2**63):
        for low in range(0 if far else 1, MOST_CLASSES + 1):
            yield "classes", Classed(T.parents, T.costs * low, T.marks, far + low), 3 * low
    for classes in (0, 5, 6, 7, 8, 12):
        yield "classes", Classed(T.parents, [1] * 4 * classes, T.marks, classes), 3 * classes
    for classes in (0, 5, 1023, GREATEST - 3, GREATEST):
        yield "classes", Classed(T.parents, T.costs, T.marks, classes), 3
        yield "classes", Classed([], [1], [], classes), 0
        yield "classes", Classed([0], [1], [1], classes), 1
    for tree in FAULTY[::6]:
        for classes in (0, 5, GREATEST):
            yield "classes", Classed(*tree, classes), 2
    yield "classes", Classed(star(1024), [], [], 0), 0


def class_lengths():
    """2, after 1 and before 3, 4, 16, 17 and 18; then 8, after them."""
    for classes in SOME:
        for length in (0, 1, 3, 4, 5, 8, 9, 12, 16, 17):
            yield "classes", Classed(T.parents, [1] * length, T.marks, classes), 3 * classes
        costs = T.costs * classes
        for marks in ([], T.marks[1:], [*T.marks, 0], T.marks * 2, T.marks * 4):
            yield "classes", Classed(T.parents, costs, marks, classes), 3 * classes
        yield "classes", Classed(T.parents, costs[1:], [*T.marks, 0], classes), 3 * classes
        for length in (0, 1, 3, 4, 6, 8, 9, 11, 12, 13, 1100, 4400):
            yield "classes", Classed(T.parents, costs, T.marks, classes), length
        # as many shares as arcs or dead ends
        for length in (2, 2 * classes, 3 * classes, 4 * classes):
            yield "classes", divided(T_SPARE, classes), length
        # 1 before 2
        for costs, marks in (([], []), ([1], []), ([], [1]), ([1] * classes, [1])):
            yield "classes", Classed([], costs, marks, classes), 0
    # 2 before a fault at arc 1
    for parent, cost, mark in ((1, 1, 1), (0, LARGE, 1), (0, 1, 2), (0, 1, 0)):
        for costs in (1, 3):
            yield "classes", Classed([parent], [cost] * costs, [mark], 2), 2
        for marks in (0, 2):
            yield "classes", Classed([parent], [cost] * 2, [mark] * marks, 2), 2
    yield "classes", Classed(star(1024), star(1023), [], 4), 4092


def class_refusals():
    """Every fault of a tree: a cost above the limit divided into four, and in the last of three classes alone."""
    for tree in FAULTY:
        nothing = [0] * len(tree.costs)
        yield classes_of(in_classes(tree, nothing, nothing, tree.costs))
        # before 8
        yield "classes", divided(tree, 4), 4 * member_count(tree) + 1
    # 17 before 3 and 4 at later arcs, and 4 before 18 and 8, where only the sum is above the limit
    half = MOST_COST // 2
    yield "classes", in_classes(Tree([0, 1, 9], [], [1, 1, 1]), [1, 2, 3], [4, 5, 6]), 0
    yield "classes", in_classes(Tree([0, 1, 1], [], [1, 1, 1]), [1, 2, half], [4, 5, half + 1]), 0
    yield "classes", in_classes(Tree([0, 1, 1], [], [0, 0, 0]), [1, 2, half], [4, 5, half + 1]), 0
    yield "classes", in_classes(Tree([0, 1, 1], [], [0, 0, 0]), [1, 2, half], [4, 5, half]), 0


def with_fault(dice, classed):
    """A tree with classes, with one fault more; a mark of 1 is one only where there is a child."""
    parents, costs, marks, classes = classed
    fault = dice.choice(["classes", "lengths", "parent", "parent", "sum", "class", "mark", "mark", "nobody"])
    if fault == "classes":
        classes = dice.choice([0, 5, classes + 1])
    if fault == "lengths":
        costs, marks = dice.choice([(costs[1:], marks), ([*costs, 1], marks), (costs, marks[1:]), (costs, [*marks, 0])])
    if fault == "parent":
        arc = dice.randint(1, len(parents))
        parents = with_entry(parents, arc - 1, dice.choice([arc, arc + 1, 2**16 - 1]))
    if fault in ("sum", "class"):
        place = dice.randrange(len(costs))
        costs = with_entry(costs, place, MOST_COST if fault == "sum" else LARGE)
    if fault == "mark":
        marks = with_entry(marks, dice.randrange(len(marks)), dice.choice([1, 1, 1, 2, 256, 2**16 - 1]))
    if fault == "nobody":
        marks = [0] * len(marks)
    return Classed(parents, costs, marks, classes)


def random_class_faults():
    """One fault to three, and an output of any length."""
    dice = random.Random(3212)
    for _ in range(80):
        classed = random_classed(dice, dice.randint(4, 7), dice.randint(1, 4))
        length = classed.classes * member_count(classed)
        for _ in range(dice.choice([1, 2, 2, 3])):
            classed = with_fault(dice, classed)
        yield "classes", classed, dice.choice([length, length, length + 1, max(0, length - 1)])
