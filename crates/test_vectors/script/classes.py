"""The by-arc split in cost classes (specification, §14), with no call of the engine."""
from typing import NamedTuple

from rules import Refusal, Tree, best_group, check_lengths, check_tree, member_count, whole_cost
from by_arc import by_arc_split

MOST_CLASSES = 4


class Classed(NamedTuple):
    """A tree whose arcs have a cost in each of some classes: the cost of arc k in class c is entry c * m + k - 1."""

    parents: list
    costs: list
    marks: list
    classes: int


def class_trees(classed):
    """For each class the tree with its costs."""
    arcs = range(len(classed.parents))
    for c in range(classed.classes):
        costs = [classed.costs[c * len(arcs) + i] for i in arcs]
        yield Tree(classed.parents, costs, classed.marks)


def summed_tree(classed):
    """The tree in which an arc costs what it costs in all classes together."""
    sums = [0] * len(classed.parents)
    for tree in class_trees(classed):
        sums = [before + cost for before, cost in zip(sums, tree.costs)]
    return Tree(classed.parents, sums, classed.marks)


def check_classed(classed):
    """32, 1, 2, and then what the tree with the summed costs is refused."""
    if not 1 <= classed.classes <= MOST_CLASSES:
        raise Refusal(32)
    check_lengths(classed.parents, classed.marks)
    if len(classed.costs) != classed.classes * len(classed.parents):
        raise Refusal(2)
    check_tree(summed_tree(classed))


def added_shares(classed, shares):
    """Each member's shares added over the classes: that of member j in class c is entry c * n + j."""
    count = member_count(classed)
    return [sum(shares[c * count + j] for c in range(classed.classes)) for j in range(count)]


def padded(totals):
    """The totals by class, with 0 for each class that is not in use."""
    return totals + [0] * (MOST_CLASSES - len(totals))


def class_split(classed):
    """The shares, class after class, each with tallies of its own; then the totals paid and those of cost."""
    trees = list(class_trees(classed))
    by_class = [by_arc_split(tree) for tree in trees]
    shares = sum(by_class, [])
    # together they pass the audit
    summed, added = summed_tree(classed), added_shares(classed, shares)
    assert sum(added) == whole_cost(summed), classed
    assert best_group(summed, added)[0] == 0, classed
    return shares, padded(list(map(sum, by_class))) + padded(list(map(whole_cost, trees)))
