"""Arcs without users change no answer: the same cases on the tree without them, where every dead end is marked."""
import re

from rules import (
    Refusal,
    all_marked,
    arc_needs,
    arc_users,
    cap_sums,
    check_tree,
    member_vertices,
    refusal_of,
    whole_cost,
)
from classes import Classed, check_classed, summed_tree
from entries import answer

# the commands whose answers hold no vertex, and no arc but that of refusals 9 and 28
COMPARED = {"check", "count", "group", "total", "search", "level", "byarc"}


def pruned(tree):
    """The tree of the arcs with users, numbered anew, and what their numbers were."""
    kept = [arc for arc, users in enumerate(arc_users(tree), 1) if users]
    number = {0: 0, **{arc: new for new, arc in enumerate(kept, 1)}}
    parents = [number[tree.parents[arc - 1]] for arc in kept]
    return all_marked(parents, [tree.costs[arc - 1] for arc in kept]), kept


def as_before(line, kept):
    """The line with the old number of the arc of refusals 9, 25, 26 and 28."""
    return re.sub(r"^(refused (?:9|25|26|28) at )(\d+)", lambda found: f"{found[1]}{kept[int(found[2]) - 1]}", line)


def alone(tree, users):
    """The tree in which nobody but these members lives."""
    marks = [0] * len(tree.marks)
    for j, vertex in enumerate(member_vertices(tree)):
        marks[vertex - 1] = int(j in users)
    return tree._replace(marks=marks)


def check_margin(tree, arc, length):
    """Compares the margin with that on the arcs with users, and on those of the arc's users alone."""
    users = arc_users(tree)[arc - 1] if 1 <= arc <= len(tree.parents) else []
    if not users:
        return
    for small, kept in (pruned(tree), pruned(alone(tree, users))):
        if small != tree:
            line = answer(("margin", small, kept.index(arc) + 1, length))
            assert as_before(line, kept) == answer(("margin", tree, arc, length)), (tree, arc, length)


def check_pruned(case):
    """Compares the answers, where the tree is accepted and has an arc without users."""
    command, tree, *rest = case
    try:
        check_tree(tree)
    except Refusal:
        return
    if command == "margin":
        check_margin(tree, *rest)
    small, kept = pruned(tree)
    if small == tree:
        return
    caps = list(range(1, len(member_vertices(tree)) + 1))
    for of_arcs in (arc_needs, lambda t: cap_sums(t, caps)):
        by_arc = dict(zip(kept, of_arcs(small)))
        assert [by_arc.get(arc, 0) for arc in range(1, len(tree.parents) + 1)] == of_arcs(tree), case
    assert [kept[vertex - 1] for vertex in member_vertices(small)] == member_vertices(tree), case
    assert whole_cost(small) == sum(small.costs) == whole_cost(tree), case
    if command in COMPARED:
        assert as_before(answer((command, small, *rest)), kept) == answer(case), case


def check_classes(case):
    """Compares the split in cost classes, where the tree is accepted and has an arc without users."""
    command, classed, length = case
    if refusal_of(check_classed, classed):
        return
    small, kept = pruned(summed_tree(classed))
    arcs = len(classed.parents)
    if len(kept) == arcs:
        return
    costs = [classed.costs[c * arcs + arc - 1] for c in range(classed.classes) for arc in kept]
    used = Classed(small.parents, costs, small.marks, classed.classes)
    assert answer((command, used, length)) == answer(case), case
