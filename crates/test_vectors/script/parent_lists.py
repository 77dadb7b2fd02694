"""All parent lists of a few arcs in rising order (specification, §13), with no call of the engine."""
from functools import cache
from itertools import product
from math import factorial

from rules import Refusal, check_parent, refusal_of

MOST_SMALL_ARCS = 6


def check_small(parents):
    """31, then 3 at the lowest arc."""
    if not 1 <= len(parents) <= MOST_SMALL_ARCS:
        raise Refusal(31)
    for arc, parent in enumerate(parents, 1):
        check_parent(arc, parent)


@cache
def parent_lists(arcs):
    """Every list of numbers below m is tried; sorting compares arc 1 first."""
    tried = map(list, product(range(arcs), repeat=arcs))
    found = sorted(parents for parents in tried if refusal_of(check_small, parents) is None)
    assert len(found) == factorial(arcs)
    return found


def lists_from(parents):
    """A parent list and all that follow it."""
    lists = parent_lists(len(parents))
    return lists[lists.index(parents) :]
