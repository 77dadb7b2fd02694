"""States, events and quotes (specification, §11), with no call of the engine."""
from typing import NamedTuple

from rules import MOST_ARCS, MOST_COST, Refusal, Tree, check_tree, member_count, refusal_of
from by_arc import by_arc_split

ARRIVE, LEAVE, NEW_COST = "+", "-", "="

MOST_EVENTS = 1_000_000


class State(NamedTuple):
    """The number of arcs, four lists with 1,023 entries each, and the number of events committed."""

    arcs: int
    parents: list
    costs: list
    marks: list
    shares: list
    committed: int

    @property
    def lists(self):
        return [self.parents, self.costs, self.marks, self.shares]


class Event(NamedTuple):
    vertex: int
    change: str
    amount: int = 0

    def __str__(self):
        if self.change == NEW_COST:
            return f"{self.vertex}={self.amount}"
        return f"{self.change}{self.vertex}"


class Quote(NamedTuple):
    """An event, and the number of events committed where it was asked for."""

    event: Event
    committed: int

    def __str__(self):
        return f"{self.event}@{self.committed}"


def arrive(vertex):
    return Event(vertex, ARRIVE)


def leave(vertex):
    return Event(vertex, LEAVE)


def new_cost(vertex, amount):
    return Event(vertex, NEW_COST, amount)


def padded(entries):
    """The list filled up with 0, as a state holds it."""
    return [*entries, *[0] * (MOST_ARCS - len(entries))]


def state_of(arcs, *lists, committed=0):
    """The state with these lists, each filled up with 0."""
    return State(arcs, *map(padded, lists), committed)


# 0 throughout
NO_STATE = state_of(0, [], [], [], [])


def state_made(tree, committed):
    """The state made of an accepted tree, with so many events committed."""
    return state_of(len(tree.parents), *tree, by_arc_split(tree), committed=committed)


def make_state(tree):
    """The state made of a tree; the tree's refusals."""
    check_tree(tree)
    return state_made(tree, 0)


def state_tree(state):
    """The tree of a state: its first entries, one an arc; 1 where there is no such number of arcs."""
    if not 1 <= state.arcs <= MOST_ARCS:
        raise Refusal(1)
    return Tree(*(entries[: state.arcs] for entries in state.lists[:3]))


def check_event(tree, event):
    """21, then 22."""
    if not 1 <= event.vertex <= len(tree.parents):
        raise Refusal(21, event.vertex)
    if (event.change, tree.marks[event.vertex - 1]) in ((ARRIVE, 1), (LEAVE, 0)):
        raise Refusal(22, event.vertex)


def changed(tree, event):
    """The tree with the event's change made."""
    costs, marks = list(tree.costs), list(tree.marks)
    if event.change == NEW_COST:
        costs[event.vertex - 1] = event.amount
    else:
        marks[event.vertex - 1] = int(event.change == ARRIVE)
    return Tree(tree.parents, costs, marks)


def check_reached(tree, vertex):
    """17, 18 and 4 on the tree that an event at the vertex would reach."""
    if tree.marks[vertex - 1] == 1 and vertex in tree.parents:
        raise Refusal(17, vertex)
    if 1 not in tree.marks:
        raise Refusal(18)
    if tree.costs[vertex - 1] > MOST_COST:
        raise Refusal(4, vertex)


def tree_reached(state, event):
    """The tree that the event reaches; the checks on the state's tree, 21, 22, then 17, 18 and 4 on the one reached."""
    tree = state_tree(state)
    check_tree(tree)
    check_event(tree, event)
    reached = changed(tree, event)
    # the checks of any tree find the same there
    assert refusal_of(check_tree, reached) == refusal_of(check_reached, reached, event.vertex)
    check_reached(reached, event.vertex)
    return reached


def ask(state, event):
    """The number of members after the event, the quote, and the shares, as a state holds them."""
    reached = tree_reached(state, event)
    return member_count(reached), Quote(event, state.committed), padded(by_arc_split(reached))


def check_number(state, quote):
    """23, then 24."""
    if quote.committed != state.committed:
        raise Refusal(23)
    if state.committed >= MOST_EVENTS:
        raise Refusal(24)


def commit(state, quote):
    """The state after the quote's event."""
    check_number(state, quote)
    return state_made(tree_reached(state, quote.event), state.committed + 1)
