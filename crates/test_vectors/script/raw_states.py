"""The cases of events committed on states as handed in: any number of arcs, any entries past them, any shares."""
import random

from rules import MOST_ARCS
from entries import answer
from events import ONE, T_LAST, every_event, made, random_event
from networks import T, T_SPARE, random_tree, thinned
from states import arrive, leave, new_cost, state_of
from steps import in_turn
from trees import FAULTY, LARGE

GREATEST = 2**64 - 1

# two that T's state carries out; then 22, 17, 21 three times, and 4
CARRIED_OUT = [leave(3), new_cost(2, 9)]
REFUSED = [arrive(2), arrive(1), arrive(5), leave(5), new_cost(5, 1), new_cost(3, LARGE)]


def handed(state, *steps):
    """A state as it is, and steps on it; an event stands for its commit."""
    return "events", state, in_turn(state, steps)


def with_more(tree, parents=(), costs=(), marks=(), shares=()):
    """The state with this tree, entries past its arcs, and shares that need not be its own."""
    own_and_more = zip(tree, (parents, costs, marks))
    return state_of(len(tree.parents), *([*own, *more] for own, more in own_and_more), shares)


def arc_counts():
    """T's lists under every kind of number of arcs."""
    parts = [2**16, 2**16 + 4, 2**32, 2**32 + 4, 2**63, 2**63 + 4]
    for arcs in [*range(7), *range(MOST_ARCS - 1, MOST_ARCS + 3), *parts, GREATEST - 1, GREATEST]:
        state = state_of(arcs, *T, [4, 8, 4])
        last = [arrive(arcs), new_cost(arcs, 3), leave(min(arcs + 1, GREATEST))]
        yield handed(state)
        for event in CARRIED_OUT + REFUSED[:2] + last:
            yield handed(state, event)
    # 1 before 3, 4, 16 and 18, and before all that an event can meet
    for arcs in (0, MOST_ARCS + 1, GREATEST):
        for lists in ([[1], [LARGE], [2]], [[], [LARGE], []], [[], [], [2]], [[], [], []]):
            yield handed(state_of(arcs, *lists, [7]), arrive(0), leave(1), new_cost(1, LARGE))
    # as many arcs as there can be, all from the source
    state = state_of(MOST_ARCS, [], [], [1], [])
    for last in (MOST_ARCS - 1, MOST_ARCS, MOST_ARCS + 1):
        yield handed(state, leave(1), new_cost(last, 5), arrive(last), leave(1), leave(last))


def last_faults():
    """A fault at the last arc that there can be, as one of the tree's and past its arcs."""
    before = [0] * (MOST_ARCS - 1)
    for arcs in (MOST_ARCS - 1, MOST_ARCS):
        yield handed(state_of(arcs, [*before, MOST_ARCS], [], [1], []), new_cost(1, 5))
        yield handed(state_of(arcs, [], [*before, LARGE], [1], []), new_cost(1, 5))
        yield handed(state_of(arcs, [], [], [1, *before[1:], 2], []), new_cost(1, 5))


# by list: entries that would be refused where they are read, or change the shares
BEYOND = [
    ("parents", [[5], [9], [2], [0, 1], [0, 2**16 - 1]]),
    ("costs", [[7], [LARGE], [0, 2**32 - 1]]),
    ("marks", [[1], [2], [0, 2**16 - 1]]),
    ("shares", [[4, 8, 4], [4, 8, 5], [0, 0, 0, 0, 9], [GREATEST] * 5]),
]


def past_arcs():
    for name, choices in BEYOND:
        for entries in choices:
            for event in CARRIED_OUT + REFUSED:
                yield handed(with_more(T, **{name: entries}), event)
    everywhere = dict(parents=[2, 9, 1], costs=[LARGE, 7], marks=[1, 2, 1], shares=[1, 2, 3, 4, 5, GREATEST])
    for event in CARRIED_OUT + REFUSED:
        state = with_more(T, **everywhere)
        yield handed(state, event)
        yield handed(state, REFUSED[0], event, CARRIED_OUT[1])
    # a mark past the arcs is no member's, and a parent there makes no child
    yield handed(with_more(T_LAST, marks=[1]), leave(4))
    yield handed(with_more(T_SPARE, parents=[3]), arrive(3))
    # something in every entry
    more = [9] * (MOST_ARCS - 4)
    for event in (CARRIED_OUT[0], REFUSED[0]):
        yield handed(with_more(T, more, more, more, [9] * MOST_ARCS), event)


def faulty_states():
    """The trees with faults as states, and past the arcs of T."""
    for tree in FAULTY:
        arcs = len(tree.parents)
        if all(len(entries) == arcs for entries in tree):
            events = [new_cost(1, 5), arrive(1), leave(1), arrive(arcs), leave(arcs), new_cost(0, LARGE)]
            yield handed(state_of(arcs, *tree, [7]), *events)
        yield handed(with_more(T, *tree), CARRIED_OUT[0])
        yield handed(with_more(T, *tree, [7]), REFUSED[0])


def tree_faults(tree):
    """States of this tree with one fault each: number, place, state."""
    for arcs in (0, MOST_ARCS + 1, GREATEST):
        yield 1, 0, state_of(arcs, *tree, [])
    yield 3, 2, with_more(tree._replace(parents=[0, 2, 1, 0]))
    yield 4, 3, with_more(tree._replace(costs=[6, 1, LARGE, 4]))
    yield 16, 3, with_more(tree._replace(marks=[*tree.marks[:2], 2, 1]))
    yield 17, 1, with_more(tree._replace(marks=[1, *tree.marks[1:]]))
    yield 18, 0, with_more(tree._replace(marks=[0] * 4))


# trees, and events that are refused on them: number, place, event
EVENT_FAULTS = [
    *((T, 21, vertex, event) for vertex in (0, 5, GREATEST) for event in every_event(vertex, [1, LARGE])),
    (T, 22, 2, arrive(2)),
    (T, 22, 1, leave(1)),
    (T, 17, 1, arrive(1)),
    (T, 4, 2, new_cost(2, LARGE)),
    (T, 4, 3, new_cost(3, LARGE)),
    (T_LAST, 22, 4, arrive(4)),
    (T_LAST, 22, 2, leave(2)),
    (T_LAST, 17, 1, arrive(1)),
    (T_LAST, 18, 0, leave(4)),
    (T_LAST, 4, 1, new_cost(1, LARGE)),
]


def event_order():
    """The tree's faults before the event's."""
    for tree, number, place, event in EVENT_FAULTS:
        case = made(tree, event)
        assert answer(case).split("; ")[1].startswith(f"refused {number} at {place}: "), case
        yield case
        for number, place, state in tree_faults(tree):
            case = handed(state, event)
            assert answer(case).startswith(f"refused {number} at {place}: "), case
            yield case
    # events that would take the tree's fault away
    for mark in (2, 3, 256, 257, 2**16 - 1):
        yield handed(with_more(T._replace(marks=[0, 1, mark, 1])), arrive(3), leave(3))
    for amount in (0, 1):
        yield handed(with_more(T._replace(costs=[6, LARGE, 5, 4])), new_cost(2, amount))
    yield handed(with_more(T._replace(marks=[1, 1, 1, 1])), leave(1))
    yield handed(with_more(T._replace(marks=[1, 0, 0, 0])), leave(1))
    yield handed(with_more(T._replace(marks=[0, 0, 0, 0])), arrive(2))
    yield handed(with_more(ONE._replace(marks=[0])), arrive(1))


def random_entries(dice, choices):
    return [dice.choice(choices) for _ in range(dice.randrange(4))]


def random_states():
    """Small trees, in every second of them one entry changed; anything past the arcs, and any shares."""
    dice = random.Random(11)
    for turn in range(300):
        tree = thinned(dice, random_tree(dice, dice.randint(1, 7), most_costs=[9]))
        events = [random_event(dice, tree) for _ in range(dice.choice([1, 1, 2]))]
        if turn % 2:
            name, entry = dice.choice([("parents", 7), ("costs", LARGE), ("marks", 1), ("marks", 2), ("marks", 0)])
            entries = list(getattr(tree, name))
            entries[dice.randrange(len(entries))] = entry
            tree = tree._replace(**{name: entries})
        past = [random_entries(dice, choices) for choices in ([0, 1, 2, 9], [0, 5, LARGE], [0, 1, 2])]
        yield handed(with_more(tree, *past, random_entries(dice, [0, 1, 9, GREATEST])), *events)
