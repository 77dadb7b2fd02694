"""The cases of states made of trees, and of events committed one after another."""
import random

from rules import MOST_ARCS, MOST_COST, Tree, all_marked, dead_end_marks
from marks import SPARE, lists
from networks import T, T_SPARE, U, W, chain, comb, random_tree, star, thinned
from states import Quote, arrive, leave, make_state, new_cost, state_tree
from steps import first_state, in_turn, outcome
from trees import FAULTY, LARGE

# one arc alone, and T with one member
ONE = Tree([0], [7], [1])
T_LAST = T._replace(marks=[0, 0, 0, 1])

SMALL_SPARE = [tree for tree in SPARE if len(tree.parents) < 10]

# amounts up to the greatest cost, and past it
AMOUNTS = [0, 1, 8, MOST_COST - 1, MOST_COST, LARGE, 2**31, 2**32 - 1]


def made(tree, *steps):
    """The state made of a tree, and steps on it; an event stands for its commit."""
    return "state", tree, in_turn(first_state(tree), steps)


def made_states():
    for tree in (T, U, W, ONE, all_marked([0, 1, 2, 2], [1, 1, 0, 0]), *SPARE):
        yield made(tree)
    for parents in lists([0], [0, 1], [0, 1, 2]):
        for marks in lists(*[[0, 1]] * 3):
            yield made(Tree(parents, [1, 2, 4], marks), new_cost(3, 5))


def refused_makings():
    """A state that is 0 throughout, so that every event on it is refused 1."""
    for tree in [*FAULTY, Tree([], [], []), all_marked(star(MOST_ARCS + 1), star(MOST_ARCS + 1))]:
        yield made(tree)
    for tree in FAULTY[::7]:
        yield made(tree, arrive(0), leave(1), new_cost(1, LARGE))


def every_event(vertex, amounts):
    return [arrive(vertex), leave(vertex), *(new_cost(vertex, amount) for amount in amounts)]


def single_events():
    """Every kind at every vertex, and at one below and above them."""
    for tree in (T, T_SPARE, T_LAST, ONE, U):
        for vertex in range(len(tree.parents) + 2):
            for event in every_event(vertex, AMOUNTS):
                yield made(tree, event)
    for tree in [W, *SMALL_SPARE]:
        yield made(tree, *(event for vertex in range(9) for event in every_event(vertex, [3, LARGE])))


def far_vertices():
    """21 at vertices that are one of T's in a part of their bits, and at the greatest."""
    near = [255, 256 + 3, MOST_ARCS, MOST_ARCS + 1]
    far = [2**16 - 1, 2**16, 2**16 + 3, 2**32, 2**32 + 3, 2**63, 2**63 + 3, 2**64 - 1]
    for vertex in near + far:
        # an impossible amount comes after 21
        for event in every_event(vertex, [9, LARGE, 2**32 - 1]):
            yield made(T, event)


def dead_ends(tree):
    return [vertex for vertex, mark in enumerate(dead_end_marks(tree.parents), 1) if mark == 1]


def unused_costs():
    """New costs where nobody pays them, and then somebody who does."""
    for tree in SMALL_SPARE:
        plots = [vertex for vertex in dead_ends(tree) if tree.marks[vertex - 1] == 0]
        for vertex in range(1, len(tree.parents) + 1):
            for amount in (0, 20, MOST_COST, LARGE):
                yield made(tree, new_cost(vertex, amount), *map(arrive, plots[:2]))
    yield made(T_SPARE, new_cost(3, LARGE), new_cost(3, MOST_COST), new_cost(3, 0), arrive(3), new_cost(3, 5))


def there_and_back():
    """Each member leaves and arrives again, then two at a time; where one lives alone the others arrive and leave."""
    for arcs in range(1, 6):
        for parents in lists(*map(range, range(1, arcs + 1))):
            tree = all_marked(parents, list(range(3, arcs + 3)))
            first, *others = dead_ends(tree)
            if arcs < 5:
                turns = [event for vertex in (first, *others) for event in (leave(vertex), arrive(vertex))]
                pairs = [change(vertex) for change in (leave, arrive) for vertex in (first, *others[-1:])]
                yield made(tree, *turns, *pairs)
            if others:
                alone = tree._replace(marks=[int(vertex == first) for vertex in range(1, arcs + 1)])
                turns = [event for vertex in others for event in (arrive(vertex), leave(vertex))]
                yield made(alone, *turns, *map(arrive, others))


def smallest_and_largest():
    yield made(ONE, leave(1), arrive(1), new_cost(1, 0), new_cost(1, LARGE), new_cost(1, MOST_COST), new_cost(2, 0))
    last = MOST_ARCS
    everyone = all_marked(star(last), [arc % 10 for arc in range(last)])
    yield made(everyone, leave(last), arrive(last + 1), arrive(last), new_cost(last, 0), leave(1), arrive(1))
    yield made(everyone._replace(marks=[0] * (last - 1) + [1]), leave(last), arrive(1), leave(last))
    costs = [1] * (last - 1) + [MOST_COST]
    yield made(all_marked(chain(last), costs), leave(last), arrive(last - 1), new_cost(last, 5), new_cost(1, LARGE))
    branches = all_marked(comb(last), [2] * last)
    yield made(branches, leave(2), leave(last), arrive(last - 2), new_cost(1, 1000), arrive(2))


def random_event(dice, tree):
    """Mostly one that changes a dead end's mark or an arc's cost."""
    arcs = len(tree.parents)
    vertex = dice.choice(dead_ends(tree)) if dice.randrange(4) else dice.randint(0, arcs + 1)
    kind = dice.choice(["sensible", "sensible", "sensible", "cost", "cost", "any"])
    if kind == "sensible" and 1 <= vertex <= arcs:
        return leave(vertex) if tree.marks[vertex - 1] else arrive(vertex)
    if kind == "cost":
        most = dice.choice([max(tree.costs), 9, 30, 9, 30, MOST_COST, 2 * MOST_COST])
        return new_cost(dice.choice([vertex, dice.randint(1, arcs)]), dice.randint(0, most))
    return dice.choice(every_event(vertex, [dice.randrange(10)]))


def random_events():
    dice = random.Random(6)
    for turn in range(60):
        tree = random_tree(dice, dice.randint(2, 12), most_costs=[3, 9, 9, 100])
        if turn % 2:
            tree = thinned(dice, tree)
        state, quotes = make_state(tree), []
        for _ in range(100):
            quotes.append(Quote(random_event(dice, state_tree(state)), state.committed))
            state = outcome(state, quotes[-1]).state
        yield "state", tree, quotes
