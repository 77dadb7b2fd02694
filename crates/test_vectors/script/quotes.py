"""The cases of askings and commits: at once, later, again, on other states, and with any number."""
import random
from itertools import product

from rules import MOST_ARCS, Tree, all_marked
from events import ONE, SMALL_SPARE, T_LAST, every_event, made, random_event
from marks import lists
from networks import T, T_SPARE, U, W, comb, random_tree, thinned
from raw_states import CARRIED_OUT, EVENT_FAULTS, GREATEST, REFUSED, handed, tree_faults, with_more
from states import MOST_EVENTS, Quote, arrive, leave, new_cost, padded, state_made, state_of, state_tree
from steps import Asking, outcome, outcomes
from trees import FAULTY, LARGE

MOST_NUMBER = 2**32 - 1

# numbers of events committed: the last that lets one more be, and three that do not
COUNTS = [MOST_EVENTS - 1, MOST_EVENTS, MOST_EVENTS + 1, MOST_NUMBER]

# events that T's state carries out
T_EVENTS = [*CARRIED_OUT, leave(2), leave(4), new_cost(1, 9), new_cost(4, 0)]

# shares that are no tree's here, and entries past the arcs
FOREIGN = [3, 0, GREATEST, 5]
UNTIDY = dict(parents=[9, 1], costs=[LARGE, 7], marks=[1, 2], shares=FOREIGN)


def answers_of(case):
    """What the steps of a case answer, on a state as handed in."""
    _, state, steps = case
    return [done.answer for done in outcomes(state, steps)]


def holding(state, committed, shares=FOREIGN):
    """The state with so many events committed and these shares."""
    return state._replace(committed=committed, shares=padded(shares))


def at_once():
    """An event asked for and committed; its quote is committed once."""
    others = [(T_SPARE, arrive(3)), (T_SPARE, new_cost(3, 8)), (T_LAST, arrive(2)), (ONE, new_cost(1, 0))]
    for tree, event in [*((T, event) for event in T_EVENTS), *others]:
        quote = Quote(event, 0)
        yield made(tree, Asking(event), quote, quote)
        yield made(tree, Asking(event), Asking(event), quote, Asking(event), quote, event)


def two_quotes():
    """Two from one state: the second is refused 23, and is carried out with the number of then."""
    for first, second in product(T_EVENTS, repeat=2):
        quotes = [Quote(first, 0), Quote(second, 0)]
        case = made(T, Asking(first), Asking(second), *quotes, Quote(second, 1))
        assert outcomes(state_made(T, 0), case[2])[3].answer == "refused 23 at 0", case
        yield case


def other_numbers(count):
    """Numbers beside the count, and others; none of them is the count."""
    numbers = [count - 1, count + 1, 0, 1, *COUNTS]
    return sorted({number for number in numbers if 0 <= number <= MOST_NUMBER} - {count})


def with_numbers(state, event):
    """An asking, commits with other numbers and with the right one: 23, then 24, before all else."""
    wrong = other_numbers(state.committed)
    commits = [Quote(event, number) for number in [*wrong, state.committed]]
    case = handed(state, Asking(event), *commits)
    asked, *found = answers_of(case)
    assert asked.split()[1] not in ("23", "24"), case
    assert found[:-1] == ["refused 23 at 0"] * len(wrong), case
    assert found[-1] == (asked if state.committed < MOST_EVENTS else "refused 24 at 0"), case
    return case


def many_committed():
    beyond = [leave(0), new_cost(0, LARGE), new_cost(GREATEST, 2**32 - 1)]
    for count in (0, 1, *COUNTS):
        for event in T_EVENTS + REFUSED + beyond:
            yield with_numbers(state_made(T, count), event)
        for event in [CARRIED_OUT[0], REFUSED[0], beyond[1]]:
            for _, _, state in tree_faults(T):
                yield with_numbers(holding(state, count), event)


def last_event():
    """Events up to the most, and one that would be the next."""
    last = MOST_EVENTS - 1
    for event, after in product(T_EVENTS, [*T_EVENTS[:2], arrive(3), arrive(0)]):
        commits = [Quote(event, last), Quote(after, MOST_EVENTS), Quote(after, last), Quote(after, MOST_EVENTS + 1)]
        case = handed(state_made(T, last), Asking(event), *commits, Asking(after))
        assert answers_of(case)[2:5] == ["refused 24 at 0", "refused 23 at 0", "refused 23 at 0"], case
        yield case
    yield handed(state_made(T, last - 3), leave(2), arrive(2), leave(3), new_cost(2, 9), arrive(3), leave(4))


def other_states():
    """Quotes that nobody asked for, and quotes that were given on another state with the same number."""
    events = [event for vertex in range(6) for event in every_event(vertex, [3])]
    for tree in (T, T_SPARE, T_LAST, U, W, ONE):
        yield handed(state_made(tree, 7), *map(Asking, events))
        for event in events:
            yield handed(state_made(tree, 7), Quote(event, 7))


# on T with one member: every kind of event; 21, 22, 17, 18 and 4; other numbers
T_LAST_EVENTS = [event for vertex in range(6) for event in every_event(vertex, [3, LARGE])]
T_LAST_REFUSED = [event for tree, *_, event in EVENT_FAULTS if tree == T_LAST]


def idle_steps(number):
    """Askings, and commits that are refused on T with one member and so many events committed."""
    refused = [Quote(event, number) for event in [*T_LAST_REFUSED, leave(0), new_cost(5, LARGE)]]
    late = [Quote(event, number + away) for event in (arrive(2), leave(0)) for away in (1, 256, 65_536)]
    return [*map(Asking, T_LAST_EVENTS), *refused, *late, *map(Asking, T_LAST_EVENTS[::-1])]


def kept_quotes():
    """A quote, askings and refused commits of every kind, then its commit."""
    for event, number in product([arrive(2), arrive(3), new_cost(1, 9), new_cost(4, 0)], [0, 999_999]):
        for state in (state_made(T_LAST, number), holding(with_more(T_LAST, **UNTIDY), number)):
            idle = idle_steps(number)
            case = handed(state, Asking(event), *idle, Quote(event, number))
            first, *found, last = outcomes(state, case[2])
            assert all(done.state == state for done in (first, *found)), case
            commits = zip(idle, found)
            refusals = {done.answer.split()[1] for step, done in commits if isinstance(step, Quote)}
            assert refusals == {"23", "21", "22", "17", "18", "4"}, case
            assert (first.answer, first.shares) == (last.answer, last.shares), case
            yield case


def in_order(state, fault, events):
    """Each event asked for, committed with the state's number, and with another: the fault or else its own is found."""
    steps, answers = [], []
    for number, place, event in events:
        found = fault or f"refused {number} at {place}"
        steps += [Asking(event), Quote(event, state.committed), Quote(event, state.committed + 1)]
        answers += [found, found if state.committed < MOST_EVENTS else "refused 24 at 0", "refused 23 at 0"]
    case = handed(state, *steps)
    assert answers_of(case) == answers, case
    assert all(not any(done.shares) for done in outcomes(state, case[2])[::3]), case
    return case


def quote_order():
    """23, 24, the tree's faults, then the event's; a refused asking has no shares where the state has some."""
    for tree in (T, T_LAST):
        events = [(number, place, event) for of, number, place, event in EVENT_FAULTS if of == tree]
        for count in (5, MOST_EVENTS):
            yield in_order(holding(with_more(tree), count), None, events)
            for number, place, state in tree_faults(tree):
                yield in_order(holding(state, count), f"refused {number} at {place}", events)
    # 1 before 3, 4, 16, 17 and 18
    events = [(21, 0, arrive(0)), (22, 1, leave(1)), (4, 1, new_cost(1, LARGE)), (None, None, new_cost(1, 5))]
    for arcs in (0, MOST_ARCS + 1, 2**32, GREATEST):
        for faulty in ([[1], [], [1]], [[], [LARGE], [1]], [[], [], [2]], [[0, 1], [], [1]], [[], [], []]):
            yield in_order(state_of(arcs, *faulty, FOREIGN, committed=5), "refused 1 at 0", events)
    # 21 where the entries past the arcs would be refused 22 and 17
    for past, event in (([], leave(5)), ([1], arrive(5)), ([0], arrive(5)), ([1], leave(5))):
        yield in_order(with_more(T, [5], [LARGE], past, FOREIGN), None, [(21, 5, event), (21, 0, leave(0))])
    for tree in FAULTY:
        arcs = len(tree.parents)
        if all(len(entries) == arcs for entries in tree):
            events = [new_cost(1, 5), arrive(1), leave(1), arrive(arcs), leave(arcs), new_cost(0, LARGE)]
            yield handed(state_of(arcs, *tree, [7]), *map(Asking, events))


def high_bits():
    """Numbers that differ in one bit, and numbers on either side of the most in some of their bits."""
    event = leave(3)
    for bit in range(32):
        near, far = 5, 5 ^ 1 << bit
        yield handed(state_made(T, near), Asking(event), Quote(event, far), Quote(event, near), Quote(event, far))
        yield handed(state_made(T, far), Asking(event), Quote(event, near), Quote(event, far), Quote(event, near))
        if bit >= 8:
            yield handed(state_made(T, 0), Quote(event, 1 << bit), Quote(event, 0))
            yield handed(state_made(T, 1 << bit), Quote(event, 0), Quote(event, 1 << bit))
    low = MOST_EVENTS % 2**16
    for number in (low - 1, low, 2**16 - 1, 15 * 2**16, 15 * 2**16 + low - 1, 16 * 2**16, 2**24 + low, 2**31 + low):
        yield handed(state_made(T, number), Asking(event), Quote(event, number), Quote(arrive(3), number + 1))


def random_step(dice, state, given):
    """An asking, a quote that an asking gave, or any event with the right number or another."""
    event = random_event(dice, state_tree(state))
    kind = dice.choice(["ask", "ask", "given", "last", "last", "right", "past", "future"])
    if kind == "ask":
        return Asking(event)
    if kind in ("given", "last") and given:
        return given[-1] if kind == "last" else dice.choice(given)
    away = {"past": -dice.randint(1, 3), "future": dice.randint(1, 3)}.get(kind, 0)
    return Quote(event, min(max(state.committed + away, 0), MOST_NUMBER))


def random_quotes():
    dice = random.Random(23)
    counts = [0, 0, 0, 4, 250, 65_530, MOST_EVENTS - 6, MOST_EVENTS, MOST_NUMBER]
    for turn in range(90):
        tree = random_tree(dice, dice.randint(2, 9), most_costs=[3, 9, 9, 100])
        if turn % 2:
            tree = thinned(dice, tree)
        start = state_made(tree, dice.choice(counts))
        if turn % 3 == 0:
            start = holding(with_more(tree, **UNTIDY), start.committed)
        state, steps, given = start, [], []
        for _ in range(40):
            steps.append(random_step(dice, state, given))
            done = outcome(state, steps[-1])
            state = done.state
            if done.quote:
                given.append(done.quote)
        yield handed(start, *steps)


def every_asking():
    """Every kind at every vertex, where the state holds foreign shares and more past its arcs."""
    small = [
        Tree(parents, [1, 2, 4][:arcs], marks)
        for arcs in (1, 2, 3)
        for parents in lists(*map(range, range(1, arcs + 1)))
        for marks in lists(*[[0, 1]] * arcs)
    ]
    for turn, tree in enumerate([*small, T, T_LAST, U, W, *SMALL_SPARE]):
        vertices = range(len(tree.parents) + 2)
        askings = [Asking(event) for vertex in vertices for event in every_event(vertex, [5, LARGE])]
        untidy, tidy = (holding(with_more(tree, **past), turn) for past in (UNTIDY, {}))
        found, same = ([done[:3] for done in outcomes(state, askings)] for state in (untidy, tidy))
        assert found == same, tree
        yield handed(untidy, *askings)


def far_askings():
    """Vertices and numbers of arcs that are T's in a part of their bits, and the greatest."""
    near = [255, 256 + 3, MOST_ARCS, MOST_ARCS + 1]
    far = [2**16 - 1, 2**16, 2**16 + 3, 2**32, 2**32 + 3, 2**63, 2**63 + 3, 2**64 - 1]
    for vertex in near + far:
        yield made(T, *map(Asking, every_event(vertex, [9, LARGE, 2**32 - 1])))
    for arcs in [*range(7), *near, *far, MOST_ARCS - 1, MOST_ARCS + 2]:
        events = [*CARRIED_OUT, *REFUSED, arrive(arcs), new_cost(arcs, 3), leave(min(arcs + 1, GREATEST))]
        yield handed(state_of(arcs, *T, FOREIGN), *map(Asking, events))


def large_quotes():
    """As many arcs as there can be."""
    last = MOST_ARCS
    everyone = state_of(last, [], [arc % 10 for arc in range(last)], [1] * last, FOREIGN, committed=999_998)
    events = [leave(last), leave(1), new_cost(last, 9), arrive(last), arrive(last + 1), new_cost(1, LARGE)]
    yield handed(everyone, *map(Asking, events), *(Quote(event, 999_998) for event in events[::-1]), arrive(1))
    branches = all_marked(comb(last), [3] * last)
    yield made(branches, Asking(leave(2)), Asking(leave(last)), Quote(leave(last), 0), Asking(arrive(last)))
    alone = state_of(last, [], [], [1], FOREIGN)
    yield handed(alone, Asking(leave(1)), Asking(arrive(last)), Asking(new_cost(1, 5)), arrive(last), leave(1))
