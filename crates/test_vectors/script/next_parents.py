"""The cases of the step through all parent lists of a few arcs."""
import random
from itertools import combinations

from marks import lists
from networks import chain, star, with_entry
from parent_lists import MOST_SMALL_ARCS, parent_lists

FEW = range(1, MOST_SMALL_ARCS + 1)
PAST = MOST_SMALL_ARCS + 1
GREATEST = 2**16 - 1

# with their answers by hand
STATED_PARENTS = [
    (("next", [0, 0, 0]), "next: 0,0,1"),
    (("next", [0, 0, 1]), "next: 0,0,2"),
    (("next", [0, 0, 2]), "next: 0,1,0"),
    (("next", [0, 1, 0]), "next: 0,1,1"),
    (("next", [0, 1, 1]), "next: 0,1,2"),
    (("next", [0, 1, 2]), "end: 0,1,2"),
    (("next", [0]), "end: 0"),
    (("next", [0, 0, 2, 3]), "next: 0,1,0,0"),
    (("next", [0, 0, 2, 3, 4, 5]), "next: 0,1,0,0,0,0"),
    (("walk", [0]), "lists 1, end: 0"),
    (("walk", [0, 0]), "lists 2, end: 0,1"),
    (("walk", [0, 0, 0]), "lists 6, end: 0,1,2"),
    (("walk", [0, 0, 0, 0]), "lists 24, end: 0,1,2,3"),
    (("walk", [0, 0, 0, 0, 0]), "lists 120, end: 0,1,2,3,4"),
    (("walk", [0, 0, 0, 0, 0, 0]), "lists 720, end: 0,1,2,3,4,5"),
    (("next", []), "refused 31 at 0: -"),
    (("next", [0, 0, 0, 0, 0, 0, 0]), "refused 31 at 0: 0,0,0,0,0,0,0"),
    (("next", [1]), "refused 3 at 1: 1"),
    (("next", [0, 0, 3, 0, 0]), "refused 3 at 3: 0,0,3,0,0"),
    (("next", [0, GREATEST]), "refused 3 at 2: 0,65535"),
    (("next", [0, 2, 3]), "refused 3 at 2: 0,2,3"),
    (("next", [1, 2, 3, 4, 5, 6, 7]), "refused 31 at 0: 1,2,3,4,5,6,7"),
    (("walk", []), "lists 1, refused 31 at 0: -"),
    (("walk", [0, 0, 3, 0, 0]), "lists 1, refused 3 at 3: 0,0,3,0,0"),
]


def own_numbers(arcs):
    """The list that has a fault at every arc: its own number."""
    return list(range(1, arcs + 1))


def every_list():
    for arcs in FEW:
        for parents in parent_lists(arcs):
            yield "next", parents


def walks():
    """From every list of up to 4 arcs, and from some of 5 and 6; refused ones too."""
    for arcs in range(1, 5):
        for parents in parent_lists(arcs):
            yield "walk", parents
    dice = random.Random(311)
    for arcs in (5, 6):
        for parents in dice.sample(parent_lists(arcs), 12):
            yield "walk", parents
    for arcs in FEW:
        yield "walk", with_entry(chain(arcs), arcs - 1, arcs)
    for length in (0, PAST):
        yield "walk", star(length)


def list_lengths():
    """31, before 3 too; some of the lengths are 0 to 6 in their lowest byte."""
    for length in (0, PAST, PAST + 1, 15, 255, 256, 257, 262, 263, 1023, 1024, 1100):
        for entries in (star(length), chain(length), own_numbers(length), [GREATEST] * length):
            yield "next", entries
    for arc in range(1, PAST + 1):
        for entry in (arc, GREATEST):
            yield "next", with_entry(star(PAST), arc - 1, entry)
            yield "next", with_entry(chain(PAST), arc - 1, entry)


def list_faults():
    """3 at the lowest arc; some of the entries are 0 in their lowest byte."""
    for arcs in FEW:
        for start in (star(arcs), chain(arcs)):
            for arc in range(1, arcs + 1):
                for entry in (arc, arc + 1, 255, 256, 2**15, GREATEST):
                    yield "next", with_entry(start, arc - 1, entry)
            for low, high in combinations(range(1, arcs + 1), 2):
                yield "next", with_entry(with_entry(start, low - 1, low), high - 1, GREATEST)
                yield "next", with_entry(with_entry(start, low - 1, GREATEST), high - 1, high)
        yield "next", own_numbers(arcs)
        yield "next", [GREATEST] * arcs
    for arcs in (1, 2, 3):
        for entries in lists(*[[*range(arcs + 1), GREATEST]] * arcs):
            yield "next", entries


def random_parents():
    """Lists of any few entries; most entries are below their arcs."""
    dice = random.Random(1131)
    for _ in range(200):
        length = dice.choice([3, 4, 5, 6, 6, 6, 7, 8])
        entries = [dice.randrange(arc) for arc in range(1, length + 1)]
        for _ in range(dice.randrange(4)):
            arc = dice.randint(1, length)
            entries[arc - 1] = dice.choice([arc, arc - 1, dice.randrange(8), dice.randrange(2**16)])
        yield "next", entries
