"""The specification's networks to try (§10), with their answers by hand."""
from rules import MOST_COST, WORDS, all_marked, words_of
from networks import T, T_SPARE, U, W, chain
from trees import LARGE, proposed
from floors import STATED_FLOORS
from dearer import STATED_DEARER
from margins import STATED_MARGINS
from classed import STATED_CLASSES
from next_parents import STATED_PARENTS
from stated_events import STATED_EVENTS
from stated_jobs import STATED_JOBS
from stated_quotes import STATED_QUOTES


def beside_words(line, first=0):
    return f"{line}: {first}" + ",0" * (WORDS - 1)


def judged(tree, proposal, difference, found, first=0):
    """The cases of a proposal, with their answers."""
    total, search = proposed(tree, proposal)
    return [(total, f"total {difference}"), (search, beside_words(found, first))]


STATED = [
    (("members", T, 3), "members 3: 2,3,4"),
    (("needs", T, 4), "whole 16 members 3: 12,1,5,4"),
    (("group", T, words_of([])), "size 0 cost 0"),
    (("group", T, words_of([0])), "size 1 cost 7"),
    (("group", T, words_of([0, 1])), "size 2 cost 12"),
    (("group", T, words_of([1, 2])), "size 2 cost 15"),
    (("check", all_marked([0], [MOST_COST])), "accepted"),
    (("check", all_marked([0], [MOST_COST + 1])), "refused 4 at 1"),
    (("check", all_marked([1], [5])), "refused 3 at 1"),
    (("check", all_marked(chain(1023), [1] * 1023)), "accepted"),
    (("check", all_marked(chain(1024), [1] * 1024)), "refused 1 at 0"),
    (("group", T, words_of([2])), "size 1 cost 4"),
    (("group", T, words_of([3])), "refused 5 at 3"),
    *judged(T, [7, 5, 4], 0, "no group"),
    *judged(T, [8, 4, 4], 0, "group 1 of 1", 1),
    *judged(T, [8, 4, 5], 1, "group 2 of 2", 5),
    *judged(T, [-1, 13, 4], 0, "group 2 of 1", 2),
    *judged(T, [6, 5, 5], 0, "group 1 of 1", 4),
    *judged(W, [7, 7, 6], 0, "group 2 of 2", 3),
    *judged(T, [9, 9, 9], 11, "group 11 of 3", 7),
    *judged(T, [-1, -1, -1], -19, "no group"),
    (("level", T, [100, 100, 100], [0, 0, 0], 3), "split 3: 6,6,4"),
    (("level", T, [3, 9, 4], [0, 0, 0], 3), "split 3: 3,9,4"),
    (("level", T, [3, 8, 100], [0, 0, 0], 3), "refused 9 at 1 short 1: 9,9,9"),
    (("level", U, [3, 100], [0, 0], 2), "split 2: 3,4"),
    (("capsums", T, [3, 9, 4], 4), "total 16: 12,3,9,4"),
    (("byarc", T, 3), "members 3: 4,8,4"),
    (("byarc", U, 2), "members 2: 4,3"),
    (("byarc", all_marked([0, 1, 2, 2], [1, 1, 0, 0]), 2), "members 2: 1,1"),
    (("count", T_SPARE), "members 2"),
    (("needs", T_SPARE, 4), "whole 11 members 2: 7,1,0,4"),
    (("group", T_SPARE, words_of([0])), "size 1 cost 7"),
    (("level", T_SPARE, [100, 100], [0, 0], 2), "split 2: 7,4"),
    (("capsums", T_SPARE, [3, 4], 4), "total 7: 3,3,0,4"),
    (("byarc", T_SPARE, 2), "members 2: 7,4"),
    (("deadends", T.parents, T.costs, 4), "members 3: 0,1,1,1"),
    (("check", T._replace(marks=[0, 1, 2, 1])), "refused 16 at 3"),
    (("check", T._replace(marks=[1, 1, 1, 1])), "refused 17 at 1"),
    (("check", T._replace(marks=[0, 0, 0, 0])), "refused 18 at 0"),
    *STATED_JOBS,
    *STATED_FLOORS,
    *STATED_DEARER,
    *STATED_MARGINS,
    *STATED_CLASSES,
    *STATED_PARENTS,
    *STATED_EVENTS,
    *STATED_QUOTES,
]
