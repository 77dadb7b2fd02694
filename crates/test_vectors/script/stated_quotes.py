"""Askings and commits on the specification's networks, with their answers by hand."""
from events import ONE, made
from networks import T, T_SPARE
from raw_states import handed, with_more
from states import Quote, arrive, leave, new_cost, state_made
from stated_events import FULLER, FULLER_STATE, T_STATE
from steps import Asking
from trees import LARGE

# what is printed of T's state after leave at 3, but for the number of events committed
T_LEFT = "arcs 4: 0,1,1: 6,1,5,4: 0,1,0,1: 7,4"

AWAY = Quote(leave(3), 0)

# what a quote from before that is answered
OUTDATED = "refused 23 at 0: 7,4"

STATED_QUOTES = [
    (made(T, Asking(leave(3))), f"members 3; members 2 quote -3@0: 7,4; {T_STATE}: 0"),
    (
        made(T, Asking(leave(3)), AWAY, AWAY),
        f"members 3; members 2 quote -3@0: 7,4; members 2: 7,4; {OUTDATED}; {T_LEFT}: 1",
    ),
    (
        made(T, Asking(leave(3)), Asking(new_cost(1, 9)), AWAY, Quote(new_cost(1, 9), 0)),
        f"members 3; members 2 quote -3@0: 7,4; members 3 quote 1=9@0: 6,9,4; members 2: 7,4; {OUTDATED}; {T_LEFT}: 1",
    ),
    (
        made(T, AWAY, Asking(arrive(3)), Quote(arrive(3), 1)),
        f"members 3; members 2: 7,4; members 3 quote +3@1: 4,8,4; members 3: 4,8,4; {T_STATE}: 2",
    ),
    (made(T, Asking(arrive(1))), f"members 3; refused 17 at 1: -; {T_STATE}: 0"),
    (made(T, Asking(arrive(2))), f"members 3; refused 22 at 2: -; {T_STATE}: 0"),
    (made(T, Asking(leave(0))), f"members 3; refused 21 at 0: -; {T_STATE}: 0"),
    (made(T, Asking(new_cost(5, LARGE))), f"members 3; refused 21 at 5: -; {T_STATE}: 0"),
    (made(T, Asking(new_cost(3, LARGE))), f"members 3; refused 4 at 3: -; {T_STATE}: 0"),
    (made(T, Quote(leave(0), 0)), f"members 3; refused 21 at 0: 4,8,4; {T_STATE}: 0"),
    (made(T, Quote(leave(0), 1)), f"members 3; refused 23 at 0: 4,8,4; {T_STATE}: 0"),
    (
        made(T_SPARE, Asking(new_cost(3, 8)), Quote(new_cost(3, 8), 0)),
        "members 2; members 2 quote 3=8@0: 7,4; members 2: 7,4; arcs 4: 0,1,1: 6,1,8,4: 0,1,0,1: 7,4: 1",
    ),
    (
        made(ONE, Asking(leave(1)), Asking(new_cost(1, 0))),
        "members 1; refused 18 at 0: -; members 1 quote 1=0@0: -; arcs 1: -: 7: 1: 7: 0",
    ),
    (
        made(T._replace(marks=[0, 1, 2, 1]), Asking(leave(3)), AWAY, Quote(leave(3), 1)),
        "refused 16 at 3; refused 1 at 0: -; refused 1 at 0: -; refused 23 at 0: -; arcs 0: -: -: -: -: 0",
    ),
    (handed(FULLER, Asking(new_cost(1, 6))), f"members 3 quote 1=6@0: 4,8,4; {FULLER_STATE}"),
    (handed(FULLER, Asking(arrive(4))), f"refused 22 at 4: -; {FULLER_STATE}"),
    (
        handed(state_made(T, 999_999), Asking(leave(3)), Quote(leave(3), 999_999), Quote(arrive(3), 1_000_000)),
        f"members 2 quote -3@999999: 7,4; members 2: 7,4; refused 24 at 0: 7,4; {T_LEFT}: 1000000",
    ),
    (
        handed(state_made(T, 1_000_000), Asking(leave(3)), Quote(leave(3), 1_000_000), Quote(leave(3), 999_999)),
        "members 2 quote -3@1000000: 7,4; refused 24 at 0: 4,8,4; refused 23 at 0: 4,8,4; "
        f"{T_STATE}: 1000000",
    ),
    (
        handed(state_made(T, 2**32 - 1), Asking(leave(3)), Quote(leave(3), 2**32 - 1), Quote(leave(3), 0)),
        "members 2 quote -3@4294967295: 7,4; refused 24 at 0: 4,8,4; refused 23 at 0: 4,8,4; "
        f"{T_STATE}: 4294967295",
    ),
    (
        handed(with_more(T._replace(marks=[0] * 4), shares=[5]), Asking(leave(3)), AWAY),
        "refused 18 at 0: -; refused 18 at 0: 5; arcs 4: 0,1,1: 6,1,5,4: -: 5: 0",
    ),
]
