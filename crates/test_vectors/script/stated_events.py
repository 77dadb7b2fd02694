"""Events committed on the specification's networks, with their answers by hand."""
from events import ONE, made
from networks import T, T_SPARE
from raw_states import handed, with_more
from states import arrive, leave, new_cost
from trees import LARGE

# what is printed of the state made of T, but for the number of events committed
T_STATE = "arcs 4: 0,1,1: 6,1,5,4: 0,1,1,1: 4,8,4"

# T with something in every list past its arcs, and a share that is not its own
FULLER = with_more(T, [9], [LARGE], [2], [5])
FULLER_STATE = "arcs 4: 0,1,1,0,9: 6,1,5,4,1000000001: 0,1,1,1,2: 5: 0"

STATED_EVENTS = [
    (made(T), f"members 3; {T_STATE}: 0"),
    (made(T, leave(3)), "members 3; members 2: 7,4; arcs 4: 0,1,1: 6,1,5,4: 0,1,0,1: 7,4: 1"),
    (made(T, leave(3), arrive(3)), f"members 3; members 2: 7,4; members 3: 4,8,4; {T_STATE}: 2"),
    (made(T, arrive(1)), f"members 3; refused 17 at 1: 4,8,4; {T_STATE}: 0"),
    (made(T, arrive(2)), f"members 3; refused 22 at 2: 4,8,4; {T_STATE}: 0"),
    (made(T, leave(1)), f"members 3; refused 22 at 1: 4,8,4; {T_STATE}: 0"),
    (made(T, arrive(0)), f"members 3; refused 21 at 0: 4,8,4; {T_STATE}: 0"),
    (made(T, leave(5)), f"members 3; refused 21 at 5: 4,8,4; {T_STATE}: 0"),
    (made(T, new_cost(5, LARGE)), f"members 3; refused 21 at 5: 4,8,4; {T_STATE}: 0"),
    (made(T, new_cost(2, LARGE)), f"members 3; refused 4 at 2: 4,8,4; {T_STATE}: 0"),
    (made(T, new_cost(1, 9)), "members 3; members 3: 6,9,4; arcs 4: 0,1,1: 9,1,5,4: 0,1,1,1: 6,9,4: 1"),
    (made(T_SPARE, new_cost(3, 8)), "members 2; members 2: 7,4; arcs 4: 0,1,1: 6,1,8,4: 0,1,0,1: 7,4: 1"),
    (made(ONE, leave(1)), "members 1; refused 18 at 0: 7; arcs 1: -: 7: 1: 7: 0"),
    (made(T._replace(marks=[0, 1, 2, 1])), "refused 16 at 3; arcs 0: -: -: -: -: 0"),
    (handed(FULLER), FULLER_STATE),
    (handed(FULLER, new_cost(1, 6)), f"members 3: 4,8,4; {T_STATE}: 1"),
    (handed(FULLER, arrive(4)), f"refused 22 at 4: 5; {FULLER_STATE}"),
]
