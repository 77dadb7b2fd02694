"""What the program prints of each entry.

A case is a tuple: the command, then its fields, each a tree, a state, a list, a number or bytes.
"""
from rules import (
    Refusal,
    WORDS,
    arc_needs,
    arc_users,
    best_group,
    cap_sums,
    check_branch,
    check_caps,
    check_floors,
    check_group,
    check_output,
    check_proposal,
    check_tree,
    check_unmarked,
    dead_end_marks,
    group_cost,
    member_count,
    member_vertices,
    ones,
    overpayment,
    refusal_of,
    whole_cost,
    words_of,
)
from by_arc import by_arc_split
from classes import MOST_CLASSES, check_classed, class_split
from job_entries import JOB_LINES
from level import level_split
from margin import margin_split
from parent_lists import check_small, lists_from
from shown import UNTOUCHED, EachByte, shown, trimmed
from states import make_state
from steps import first_state, outcomes


def answer_check(tree):
    check_tree(tree)
    return "accepted"


def answer_count(tree):
    check_tree(tree)
    return f"members {member_count(tree)}"


def answer_members(tree, out):
    check_tree(tree)
    vertices = member_vertices(tree)
    check_output(out, len(vertices))
    out[:] = vertices
    return f"members {len(vertices)}"


def answer_dead_ends(parents, costs, out):
    check_unmarked(parents, costs)
    check_output(out, len(parents))
    out[:] = dead_end_marks(parents)
    return f"members {sum(out)}"


def answer_needs(tree, out):
    check_tree(tree)
    check_output(out, len(tree.parents))
    out[:] = arc_needs(tree)
    return f"whole {whole_cost(tree)} members {member_count(tree)}"


def answer_group(tree, words):
    check_tree(tree)
    check_group(words, member_count(tree))
    inside = ones(words)
    return f"size {len(inside)} cost {group_cost(tree, inside)}"


def answer_total(tree, proposal):
    check_tree(tree)
    check_proposal(member_count(tree), proposal)
    difference = sum(proposal) - whole_cost(tree)
    assert difference == overpayment(tree, proposal, range(len(proposal))), (tree, proposal)
    return f"total {difference}"


def answer_search(tree, proposal, words):
    check_tree(tree)
    check_proposal(member_count(tree), proposal)
    over, group = best_group(tree, proposal)
    if over == 0:
        return "no group"
    words[:] = words_of(group)
    return f"group {over} of {len(group)}"


def answer_shares(count, proposal):
    check_proposal(count, proposal)
    return "accepted"


def answer_level(tree, caps, floors, out):
    check_tree(tree)
    count = member_count(tree)
    check_caps(count, caps)
    check_floors(count, caps, floors)
    check_output(out, count)
    out[:] = level_split(tree, caps, floors)
    return f"split {count}"


def answer_cap_sums(tree, caps, out):
    check_tree(tree)
    check_caps(member_count(tree), caps)
    check_output(out, len(tree.parents))
    out[:] = cap_sums(tree, caps)
    return f"total {sum(caps)}"


def answer_margin(tree, arc, out):
    check_tree(tree)
    check_branch(tree, arc)
    count = len(arc_users(tree)[arc - 1])
    check_output(out, count)
    margin, out[:] = margin_split(tree, arc)
    return f"margin {margin} users {count}"


def answer_by_arc(tree, out):
    check_tree(tree)
    count = member_count(tree)
    check_output(out, count)
    out[:] = by_arc_split(tree)
    return f"members {count}"


def answer_classes(classed, out, totals):
    check_classed(classed)
    count = member_count(classed)
    check_output(out, classed.classes * count)
    out[:], totals[:] = class_split(classed)
    return f"members {count}"


def answer_caps(count, caps):
    check_caps(count, caps)
    return "accepted"


def answer_next(parents):
    check_small(parents)
    _, *later = lists_from(parents)
    if not later:
        return "end"
    parents[:] = later[0]
    return "next"


ENTRIES = {
    "check": answer_check,
    "count": answer_count,
    "members": answer_members,
    "needs": answer_needs,
    "group": answer_group,
    "total": answer_total,
    "search": answer_search,
    "shares": answer_shares,
    "level": answer_level,
    "caps": answer_caps,
    "byarc": answer_by_arc,
    "deadends": answer_dead_ends,
    "capsums": answer_cap_sums,
    "margin": answer_margin,
    "classes": answer_classes,
    "next": answer_next,
}

# the commands whose last field is the length of an output list
WRITING = {"members", "needs", "level", "byarc", "deadends", "capsums", "margin", "classes"}


def answer_step(done):
    """The answer of a step, the quote that it gives, and the shares beside it."""
    quote = f" quote {done.quote}" if done.quote else ""
    return f"{done.answer}{quote}: {trimmed(done.shares)}"


def answer_steps(state, steps):
    """The answer of each step and the shares beside it, then all of the state."""
    found = outcomes(state, steps)
    if found:
        state = found[-1].state
    last = ": ".join([f"arcs {state.arcs}", *map(trimmed, state.lists), str(state.committed)])
    return "; ".join([*map(answer_step, found), last])


def answer_state(tree, steps):
    """The answer of the making, then as of steps on the state made, or on the one that is 0 throughout."""
    line = refusal_of(make_state, tree) or f"members {member_count(tree)}"
    return f"{line}; {answer_steps(first_state(tree), steps)}"


def answer_walk(parents):
    """How many lists there are from this one on, and the answer at the last; a list that is refused is the only one."""
    refusal = refusal_of(check_small, parents)
    lists = [parents] if refusal else lists_from(parents)
    return f"lists {len(lists)}, {refusal or 'end'}: {shown(lists[-1])}"


# the commands that print more than an answer and a list
WHOLE_LINES = {"walk": answer_walk, "state": answer_state, "events": answer_steps, **JOB_LINES}


def each_byte(case):
    """The cases that a case stands for: one for each byte, or the case itself."""
    for place, field in enumerate(case):
        if isinstance(field, EachByte):
            return [(*case[:place], data, *case[place + 1 :]) for data in field.all()]
    return [case]


def answer(case):
    """The line that the program must print, or all lines of a case that stands for several."""
    return "\n".join(map(line_of, each_byte(case)))


def line_of(case):
    command, *fields = case
    if command in WHOLE_LINES:
        return WHOLE_LINES[command](*fields)
    beside = []
    if command in WRITING:
        beside = [[UNTOUCHED] * fields.pop()]
    if command == "classes":
        beside.append([0] * 2 * MOST_CLASSES)
    if command == "search":
        beside = [[0] * WORDS]
    if command == "next":
        beside = [list(fields.pop())]
    try:
        line = ENTRIES[command](*fields, *beside)
    except Refusal as refusal:
        line = str(refusal)
        if command == "level":
            line += f" short {refusal.shortfall}"
    return ": ".join([line, *map(shown, beside)])


def question(case):
    """The line that the program reads."""
    command, *fields = case
    return " ".join([command, *map(shown, fields)])
