#!/usr/bin/env python3
"""Writes the cases of this program, `stdin`, and the lines that it must print, `stdout`.

The answers are worked out in `script`, straight from docs/SPECIFICATION.md and with no call of the engine. The files
go into the folder that is named, or else beside this script.
"""
import sys
from pathlib import Path

sys.dont_write_bytecode = True
sys.path.insert(0, str(Path(__file__).resolve().parent / "script"))

from rules import Tree
from classes import Classed
from entries import answer, question
from stated import STATED
from stated_jobs import T_BYTES
from trees import group_bits, large_trees, limits, random_trees, refusal_order, small_networks
from proposals import (
    deep_proposals,
    full_proposals,
    random_proposals,
    share_limits,
    share_refusals,
    small_proposals,
    ties,
    traps,
)
from totals import everyone_named, random_totals, total_limits, wrong_totals
from levels import (
    cap_limits,
    cap_refusals,
    large_costs,
    level_ties,
    random_levels,
    several_short,
    small_levels,
    worst_levels,
)
from floors import (
    equal_floors,
    floor_limits,
    floor_refusals,
    large_floors,
    random_floors,
    small_floors,
    spare_floors,
    surplus,
    tried_floors,
    walk_order,
)
from dearer import large_rises, random_rises, small_rises
from divisions import (
    division_refusals,
    large_divisions,
    large_turns,
    leftovers,
    meeting_branches,
    random_divisions,
    random_turns,
    spare_turns,
    turns,
)
from marks import many_marks, random_marks, small_marks, spare_networks
from sums import large_sums, random_sums, small_sums, sum_limits, sum_refusals
from margins import (
    costly_branches,
    large_margins,
    margin_refusals,
    margin_ties,
    no_margin,
    other_branches,
    random_margins,
    runs,
    small_margins,
    spare_plots,
)
from classed import class_turns, large_classes, random_classes, small_classes, spare_classes
from class_order import class_counts, class_lengths, class_refusals, class_sums, random_class_faults
from next_parents import every_list, list_faults, list_lengths, random_parents, walks
from pruned import check_classes, check_pruned
from job_parts import JOB_PARTS
from events import (
    far_vertices,
    made_states,
    random_events,
    refused_makings,
    single_events,
    smallest_and_largest,
    there_and_back,
    unused_costs,
)
from raw_states import arc_counts, event_order, faulty_states, last_faults, past_arcs, random_states
from quotes import (
    at_once,
    every_asking,
    far_askings,
    high_bits,
    kept_quotes,
    large_quotes,
    last_event,
    many_committed,
    other_states,
    quote_order,
    random_quotes,
    two_quotes,
)
from unreadable import UNREADABLE

# the sample job, which is T's
SAMPLE = Path(__file__).resolve().parent.parent / "report" / "stdin"

PARTS = [
    small_networks,
    limits,
    group_bits,
    refusal_order,
    random_trees,
    large_trees,
    small_proposals,
    ties,
    traps,
    share_limits,
    share_refusals,
    full_proposals,
    deep_proposals,
    random_proposals,
    wrong_totals,
    everyone_named,
    total_limits,
    random_totals,
    small_levels,
    level_ties,
    several_short,
    cap_limits,
    cap_refusals,
    large_costs,
    worst_levels,
    random_levels,
    small_floors,
    equal_floors,
    surplus,
    walk_order,
    floor_refusals,
    floor_limits,
    large_floors,
    spare_floors,
    tried_floors,
    random_floors,
    small_rises,
    large_rises,
    random_rises,
    leftovers,
    turns,
    meeting_branches,
    spare_turns,
    large_turns,
    large_divisions,
    division_refusals,
    random_divisions,
    random_turns,
    small_marks,
    spare_networks,
    many_marks,
    random_marks,
    small_sums,
    large_sums,
    sum_limits,
    sum_refusals,
    random_sums,
    small_margins,
    margin_ties,
    no_margin,
    runs,
    spare_plots,
    other_branches,
    costly_branches,
    large_margins,
    margin_refusals,
    random_margins,
    small_classes,
    class_turns,
    spare_classes,
    large_classes,
    random_classes,
    class_sums,
    class_counts,
    class_lengths,
    class_refusals,
    random_class_faults,
    every_list,
    walks,
    list_lengths,
    list_faults,
    random_parents,
    *JOB_PARTS,
    made_states,
    refused_makings,
    single_events,
    far_vertices,
    unused_costs,
    there_and_back,
    smallest_and_largest,
    random_events,
    arc_counts,
    past_arcs,
    last_faults,
    faulty_states,
    event_order,
    random_states,
    at_once,
    two_quotes,
    many_committed,
    last_event,
    other_states,
    kept_quotes,
    quote_order,
    high_bits,
    random_quotes,
    every_asking,
    far_askings,
    large_quotes,
]

# the program's room for a line
MOST_LINE = 70_000


def write(path, lines):
    text = "".join(line + "\n" for line in lines)
    path.write_text(text)
    return len(text)


def main(folder):
    assert SAMPLE.read_bytes() == T_BYTES
    for case, stated in STATED:
        assert answer(case) == stated, (case, answer(case))
    cases = [case for case, _ in STATED]
    for part in PARTS:
        cases += part()
    for case in cases:
        if isinstance(case[1], Tree):
            check_pruned(case)
        if isinstance(case[1], Classed):
            check_classes(case)
    # a line that several parts have stands once
    answers = {question(case): answer(case) for case in cases}
    answers.update(dict.fromkeys(UNREADABLE, "bad case"))
    size = write(folder / "stdin", answers)
    write(folder / "stdout", answers.values())
    longest = max(map(len, answers))
    assert longest <= MOST_LINE, longest
    count = sum(1 + lines.count("\n") for lines in answers.values())
    print(f"{count} cases, {size} bytes, {longest} in the longest line")


if __name__ == "__main__":
    main(Path(sys.argv[1]) if len(sys.argv) > 1 else Path(__file__).resolve().parent)
