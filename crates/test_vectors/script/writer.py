"""The job writer and the conversions (specification, §8), with no call of the engine."""
from rules import Refusal, check_caps, check_proposal, check_unmarked, dead_end_marks, member_count
from job import ARC_ROW, CLOSING, FIRST, MOST_NOTE, SECOND, TRAILER, first_job, held_job


def number_bytes(number, width):
    """The number in `width` bytes in two's complement, the least significant first."""
    return bytes(number >> 8 * place & 255 for place in range(width))


def row(*columns):
    """Numbers in one row, each with its width."""
    return b"".join(number_bytes(number, width) for number, width in columns)


def job_bytes(job, form):
    """The note, the arc rows, the member rows and the trailer."""
    parents, costs, marks = job.tree
    seconds = [0] * len(parents) if form == FIRST else marks
    arc_rows = [row((parent, 2), (second, 2), (cost, 4)) for parent, second, cost in zip(parents, seconds, costs)]
    member_rows = [row((cap, 8), (share, 8)) for cap, share in zip(job.caps, job.proposals)]
    if form == SECOND:
        member_rows = [start + row((floor, 8)) for start, floor in zip(member_rows, job.floors)]
    front = job.note + b"".join(arc_rows)
    counts = (len(arc_rows), 2), (len(member_rows), 2)
    trailer = row((len(job.note), 4), (len(front), 4), *counts, (form.version, 2)) + CLOSING
    return front + b"".join(member_rows) + trailer


def put(data, out):
    """20; fills the front of the output, and gives the job's length."""
    if len(out) < len(data):
        raise Refusal(20)
    out[: len(data)] = data
    return len(data)


def job_length(note, parents, costs, caps, proposals):
    """1, 2, then 3 and 4 arc by arc, then 6 and 7 on the caps, 6 and 7 on the proposals, then 19."""
    check_unmarked(parents, costs)
    count = member_count(first_job(note, parents, costs, caps, proposals).tree)
    check_caps(count, caps)
    check_proposal(count, proposals)
    if len(note) > MOST_NOTE:
        raise Refusal(19)
    return len(note) + ARC_ROW * len(parents) + FIRST.member_row * count + TRAILER


def write_job(note, parents, costs, caps, proposals, out):
    """As job_length, then 20."""
    length = job_length(note, parents, costs, caps, proposals)
    data = job_bytes(first_job(note, parents, costs, caps, proposals), FIRST)
    assert len(data) == length
    return put(data, out)


def to_second(data, out):
    """The checks of version 1, then 20."""
    return put(job_bytes(held_job(data, FIRST), SECOND), out)


def check_first(job):
    """29 at the lowest dead end without a mark, then 30 at the lowest member with a floor above 0."""
    for vertex, (mark, dead_end) in enumerate(zip(job.tree.marks, dead_end_marks(job.tree.parents)), 1):
        if dead_end and mark == 0:
            raise Refusal(29, vertex)
    for j, floor in enumerate(job.floors):
        if floor > 0:
            raise Refusal(30, j)


def to_first(data, out):
    """The checks of version 2, then 29, 30 and 20."""
    job = held_job(data, SECOND)
    check_first(job)
    return put(job_bytes(job, FIRST), out)
