"""The job bytes of both versions (specification, §8) and their readers, with no call of the engine."""
from typing import NamedTuple

from rules import (
    MOST_ARCS,
    Refusal,
    Tree,
    all_marked,
    check_caps,
    check_floors,
    check_proposal,
    check_tree,
    member_count,
)

ARC_ROW, TRAILER = 8, 16
MOST_NOTE = 255
CLOSING = b"\x54\x4a"


class Format(NamedTuple):
    """What a version has of its own. The second number of an arc row is a filler or a mark."""

    version: int
    lists: int
    most_bytes: int
    member_row: int
    most_second: int
    second_refusal: int


FIRST = Format(version=1, lists=4, most_bytes=24_823, member_row=16, most_second=0, second_refusal=14)
SECOND = Format(version=2, lists=6, most_bytes=33_007, member_row=24, most_second=1, second_refusal=16)


class Job(NamedTuple):
    """What a job holds; one of version 1 has its dead ends marked, and floors of 0."""

    note: bytes
    tree: Tree
    caps: list
    proposals: list
    floors: list


def first_job(note, parents, costs, caps, proposals):
    return Job(note, all_marked(parents, costs), caps, proposals, [0] * len(caps))


def held_lists(job, form):
    """The lists that a version has of a job, in the order in which its reader fills them."""
    parents, costs, marks = job.tree
    if form == FIRST:
        return [parents, costs, job.caps, job.proposals]
    return [parents, costs, marks, job.caps, job.proposals, job.floors]


def number(data, at, width):
    """The unsigned number in `width` bytes, the least significant first."""
    return sum(byte << 8 * place for place, byte in enumerate(data[at : at + width]))


def signed(data, at, width):
    """The number in `width` bytes in two's complement."""
    bits = number(data, at, width)
    return bits - (1 << 8 * width) if bits >> 8 * width - 1 else bits


def read_trailer(data, form):
    """12 and 13; the note's length, the number of arcs, the offset and the number of the member rows."""
    at = len(data) - TRAILER
    if number(data, at + 12, 2) != form.version or data[at + 14 :] != CLOSING:
        raise Refusal(12)
    note, rows = number(data, at, 4), number(data, at + 4, 4)
    arcs, members = number(data, at + 8, 2), number(data, at + 10, 2)
    if note > MOST_NOTE or note + ARC_ROW * arcs != rows or rows + form.member_row * members != at:
        raise Refusal(13)
    return note, arcs, rows, members


def read_tree(data, form, note, arcs):
    """14 or 16, over all arc rows; the tree, which is not checked yet."""
    rows = [note + ARC_ROW * k for k in range(arcs)]
    seconds = [number(data, at + 2, 2) for at in rows]
    for arc, second in enumerate(seconds, 1):
        if second > form.most_second:
            raise Refusal(form.second_refusal, arc)
    parents, costs = [number(data, at, 2) for at in rows], [number(data, at + 4, 4) for at in rows]
    return all_marked(parents, costs) if form == FIRST else Tree(parents, costs, seconds)


def held_job(data, form):
    """11, 12, 13, 14 or 16, the tree's, 15, 7 on caps, on proposals and on floors, then 27."""
    if not TRAILER <= len(data) <= form.most_bytes:
        raise Refusal(11)
    note, arcs, rows, members = read_trailer(data, form)
    tree = read_tree(data, form, note, arcs)
    check_tree(tree)
    if members != member_count(tree):
        raise Refusal(15)
    member_rows = [rows + form.member_row * j for j in range(members)]
    caps = [number(data, at, 8) for at in member_rows]
    check_caps(members, caps)
    proposals = [signed(data, at + 8, 8) for at in member_rows]
    check_proposal(members, proposals)
    floors = [0 if form == FIRST else number(data, at + 16, 8) for at in member_rows]
    check_floors(members, caps, floors)
    return Job(data[:note], tree, caps, proposals, floors)


def read_job(data, form, lists):
    """10, then the job's; fills the front of the lists, and gives m, the number of members and the note's length."""
    if min(map(len, lists)) < MOST_ARCS:
        raise Refusal(10)
    job = held_job(data, form)
    for entries, held in zip(lists, held_lists(job, form)):
        entries[: len(held)] = held
    return len(job.tree.parents), len(job.caps), len(job.note)
