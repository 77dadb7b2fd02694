"""The cases of both job readers: those that the versions have in common."""
import random

from rules import MOST_ARCS, MOST_CAP, MOST_COST, MOST_SHARE
from job import ARC_ROW, MOST_NOTE, TRAILER
from job_cases import BEYOND_CAP, BEYOND_SHARE, GREATEST, LARGE, LEAST, NOTES, T_ARCS, VERSIONS, other
from networks import chain, random_caps, random_proposal, random_tree, star


def of_both(part):
    """The part for each of the two versions."""

    def cases():
        for version in VERSIONS:
            yield from part(version, version.form)

    return cases


@of_both
def job_notes(v, form):
    for note in NOTES:
        yield v.read(v.plain(*T_ARCS, note=note))
        yield v.read(v.plain([0], [7], note=note))
    # a note that looks like a job, and one that looks like a trailer
    yield v.read(v.plain(*T_ARCS, note=v.t_job))
    yield v.read(v.plain(*T_ARCS, note=v.t_job[-TRAILER:]))


@of_both
def full_jobs(v, form):
    """As many arcs as there can be, and the longest job."""
    costs = [MOST_COST - arc for arc in range(MOST_ARCS)]
    yield v.read(v.plain(chain(MOST_ARCS), costs, note=bytes(MOST_NOTE)))
    caps = [MOST_CAP - j for j in range(MOST_ARCS)]
    proposals = [(-1) ** j * (MOST_SHARE - j) for j in range(MOST_ARCS)]
    floors = [MOST_CAP - 2 * j for j in range(MOST_ARCS)]
    longest = v.job(star(MOST_ARCS), costs, caps, proposals, floors, note=bytes(range(MOST_NOTE)))
    assert len(longest) == form.most_bytes
    yield v.read(longest)
    yield v.read(b"x" + longest)
    # 7 in the last row
    for cap, proposal in ((BEYOND_CAP, 0), (0, -BEYOND_SHARE)):
        caps[-1], proposals[-1] = cap, proposal
        yield v.read(v.job(star(MOST_ARCS), costs, caps, proposals))


@of_both
def many_arcs(v, form):
    """0 arcs, and more than there can be: 14 or 16 before 1, and 1 before all that follows."""
    wrong = form.most_second + 1
    for note in NOTES:
        yield v.read(v.no_rows(0, note=note))
        yield v.read(v.job([], [], [BEYOND_CAP], [LEAST], note=note))
    more = MOST_ARCS + 1
    yield v.read(v.no_rows(more))
    for arc in (1, more):
        yield v.read(v.no_rows(more, seconds={arc: wrong}))
    yield v.read(v.job([9] * more, [LARGE] * more, [], []))
    # as many arc rows, and as many member rows, as there is room for
    most = (form.most_bytes - TRAILER) // ARC_ROW
    yield v.read(v.no_rows(most, note=b"1234567"))
    yield v.read(v.no_rows(most, seconds={most: wrong}))
    most = (form.most_bytes - TRAILER) // form.member_row
    yield v.read(v.job([], [], [0] * most, [0] * most))


@of_both
def job_lengths(v, form):
    """11 before 12 and 13."""
    for length in (0, 1, 15, 16, 17, form.most_bytes + 1):
        yield v.read(bytes(length))
    for length in (1, 2, 14, 15, 16, 17, 80, 95):
        yield v.read(v.t_job[-length:])
        yield v.read(v.t_job[:length])
    yield v.read(bytes(form.most_bytes + 1 - TRAILER) + v.trailer(0, 0, 0, 0))


@of_both
def job_signature(v, form):
    for version in (0, 1, 2, 3, 255, 256, 257, 258, 2**15, 2**15 + 2, 2**16 - 1):
        yield v.read(v.plain(*T_ARCS, version=version))
    for first in (0, 0x4A, 0x53, 0x55, 0x74, 0xD4):
        yield v.read(v.plain(*T_ARCS, closing=bytes([first, 0x4A])))
    for last in (0, 0x4B, 0x49, 0x54, 0x6A, 0xCA):
        yield v.read(v.plain(*T_ARCS, closing=bytes([0x54, last])))
    yield v.read(v.plain(*T_ARCS, closing=b"JT"))
    # the other version's
    yield v.read(other(v).t_job)
    yield v.read(other(v).plain(*T_ARCS, version=form.version))


@of_both
def offsets(v, form):
    """13: the trailer of T's job with other offsets and counts, and with such as fit where a sum wraps."""
    end, row = len(v.t_job) - TRAILER, form.member_row
    for offset in (1, 8, 16, 255, 256, 2**16, 2**31, 2**32 - end - 16, 2**32 - 3 * row, 2**32 - 32, 2**32 - 1):
        yield v.pointing(v.t_job, offset, 32, 4, 3)
        yield v.pointing(v.t_job, offset, (offset + 32) % 2**32, 4, 3)
        yield v.pointing(v.t_job, 0, offset, 4, 3)
        yield v.pointing(v.t_job, (offset - 32) % 2**32, offset, 4, 3)
    for count in (0, 1, 2, 5, 2**12 + 3, 2**13, 2**13 + 4, 2**15, 2**16 - 1):
        yield v.pointing(v.t_job, 0, 32, count, 3)
        yield v.pointing(v.t_job, 0, 8 * count, count, 3)
        yield v.pointing(v.t_job, 0, 32, 4, count)
        for bits in (16, 32):
            yield v.pointing(v.t_job, (32 - 8 * count) % 2**bits, 32, count, 3)
            yield v.pointing(v.t_job, 0, (end - row * count) % 2**bits, 4, count)
    # the same bytes as other rows
    for members in range(end // row + 1):
        arcs = (end - row * members) // ARC_ROW
        yield v.pointing(v.t_job, 0, ARC_ROW * arcs, arcs, members)


@of_both
def gaps(v, form):
    """13: parts that leave a gap or overlap; and notes about the longest."""
    end = len(v.t_job) - TRAILER
    for shift in (-16, -8, -1, 1, 8, 16):
        yield v.pointing(v.t_job, 0, 32 + shift, 4, 3)
    for gap in (1, 2, 7, 8, 15, 16, 24):
        wider = v.t_job[:32] + bytes(gap) + v.t_job[32:]
        yield v.pointing(wider, 0, 32, 4, 3)
        yield v.pointing(wider, 0, 32 + gap, 4, 3)
        yield v.pointing(wider, gap, 32 + gap, 4, 3)
        yield v.pointing(v.t_job[:end] + bytes(gap) + v.t_job[end:], 0, 32, 4, 3)
        later = bytes(gap) + v.t_job
        yield v.pointing(later, 0, 32, 4, 3)
        yield v.pointing(later, 0, 32 + gap, 4, 3)
        yield v.pointing(later, gap, 32 + gap, 4, 3)
        yield v.pointing(v.t_job[gap:], 0, 32, 4, 3)
        yield v.pointing(v.t_job[gap:], 0, 32 - gap, 4, 3)
        yield v.read(v.t_job + bytes(gap))
    for note in (254, 255, 256, 257):
        yield v.read(v.plain(*T_ARCS, note=bytes(note)))
        yield v.read(v.no_rows(0, note=bytes(note)))


@of_both
def form_order(v, form):
    """10 to 13, each with the next one also present."""
    short = [[MOST_ARCS - (place == k) for place in range(form.lists)] for k in range(form.lists)]
    for lent in short:
        for data in (v.t_job, b"", v.t_job[:15], v.plain(*T_ARCS, version=3), v.plain([1], [1])):
            yield v.read(data, lent)
    for data in (v.t_job[-15:], v.trailer(0, 0, 0, 0)[1:]):
        yield v.read(data)
    for fields in ((256, 32, 4, 3), (0, 33, 4, 3), (0, 32, 4, 2)):
        yield v.pointing(v.t_job, *fields, version=3)
        yield v.pointing(v.t_job, *fields, closing=b"JT")
        yield v.pointing(v.plain(*T_ARCS, seconds={1: 7, 4: 7}), *fields)
    yield v.read(v.plain(*T_ARCS, note=bytes(256), seconds={1: 7}))


FAULTY = [
    ([0, 2], [LARGE, 1]),
    ([1, 0], [1, LARGE]),
    ([1, 0], [LARGE, 1]),
    ([0, 2, 0], [1, LARGE, LARGE]),
    ([0, 0, 3], [1, LARGE, 1]),
    ([0, 1, 2], [1, LARGE, LARGE]),
    ([0, 1, 2**16 - 1], [1, 1, 2**32 - 1]),
    ([0, 1, 256], [1, 1, 1]),
    ([0, 1, 1], [1, MOST_COST, 2**31]),
]


@of_both
def value_order(v, form):
    """14 or 16, 3, 4 and 15, each with later ones also present."""
    wrong = form.most_second + 1
    for arc in range(1, 5):
        for second in (wrong, 255, 256, 257, 2**15, 2**15 + 1, 2**16 - 1):
            yield v.read(v.plain(*T_ARCS, seconds={arc: second}))
        for members in (2, 3):
            outside = [BEYOND_CAP] * members, [LEAST] * members
            yield v.read(v.job([1] * 4, [LARGE] * 4, *outside, seconds={arc: wrong, 4: 7}))
            yield v.read(v.job(*T_ARCS, *outside, seconds={arc: wrong, 4: 7}))
    for parents, costs in FAULTY:
        for members in range(4):
            yield v.read(v.job(parents, costs, [BEYOND_CAP] * members, [LEAST] * members))
    for members in (0, 1, 2, 4, 5):
        for cap, proposal in ((0, 0), (BEYOND_CAP, 0), (0, LEAST)):
            yield v.read(v.job(*T_ARCS, [cap] * members, [proposal] * members))


@of_both
def job_values(v, form):
    """7 on caps before 7 on proposals, at the lowest member; the limits, and numbers of every byte."""
    for cap in (0, 1, MOST_CAP - 1, MOST_CAP, BEYOND_CAP, 2**53, 2**63, 2**64 - 1):
        for place in range(3):
            caps = [7, 12, 4]
            caps[place] = cap
            for proposals in ([7, 5, 4], [-BEYOND_SHARE, 5, 4], [MOST_SHARE, 5, BEYOND_SHARE]):
                yield v.read(v.job(*T_ARCS, caps, proposals))
    shares = [-256, -1, 0, 256, 2**32, -(2**32), LEAST, LEAST + 1, GREATEST]
    for share in shares + [MOST_SHARE, -MOST_SHARE, BEYOND_SHARE, -BEYOND_SHARE]:
        yield v.read(v.job([0], [0], [0], [share]))
        for place in range(3):
            proposals = [7, 5, 4]
            proposals[place] = share
            yield v.read(v.job(*T_ARCS, [7, 12, 4], proposals))
    for caps in ([BEYOND_CAP, 2**64 - 1], [0, BEYOND_CAP], [MOST_CAP, 0]):
        for proposals in ([BEYOND_SHARE, 0], [0, -BEYOND_SHARE]):
            yield v.read(v.job([0, 0], [1, 2], caps, proposals))
    for cost in (0, 255, 256, 2**16, 2**24, 0x01020304, MOST_COST, LARGE, 2**31, 2**32 - 1):
        yield v.read(v.plain([0, 1, 0], [cost, 2, cost]))
    for parent in (255, 256, 257, 258, 299, 300, 301, 511, 512):
        yield v.read(v.plain(chain(299) + [parent, 0, 0], star(302)))


@of_both
def lent_lengths(v, form):
    """10; and entries past the front, in lists longer than need be."""
    several = range(form.lists)
    for length in (0, 3, 4, 1022):
        yield v.read(v.t_job, [length] * form.lists)
        for k in several:
            yield v.read(v.t_job, [length if place == k else 1100 for place in several])
    for lent in ([1024] * form.lists, [1100] * form.lists, [1023 + k for k in several], [1100 - k for k in several]):
        yield v.read(v.t_job, lent)
        yield v.read(v.plain([1], [1]), lent)
        yield v.read(v.job(*T_ARCS, [MOST_CAP] * 3, [0, 0, BEYOND_SHARE]), lent)
        yield v.read(v.plain(star(40), star(40)), lent)


@of_both
def random_jobs(v, form):
    """Small jobs, and each with one byte changed."""
    dice = random.Random(24823)
    for _ in range(300):
        tree = random_tree(dice, dice.randint(1, 9))
        note = dice.randbytes(dice.choice([0, 0, 0, 1, 5, 16]))
        caps, proposals = random_caps(dice, tree), random_proposal(dice, tree)
        data = v.job(tree.parents, tree.costs, caps, proposals, note=note)
        yield v.read(data, [dice.choice([1023, 1100]) for _ in v.enough])
        place = dice.choice([dice.randrange(len(data)), dice.randrange(len(data) - TRAILER, len(data))])
        byte = (data[place] + dice.choice([1, 2, 128, 255, dice.randint(1, 255)])) % 256
        yield v.read(data[:place] + bytes([byte]) + data[place + 1 :])
