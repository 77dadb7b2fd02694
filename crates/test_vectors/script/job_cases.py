"""Jobs of both versions, row by row, faulty ones too, and the cases of their readers and conversions."""
from struct import pack

from rules import MOST_ARCS, MOST_CAP, MOST_COST, MOST_SHARE, dead_end_marks
from job import CLOSING, FIRST, SECOND, TRAILER
from networks import T, star

LARGE = MOST_COST + 1
BEYOND_CAP = MOST_CAP + 1
BEYOND_SHARE = MOST_SHARE + 1
LEAST, GREATEST = -(2**63), 2**63 - 1

T_ARCS = T.parents, T.costs

NOTES = [b"", b"x", bytes(range(255)), b"\xff" * 255]

# the longest output that a case may have
MOST_OUTPUT = 33_500


class Version:
    """The jobs of a version. `seconds` has the second numbers of arc rows that are not the usual ones, by arc."""

    def __init__(self, form, reading, converting):
        self.form, self.reading, self.converting = form, reading, converting
        self.enough = [MOST_ARCS] * form.lists
        self.t_job = self.job(*T_ARCS, [100, 100, 100], [8, 4, 4])

    def trailer(self, note, rows, arcs, members, version=None, closing=CLOSING):
        version = self.form.version if version is None else version
        return pack("<IIHHH", note, rows, arcs, members, version) + closing

    def of_rows(self, arc_rows, member_rows, note=b"", **signature):
        """The bytes of a job whose parts meet."""
        columns = "<Qq" if self.form == FIRST else "<QqQ"
        front = note + b"".join(pack("<HHI", *row) for row in arc_rows)
        members = b"".join(pack(columns, *row) for row in member_rows)
        return front + members + self.trailer(len(note), len(front), len(arc_rows), len(member_rows), **signature)

    def arc_rows(self, parents, costs, seconds=()):
        usual = [0] * len(parents) if self.form == FIRST else dead_end_marks(parents)
        held = dict(enumerate(usual, 1)) | dict(seconds)
        return [(parent, held[arc], cost) for arc, (parent, cost) in enumerate(zip(parents, costs), 1)]

    def member_rows(self, caps, proposals, floors=None):
        if self.form == FIRST:
            return list(zip(caps, proposals))
        return list(zip(caps, proposals, [0] * len(caps) if floors is None else floors))

    def job(self, parents, costs, caps, proposals, floors=None, seconds=(), **rest):
        return self.of_rows(
            self.arc_rows(parents, costs, seconds), self.member_rows(caps, proposals, floors), **rest
        )

    def plain(self, parents, costs, **rest):
        """A job with as many member rows as the tree has dead ends."""
        count = sum(dead_end_marks(parents))
        return self.job(parents, costs, [100] * count, [j - 1 for j in range(count)], **rest)

    def no_rows(self, arcs, **rest):
        """Arcs whose parent is the source, and no member rows."""
        return self.job(star(arcs), star(arcs), [], [], **rest)

    def read(self, data, lengths=None):
        return self.reading, lengths or self.enough, data

    def pointing(self, data, *fields, **signature):
        """The same bytes under another trailer."""
        return self.read(data[:-TRAILER] + self.trailer(*fields, **signature))

    def convert(self, data, length=200):
        """The conversion to the other version, with an output of this length."""
        return self.converting, data, length


one = Version(FIRST, "job", "to2")
two = Version(SECOND, "job2", "to1")
VERSIONS = one, two


def other(version):
    return two if version is one else one
