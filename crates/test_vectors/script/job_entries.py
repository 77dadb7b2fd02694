"""What the program prints of the entries over jobs."""
from rules import Refusal, refusal_of
from job import FIRST, SECOND, first_job, held_job, held_lists, read_job
from shown import UNTOUCHED, shown
from writer import job_bytes, job_length, to_first, to_second, write_job


def check_other(data, form):
    """What the other version's reader makes of a job that is accepted."""
    other = SECOND if form == FIRST else FIRST
    number = 11 if len(data) > other.most_bytes else 12
    assert refusal_of(held_job, data, other) == f"refused {number} at 0"


def answer_read(form, lengths, data):
    """The front of each list, or the refusal, and whether the other entries are as they were."""
    lists = [[UNTOUCHED] * length for length in lengths]
    fronts = [0] * len(lists)
    try:
        arcs, members, note = read_job(data, form, lists)
    except Refusal as refusal:
        line = str(refusal)
    else:
        job = held_job(data, form)
        assert job_bytes(job, form) == data
        check_other(data, form)
        fronts = list(map(len, held_lists(job, form)))
        values = [entries[:n] for entries, n in zip(lists, fronts)]
        line = ": ".join([f"read {arcs} {members} {note}", *map(shown, values)])
    assert all(entries[n:] == [UNTOUCHED] * (len(entries) - n) for entries, n in zip(lists, fronts))
    return f"{line}; others kept"


def answer_put(entry, length, *fields):
    """The job that an entry writes, or its refusal, and whether the other bytes are as they were."""
    out = bytearray([UNTOUCHED] * length)
    written = b""
    try:
        end = entry(*fields, out)
    except Refusal as refusal:
        line = str(refusal)
    else:
        written = bytes(out[:end])
        line = f"written {end}: {shown(written)}"
    assert out[len(written) :] == bytearray([UNTOUCHED] * (length - len(written)))
    return f"{line}; others kept", written


def answer_write(*fields):
    """The answers of both entries, and the job where it is written."""
    *values, length = fields
    asked = refusal_of(job_length, *values) or f"length {job_length(*values)}"
    line, written = answer_put(write_job, length, *values)
    if written:
        assert held_job(written, FIRST) == first_job(*values)
    return f"{asked}, {line}"


def answer_conversion(there, back, data, length):
    """The answer, and the job where it is written, which the other conversion takes back to the same bytes."""
    line, written = answer_put(there, length, data)
    if written:
        again = bytearray(len(data))
        assert back(written, again) == len(data) and again == data
    return line


JOB_LINES = {
    "job": lambda *fields: answer_read(FIRST, *fields),
    "job2": lambda *fields: answer_read(SECOND, *fields),
    "write": answer_write,
    "to2": lambda *fields: answer_conversion(to_second, to_first, *fields),
    "to1": lambda *fields: answer_conversion(to_first, to_second, *fields),
}
