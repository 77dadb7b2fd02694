"""The specification's job to try (§10) in both versions, with answers by hand."""
from job_cases import LARGE, T_ARCS, one, two
from writes import T_VALUES

# the job of T
T_BYTES = bytes.fromhex(
    "0000000006000000 0100000001000000 0100000005000000 0000000004000000"
    "6400000000000000 0800000000000000 6400000000000000 0400000000000000 6400000000000000 0400000000000000"
    "00000000 20000000 0400 0300 0100 54 4A"
)

# the same in version 2
T_BYTES_2 = bytes.fromhex(
    "0000000006000000 0100010001000000 0100010005000000 0000010004000000"
    "6400000000000000 0800000000000000 0000000000000000"
    "6400000000000000 0400000000000000 0000000000000000"
    "6400000000000000 0400000000000000 0000000000000000"
    "00000000 20000000 0400 0300 0200 54 4A"
)

# T with a spare plot, and with floors
T_SPARE_2 = bytes.fromhex(
    "0000000006000000 0100010001000000 0100000005000000 0000010004000000"
    "6400000000000000 0700000000000000 0500000000000000"
    "6400000000000000 0400000000000000 0000000000000000"
    "00000000 20000000 0400 0200 0200 54 4A"
)

# T in version 2 with the floors 0 0 3
T_FLOOR_2 = T_BYTES_2[:96] + b"\x03" + T_BYTES_2[97:]

STATED_JOBS = [
    (one.read(T_BYTES), "read 4 3 0: 0,1,1,0: 6,1,5,4: 100,100,100: 8,4,4; others kept"),
    (one.read(one.plain([0], [7], note=b"ab")), "read 1 1 2: 0: 7: 100: -1; others kept"),
    (one.read(T_BYTES, [1023, 1023, 1023, 1022]), "refused 10 at 0; others kept"),
    (one.read(b""), "refused 11 at 0; others kept"),
    (one.read(T_BYTES[:-1] + b"j"), "refused 12 at 0; others kept"),
    (one.read(b"x" + T_BYTES), "refused 13 at 0; others kept"),
    (one.read(one.plain(*T_ARCS, seconds={3: 256})), "refused 14 at 3; others kept"),
    (one.read(one.job([0] * 1024, [1] * 1024, [], [])), "refused 1 at 0; others kept"),
    (one.read(one.job([0] * 1024, [1] * 1024, [], [], seconds={1024: 1})), "refused 14 at 1024; others kept"),
    (one.read(one.job([], [], [], [])), "refused 1 at 0; others kept"),
    (one.read(one.plain([0, 2], [LARGE, 1])), "refused 4 at 1; others kept"),
    (one.read(one.plain([1], [LARGE])), "refused 3 at 1; others kept"),
    (one.read(one.job(*T_ARCS, [9, 9], [9, 9])), "refused 15 at 0; others kept"),
    (one.read(one.job(*T_ARCS, [9, 9, 2**64 - 1], [-(2**63), 9, 9])), "refused 7 at 2; others kept"),
    (one.read(one.job(*T_ARCS, [9, 9, 9], [9, -(2**63), 2**63 - 1])), "refused 7 at 1; others kept"),
    (("write", b"", *T_VALUES, 96), f"length 96, written 96: {T_BYTES.hex()}; others kept"),
    (("write", b"", *T_VALUES, 95), "length 96, refused 20 at 0; others kept"),
    (("write", bytes(256), *T_VALUES, 352), "refused 19 at 0, refused 19 at 0; others kept"),
    (("write", b"", [0, 2], [LARGE, 1], [], [], 0), "refused 4 at 1, refused 4 at 1; others kept"),
    (two.read(T_BYTES_2), "read 4 3 0: 0,1,1,0: 6,1,5,4: 0,1,1,1: 100,100,100: 8,4,4: 0,0,0; others kept"),
    (two.read(T_SPARE_2), "read 4 2 0: 0,1,1,0: 6,1,5,4: 0,1,0,1: 100,100: 7,4: 5,0; others kept"),
    (two.read(T_BYTES_2, [1023] * 5 + [1022]), "refused 10 at 0; others kept"),
    (two.read(T_BYTES_2[-15:]), "refused 11 at 0; others kept"),
    (two.read(T_BYTES), "refused 12 at 0; others kept"),
    (one.read(T_BYTES_2), "refused 12 at 0; others kept"),
    (two.read(b"x" + T_BYTES_2), "refused 13 at 0; others kept"),
    (two.read(two.job(*T_ARCS, [9, 9, 9], [9, 9, 9], seconds={3: 2})), "refused 16 at 3; others kept"),
    (two.read(two.no_rows(4123, note=b"1234567")), "refused 1 at 0; others kept"),
    (two.read(two.no_rows(4123, seconds={4123: 2})), "refused 16 at 4123; others kept"),
    (two.read(two.job(*T_ARCS, [9, 9, 9], [9, 9, 9], seconds={1: 1})), "refused 17 at 1; others kept"),
    (two.read(two.job([0], [7], [], [], seconds={1: 0})), "refused 18 at 0; others kept"),
    (two.read(two.job(*T_ARCS, [9, 9, 9], [9, 9, 9], seconds={3: 0})), "refused 15 at 0; others kept"),
    (two.read(two.job(*T_ARCS, [9, 9, 9], [9, 9, 9], [10, 9, 2**64 - 1])), "refused 7 at 2; others kept"),
    (two.read(two.job(*T_ARCS, [9, 9, 9], [9, 9, 9], [9, 10, 10])), "refused 27 at 1; others kept"),
    (("to2", T_BYTES, 120), f"written 120: {T_BYTES_2.hex()}; others kept"),
    (("to2", T_BYTES, 123), f"written 120: {T_BYTES_2.hex()}; others kept"),
    (("to2", T_BYTES, 119), "refused 20 at 0; others kept"),
    (("to2", T_BYTES_2, 120), "refused 12 at 0; others kept"),
    (("to1", T_BYTES_2, 96), f"written 96: {T_BYTES.hex()}; others kept"),
    (("to1", T_BYTES_2, 99), f"written 96: {T_BYTES.hex()}; others kept"),
    (("to1", T_BYTES_2, 95), "refused 20 at 0; others kept"),
    (("to1", T_SPARE_2, 0), "refused 29 at 3; others kept"),
    (("to1", T_FLOOR_2, 0), "refused 30 at 2; others kept"),
    (("to1", T_BYTES, 96), "refused 12 at 0; others kept"),
]
