# Makes the files stdin and stdout anew: `python3 make.py`, run by hand when a sample, a case or the page changes. The
# listings of jobs/ are taken as they stand there; the others are computed from the page as written in Python
# (crates/test_published/job.py). No listing comes from the reference itself.
import sys
from pathlib import Path

HERE = Path(__file__).resolve().parent
CRATES = HERE.parent
JOBS = CRATES.parent / "jobs"
sys.dont_write_bytecode = True
sys.path.insert(0, str(CRATES / "test_published"))

from job import listing
from job_cases import PAGE, SIX, UP, gap, job, laid, patched, record, settings, walk

# so many rows make the first piece of a listing (docs/ARCHITECTURE.md, listing-in-pieces)
FIRST_PIECE = 371

# two patterns without end, one each way, over frames of other lengths; commands and pilots that come again after 7 and 11 rows
GAPS = [record(1, 1, tgsn=3, tgl1=4, tgpl=3), record(2, 2, tgsn=9, tgl1=2, tgl2=3, tgd=17, tgpl=4)]


def long_job(count, **changed):
    rows = laid(GAPS, ("++-+--+" * count)[:count], ([8, 6, 5, 3, 4, 7, 6, 8, 4, 5, 3] * count)[:count])
    return job(settings(**dict(start=0, maximum=20) | changed), GAPS, rows)


# a job with the pilots of one row put outside their range; the records lie from byte 41 on
def broken(data, row):
    begin = 41 + int.from_bytes(data[16:20], "little")
    return patched(data, begin + 2 * row + 1, b"\x0b")


# up and down ten steps above the lowest power, then down in every row
FALLING = walk([], "+-" * 240 + "-" * 40, start=-9600 + 640)

CASES = [
    ("no rows", job()),
    ("no bytes", b""),
    ("the first piece, whole", long_job(FIRST_PIECE)),
    ("a row more than the first piece", long_job(FIRST_PIECE + 1)),
    ("three pieces with rows", long_job(900, itp=1, rpp=1)),
    ("2: 28 bytes", PAGE[:28]),
    ("2: body 3 not ending the file", PAGE + UP),
    ("3: no factor of 15", job(settings(betac=14, betad=14), rows=UP)),
    ("4: seven records", job(records=SIX + [record(1)], rows=UP)),
    ("5: TGL1 2 from TGSN 14 on in a frame", job(records=[record(tgsn=14, tgl1=2, tgpl=1)], rows=UP)),
    ("6: an id twice", job(records=[record(1), record(1)], rows=UP)),
    ("7: 30,001 rows", job(rows=UP * 30001)),
    ("8: in row 0", job(rows=b"\2\6" + UP)),
    ("8: in row 2", broken(PAGE, 2)),
    ("8: pilots in an uplink gap", job(records=[gap(1, 1, 2)], rows=UP * 4)),
    ("8: in the second piece", broken(long_job(900), 500)),
    ("8: in the last row of the first piece", broken(long_job(900), FIRST_PIECE - 1)),
    ("8: in the first row of the second piece", broken(long_job(900), FIRST_PIECE)),
    ("9: in row 2", walk([], "---", start=-9536)),
    ("9: in the second piece", FALLING),
]

# a byte more than a job may have, which is all that is read of one
ROOM = 65537
# jobs that are read as `reference` reads, each after a number of bytes for which there is no room: the first fills the
# room, and input is left after it; the second is read to the end of the input, and is the last job
WITHOUT_SIZE = 2**32 - 1
AS_READ = [
    ("1: 65,537 bytes", job(rows=UP * 32748)),
    ("three pieces with rows, algorithm 2", long_job(900, pca=2, itp=1)),
]
assert len(AS_READ[0][1]) == ROOM

SAMPLES = [(path.read_bytes(), path.with_suffix(".listing").read_text()) for path in sorted(JOBS.glob("*.job"))]
LISTED = SAMPLES + [(data, listing(data)) for _, data in CASES + AS_READ]

# that each case is what its name says: the refusal, and alone where the file is refused
for name, data in CASES + AS_READ:
    last = listing(data).splitlines()[-1]
    assert name[0] not in "123456789" or last.startswith("refused %s at " % name[0]), name

sizes = [len(data) for data, _ in LISTED[: -len(AS_READ)]] + [WITHOUT_SIZE] * len(AS_READ)
stdin = b"".join(size.to_bytes(4, "little") + data for size, (data, _) in zip(sizes, LISTED))
stdout = "".join("job %d: %d bytes\n%s" % (k, len(data), text) for k, (data, text) in enumerate(LISTED))
(HERE / "stdin").write_bytes(stdin)
(HERE / "stdout").write_text(stdout + "jobs %d\n" % len(LISTED))
