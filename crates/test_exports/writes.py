# W-202: what the functions that write answer, for make.py, by docs/RULES.md (`writing`) and docs/DECISIONS.md
# (`writing`). The file is laid out as the page's table of contents says (jobs/texts.py), and the page's reader as
# written in Python judges it. The numbers of settings and of a record become bytes by Python's own arithmetic.
from job import Refused, load, number, signed
from job_cases import PAGE, SIX, SIX_AT_ONCE, UP, job, patched, record, settings, walk
from texts import file_of

# what stands in a lent byte before a call
BEFORE = 7
# most bytes lent for settings and for a record, and how many they have
ROOM, TWELVE = 16, 12


# kind and parts, cut from the bytes of a job whether it is one or not
def parts_of(data):
    end = 41 + number(data[16:18])
    return data[0] if data else 1, (data[29:41], data[41:end], data[end:])


# bytes of a job from a place on, 0 where it lacks them
def bytes_of(data, begin, count):
    return data[begin : begin + count].ljust(count, b"\0")


# "On any refusal nothing is written. The bytes after a file that is written stay as they were"
def stored(made, lent):
    return made + bytes([BEFORE]) * (lent - len(made))


def shown(name, refusal, lent, size=None):
    sized = "" if size is None else ", size %d" % size
    return "%s %d at %d%s, bytes%s" % (name, *refusal, sized, "".join(" %d" % n for n in lent))


# "The writer refuses with 1 to 7, at the same place, exactly what a reader of that file would refuse with them", "Then
# 12, if the lent bytes are fewer than the file has, at the size of the file"
def write(data, lent):
    made = file_of(*parts_of(data))
    refusal = (12, len(made)) if lent < len(made) else (0, 0)
    try:
        load(made)
    except Refused as refused:
        refusal = refused.args
    taken = made if refusal == (0, 0) else b""
    return shown("write", refusal, stored(taken, lent), len(taken))


def twelve(name, made, lent):
    if lent < TWELVE:
        return shown(name, (12, TWELVE), stored(b"", lent))
    return shown(name, (0, 0), stored(made, lent))


# "A start power that two bytes cannot hold becomes the nearest that they hold; nothing wraps"
def settings_made(data, start):
    given = bytes_of(data, 29, 9)
    return settings(*given[:8], signed(given[8:]), start=max(-32768, min(start, 32767)))


def record_made(data):
    given = bytes_of(data, 41, 12)
    return record(*given[:6], *(number(given[k : k + 2]) for k in (6, 8, 10)))


# the three lines at a block's end
def written(data, lent, start):
    few = min(lent, ROOM)
    return [
        write(data, lent),
        twelve("settings", settings_made(data, start), few),
        twelve("record", record_made(data), few),
    ]


# ---- the cases

# a job of six records and four rows
SIX_IDS = walk(SIX_AT_ONCE, "++++")
# the greatest numbers that a record may have
GREATEST = record(6, 3, tgsn=14, tgl1=14, tgl2=14, tgpl=144, tgprc=511, tgd=269, start=65535)
ALL_ONES = b"\xff" * 12


def sized(data, more):
    return data, len(data) + more


# job, and bytes lent for its file
LENT = [
    # all of the file, a byte less, more, and the same where there are records
    *[sized(data, more) for data in (PAGE, SIX_IDS) for more in (0, -1, 6)],
    # kind 2, and kind 2 into too few bytes: the reader's refusals come first
    sized(patched(PAGE, 0, b"\2"), 6),
    sized(patched(PAGE, 0, b"\2"), -1),
    # parts of other lengths: no settings, 11 bytes of them, 13 of records, 3 of rows
    (b"", 45),
    sized(PAGE[:40], 6),
    sized(patched(PAGE + b"\1" * 6, 16, b"\x0d"), 6),
    sized(job(rows=UP + b"\1"), 6),
    # settings, records and their number
    sized(job(settings(pca=3)), 6),
    sized(job(settings(maximum=-51)), 6),
    sized(job(settings(zero=1)), -1),
    sized(job(settings(start=2113), [record(0)]), 6),
    sized(job(records=[record(0)]), 6),
    sized(job(records=[record(1), record(2, tgsn=14, tgl1=2, tgpl=1)]), -1),
    sized(job(records=[record(1), record(1)]), 6),
    sized(job(records=SIX + [record(1)]), 6),
    # the reader refuses these, and the file of their parts is a job: another byte 1, and a row after the last
    sized(patched(PAGE, 1, b"\2"), 6),
    sized(PAGE + UP, 6),
    # a row's own bytes are not judged
    sized(job(rows=b"\1\x09"), 6),
    # numbers of every size, in range and out of it
    sized(job(settings(2, 1, 1, 1, 6, 15, 0, 6, -50, start=-9600), [GREATEST]), 6),
    sized(job(settings(maximum=33, start=2112), [GREATEST, record(1)]), 0),
    sized(job(settings(maximum=127), [ALL_ONES]), 6),
    sized(job(settings(maximum=-128)), 6),
    sized(job(ALL_ONES, [ALL_ONES]), 6),
]
# bytes lent for settings and a record: too few, as many as they have, more
FEW = [11, 12, 13, 16]
# start powers that two bytes hold, and those that they do not
HELD = [0, 1, -1, 255, 256, -256, 1280, -9600, 2112, 32767, -32768]
NOT_HELD = [32768, -32769, 65535, -65536]

# job, bytes lent, and a start power
CASES = [(data, lent, 1280) for data, lent in LENT]
CASES += [(SIX_IDS, lent, -9600) for lent in FEW]
CASES += [(PAGE, TWELVE, start) for start in HELD + NOT_HELD]
