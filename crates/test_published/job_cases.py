# Cases of whole jobs, for cases.py: what the page names, each refusal at its first and its last place, and both sides of each range. A case is a
# name, a file, what is asked of it and a size. Its block has the first bytes of the file, the row that is repeated, the last row and the length.
from page import gaps

LISTING, LAST, RUN, STEP = range(4)


def settings(pca=1, step=1, itp=0, rpp=0, sets=1, betac=15, betad=15, channels=1, maximum=24, zero=0, start=1280):
    return bytes([pca, step, itp, rpp, sets, betac, betad, channels, maximum % 256, zero]) + (start % 65536).to_bytes(2, "little")


def record(ident=1, direction=1, tgsn=0, tgl1=1, tgl2=0, tgpl=2, tgprc=0, tgd=0, start=0):
    pairs = b"".join(n.to_bytes(2, "little") for n in (tgprc, tgd, start))
    return bytes([ident, direction, tgsn, tgl1, tgl2, tgpl]) + pairs


def entry(kind, offset, length):
    return bytes([kind]) + offset.to_bytes(4, "little") + length.to_bytes(4, "little")


def job(s=settings(), records=(), rows=b""):
    part = b"".join(records)
    contents = entry(1, 29, 12) + entry(2, 41, len(part)) + entry(3, 41 + len(part), len(rows))
    return b"\1\3" + contents + s + part + rows


def rows(text):
    return bytes.fromhex(text)


# a file with some bytes put in place of others
def patched(data, at, put):
    return data[:at] + put + data[at + len(put) :]


# how many first bytes there are before one row comes again and again, whatever the last row is
def head_of(data):
    if len(data) <= 240:
        return len(data)
    return next(n for n in range(241) if data[n:-2] == (data[n : n + 2] * (len(data) // 2))[: len(data) - 2 - n])


def block(name, data, what, size, before=0):
    head = head_of(data)
    assert head <= 240 and len(name) <= 128
    repeated, last = (data[head:] + b"\0\0")[:2], data[-2:].rjust(2, b"\0")
    if what == STEP:
        repeated = UP
    start = repeated + last + bytes([head, len(name), 1, size]) + len(data).to_bytes(3, "little") + bytes([what]) + before.to_bytes(2, "little")
    return (start.ljust(16, b"\0") + data[:head]).ljust(256, b"\0") + name.encode().ljust(128, b"\0")


PAGE = job(rows=rows("01 06 01 06 01 06 00 06"))
UP, DOWN = rows("01 06"), rows("00 06")
NOTHING = rows("01 00")
SIX = [record(i, tgsn=2 * i) for i in range(1, 7)]


# ---- refusals of the file

FILE = [
    ("65,537 bytes", job(rows=UP * 32748)),
    ("65,536 bytes", job(rows=UP * 32747) + b"\1"),
    ("65,535 bytes, 32,747 rows", job(rows=UP * 32747)),
    ("no bytes", b""),
    ("28 bytes", PAGE[:28]),
    ("29 bytes", PAGE[:29]),
    ("byte 0 is 2", patched(PAGE, 0, b"\2")),
    ("byte 1 is 2", patched(PAGE, 1, b"\2")),
    ("byte 1 is 4", patched(PAGE, 1, b"\4")),
    ("entry 1 of kind 2", patched(PAGE, 2, b"\2")),
    ("entry 1 at offset 30", patched(PAGE, 3, b"\x1e")),
    ("entry 1 of 11 bytes", patched(PAGE, 7, b"\x0b")),
    ("body 1 past the end", PAGE[:40]),
    ("entry 2 of kind 1", patched(PAGE, 11, b"\1")),
    ("entry 2 at offset 42", patched(PAGE, 12, b"\x2a")),
    ("entry 2 of 8 bytes", patched(PAGE, 16, b"\x08")),
    ("body 2 past the end", patched(PAGE, 16, b"\x0c")),
    ("entry 2 of 4,294,967,292 bytes", patched(PAGE, 16, b"\xfc\xff\xff\xff")),
    ("entry 3 of kind 4", patched(PAGE, 20, b"\4")),
    ("entry 3 at offset 29", patched(PAGE, 21, b"\x1d")),
    ("entry 3 of 7 bytes", patched(PAGE[:-1], 25, b"\7")),
    ("body 3 past the end", PAGE[:-2]),
    ("body 3 not ending the file", PAGE + UP),
    ("every entry wrong, the settings too", patched(PAGE, 2, bytes(39))),
]
BYTES = [
    dict(pca=0),
    dict(pca=3),
    dict(step=0),
    dict(step=3),
    dict(pca=2, step=2),
    dict(itp=2),
    dict(rpp=2),
    dict(sets=0),
    dict(sets=7),
    dict(betac=0),
    dict(betac=16),
    dict(betad=16),
    dict(betac=14, betad=14),
    dict(channels=0),
    dict(channels=7),
    dict(maximum=-51),
    dict(maximum=34),
    dict(zero=1),
    dict(start=-9601),
    dict(start=2113),
    dict(zero=1, start=2113),
    dict(pca=1, step=1, itp=0, rpp=0, sets=1, betac=1, betad=15, channels=1, maximum=-50, start=-9600),
    dict(pca=2, step=1, itp=1, rpp=1, sets=6, betac=15, betad=15, channels=6, maximum=33, start=2112),
    dict(pca=1, step=2, betac=15, betad=0),
]
RECORDS = [
    ("seven records", SIX + [record(1)]),
    ("seven records, the first with id 0", [record(0)] + SIX),
    ("5,457 records", [bytes(12)] * 5457),
    ("record 0 with id 0", [record(0)]),
    ("TGSN 14, TGL1 1, TGPL 1", [record(tgsn=14, tgl1=1, tgpl=1)]),
    ("TGSN 14, TGL1 2, TGPL 1", [record(tgsn=14, tgl1=2, tgpl=1)]),
    ("a second gap up to the pattern's end", [record(tgsn=1, tgd=15, tgl2=14)]),
    ("a second gap past the pattern's end", [record(tgsn=2, tgd=15, tgl2=14)]),
    ("record 1 with the id of record 0, record 2 with id 0", [record(1), record(1), record(0)]),
    ("record 1 with id 0, record 2 with the id of record 0", [record(1), record(0), record(1)]),
    ("record 5 with the id of record 4", SIX[:5] + [record(5)]),
]
# a number of a record outside its range, one at a time
OUTSIDE = [
    dict(ident=0),
    dict(ident=7),
    dict(direction=0),
    dict(direction=4),
    dict(tgsn=15),
    dict(tgl1=0),
    dict(tgl1=15),
    dict(tgl2=15),
    dict(tgpl=0),
    dict(tgpl=145),
    dict(tgprc=512),
]
SIXTH = [
    *OUTSIDE,
    dict(tgd=14, tgl2=1),
    dict(tgd=270, tgl2=1, tgpl=144),
    dict(tgd=15),
    dict(tgsn=14, tgl1=14, tgl2=14, tgpl=144, tgprc=511, tgd=269, direction=3, start=65535),
    dict(tgsn=0, tgl1=1, tgl2=1, tgpl=2, tgprc=0, tgd=15, direction=1),
]


def titled(head, changes):
    return head + ", ".join("%s %d" % change for change in changes.items())


# ---- rows

# every slot up to row 29,998 is a downlink gap slot, and row 29,999 is none
WITHOUT_END = [
    record(1, 2, tgsn=0, tgl1=14, tgl2=14, tgd=15, tgprc=511),
    record(2, 2, tgsn=14, tgl1=1, tgl2=1, tgd=15, tgprc=511),
    record(3, 2, tgsn=0, tgl1=14, tgl2=14, tgd=15, tgprc=489, start=1022),
    record(4, 2, tgsn=14, tgl1=1, tgl2=1, tgd=15, tgprc=488, start=1022),
    record(5, 2, tgsn=14, tgl1=1, tgprc=1, start=1998),
]
THREE = [record(i, 2, tgsn=5 * i - 1, tgpl=1) for i in (1, 2, 3)]
AT_END = dict(tgsn=14, start=1999)
LONG = [
    ("30,001 rows", job(rows=UP * 30001), 1),
    ("30,001 rows, the first with 9 pilots", job(rows=rows("01 09") + UP * 30000), 1),
    ("30,000 rows, up to 512 at once", job(rows=UP * 30000), 255),
    ("30,000 rows, one at once", job(rows=UP * 30000), 1),
    ("30,000 rows, a downlink gap in every five-slot set", job(settings(pca=2, itp=1), THREE, DOWN * 30000), 255),
    ("command bits in row 29,999", job(rows=UP * 29999 + rows("02 06")), 1),
    ("pilots 2 in row 29,999", job(rows=UP * 29999 + rows("01 02")), 1),
    ("pilots 9 in row 29,999", job(rows=UP * 29999 + rows("01 09")), 1),
    ("a downlink gap in row 29,999 with a command", job(records=[record(direction=2, **AT_END)], rows=UP * 30000), 1),
    ("a downlink gap in row 29,999", job(records=[record(direction=2, **AT_END)], rows=UP * 29999 + DOWN), 1),
    ("an uplink gap in row 29,999 with pilots", job(records=[record(direction=1, **AT_END)], rows=UP * 30000), 1),
    ("an uplink gap in row 29,999", job(records=[record(direction=1, **AT_END)], rows=UP * 29999 + NOTHING), 1),
    ("below -9,600 in row 29,999", job(settings(start=-9600), WITHOUT_END, rows("00 03") * 29999 + rows("00 08")), 1),
    ("at -9,600 up to row 29,999", job(settings(start=-9600), WITHOUT_END, rows("00 03") * 30000), 1),
]


# rows of one link set, "+" for command "1", and pilots; 0 where a gap asks for it
def laid(records, commands, pilots):
    pairs = [[int(c == "+"), n] for c, n in zip(commands, pilots)]
    for pair, (up, down) in zip(pairs, gaps(b"".join(records), len(pairs))):
        pair[:] = [0 if down else pair[0], 0 if up else pair[1]]
    return bytes(sum(pairs, []))


# from power 0 on, so that nothing is limited by chance
def walk(records, commands, pilots=None, **changed):
    return job(settings(**dict(start=0) | changed), records, laid(records, commands, pilots or [6] * len(commands)))


def gap(direction, begin, end, ident=1):
    return record(ident, direction, tgsn=begin, tgl1=end - begin + 1, tgpl=4)


BOTH = [gap(3, 3, 5)]
UPLINK = [gap(1, 1, 3)]
LIMITED = [gap(1, 6, 7)]
EVERY = b"".join(bytes([k, 6]) for k in range(64))
# the page's job, and jobs whose whole listing is short
LISTED = [
    ("the four rows of the page", PAGE),
    ("no rows", job()),
    ("six records", walk(SIX, "+" * 20)),
    ("no data channel", walk([], "+-++", betad=0, maximum=20, start=1280)),
    ("power 0 is a power", walk([], "+-+")),
    ("start above the ceiling, factors 8 and 15, six channels", walk([], "++-+", betac=8, channels=6, start=2112)),
    ("command bits in row 0", job(rows=rows("02 06"))),
    ("pilots 2 in row 0", job(rows=rows("01 02"))),
    ("pilots 9 in row 0", job(rows=rows("01 09"))),
    ("pilots 3 and 8", walk([], "++", [3, 8])),
    ("bits of six link sets, then one more", job(settings(sets=6), rows=rows("3f 06 1f 06 40 06"))),
    ("a command in a downlink gap in row 0", job(records=[gap(2, 0, 0)], rows=UP)),
    ("no pilots in a downlink gap in row 0", job(records=[gap(2, 0, 0)], rows=rows("00 00"))),
    ("pilots in an uplink gap in row 0", job(records=[gap(1, 0, 0)], rows=UP)),
    ("below -9,600 in row 1, a fault in row 2", job(settings(start=-9600), rows=DOWN * 2 + rows("00 09"))),
    ("at -9,600 in row 1, below in row 2", walk([], "---", start=-9536)),
    ("at -9,600 by step 2 and pilots 3, then 8", walk([], "---", [3, 8, 8], step=2, start=-9199)),
    ("algorithm 2, a whole set up, one down, one mixed", walk([], "+++++-----++-++", pca=2)),
    ("algorithm 2, an alternating series turns control off", walk([], "+-" * 10, pca=2)),
    ("algorithm 2 of three link sets, 1 1 0, then 1 1 -1", job(settings(pca=2, sets=3), rows=rows("07 06" * 4 + "03 06" * 6))),
    ("algorithm 1, every decision of six link sets once", job(settings(sets=6, start=2000, maximum=33), rows=EVERY)),
    ("pilots 8, a gap, then 4", walk(UPLINK, "++++++", [8, 8, 8, 8, 4, 4])),
    ("pilots 8, then 4 in a downlink gap, then 4", walk([gap(2, 1, 1)], "++++", [8, 4, 4, 4])),
    ("filter -62, then -120.125, resume -120", walk(UPLINK, "+++++++", itp=1)),
    ("the same, ITP 0", walk(UPLINK, "+++++++")),
    ("the same, ITP 0, the gap's command -1, the resume slot's +1", walk(UPLINK, "+-+++++")),
    ("the same, ITP 1, step 2, commands -1", walk(UPLINK, "-------", itp=1, step=2)),
    ("recovery, RPP 0", walk(BOTH, "++-" * 5, step=1)),
    ("recovery of 128, RPP 1, step 1", walk(BOTH, "++-" * 5, rpp=1)),
    ("recovery of 192, RPP 1, step 2", walk(BOTH, "++-" * 5, rpp=1, step=2)),
    ("recovery of 64, RPP 1, PCA 2", walk(BOTH, "+" * 20, rpp=1, pca=2)),
    ("PCA 2, RPP 0 over the same gap", walk(BOTH, "+" * 20, pca=2)),
    ("seven recovery slots after nine of a gap", walk([gap(1, 1, 9)], "+" * 20, rpp=1)),
    ("recovery ends at the next gap", walk([gap(1, 2, 5), gap(2, 8, 8, 2)], "+" * 16, rpp=1, itp=1)),
    ("a downlink gap alone, ITP 0", walk([gap(2, 2, 4)], "++-+-+++")),
    ("a downlink gap alone, ITP 1", walk([gap(2, 2, 4)], "+++-++++", itp=1)),
    ("uplink gap in 5, downlink gap in 6", walk([gap(1, 5, 5), gap(2, 6, 6, 2)], "+" * 12, rpp=1)),
    ("uplink, downlink, uplink in one run, ITP 1", walk([gap(1, 3, 3), gap(2, 4, 4, 2), gap(1, 5, 5, 3)], "+" * 9, itp=1)),
    ("both, then uplink in one run, ITP 0", walk([gap(3, 3, 3), gap(1, 4, 4, 2)], "+" * 8)),
    ("both, then uplink in one run, ITP 1", walk([gap(3, 3, 3), gap(1, 4, 4, 2)], "+" * 8, itp=1)),
    ("a gap before the first sent row, ITP 0", walk([gap(1, 0, 0), gap(2, 1, 1, 2)], "++++")),
    ("a gap before the first sent row, ITP 1", walk([gap(1, 0, 0), gap(2, 1, 1, 2)], "++++", itp=1)),
    ("a gap in every row", walk([gap(1, 0, 4)], "+-+-+")),
    ("limited before a gap, ITP 1", walk(LIMITED, "+" * 11, itp=1, start=1151)),
    ("not limited before the same gap, ITP 1", walk(LIMITED, "+" * 11, itp=1, start=1151, maximum=33)),
    ("a frame that never comes", walk([record(start=65535)], "+++")),
]
# the ids that opened a gap: records in any order, and the slots of their gaps
FALLING = [gap(1, k - 1, 6, k) for k in (6, 5, 4, 3, 2, 1)]
SIX_AT_ONCE = [gap(d, 2, 2, k) for k, d in ((4, 1), (2, 2), (6, 3), (1, 1), (3, 2), (5, 3))]
IDS = [
    # the id is not the place of its record, from 0 or from 1; 2 stands before 5, though its record does not
    ("id 5 before id 2, both in slot 2", [gap(1, 1, 2, 5), gap(1, 2, 3, 2)]),
    # 1 and 32, not 2 and 64
    ("id 1 in slot 1, id 6 in slot 2", [gap(1, 1, 1, 1), gap(1, 2, 2, 6)]),
    ("ids 2 and 4 uplink, 3 and 5 downlink", [gap(1, 1, 1, 2), gap(2, 2, 2, 3), gap(1, 3, 3, 4), gap(2, 3, 3, 5)]),
    # 4 and 4, and printed once
    ("id 3 of both directions", [gap(3, 1, 2, 3)]),
    ("id 3 of both directions, ids 6 and 1 of one each", [gap(2, 2, 2, 6), gap(3, 1, 3, 3), gap(1, 2, 3, 1)]),
    ("one slot opened by the sixth record alone", [gap(1, 1, 1, k) for k in (1, 3, 4, 5, 6)] + [gap(1, 2, 2, 2)]),
    ("six ids one by one, falling in the file", FALLING),
    ("six ids in one slot, in three directions", SIX_AT_ONCE),
    ("an id by its second gap, another by its first", [record(4, 2, tgsn=1, tgl1=1, tgl2=2, tgd=15), record(2, 2, tgsn=2, start=1)]),
    ("an id that is over, another that goes on", [record(6, 1, tgsn=1, tgpl=1, tgprc=1), record(1, 1, tgsn=1, tgpl=1)]),
]
LISTED += [(name, walk(records, "+" * 20, rpp=1)) for name, records in IDS]
# a run with so many numbers lent
RUNS = [
    ("31 numbers lent for 4 rows", PAGE, 31),
    ("32 numbers lent for 4 rows", PAGE, 32),
    ("33 numbers lent for 4 rows", PAGE, 33),
    ("24 numbers lent for 4 rows, six each", PAGE, 24),
    *[(name + ", 32 numbers lent", walk(records, "++++"), 32) for name, records in IDS[:8]],
    ("no number lent for no rows", job(), 0),
    ("no number lent for a row that breaks its rule", job(rows=rows("01 09")), 0),
    ("32 numbers lent, pilots 9 in row 2", job(rows=UP * 2 + rows("01 09") + UP), 32),
    ("32 numbers lent, pilots 9 after a gap", job(records=[gap(3, 1, 1, 6)], rows=UP + rows("00 00 01 09") + UP), 32),
    ("32 numbers lent, below -9,600 in row 2", walk([], "----", start=-9536), 32),
    ("no number lent for 30,000 rows", job(rows=UP * 30000), 0),
    ("no number lent for 30,001 rows", job(rows=UP * 30001), 0),
]

# a step after the state before row 0, but with so many rows and one of four powers
POWERS = (-9601, -9600, 2112, 2113)
STATES = [(0, 0), (0, 1), (0, 2), (0, 3), (29999, 2), (29999, 3), (30000, 2), (30001, 3)]


def blocks():
    found = [block(name, data, LAST, 1) for name, data in FILE]
    found += [block(titled("settings ", c), job(settings(**c)), LAST, 1) for c in BYTES]
    found += [block(name, job(records=records), LAST, 1) for name, records in RECORDS]
    found += [block(titled("record 5, ", c), job(records=SIX[:5] + [record(**dict(ident=6, tgpl=19) | c)]), LAST, 1) for c in SIXTH]
    found += [block(name, data, LAST, size) for name, data, size in LONG]
    found += [block(name, data, LISTING, 255) for name, data in LISTED]
    found += [block("the page's rows, one at once", PAGE, LISTING, 1)]
    found += [block("six ids in one slot, one row at once", walk(SIX_AT_ONCE, "++++"), LISTING, 1)]
    found += [block(name, data, RUN, size) for name, data, size in RUNS]
    found += [block("a state of %d rows, power %d" % (n, POWERS[k]), PAGE, STEP, k, n) for n, k in STATES]
    return found
