# Makes the files stdin and stdout anew: `python3 make.py`, run by hand when a case, the page or docs/STATE.md changes.
# Answers are computed from the page as written in Python (crates/test_published/job.py). The state before a row is
# computed here from the rows accepted so far, field by field as docs/STATE.md says, and is never stepped.
import math
import sys
from pathlib import Path

HERE = Path(__file__).resolve().parent
CRATES = HERE.parent
JOBS = CRATES.parent / "jobs"
sys.dont_write_bytecode = True
sys.path[:0] = [str(CRATES / "test_published"), str(JOBS)]

from job import Job, Refused, first_uplink, load, number
from job_cases import PAGE, SIX_AT_ONCE, UP, gap, job, record, settings, walk
from page import records_of
from writes import CASES, written

# what stands in a lent number before a call, and in a lent state
BEFORE = 7
# numbers of a row's answer
ROW = 8
NUMBERS = 17
TAKEN = (0, 0)
# which number is changed, where that is the level beside the numbers: to a value, or to one that is no number
LEVEL, NO_LEVEL = 255, 254


# a job whose filter does not begin at 0. Each update makes that "0.9375 x filter", until a resume slot; here there are
# so few that nothing is rounded, and the two parts can be added
class Begun(Job):
    level = 0.0

    def filter(self, row):
        over = "resume" in self.kinds[:row]
        return super().filter(row) + (0.0 if over else self.level * 0.9375 ** sum(map(self.updates, range(row))))


# a job with rows of the caller's own in place of its own, and the filter's level before row 0
def with_rows(data, rows, level=0.0):
    s, records, _ = load(data)
    ran = Begun(job(s, [records], rows))
    ran.level = level
    return ran


# ---- the state between two rows, docs/STATE.md

def rows_of(data):
    return [data[k : k + 2] for k in range(0, len(data), 2)]


# length up to 7 of the run that ends with the row before, recovery slots to come (0 inside a run), and
# whether that run has had an uplink gap slot, with the command of the first
def run_fields(ran):
    n = len(ran.bytes)
    begin = n
    while begin > 0 and any(ran.directions[begin - 1]):
        begin -= 1
    left = 0
    if begin == n and "resume" in ran.kinds:
        resume = n - 1 - ran.kinds[::-1].index("resume")
        first = resume
        while first > 0 and any(ran.directions[first - 1]):
            first -= 1
        left = max(0, min(resume - first, 7) - (n - 1 - resume))
    opened = first_uplink(ran.directions, n)
    return [min(n - begin, 7), left, int(opened is not None), 0 if opened is None else ran.commands[opened]]


# the bytes of the four slots before, and whether a slot of this set of five has taken its command away
def set_fields(ran):
    n = len(ran.bytes)
    spoils = [down or (ran.rpp == 1 and kind == "recovery") for (_, down), kind in zip(ran.directions, ran.kinds)]
    return [bits for bits, _ in ([(0, 0)] * 4 + ran.bytes)[-4:]] + [int(any(spoils[n - n % 5 :]))]


# the updates since the filter last returned to 0, which it does after a resume slot
def filter_count(ran):
    after = [k for k in range(len(ran.bytes)) if "resume" not in ran.kinds[k:]]
    return sum(1 for k in after if ran.sent and ran.updates(k))


# the numbers of the state after rows that are all accepted, and its level
def state(data, accepted, level=0.0):
    ran = with_rows(data, b"".join(accepted), level)
    assert ran.run()[1] is None
    n = len(ran.bytes)
    power = ran.sum - ran.held if ran.sent else ran.start
    limited = int(n > 0 and ran.states[-1] == 2)
    accounts = [n, int(bool(ran.sent)), power, ran.held, (ran.pilots or [0])[-1], limited]
    level = ran.filter(n) if ran.sent else level
    return [1] + accounts + run_fields(ran) + set_fields(ran) + [filter_count(ran)], level


# ---- what each function answers

# the refusal of rows after accepted ones, (0, 0) where there is none, and the lent answers. A byte left over is a row
# that lacks its pilot bits (docs/DECISIONS.md, rows-cut-short).
def run_after(data, accepted, rows, lent, level=0.0):
    offered = (len(rows) + 1) // 2
    if lent < ROW * offered:
        return (10, ROW * offered), [BEFORE] * lent
    answers, refusal = with_rows(data, b"".join(accepted) + rows[: len(rows) // 2 * 2], level).run()
    if refusal is None and len(rows) % 2:
        refusal = (8, len(answers))
    new = sum((list(answer) for answer in answers[len(accepted) :]), [])
    return refusal or TAKEN, new + [BEFORE] * (lent - len(new))


# "For a sequence, r = slot - 15 * start frame": whether a slot lies in a gap of one record
def in_gap(part, slot):
    tgsn, tgl1, tgl2, tgpl = part[2:6]
    tgprc, tgd, start = number(part[6:8]), number(part[8:10]), number(part[10:12])
    times, q = divmod(slot - 15 * start, 15 * tgpl)
    active = slot >= 15 * start and (tgprc == 0 or times < tgprc)
    return active and (tgsn <= q < tgsn + tgl1 or tgl2 > 0 and tgsn + tgd <= q < tgsn + tgd + tgl2)


# the ids whose records put a slot into an uplink gap, and into a downlink gap, each as a sum of 2^(id-1)
def slot(data, k):
    found = [part for part in records_of(load(data)[1]) if in_gap(part, k)]
    return tuple(sum(2 ** (part[0] - 1) for part in found if part[1] in ways) for ways in ((1, 3), (2, 3)))


def refused(data):
    try:
        load(data)
    except Refused as refusal:
        return refusal.args
    return TAKEN


# ---- how they are shown

def shown_state(numbers, level):
    parts = "nan" if math.isnan(level) else "%d" % int(level * 2**42)
    return "  state%s, level %s" % ("".join(" %d" % n for n in numbers), parts)


def told(name, refusal, answers=None):
    shown = "" if answers is None else ", answers" + "".join(" %d" % n for n in answers)
    return "%s %d at %d%s" % (name, *refusal, shown)


def called(data, rows, lent):
    if refused(data) != TAKEN:
        untouched = [BEFORE] * lent
        same = shown_state([BEFORE] * NUMBERS, BEFORE)
        lines = [told("refusal", refused(data)), told("run", refused(data), untouched), told("rows", refused(data), untouched)]
        lines.append("slots" + (" 0 0 refused %d at %d" % refused(data)) * 65)
        lines += [told("start", refused(data)), same]
        return lines + [told("next", refused(data), [BEFORE] * ROW), same] * (len(rows) // 2)
    lines = [told("refusal", TAKEN)]
    lines.append(told("run", *run_after(data, [], load(data)[2], lent)))
    lines.append(told("rows", *run_after(data, [], rows, lent)))
    lines.append("slots" + "".join(" %d %d" % slot(data, k) for k in [*range(64), 2**32 - 1]))
    return lines + live(data, rows)


# each row by itself; a refused one leaves the state, and the next is offered after the same rows
def live(data, rows):
    accepted = []
    lines = [told("start", TAKEN), shown_state(*state(data, accepted))]
    for row in rows_of(rows[: len(rows) // 2 * 2]):
        refusal, answers = run_after(data, accepted, row, ROW)
        accepted += [row] if refusal == TAKEN else []
        lines += [told("next", refusal, answers), shown_state(*state(data, accepted))]
    return lines


# a state before row 0 of which one number or the level is changed, and so many numbers are lent; `refusal` is what
# docs/STATE.md says of it, None where it is a state still
def changed(data, rows, lent, count, at, value, refusal):
    numbers, level = state(data, [])
    lines = [told("start", TAKEN), shown_state(numbers, level)]
    if count == NUMBERS:
        lines += lines
    else:
        lines = [told("start", (11, 0)), shown_state([BEFORE] * count, BEFORE)] + lines
    numbers = (numbers + [BEFORE] * 3)[:count]
    if at < count:
        numbers[at] = value
    if at in (LEVEL, NO_LEVEL):
        level = float(value) if at == LEVEL else math.nan
    if refusal is not None:
        return lines + [told("next", refusal, [BEFORE] * lent), shown_state(numbers, level)]
    refusal, answers = run_after(data, [], rows, lent, level)
    accepted = rows_of(rows)[: len(rows) if refusal == TAKEN else refusal[1]]
    return lines + [told("next", refusal, answers), shown_state(*state(data, accepted, level))]


# ---- the cases

LIFT = (JOBS / "lift.job").read_bytes()
TWO_IDS = (JOBS / "two-ids.job").read_bytes()
# the second, the third and the fifth break a rule
BROKEN = bytes.fromhex("0106 0109 0206 0106 0000 0006")
# every frame begins with a gap, up to the last slot that a number of 32 bits can name
EVERY_FRAME = walk([record(1, 3, tgpl=1)], "+" * 20, itp=1)
SPOILT = walk([gap(3, 3, 5), record(2, 2, tgsn=9, tgl1=2, tgl2=1, tgd=15, tgpl=4)], "+" * 30, pca=2, rpp=1, itp=1)
UNSENT = walk([gap(1, 0, 2), gap(2, 5, 6, 2)], "+-+-+-++--", itp=0)
LOW = walk([], "-" * 6, start=-9500)
SIX_IDS = walk(SIX_AT_ONCE, "++++")

# job, the caller's rows, numbers lent for answers
CALLS = [
    (PAGE, load(PAGE)[2], 32),
    (PAGE, BROKEN, 50),
    (PAGE, BROKEN, 47),
    (PAGE, UP * 4, 31),
    (PAGE, UP * 4, 24),
    (PAGE, UP * 2 + b"\1", 26),
    (LIFT, load(LIFT)[2], 432),
    (SPOILT, load(SPOILT)[2], 240),
    (EVERY_FRAME, load(EVERY_FRAME)[2], 160),
    (UNSENT, load(UNSENT)[2], 80),
    (LOW, load(LOW)[2] + UP, 56),
    (TWO_IDS, load(TWO_IDS)[2], 240),
    (SIX_IDS, load(SIX_IDS)[2], 33),
    (job(), b"", 0),
    (job(settings(betac=14, betad=14), rows=UP), UP * 2, 9),
    (PAGE[:28], UP, 8),
]

ELEVEN = (11, 0)
# rows offered at once after a state that is as it was, and numbers lent for answers
TOGETHER = [(UP, 8), (UP * 3, 26), (BROKEN, 48), (UP * 2 + b"\1", 24)]
# numbers lent, which is changed, its value, numbers lent for answers, and the refusal of a row
STATES = [
    (17, 0, 2, ROW, ELEVEN),
    (17, 0, 0, ROW, ELEVEN),
    (16, 0, 1, ROW, ELEVEN),
    (18, 0, 1, ROW, ELEVEN),
    (1, 0, 1, ROW, ELEVEN),
    (17, 0, 1, 7, (10, ROW)),
    (17, 0, 2, 7, (10, ROW)),
    (16, 0, 1, 7, (10, ROW)),
    (17, 1, 30000, ROW, (7, 30000)),
    (16, 1, 30000, ROW, ELEVEN),
    (17, 2, 2, ROW, ELEVEN),
    (17, 2, 1, ROW, ELEVEN),
    (17, 3, -9601, ROW, ELEVEN),
    (17, 3, 2113, ROW, ELEVEN),
    (17, 4, 1, ROW, ELEVEN),
    (17, 5, 6, ROW, ELEVEN),
    (17, 5, 256, ROW, ELEVEN),
    (17, 5, -1, ROW, ELEVEN),
    (17, 7, 8, ROW, ELEVEN),
    (17, 8, 8, ROW, ELEVEN),
    (17, 10, -2, ROW, ELEVEN),
    (17, 10, 2, ROW, ELEVEN),
    (17, 11, 2, ROW, ELEVEN),
    (17, 15, 2, ROW, ELEVEN),
    (17, 16, 1, ROW, ELEVEN),
]
# "-1,984 to 1,984, no NaN and no infinity"
LEVELS = [(LEVEL, value, None if -1984 <= value <= 1984 else ELEVEN) for value in [1984, -1984, 1985, -1985]] + [(NO_LEVEL, 0, ELEVEN)]
# a resume slot in row 2, whose change is the level
RESUMED = walk([gap(1, 1, 1)], "++++", itp=1)


def pair(n):
    return n.to_bytes(2, "little")


def block(data, rows, lent, count=0, at=0, value=0):
    below = value < 0
    head = pair(len(data)) + pair(len(rows)) + pair(lent) + bytes([count, at]) + pair(~value if below else value) + bytes([below, 0])
    return head + data + rows


# job, rows, numbers lent for answers and for a state, which is changed, its value, and the refusal
CHANGED = [(PAGE, rows, lent, 17, 0, 1, None) for rows, lent in TOGETHER]
CHANGED += [(PAGE, UP, lent, count, at, value, refusal) for count, at, value, lent, refusal in STATES]
CHANGED += [(data, load(data)[2], 32, 17, *case) for data in [PAGE, RESUMED] for case in LEVELS]

blocks = [block(*case) for case in CALLS] + [block(*case[:-1]) for case in CHANGED]
texts = [called(*case) + written(case[0], case[2], 0) for case in CALLS] + [changed(*case) for case in CHANGED]
# the cases of writing, without a row of the caller's
blocks += [block(data, b"", lent, value=start) for data, lent, start in CASES]
texts += [called(data, b"", lent) + written(data, lent, start) for data, lent, start in CASES]
(HERE / "stdin").write_bytes(b"".join(blocks))
shown = "".join("block %d\n%s\n" % (k, "\n".join(lines)) for k, lines in enumerate(texts))
(HERE / "stdout").write_text(shown + "blocks %d\n" % len(blocks))
