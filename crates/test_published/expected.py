# Prints what the program has to print: `python3 expected.py < stdin > stdout`.
import sys

from job import Job, Refused, listing
from page import algorithm1, algorithm2, check, commands, gain, level, marks, pair, pilot_change, recovery_step, step


for x in (0, 1, 2, 10, 1575, 1576):
    print("level", x, level(x))
for n in range(2, 10):
    print("pilots", n, level(n))
plain = placed = 0
for x in range(1, 1576):
    plain += level(x)
    placed += plain
print("levels summed", plain, placed)

SIGNS = {-1: "-", 0: "0", 1: "+"}


def five(name, most, other, sets):
    print("%s: %s" % (name, SIGNS[algorithm2([most, most, most, other, most], sets)]))


def one(name, byte, sets):
    print("%s: %s" % (name, SIGNS[algorithm1(byte, sets)]))


def gains(betac, betad, n, maximum):
    bracket, ceiling, above = gain(betac, betad, n, maximum)
    print("gain %d %d %d at %d dBm: %d %d %s" % (betac, betad, n, maximum, bracket, ceiling, "-" if above is None else above))


five("temporaries 1, 1, 0", 7, 3, 3)
five("temporaries 1, 0", 3, 1, 2)
five("temporaries 1, 1, -1", 3, 3, 3)
five("temporaries of no link set", 0, 0, 0)
five("temporaries of nine", 255, 255, 9)
one("all ones", 7, 3)
one("one zero", 5, 3)
one("ones of no link set", 0, 0)
one("ones of nine", 255, 9)
for decibels in range(4):
    print("step of %d dB: %d" % (decibels, step(decibels)))
for units, pca in ((64, 1), (128, 1), (64, 2)):
    print("recovery step of %d, PCA %d: %d" % (units, pca, recovery_step(pca, units)))
for before, now in ((8, 4), (4, 8), (3, 8), (0, 8)):
    print("pilots %d then %d: %d" % (before, now, pilot_change(before, now)))
print("pilots 8 then 4, command -1, step 128: %d" % (-128 + pilot_change(8, 4)))
print("pilots 4 then 8, command 1, step 192: %d" % (192 + pilot_change(4, 8)))
for factors in ((15, 15, 1, 24), (8, 15, 1, 24), (15, 0, 6, -50), (1, 15, 6, 33), (15, 1, 1, 33), (0, 0, 0, 127), (255, 255, 255, -128)):
    gains(*factors)


# ---- cases of slots

def slots_of(block):
    pca, rpp, sets, size, slots = block[:5]
    part, rows = block[8 : 8 + size], block[96 : 96 + slots]
    shown = " %s\n" % check(part)
    if rows:
        shown += "%s\n%s\n" % (marks(part, slots), "".join(SIGNS[c] for c in commands(part, pca, rpp, sets, rows)))
    return shown


# ---- cases of jobs

# the first bytes, then a row again and again, the last row in its own place
def file_of(block):
    first, length = block[16 : 16 + block[4]], int.from_bytes(block[8:11], "little")
    more = length - len(first)
    return first + (block[:2] * (more // 2 + 1))[: more - 2] + block[2:4] if more else first


# what a run does to numbers that were lent, each 7 before
def run(data, lent):
    numbers = [7] * lent
    try:
        job = Job(data)
        if lent < 8 * len(job.bytes):
            raise Refused(10, 8 * len(job.bytes))
    except Refused as refusal:
        return " refused %d at %d" % refusal.args, numbers
    answers, refusal = job.run()
    for k, answer in enumerate(answers):
        numbers[8 * k : 8 * k + 8] = answer
    return " refused %d at %d" % refusal if refusal else " done", numbers


# a step after a state of so many rows, none sent: power is from -9,600 to 2,112 (docs/STATE.md), and 7 goes before 11
def step_of(before, power):
    if before >= 30000:
        return " refused 7 at 30000"
    return " taken" if power in (1, 2) else " refused 11 at 0"


def job_of(block):
    size, what = block[7], block[11]
    data = file_of(block)
    if what == 3:
        return step_of(pair(block, 12), size) + "\n"
    if what == 2:
        told, numbers = run(data, size)
        return "%s,%s\n" % (told, "".join(" %d" % n for n in numbers))
    text = listing(data)
    return "\n" + text if what == 0 else " %s\n" % text.splitlines()[-1]


blocks = sys.stdin.buffer.read()
for at in range(0, len(blocks) - 383, 384):
    block = blocks[at : at + 384]
    sys.stdout.write(block[256 : 256 + block[5]].decode() + ":" + (job_of(block) if block[6] else slots_of(block)))
