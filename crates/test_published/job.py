# The listing of a job, written from the page and docs/DECISIONS.md: `python3 job.py < job` prints it. Gaps, runs and commands of the whole job
# are laid out first (page.py). What is withheld is taken from the sums of changes, and the filter is computed anew from the rows that update it,
# where a resume slot asks for it.
import math
import sys

from page import check, commands, gain, gaps, kinds, openers, pilot_change, recovery_step, step

HEADER = "row state cmd dpcch dpdch total held by"


# a refusal of the file, 1 to 7: number and place
class Refused(Exception):
    pass


def number(data):
    return int.from_bytes(data, "little")


def signed(data):
    return int.from_bytes(data, "little", signed=True)


# ---- the file

# "Byte 0 is 1, byte 1 is 3, then three entries of 9 bytes: kind (1), offset (4), length (4)."
def bodies(data):
    if len(data) > 65536:
        raise Refused(1, 0)
    if len(data) < 29 or data[0] != 1 or data[1] != 3:
        raise Refused(2, 0)
    found, begin = [], 29
    for entry in (1, 2, 3):
        at = 2 + 9 * (entry - 1)
        kind, offset, length = data[at], number(data[at + 1 : at + 5]), number(data[at + 5 : at + 9])
        end = offset + length
        sized = {1: length == 12, 2: length % 12 == 0, 3: length % 2 == 0 and end == len(data)}
        if kind != entry or offset != begin or not sized[entry] or end > len(data):
            raise Refused(2, entry)
        found.append(data[offset:end])
        begin = end
    return found


# "Settings (12 bytes)": each rule with the place where it is refused, in the order of the bytes
def check_settings(s):
    pca, decibels, itp, rpp, sets, betac, betad, channels = s[:8]
    rules = [
        (0, pca in (1, 2)),
        (1, decibels in (1, 2)),
        (1, decibels == 1 or pca == 1),
        (2, itp in (0, 1)),
        (3, rpp in (0, 1)),
        (4, 1 <= sets <= 6),
        (5, 1 <= betac <= 15),
        (6, betad <= 15),
        (6, 15 in (betac, betad)),
        (7, 1 <= channels <= 6),
        (8, -50 <= signed(s[8:9]) <= 33),
        (9, s[9] == 0),
        (10, -9600 <= signed(s[10:12]) <= 2112),
    ]
    for place, kept in rules:
        if not kept:
            raise Refused(3, place)


# the three bodies of a job that breaks no rule of the file
def load(data):
    settings, records, rows = bodies(data)
    check_settings(settings)
    told = check(records).split()
    if told[0] == "refused":
        raise Refused(int(told[1]), int(told[3]))
    if len(rows) > 60000:
        raise Refused(7, 30000)
    return settings, records, rows


# ---- rows

# "to the nearest unit, halves away from zero"
def nearest(x):
    whole = math.floor(abs(x))
    if abs(x) - whole >= 0.5:
        whole += 1
    return whole if x > 0 else -whole


# the first uplink gap slot of the run that the slot before is part of, or None: "a run is a longest stretch of neighbouring slots that are each
# a gap slot in some direction"
def first_uplink(directions, slot):
    begin = slot
    while begin > 0 and any(directions[begin - 1]):
        begin -= 1
    return next((k for k in range(begin, slot) if directions[k][0]), None)


class Job:
    def __init__(self, data):
        settings, records, rows = load(data)
        self.pca, decibels, self.itp, self.rpp, self.sets, betac, betad, channels = settings[:8]
        self.start = signed(settings[10:12])
        self.step = step(decibels)
        self.bracket, self.ceiling, self.above = gain(betac, betad, channels, signed(settings[8:9]))
        self.bytes = [(rows[k], rows[k + 1]) for k in range(0, len(rows), 2)]
        self.openers = openers(records, len(self.bytes))
        self.directions = gaps(records, len(self.bytes))
        self.kinds = kinds(self.directions)
        self.commands = commands(records, self.pca, self.rpp, self.sets, rows[::2])
        # the state of each row so far, the number and the pilots of each sent row, the start power with all changes so far, and by how much that has
        # stood above the ceiling at most in a sent row, 0 if never: what is withheld
        self.states, self.sent, self.pilots, self.sum, self.held = [], [], [], self.start, 0

    # "byte 0 .. bits from N up zero, and is 0 in a downlink gap. Byte 1 is .. 3 to 8, and 0 in an uplink gap."
    def broken(self, k):
        bits, pilots = self.bytes[k]
        up, down = self.directions[k]
        return bits >> (0 if down else self.sets) or (pilots != 0 if up else not 3 <= pilots <= 8)

    # "each sent row that is no downlink gap slot, and a run's first uplink gap slot if that is no downlink gap slot"
    def updates(self, k):
        up, down = self.directions[k]
        return k >= self.sent[0] and not down and (not up or first_uplink(self.directions, k + 1) == k)

    # the filter before a row: the updates since the last resume slot, after whose own "it returns to 0", or since the start; "0.9375 x filter,
    # rounded, minus (command x step x 31/32 x k), rounded", and "k is 0 if this row and the one before it are both limited"
    def filter(self, row):
        begin = row
        while begin > 0 and self.kinds[begin - 1] != "resume":
            begin -= 1
        value = 0.0
        for k in range(begin, row):
            if self.updates(k):
                limited = k > 0 and self.states[k] == self.states[k - 1] == 2
                value = 0.9375 * value - (0 if limited else self.commands[k] * self.step * 31 // 32)
        return value

    def resume_change(self, row):
        if self.itp == 1:
            return nearest(self.filter(row))
        gap = first_uplink(self.directions, row)
        return 0 if gap is None else self.step * self.commands[gap]

    # "A sent row takes the first that applies"
    def change(self, k, pilots):
        if not self.sent:
            return 0
        compensation = pilot_change(self.pilots[-1], pilots)
        if self.kinds[k] == "resume":
            return self.resume_change(k) + compensation
        if self.directions[k][1]:
            return 0
        if self.kinds[k] == "recovery" and self.rpp == 1:
            return self.commands[k] * recovery_step(self.pca, self.step) + compensation
        return self.commands[k] * self.step + compensation

    # the ids of each direction "as sums of 2^(id-1)"
    def sums(self, k):
        return tuple(sum(2 ** (ident - 1) for ident in ids) for ids in self.openers[k])

    # the eight numbers of a row, or the number of its refusal
    def row(self, k):
        if self.broken(k):
            return 8
        if self.directions[k][0]:
            self.states.append(0)
            return 0, self.commands[k], 0, 0, 0, self.held, *self.sums(k)
        pilots = self.bytes[k][1]
        total = self.sum + self.change(k, pilots)
        wanted = total - self.held
        if wanted < -9600:
            return 9
        self.states.append(2 if wanted > self.ceiling else 1)
        self.sent.append(k)
        self.pilots.append(pilots)
        self.sum, self.held = total, max(self.held, total - self.ceiling)
        power = total - self.held
        data = 0 if self.above is None else power + self.above
        return self.states[k], self.commands[k], power, data, power + self.bracket, self.held, *self.sums(k)

    # the answers of the accepted rows, and the refusal of the next, if one was refused
    def run(self):
        answers = []
        for k in range(len(self.bytes)):
            answer = self.row(k)
            if answer in (8, 9):
                return answers, (answer, k)
            answers.append(answer)
        return answers, None


# ---- the listing

# "the ids of either direction, each once, rising, joined by commas, or `-`"
def by(up, down):
    return ",".join(str(ident) for ident in sorted(up | down)) or "-"


def line(k, answer, sends, ids):
    state, command, dpcch, dpdch, total, held = answer[:6]
    shown = [k, state, command, dpcch if state else "-", dpdch if state and sends else "-", total if state else "-", held, by(*ids)]
    return " ".join(str(part) for part in shown)


def listing(data):
    try:
        job = Job(data)
    except Refused as refusal:
        return "refused %d at %d\n" % refusal.args
    answers, refusal = job.run()
    lines = [HEADER] + [line(k, answer, job.above is not None, job.openers[k]) for k, answer in enumerate(answers)]
    lines.append("refused %d at %d" % refusal if refusal else "rows %d held %d" % (len(answers), job.held))
    return "\n".join(lines) + "\n"


if __name__ == "__main__":
    sys.stdout.write(listing(sys.stdin.buffer.read()))
