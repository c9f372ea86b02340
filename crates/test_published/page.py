# The page's rules, written from the page, and from docs/DECISIONS.md where an input is outside its range: slots by laying patterns out one
# after the other, runs by grouping slots, commands by looking back over whole sets, levels in exact whole numbers.
import math
from functools import cache
from itertools import groupby


@cache
def level(x):
    if not 1 <= x <= 1575:
        return 0
    r = round(640 * math.log10(x))
    assert 10 ** (2 * r) <= 10 * x**1280 and x**1280 < 10 ** (2 * r + 1)
    return r


# ---- gap records

def pair(record, at):
    return record[at] + 256 * record[at + 1]


def records_of(part):
    return [part[i : i + 12] for i in range(0, len(part) - 11, 12)]


# the byte at which a record breaks its first rule, or None
def fault(record):
    ident, direction, tgsn, tgl1, tgl2, tgpl = record[:6]
    tgprc, tgd = pair(record, 6), pair(record, 8)
    rules = [
        (0, 1 <= ident <= 6),
        (1, direction in (1, 2, 3)),
        (2, tgsn <= 14),
        (3, 1 <= tgl1 <= 14),
        (4, tgl2 <= 14),
        (5, 1 <= tgpl <= 144),
        (6, tgprc <= 511),
        (8, 15 <= tgd <= 269 if tgl2 else tgd == 0),
        (5, tgsn + tgl1 <= 15 * tgpl),
        (5, not tgl2 or tgsn + tgd + tgl2 <= 15 * tgpl),
    ]
    return next((byte for byte, kept in rules if not kept), None)


def check(part):
    records = records_of(part)
    if len(records) > 6:
        return "refused 4 at %d" % len(records)
    for k, record in enumerate(records):
        byte = fault(record)
        if byte is not None:
            return "refused 5 at %d" % (12 * k + byte)
        if record[0] in [other[0] for other in records[:k]]:
            return "refused 6 at %d" % k
    return "taken %d" % len(records)


# the gap slots of one record below a number of slots: each pattern laid out in turn
def laid_out(record, slots):
    tgsn, tgl1, tgl2, tgpl = record[2:6]
    tgprc, tgd, start = pair(record, 6), pair(record, 8), pair(record, 10)
    size = 15 * tgpl
    found = set()
    pattern = 0
    while size and 15 * start + pattern * size < slots and (tgprc == 0 or pattern < tgprc):
        places = list(range(tgsn, tgsn + tgl1)) + list(range(tgsn + tgd, tgsn + tgd + tgl2))
        found |= {15 * start + pattern * size + q for q in places if q < size}
        pattern += 1
    return found


# for each slot the ids of the records that make it an uplink gap slot, and of those that make it a downlink gap slot; a record whose id is none of
# 1 to 6 opens no gap, as one of another direction than 1, 2 and 3
def openers(part, slots):
    found = [(set(), set()) for _ in range(slots)]
    for record in records_of(part):
        ident, direction = record[:2]
        for up, down in [found[k] for k in laid_out(record, slots) if k < slots and 1 <= ident <= 6]:
            if direction in (1, 3):
                up.add(ident)
            if direction in (2, 3):
                down.add(ident)
    return found


# for each slot whether it is an uplink gap slot, and whether it is a downlink gap slot
def gaps(part, slots):
    return [(bool(up), bool(down)) for up, down in openers(part, slots)]


# for each slot: gap, resume, recovery or plain
def kinds(directions):
    found = []
    rpl = None
    for is_gap, group in groupby(up or down for up, down in directions):
        length = len(list(group))
        if is_gap:
            found += ["gap"] * length
            rpl = min(length, 7)
        elif rpl is None:
            found += ["plain"] * length
        else:
            recovery = min(rpl, length - 1)
            found += ["resume"] + ["recovery"] * recovery + ["plain"] * (length - 1 - recovery)
    return found


def marks(part, slots):
    directions = gaps(part, slots)
    shown = {"resume": "R", "recovery": "r", "plain": "."}
    which = {(True, False): "u", (False, True): "d", (True, True): "b"}
    return "".join(shown.get(kind) or which[d] for kind, d in zip(kinds(directions), directions))


# ---- commands

def decisions(byte, sets):
    return [byte >> i & 1 for i in range(sets)]


def algorithm1(byte, sets):
    return 1 if all(decisions(byte, sets)) else -1


def combined(temporaries, sets):
    if -1 in temporaries:
        return -1
    return 1 if sum(temporaries) > sets / 2 else 0


def algorithm2(five, sets):
    columns = list(zip(*(decisions(byte, sets) for byte in five)))
    return combined([1 if all(c) else -1 if not any(c) else 0 for c in columns], sets)


# the command of each slot, from the part of records and each slot's command byte
def commands(part, pca, rpp, sets, rows):
    directions = gaps(part, len(rows))
    quick = [rpp == 1 and kind == "recovery" for kind in kinds(directions)]
    down = [d for _, d in directions]
    found = []
    for k, byte in enumerate(rows):
        if down[k]:
            found.append(0)
        elif quick[k] or pca != 2:
            found.append(algorithm1(byte, sets))
        elif k % 15 not in (4, 9, 14) or any(down[k - 4 : k + 1]) or any(quick[k - 4 : k + 1]):
            found.append(0)
        else:
            found.append(algorithm2(rows[k - 4 : k + 1], sets))
    return found


# ---- steps, pilots and gain

def step(decibels):
    return 128 if decibels == 2 else 64


def recovery_step(pca, units):
    return 64 if pca == 2 else min(192, 2 * units)


def pilot_change(before, now):
    return level(before) - level(now)


def gain(betac, betad, n, maximum):
    bracket = level(betac**2 + n * betad**2) - level(betac**2)
    above = level(n * betad**2) - level(betac**2) if betad else None
    return bracket, 64 * maximum - bracket, above
