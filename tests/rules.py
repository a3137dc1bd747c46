"""The rules of document 01, in exact integers and fractions."""
import bisect
import fractions
import math
import struct

from sources import read

JND = [row for row in map(str.split, read('data', 'table-b1.tsv').splitlines()) if row[:1] and row[0].isdigit()]
# T(1) to T(1023) in units of 0.0001 cd/m²
T = [int(round(float(row[1]) * 10000)) for row in JND]
G = [T[k // 100 - 1] + ((T[k // 100] - T[k // 100 - 1]) * (k % 100) // 100 if k % 100 else 0) for k in range(100, 102301)]


def index(luminance):
    return 100 + bisect.bisect_right(G, luminance) - 1


def written(settings, lamps, sweep, check):
    words = lambda values: struct.pack('<%dH' % len(values), *values)
    text = words([len(settings), *settings]) + words([len(lamps), *lamps]) + words([len(sweep)])
    text += b''.join(struct.pack('<HI', d, l) for d, l in sweep)
    return text + words([len(check)]) + struct.pack('<%dI' % len(check), *check)


def sections(record):
    """The items of the four sections, or 2, 3 or 4."""
    found, at = [], 0
    for permitted, form in ((5,), 'H'), (range(9), 'H'), (range(2, 1025), 'HI'), ((0, 18), 'I'):
        if len(record) < at + 2:
            return 2
        count, = struct.unpack_from('<H', record, at)
        if count not in permitted:
            return 3
        items, at = at + 2, at + 2 + count * struct.calcsize('<' + form)
        if len(record) < at:
            return 2
        found.append([item if len(form) == 2 else item[0] for item in struct.iter_unpack('<' + form, record[items:at])])
    return found if at == len(record) else 4


def read_record(record):
    """Settings, lamps, sweep and check readings, or the refusal under 2 to 7."""
    found = sections(record)
    if isinstance(found, int):
        return found
    settings, lamps, sweep, _ = found
    ranges = range(8, 11), range(2), range(1, 3), range(1001), range(1001)
    if any(setting not in permitted for setting, permitted in zip(settings, ranges)) or any(lux > 2000 for lux in lamps):
        return 5
    levels, luminances = zip(*sweep)
    if levels[0] != 0 or levels[-1] != 2 ** settings[0] - 1 or any(d2 <= d1 for d1, d2 in zip(levels, levels[1:])):
        return 6
    return 7 if any(l2 < l1 for l1, l2 in zip(luminances, luminances[1:])) else found


def soundness(settings, lamps, sweep):
    """A of a job that passed tests 2 to 7, and its refusal under 8, 9 or 10, 0 for none."""
    added = 0 if settings[1] else sum(lamps) * settings[3]
    first, last = added + sweep[0][1], added + sweep[-1][1]
    if first < T[0]:
        return added, 8
    if last > T[-1]:
        return added, 9
    return added, 0 if index(last) - index(first) >= 10000 else 10


def characteristic_curve(settings, added, sweep):
    curve = []
    for d in range(2 ** settings[0]):
        (d1, l1), (d2, l2) = next(pair for pair in zip(sweep, sweep[1:]) if pair[0][0] <= d <= pair[1][0])
        curve.append(added + l1 + (l2 - l1) * (d - d1) // (d2 - d1))
    return curve


def targets_of(jlo, n):
    return [G[jlo + n * p // 255 - 100] for p in range(256)]


def nearest(settings, lamps, sweep):
    """The figures and the entries of a job that passed tests 2 to 7, or its refusal."""
    added, refusal = soundness(settings, lamps, sweep)
    if refusal:
        return refusal
    curve = characteristic_curve(settings, added, sweep)
    jlo, jhi = index(curve[0]), index(curve[-1])
    targets = targets_of(jlo, jhi - jlo)
    table = [min(range(len(curve)), key=lambda d: (abs(curve[d] - t), d)) for t in targets]
    error = max(abs(curve[d] - t) for d, t in zip(table, targets))
    room_high = int(4 * sum(lamps) * settings[3] > sweep[0][1])
    return dict(jlo=jlo, jhi=jhi, range=jhi - jlo, room_high=room_high, error=error), table


def even(settings, lamps, sweep):
    """The worst step and the entries of a job that passed tests 2 to 7, or its refusal. The least worst step up to each level is followed from the first
    P-value to the last, then the levels from which a table with the least of them goes on from the last to the first."""
    added, refusal = soundness(settings, lamps, sweep)
    if refusal:
        return refusal
    curve = characteristic_curve(settings, added, sweep)
    t = targets_of(index(curve[0]), index(curve[-1]) - index(curve[0]))
    allowed = [[d for d, l in enumerate(curve) if abs(l - target) * 1000 <= settings[4] * target] for target in t]
    if not all(allowed):
        return 11

    def deviation(p, d, e):
        g = t[p + 1] - t[p]
        return -(-1000 * abs(curve[e] - curve[d] - g) // g)

    worst = dict.fromkeys(allowed[0], 0)
    for p in range(255):
        steps = ((e, [max(worst[d], deviation(p, d, e)) for d in worst if d <= e]) for e in allowed[p + 1])
        worst = {e: min(step) for e, step in steps if step}
    least = min(worst.values())
    good = [set(allowed[255])]
    for p in reversed(range(255)):
        good.insert(0, {d for d in allowed[p] if any(d <= e and deviation(p, d, e) <= least for e in good[0])})
    table = [min(good[0])]
    for p in range(255):
        table.append(min(e for e in good[p + 1] if table[p] <= e and deviation(p, table[p], e) <= least))
    return least, table


def expected(jlo, n):
    """The luminances of 18 patches from an index on, over a range."""
    return [G[jlo + n * i // 17 - 100] for i in range(18)]


def contrast(patch, following):
    return fractions.Fraction(following - patch, following + patch)


def check(settings, lamps, sweep, readings):
    """The verdict and the deviations of a job that passed tests 2 to 7, or its refusal. Each contrast is compared with the one expected as a fraction of it."""
    added, refusal = soundness(settings, lamps, sweep)
    if refusal:
        return refusal
    if not readings:
        return 0, []
    v = [reading + added for reading in readings]
    if min(v) < T[0] or max(v) > T[-1]:
        return 12
    n = index(v[17]) - index(v[0])
    if n < 10000:
        return 13
    e = expected(index(v[0]), n)
    off = [contrast(v[i], v[i + 1]) / contrast(e[i], e[i + 1]) - 1 for i in range(17)]
    limit = fractions.Fraction(1, {1: 10, 2: 5}[settings[2]])
    return 1 if max(map(abs, off)) <= limit else 2, [math.floor(1000 * x) for x in off]
