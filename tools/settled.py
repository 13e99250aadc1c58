"""How far from its end a settled field can be (docs/MODEL.md): for a year whose months are alike,
with f for a x b x c, the largest distance that HUM, and the total, can have after a year in which
each active pool, and their total, moved by at most 1,000 g. In floating point, nothing rounded.

    python3 tools/settled.py

Where additions are the same every year, what is left to go is multiplied each year by one and the
same matrix. So the pools' changes in a year tell how far they are from their end, and the furthest
is where as many changes as can be are at their limit.
"""
import itertools
import math

K = [10, 0.3, 0.66, 0.02]
POOLS, HUM = range(4), 3
LIMIT = 1.0  # kilograms


def formed_of(clay):
    return 1 / (1 + 1.67 * (1.85 + 1.60 * math.exp(-0.0786 * clay)))


def times(a, b):
    return [[sum(a[i][k] * b[k][j] for k in POOLS) for j in POOLS] for i in POOLS]


def year(f, clay):
    """What twelve months make of each pool."""
    month = [[0.0] * 4 for _ in POOLS]
    for pool in POOLS:
        kept = math.exp(-f * K[pool] / 12)
        formed = (1 - kept) * formed_of(clay)
        month[pool][pool] += kept
        month[2][pool] += 0.46 * formed
        month[HUM][pool] += 0.54 * formed
    whole = [[float(i == j) for j in POOLS] for i in POOLS]
    for _ in range(12):
        whole = times(month, whole)
    return whole


def solved(matrix, right):
    rows = [row + [value] for row, value in zip(matrix, right)]
    for i in POOLS:
        best = max(range(i, 4), key=lambda k: abs(rows[k][i]))
        rows[i], rows[best] = rows[best], rows[i]
        for k in POOLS:
            if k != i:
                factor = rows[k][i] / rows[i][i]
                rows[k] = [x - factor * y for x, y in zip(rows[k], rows[i])]
    return [rows[i][4] / rows[i][i] for i in POOLS]


def corners():
    """Changes of which as many as can be are at their limit: all four, or three and the total."""
    for four in itertools.product((-LIMIT, LIMIT), repeat=4):
        if abs(sum(four)) <= LIMIT:
            yield list(four)
    for pool in POOLS:
        for three in itertools.product((-LIMIT, LIMIT), repeat=3):
            for total in (-LIMIT, LIMIT):
                last = total - sum(three)
                if abs(last) <= LIMIT:
                    yield [*three[:pool], last, *three[pool:]]


def furthest(f, clay):
    """HUM's and the total's largest distance from the end, at the end of such a year."""
    whole = year(f, clay)
    change = [[whole[i][j] - (i == j) for j in POOLS] for i in POOLS]
    hum = total = 0
    for corner in corners():
        at_start = solved(change, corner)
        at_end = [sum(whole[i][j] * at_start[j] for j in POOLS) for i in POOLS]
        hum, total = max(hum, abs(at_end[HUM])), max(total, abs(sum(at_end)))
    return hum, total


def main():
    print("     f clay %  HUM kg  total kg")
    for f in (2, 1, 0.5, 0.2, 0.05):
        for clay in (0, 4, 23.4, 100):
            hum, total = furthest(f, clay)
            print(f"{f:6} {clay:6} {hum:7.1f} {total:9.1f}")


if __name__ == "__main__":
    main()
