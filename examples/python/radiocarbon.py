"""A core that is dated: Hoosfield beside 001's radiocarbon table, and a grassland tenant's core.

    python3 examples/python/radiocarbon.py        (after ./library)

Delta says how far the radiocarbon in a pool is above or below that of as much fresh carbon, in per
mille. The age is how many years fresh carbon has to lie until it has no more than the pool. Bomb
tests nearly doubled the radiocarbon of the air by 1964: a pool that has more than fresh carbon has
no age, it is newer.

Hoosfield runs for 10,000 years as in 001's section 2.2. If a delta is more than 0.1 per mille from
001's, the exit status is 1. Far Leaze is made up, and so is the laboratory's figure; the air's
activities are round numbers. docs/RADIOCARBON.md says what activities and reports are.
"""
import sys

from rothc import ALL, CO2, DATED, DPM, FRESH, MONTHS, NEWER, OLDER, ROW, Signed, Unsigned
from rothc import done, lent, load, new_state, radiocarbon, run_list
from spinup import LAND, SOIL, WEATHER

NAMES = ["DPM", "RPM", "BIO", "HUM", "IOM", "all five"]
WORDS = {OLDER: "older", NEWER: "newer"}
# 001's delta, in hundredths of a per mille, and age, in years
TABLE_001 = [(-1, "0.10"), (-83, "6.70"), (-269, "21.69"), (-1444, "116.88")]
TABLE_001 += [(-99802, "50000.00"), (-9075, "764.37")]
NEAR = 10  # as near as this, in hundredths, each delta has to be

GRASSLAND = [180, 23, 2, 0, 0, 0, 0, 5_000_000]  # without active carbon
AIR = [1000, 1050, 1100, 1150, 1250, 1200, 1200, 1350, 1700, 1800]  # 1955 to 1964
LABORATORY = -2940  # the whole core, December 1964

REFUSED = {
    21: "the additions' activity is outside 0 to 2,000",
    22: "a report on a pool without carbon",
}


def report(rothc, state, pool):
    """Delta in hundredths, and the age in years or the word in its place."""
    number, delta, dated, age = radiocarbon(rothc, state, pool)
    done("rothc_radiocarbon", number)
    return delta, age if dated == DATED else WORDS[dated]


def per_mille(hundredths):
    return f"{hundredths / 100:.2f}"


def run(rothc, state, land, lists=1):
    for _ in range(lists):
        done("rothc_list", run_list(rothc, state, WEATHER, land)[0])


def hoosfield(rothc):
    """Prints 001's table beside ours. Gives the names of the pools that are too far from it."""
    field, ages, far = new_state(rothc, SOIL), [], []
    run(rothc, field, LAND * 100, lists=100)
    print("Hoosfield after 10,000 years: delta in per mille, age in years, and 001's of each.")
    print(f"{'pool':8}{'delta':>9}{'001':>9}{'apart':>7}{'age':>7}{'001':>10}")
    for pool, (delta_001, age_001) in enumerate(TABLE_001):
        delta, age = report(rothc, field, pool)
        shown = map(per_mille, (delta, delta_001, delta - delta_001))
        print("{:8}{:>9}{:>9}{:>7}{:>7}{:>10}".format(NAMES[pool], *shown, age, age_001))
        ages.append(age)
        if abs(delta - delta_001) > NEAR:
            far.append(NAMES[pool])
    carbon = field[0][3:8]
    weighed = sum(grams * age for grams, age in zip(carbon, ages)) // sum(carbon)
    print(f"Activity is weighed, never ages: the five ages weighed would make {weighed} years.\n")
    return far


def grass(activity):
    """Twelve land rows: grass all the year, 0.2 t of plant carbon a month, no manure."""
    return [1, 200_000, 0, activity] * 12


def far_leaze(rothc):
    field = new_state(rothc, GRASSLAND)
    run(rothc, field, grass(FRESH) * 100, lists=40)
    print("Far Leaze, unimproved grassland: 4,000 years of fresh carbon, 1955 to 1964, a core.")
    print(f"The laboratory's delta of the whole soil: {per_mille(LABORATORY)}.")

    def compare(entered, state, activities):
        run(rothc, state, [number for activity in activities for number in grass(activity)])
        delta, age = report(rothc, state, ALL)
        print(f"{entered}: {per_mille(delta)}, {age} years;", end=" ")
        print(f"{per_mille(delta - LABORATORY)} from the laboratory's.")

    other = lent(Unsigned, field[0])
    compare("The ten years entered as fresh carbon, 1000", other, [FRESH] * len(AIR))
    compare("Entered with the air's activity, 1000 to 1800", field, AIR)
    same = field[0][: CO2 + 1] == other[0][: CO2 + 1]
    print("The carbon of both is", "the same, gram for gram.\n" if same else "not the same.\n")

    print(f"{'pool':8}{'delta':>9}{'age':>7}")
    for pool, name in enumerate(NAMES):
        delta, age = report(rothc, field, pool)
        print(f"{name:8}{per_mille(delta):>9}{age:>7}")

    before, row = list(field[0]), lent(Unsigned, [0] * ROW)
    january = lent(Signed, WEATHER[:4] + [1, 200_000, 0, 2500])
    number = rothc.rothc_month(*field, before[MONTHS] + 1, *january, *row)
    print(f"\nJanuary 1965 with activity 2500: refused, {number}: {REFUSED[number]}.")
    print("The field is", "as it was." if list(field[0]) == before else "another.")


def quarry_piece(rothc):
    field = new_state(rothc, GRASSLAND)
    number = radiocarbon(rothc, field, DPM)[0]
    delta, age = report(rothc, field, ALL)
    print("Quarry Piece, stripped of its turf, has inert carbon alone.")
    print(f"Its DPM: refused, {number}: {REFUSED[number]}.")
    print(f"All five together: {per_mille(delta)}, {age} years.")


def main():
    rothc = load()
    far = hoosfield(rothc)
    far_leaze(rothc)
    quarry_piece(rothc)
    if far:
        sys.exit("more than 0.1 per mille from 001: " + ", ".join(far))


main()
