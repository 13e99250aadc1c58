"""Writes the three Hoosfield books of 001, part 2.1, as this folder has them: 1,200 months, 1852 to
1951.

    python3 examples/hoosfield.py unmanured       > examples/hoosfield-unmanured.book
    python3 examples/hoosfield.py manured         > examples/hoosfield-manured.book
    python3 examples/hoosfield.py manured-to-1871 > examples/hoosfield-manured-to-1871.book
"""
import sys

SOIL = "234 23 1 153300 4485200 667100 25857600 2700000"  # 001's state on 31 December 1851
# 001 prints the rain and the open-pan evaporation; examples/README.md says where the temperatures
# come from.
TEMPERATURE = [34, 36, 51, 73, 110, 139, 160, 160, 135, 102, 61, 46]
RAIN = [740, 590, 620, 510, 520, 570, 340, 550, 580, 560, 750, 710]
EVAPORATION = [80, 100, 270, 490, 830, 990, 1030, 910, 690, 340, 160, 80]
FALLOW = (1912, 1933, 1943, 1967)
APRIL = 4
# tenths of a year's plant carbon in April, May, June and July
SHARES = [1, 2, 3, 4]


def plant_of(plot, year):
    """A year's plant carbon in grams."""
    if plot == "unmanured" or (plot == "manured-to-1871" and year > 1876):
        return 1_600_000
    return 2_800_000


def manure_of(plot, year, month):
    """A month's manure carbon in grams: 3 t in February, later in November, and both in 1931."""
    if plot == "manured-to-1871":
        spread = month == 2 and year <= 1871
    elif plot == "manured":
        spread = (month == 2 and year <= 1931 and year != 1912) or (month == 11 and year >= 1931)
    else:
        spread = False
    return 3_000_000 if spread else 0


def land_row(plot, year, month):
    growing = APRIL <= month < APRIL + 4 and year not in FALLOW
    plant = plant_of(plot, year) * SHARES[month - APRIL] // 10 if growing else 0
    return f"{1 if growing else 0} {plant} {manure_of(plot, year, month)}"


def book(plot):
    land = [land_row(plot, year, month) for year in range(1852, 1952) for month in range(1, 13)]
    weather = [f"{t} {r} {e}" for t, r, e in zip(TEMPERATURE, RAIN, EVAPORATION)]
    lines = ["SOIL 1", SOIL, f"WEATHER {len(weather)}", *weather, f"LAND {len(land)}", *land]
    return "".join(line + "\n" for line in lines)


if __name__ == "__main__":
    if len(sys.argv) != 2 or sys.argv[1] not in ("unmanured", "manured", "manured-to-1871"):
        sys.exit(__doc__)
    sys.stdout.write(book(sys.argv[1]))
