"""A spin-up: the pools of Hoosfield before 1852, from bare inert carbon with 001's plant carbon and
Rothamsted's weather.

    python3 examples/python/spinup.py        (after ./library)
"""
from rothc import FRESH, Signed, Unsigned, done, lent, load, new_state, total

SOIL = [234, 23, 1, 0, 0, 0, 0, 2_700_000]
TEMPERATURE = [34, 36, 51, 73, 110, 139, 160, 160, 135, 102, 61, 46]
RAIN = [740, 590, 620, 510, 520, 570, 340, 550, 580, 560, 750, 710]
EVAPORATION = [80, 100, 270, 490, 830, 990, 1030, 910, 690, 340, 160, 80]
# a row's fourth number is 0: the evaporation is an open pan's
WEATHER = [number for row in zip(TEMPERATURE, RAIN, EVAPORATION, [0] * 12) for number in row]
# 0.212 t a month from January to July and in December, under a crop; bare and nothing in the other
# months; no manure; the plant carbon is fresh
CROP, BARE = [1, 212_000, 0, FRESH], [0, 0, 0, FRESH]
LAND = CROP * 7 + BARE * 4 + CROP


def main():
    rothc = load()
    state, result = new_state(rothc, SOIL), lent(Unsigned, [0] * 2)
    weather, land = lent(Signed, WEATHER), lent(Signed, LAND)
    done("rothc_spin_up", rothc.rothc_spin_up(*state, *weather, *land, 10_000, *result))
    print("settled" if result[0][0] else "unsettled", "after", result[0][1], "years")
    print("DPM RPM BIO HUM IOM", *state[0][3:8])
    print("total", total(state))


if __name__ == "__main__":
    main()
