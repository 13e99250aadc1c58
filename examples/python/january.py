"""January 1852 at Hoosfield, by the month call, by a list of one month and by a book.

    python3 examples/python/january.py       (after ./library)
"""
import ctypes

from rothc import CO2, FRESH, Signed, Unsigned, done, lent, load, new_state, run_book, total

BOOK = b"SOIL 1\n234 23 1 153300 4485200 667100 25857600 2700000\nWEATHER 1\n34 740 80\nLAND 1\n0 0 0\n"
WEATHER = [34, 740, 80, 0]  # the fourth number: the evaporation is an open pan's
LAND = [0, 0, 0, FRESH]  # the fourth number: the activity of additions, of which there are none


def show(month, row, state):
    """The program's two lines: the month with its row, and the five pools with the CO2 to date."""
    print(month, *row)
    print("TOTAL", total(state), state[0][CO2])


def main():
    rothc = load()
    start = new_state(rothc, [234, 23, 1, 153300, 4485200, 667100, 25857600, 2700000])

    state, row = lent(Unsigned, start[0]), lent(Unsigned, [0] * 7)
    done("rothc_month", rothc.rothc_month(*state, 1, *lent(Signed, WEATHER + LAND), *row))
    show(1, row[0], state)

    state, row, place = lent(Unsigned, start[0]), lent(Unsigned, [0] * 7), Unsigned(0)
    weather, land = lent(Signed, WEATHER), lent(Signed, LAND)
    done("rothc_list", rothc.rothc_list(*state, *weather, *land, *row, ctypes.byref(place)))
    show(1, row[0], state)

    number, text = run_book(rothc, BOOK)
    done("rothc_book", number)
    print(text, end="")


main()
