"""Runs a book's soil and land with the weather of a table in place of the book's own.

    python3 examples/python/table.py BOOK TABLE        (after ./library)

Mill Piece had an open pan of its own until a frost split it. Its book goes on with the pan's mean
year, but two years later the regional weather office sent what the months were really like, as
potential evapotranspiration. Line j of the table is the weather of the book's month j; where the
book has more months, the table begins again.

It writes what the program writes for a book, or one REFUSED line that says which line of which file
is at fault (exit status 1). What can't be tried at all is said on standard error (status 2).
docs/TABLES.md says how a table is written, docs/BOOK.md how a book is.
"""
import sys

from rothc import CO2, FRESH, LAND, ROW
from rothc import load, new_state, read_table, run_book, run_list, stop, total

BOOK_FAULTS = {
    1: "it has more than 65,536 bytes",
    2: "not the line that was due, not in a book's form, or without a line end",
    3: "the count after SOIL is 1, the others are 1 to 1200",
    4: "clay is in tenths of a percent, 0 to 1000",
    5: "depth is in cm, 1 to 100",
    6: "the plant kind is 1, 2 or 3",
    7: "the active pools together, and IOM, are at most 1000000000 grams a hectare",
    13: "temperatures are in tenths of a degree, -400 to 500",
    14: "rain and open pan are in tenths of a millimetre, 0 to 20000",
    15: "cover is 1 for a crop or 0",
    16: "plant and manure are in grams of carbon a hectare, 0 to 100000000",
    17: "the active pools and this month's carbon pass 1000000000 grams a hectare by {} weather",
}
TABLE_FAULTS = {
    3: "a table has 1 to 1,200 lines",
    13: "temperatures are in degrees Celsius, -40.0 to 50.0",
    14: "rain and evapotranspiration are in millimetres, 0.0 to 2000.0",
    18: "not month;temperature;rain;evapotranspiration with a dot and one digit in the last three, "
    "not the month that was due, or without a line end",
}


def read(name):
    try:
        with open(name, "rb") as file:
            return file.read()
    except OSError as error:
        stop(f"{name} can't be read: {error.strerror}")


def refuse(number, line, name, text, faults, document):
    where = name
    if line:
        # the line as it is in the file, bytes that don't show as \r or \xef
        shown = repr(text.split(b"\n")[line - 1][:80])[2:-1]
        where = f"line {line} of {name}, '{shown}'"
    print(f"REFUSED {number} {line}: {where}: {faults[number]} ({document})")
    sys.exit(1)


def numbers(lines):
    return [int(number) for line in lines for number in line.split()]


def main():
    if len(sys.argv) != 3:
        stop("usage: python3 examples/python/table.py BOOK TABLE")
    rothc, book, table = load(), read(sys.argv[1]), read(sys.argv[2])

    def refuse_book(number, line, weather):
        faults = {fault: said.format(weather) for fault, said in BOOK_FAULTS.items()}
        refuse(number, line, sys.argv[1], book, faults, "docs/BOOK.md")

    number, answer = run_book(rothc, book)
    if number:
        refuse_book(number, int(answer.split()[2]), "its own")
    number, line, weather = read_table(rothc, table)
    if number:
        refuse(number, line, sys.argv[2], table, TABLE_FAULTS, "docs/TABLES.md")

    # SOIL 1, the soil, WEATHER n, n weather lines, LAND, and land lines to the end
    lines = book.split(b"\n")
    land_line = int(lines[2].split()[1]) + 4
    # (a list's land row has a fourth number, the activity: of a book's carbon it is fresh carbon's)
    soil, land = numbers(lines[1:2]), numbers(line + b" %d" % FRESH for line in lines[land_line:-1])
    months = len(land) // LAND

    state = new_state(rothc, soil)
    number, month, rows = run_list(rothc, state, weather, land)
    if number:  # 17: less decays by the table's weather than by the book's
        refuse_book(number, land_line + month, "the table's")
    print("POOLS", months)
    for month in range(months):
        print(month + 1, *rows[ROW * month : ROW * (month + 1)])
    print("TOTAL", total(state), state[0][CO2])


if __name__ == "__main__":
    main()
