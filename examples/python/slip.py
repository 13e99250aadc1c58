"""A manure slip that comes late: Mill Piece through one calendar year.

    python3 examples/python/slip.py        (after ./library)

January to March are booked when February's slip comes in. March and February are taken back and
booked afresh, February with the slip's manure. The sheet is then that of a year in which the slip
came in time. Below it stands what version three of the estate's program did: it ran the slip as a
month of its own. docs/SLIPS.md says what to do with a late slip.
"""
from rothc import CO2, FRESH, MONTHS, ROW, Signed, Unsigned
from rothc import done, kept, lent, load, new_state, run_book, take_back, total

NAMES = ["January", "February", "March", "April", "May", "June", "July", "August", "September"]
NAMES += ["October", "November", "December"]
JANUARY, FEBRUARY, MARCH, APRIL, NOVEMBER, DECEMBER = 0, 1, 2, 3, 10, 11

# the first year of examples/tables/mill-piece.book; a weather row's fourth number: open pan
SOIL = [180, 23, 1, 160_000, 4_900_000, 700_000, 24_000_000, 2_600_000]
WEATHER = [
    [34, 740, 80, 0], [36, 590, 100, 0], [51, 620, 272, 0], [73, 510, 492, 0],
    [110, 520, 832, 0], [139, 570, 992, 0], [160, 340, 1032, 0], [160, 550, 912, 0],
    [135, 580, 692, 0], [102, 560, 340, 0], [61, 750, 160, 0], [46, 710, 80, 0],
]
# cover, plant and manure, as in a book, as they were entered: without the slip
LAND = [[0, 0, 0]] * 3 + [[1, 160_000, 0], [1, 320_000, 0], [1, 480_000, 0], [1, 640_000, 0]]
LAND += [[0, 0, 0]] * 5
SLIP = 1_500_000

REFUSED = {
    11: "the month's number isn't months done plus 1",
    20: "no kept month is left to take back",
}


def land_row(name, manure):
    """A month's land row with what a slip adds to its manure."""
    cover, plant, entered = LAND[name]
    return [cover, plant, entered + manure]


def month_call(rothc, state, number, name, manure):
    """A month by its number, with the entries of its name: the refusal, or 0, and the row."""
    entries = lent(Signed, WEATHER[name] + land_row(name, manure) + [FRESH])
    row = lent(Unsigned, [0] * ROW)
    return rothc.rothc_month(*state, number, *entries, *row), list(row[0])


def book(rothc, state, sheet, names, manure=0):
    """Books the next months and puts their rows on the sheet."""
    for name in names:
        number, row = month_call(rothc, state, state[0][MONTHS] + 1, name, manure)
        done("rothc_month", number)
        sheet.append(row)


def strike(rothc, state, sheet):
    """Takes the latest month back and strikes out its row: the refusal, or 0."""
    number = take_back(rothc, state)
    if not number:
        sheet.pop()
    return number


def text(lines):
    return "".join(" ".join(map(str, line)) + "\n" for line in lines)


def written(sheet, state):
    """The sheet as the program writes it."""
    rows = [[number, *row] for number, row in enumerate(sheet, 1)]
    return text([["POOLS", len(rows)], *rows, ["TOTAL", total(state), state[0][CO2]]])


def book_in_time():
    """The book of the year in which the slip came in time."""
    weather = [row[:3] for row in WEATHER]
    land = [land_row(name, SLIP if name == FEBRUARY else 0) for name in range(12)]
    return text([["SOIL", 1], SOIL, ["WEATHER", 12], *weather, ["LAND", 12], *land]).encode()


def where(state):
    months = state[0][MONTHS]
    return f"{months} month{'s' if months != 1 else ''} done, {kept(state)} kept"


def beside(lines, line, what, sheet, name):
    """A line of version three's sheet beside a month of the right one, by the five pools."""
    its, right = sum(lines[line - 1][:5]), sum(sheet[name][:5])
    apart = f"{abs(its - right)} g {'more' if its > right else 'less'}"
    print(f"line {line}, {what}: {its}; {NAMES[name]} of the right sheet: {right}; {apart}")


def main():
    rothc = load()
    field, sheet = new_state(rothc, SOIL), []
    print("Mill Piece, January to December; carbon in grams a hectare.")
    book(rothc, field, sheet, [JANUARY, FEBRUARY, MARCH])
    print(f"January to March are booked: {where(field)}.")
    print(f"February's slip comes in: {SLIP} g of manure carbon.")
    number, _ = month_call(rothc, field, 2, FEBRUARY, SLIP)
    print(f"Booked as month 2 now: refused, {number}: {REFUSED[number]}.")
    for name in (MARCH, FEBRUARY):
        done("rothc_take_back", strike(rothc, field, sheet))
        print(f"{NAMES[name]} taken back: {where(field)}.")
    book(rothc, field, sheet, [FEBRUARY], SLIP)
    book(rothc, field, sheet, range(MARCH, DECEMBER + 1))
    print(f"February booked with the slip, then March to December: {where(field)}.\n")

    print("month DPM RPM BIO HUM IOM CO2 deficit")
    print(written(sheet, field))
    same = run_book(rothc, book_in_time()) == (0, written(sheet, field))
    print("The sheet of a year in which the slip came in time is", end=" ")
    print("the same, byte for byte.\n" if same else "another.\n")

    # a thirteenth month: February's weather and land once more, with the slip
    other, lines = new_state(rothc, SOIL), []
    book(rothc, other, lines, [JANUARY, FEBRUARY, MARCH])
    book(rothc, other, lines, [FEBRUARY], SLIP)
    book(rothc, other, lines, range(APRIL, DECEMBER + 1))
    print("Version three ran the slip after March, as a month of its own:", end=" ")
    print(f"{other[0][MONTHS]} months done. Its five pools:")
    beside(lines, 4, "the slip", sheet, MARCH)
    beside(lines, 12, NAMES[NOVEMBER], sheet, DECEMBER)
    beside(lines, 13, NAMES[DECEMBER], sheet, DECEMBER)
    its, right = (total(state) + state[0][CO2] for state in (other, field))
    print(f"Pools and CO2 come to {its}, in the right year to {right}: no sum shows the month.\n")

    months, number = 0, strike(rothc, field, sheet)
    while not number:
        months, number = months + 1, strike(rothc, field, sheet)
    print(f"The right year taken back: {months} months, then refused, {number}: {REFUSED[number]}.")


main()
