"""The library for ctypes: include/rothc.h says what each function does and what each number is."""
import ctypes
import pathlib
import sys

Unsigned, Signed, Byte, Size = ctypes.c_uint64, ctypes.c_int64, ctypes.c_uint8, ctypes.c_size_t
LIBRARY = pathlib.Path(__file__).resolve().parents[2] / "target" / "library" / "librothc.so"
TEXT = 204800  # always enough bytes for what is written for a book
WEATHER, LAND, ROW = 4, 4, 7  # the numbers of a weather row, a land row and a month's row
STATE = 376  # the numbers of a state, kept months too
MONTHS, CO2, KEPT = 9, 10, 15  # in a state: the months done, the CO2 to date, the kept count
MOST_ROWS = 1200  # the most rows of a list, and the most lines of a table
FRESH = 1000  # the activity of fresh carbon, in thousandths
DPM, RPM, BIO, HUM, IOM, ALL = range(6)  # what a radiocarbon report is of
DATED, OLDER, NEWER = range(3)  # whether a report has an age


def load():
    if not LIBRARY.exists():
        stop(f"{LIBRARY} is missing: ./library builds it")
    library = ctypes.CDLL(str(LIBRARY))
    numbers, signed, octets = ([ctypes.POINTER(kind), Size] for kind in (Unsigned, Signed, Byte))
    number = [ctypes.POINTER(Unsigned)]
    for name, arguments in {
        "rothc_survival": [Unsigned, Unsigned],
        "rothc_survival_terms": [Unsigned, Unsigned] + number,
        "rothc_start": numbers + numbers,
        "rothc_month": numbers + [Unsigned] + signed + numbers,
        "rothc_take_back": numbers,
        "rothc_list": numbers + signed + signed + numbers + number,
        "rothc_spin_up": numbers + signed + signed + [Unsigned] + numbers,
        "rothc_radiocarbon": numbers + [Unsigned] + signed,
        "rothc_age_survival": [Unsigned],
        "rothc_book": octets + octets + number,
        "rothc_table": octets + signed + number + number,
    }.items():
        getattr(library, name).argtypes = arguments
        getattr(library, name).restype = Unsigned
    return library


def lent(kind, numbers):
    """Numbers as memory to lend: the array, for its pointer, and its length."""
    return (kind * len(numbers))(*numbers), len(numbers)


def done(call, number):
    if number:
        sys.exit(f"{call}: refused, {number}")


def stop(message):
    """Ends the program, with status 2: what was asked couldn't be tried at all."""
    print(message, file=sys.stderr)
    sys.exit(2)


def new_state(library, soil):
    """The new state of a soil's eight numbers, as memory to lend. Nothing is kept in it."""
    state = lent(Unsigned, [0] * STATE)
    done("rothc_start", library.rothc_start(*lent(Unsigned, soil), *state))
    return state


def total(state):
    """The five pools together."""
    return sum(state[0][3:8])


def kept(state):
    """How many months can be taken back."""
    return state[0][KEPT]


def take_back(library, state):
    """Takes the latest month back. Gives the refusal, 20 where none is left, or 0."""
    return library.rothc_take_back(*state)


def run_list(library, state, weather, land):
    """Runs a list of months: its refusal, or 0, the refusal's month, and the rows' numbers."""
    rows, month = lent(Unsigned, [0] * (ROW * (len(land) // LAND))), Unsigned(0)
    number = library.rothc_list(
        *state, *lent(Signed, weather), *lent(Signed, land), *rows, ctypes.byref(month)
    )
    return number, month.value, rows[0]


def radiocarbon(library, state, pool):
    """The refusal of a report on a pool or on ALL, 22 where it has no carbon, or 0; delta in
    hundredths of a per mille; DATED, OLDER or NEWER; and the age in years, 0 where not DATED."""
    report = lent(Signed, [0] * 3)
    number = library.rothc_radiocarbon(*state, pool, *report)
    return number, *report[0]


def run_book(library, book):
    """A book's refusal, or 0, and what the program writes for the book."""
    text, length = lent(Byte, bytes(TEXT)), Unsigned(0)
    number = library.rothc_book(*lent(Byte, book), *text, ctypes.byref(length))
    return number, bytes(text[0][: length.value]).decode()


def read_table(library, table):
    """A table's refusal, or 0, the refusal's line, and the numbers of the weather rows."""
    weather, rows, line = lent(Signed, [0] * (WEATHER * MOST_ROWS)), Unsigned(0), Unsigned(0)
    number = library.rothc_table(
        *lent(Byte, table), *weather, ctypes.byref(rows), ctypes.byref(line)
    )
    return number, line.value, weather[0][: WEATHER * rows.value]
