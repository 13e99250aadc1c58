"""Reads every table of examples/tables through the library and compares the answer with the file
beside it; runs table.py, refused tables and books too; and shows that 4 tenths of an open pan dry
as 3 tenths of evapotranspiration do.

    python3 examples/python/check_tables.py        (after ./library; examples/library runs it)
"""
import pathlib
import subprocess
import sys

from rothc import WEATHER, load, read_table, run_book

EXAMPLES = pathlib.Path(__file__).resolve().parents[1]
TABLES = EXAMPLES / "tables"
MILL_PIECE, REGIONAL_YEAR = TABLES / "mill-piece.book", TABLES / "regional-year.table"
# A table, and the book that has the table's months by open pan, each evaporation 4/3 of the
# table's: table.py with the one and the program with the other write the same.
BY_PAN = {"regional-year.table": "mill-piece.book", "two-years.table": "mill-piece-by-pan.book"}


def beside(path):
    return path.with_suffix(".out").read_text()


def answer(rothc, table):
    """ROWS and the weather rows, or REFUSED with the number and the line."""
    number, line, weather = read_table(rothc, table)
    if number:
        return f"REFUSED {number} {line}\n"
    rows = [weather[at : at + WEATHER] for at in range(0, len(weather), WEATHER)]
    return f"ROWS {len(rows)}\n" + "".join(" ".join(map(str, row)) + "\n" for row in rows)


def run(book, table):
    """What table.py writes, and its exit status."""
    command = [sys.executable, "-B", EXAMPLES / "python" / "table.py", book, table]
    ended = subprocess.run(command, capture_output=True, text=True, check=False)
    return ended.stdout, ended.returncode


def refused(book, table, refusal):
    """Whether table.py writes one line that begins with this refusal."""
    text, status = run(book, table)
    return text.startswith(f"{refusal.strip()}: ") and text.count("\n") == 1 and status == 1


def main():
    rothc = load()
    found = {}
    for table in sorted(TABLES.glob("**/*.table")):
        found[table.name] = answer(rothc, table.read_bytes()) == beside(table)
    for table in sorted(TABLES.glob("refused/*.table")):
        found[f"table.py, {table.name}"] = refused(MILL_PIECE, table, beside(table))
    for book in sorted(EXAMPLES.glob("refused/*.book")):
        found[f"table.py, {book.name}"] = refused(book, REGIONAL_YEAR, beside(book))
    for book in sorted(TABLES.glob("*.book")):
        found[book.name] = run_book(rothc, book.read_bytes()) == (0, beside(book))
    for table, book in BY_PAN.items():
        found[f"table.py, {table}"] = run(MILL_PIECE, TABLES / table) == (beside(TABLES / book), 0)
    # runs by its own weather, and not by a colder
    nearly_full = TABLES / "nearly-full.book"
    found["table.py, less decays"] = refused(nearly_full, REGIONAL_YEAR, "REFUSED 17 7")
    found["table.py, no such file"] = run(MILL_PIECE, TABLES / "none.table") == ("", 2)

    for name in (name for name, same in found.items() if not same):
        print("differs:", name)
    differ = list(found.values()).count(False)
    print(f"{len(found) - differ} as expected, {differ} differ")
    sys.exit(differ != 0)


if __name__ == "__main__":
    main()
