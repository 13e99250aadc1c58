"""A hot July on Mill Piece: what a month leaves of the straw, and how much work that is to compute.

    python3 examples/python/terms.py       (after ./library)

The tenant ploughed straw in, and July came hot. For five months, from a January to the hottest that
a book may hold, this prints the survival number of each pool, what it keeps of 1,000,000,000, and
how many terms of the series the library summed for it: never more than 6, in a hot month as in a
cold one (change 2026-03 allows 40). Each number is held against e^(-w) with 40 digits and has to be
at most 1 from it.
"""
import ctypes
from decimal import Decimal, getcontext

from rothc import Unsigned, load, stop

getcontext().prec = 40
POOLS = [("DPM", 1000), ("RPM", 30), ("BIO", 66), ("HUM", 2)]  # rates in hundredths a year
BARE, CROP = 10, 6
MONTHS = [
    ("January, bare", "3.4", BARE),
    ("July, under a crop", "16.0", CROP),
    ("a hot July, under a crop", "24.5", CROP),
    ("the same, bare", "24.5", BARE),
    ("the hottest that is taken, bare", "50.0", BARE),
]
NO_SURVIVAL = 2**64 - 1


def rate_number(degrees, cover):
    """Step 4's N of a moist soil (B is 10,000): A by the formula of step 1, to the nearest."""
    u = Decimal("106.06") / (Decimal(degrees) + Decimal("18.27"))
    return round(479100 / (1 + u.exp())) * 10_000 * cover


def counted(rothc, n, pool):
    """A pool's survival number and the terms summed for it, or None where there is none."""
    terms = Unsigned(0)
    s = rothc.rothc_survival_terms(n, pool, ctypes.byref(terms))
    return None if s == NO_SURVIVAL else (s, terms.value)


def close(s, n, rate):
    """s is at most 1 from 1,000,000,000 × e^(-w)."""
    w = Decimal(n) * rate / 1_200_000_000_000
    return abs(s - 1_000_000_000 * (-w).exp()) <= 1


def main():
    rothc = load()
    for name, degrees, cover in MONTHS:
        n = rate_number(degrees, cover)
        print(f"{name}, {degrees} degrees: rate number {n}")
        for pool, (label, rate) in enumerate(POOLS):
            s, terms = counted(rothc, n, pool)
            if not close(s, n, rate) or s != rothc.rothc_survival(n, pool):
                stop(f"{label}: {s} is not the survival number")
            print(f"  {label} keeps {s:>10} by {terms} terms")
    if counted(rothc, 8_363_900_001, 0) is not None:
        stop("a rate number that no month has was taken")
    print("A larger rate number, which no month has, gives no number.")


main()
