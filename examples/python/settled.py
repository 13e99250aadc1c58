"""Two light fields that a spin-up called settled too soon, and where it stops now (change 2026-05).

    python3 examples/python/settled.py        (after ./library)

On Warren Close and Heath Piece, sand with little humus, scrub was cleared and ploughed in. Each
book in examples/light has a field as it stands then, and the year of cropping that a spin-up
repeats. The scrub's residue falls while humus rises, in some year by as much: the total stands
still. By the total alone that year settled the field, with its humus far from its end. Now each
pool has to stand still too. docs/MODEL.md says how far a settled field can still be.

It prints examples/light/settled.out, which the reference makes from the same books.
"""
import pathlib

from rothc import FRESH, Signed, Unsigned, done, lent, load, new_state, run_list, total

LIGHT = pathlib.Path(__file__).resolve().parents[1] / "light"
FIELDS = {"Warren Close": "warren-close.book", "Heath Piece": "heath-piece.book"}
POOLS = ["DPM", "RPM", "BIO", "HUM", "IOM", "total"]
HUM = POOLS.index("HUM")
MOST_YEARS, AT_ONCE = 10_000, 100  # years of a spin-up, and of a list: 1,200 months


def field_of(name):
    """A book's soil, and its year's weather and land as a spin-up takes them."""
    lines = [line.split() for line in (LIGHT / name).read_text().splitlines()]
    soil, weather, land = (
        [[int(number) for number in line] for line in part]
        for part in (lines[1:2], lines[3:15], lines[16:28])
    )
    # the weather is an open pan's, the carbon is fresh
    weather, land = ([row + [0] for row in weather], [row + [FRESH] for row in land])
    return soil[0], sum(weather, []), sum(land, [])


def pools(state):
    """The five pools and their total, in grams."""
    return [*state[0][3:8], total(state)]


def by_total(rothc, state, weather, land):
    """The rule before: the first year whose total is at most 1,000 g from where it began. Gives the
    years, the pools where the last of them began, and those at its end."""
    for year in range(1, MOST_YEARS + 1):
        start = pools(state)
        done("rothc_list", run_list(rothc, state, weather, land)[0])
        if abs(pools(state)[-1] - start[-1]) <= 1000:
            return year, start, pools(state)
    return MOST_YEARS, start, pools(state)


def spin_up(rothc, state, weather, land, most):
    """A spin-up of at most so many years: whether it settled, the years, and the pools."""
    result = lent(Unsigned, [0] * 2)
    year = *lent(Signed, weather), *lent(Signed, land)
    done("rothc_spin_up", rothc.rothc_spin_up(*state, *year, most, *result))
    return *result[0], pools(state)


def by_pools(rothc, soil, weather, land):
    """The rule now; gives the same as by_total. The pools where the last year began are those of a
    spin-up of one year less."""
    _, years, end = spin_up(rothc, new_state(rothc, soil), weather, land, MOST_YEARS)
    start = spin_up(rothc, new_state(rothc, soil), weather, land, years - 1)[-1]
    return years, start, end


def without_stop(rothc, state, weather, land):
    """The pools after all the years."""
    for _ in range(MOST_YEARS // AT_ONCE):
        done("rothc_list", run_list(rothc, state, weather, land * AT_ONCE)[0])
    return pools(state)


def kilograms(grams):
    """To the nearest."""
    return (grams + 500) // 1000


def line(rule, years, grams):
    print(f"{rule:14}{years:>8}" + "".join(f"{kilograms(pool):>7}" for pool in grams))


def changes(years, start, end):
    moves = zip(POOLS, start, end)
    moved = [f"{pool} {kilograms(b - a):+}" for pool, a, b in moves if pool != "IOM"]
    print(f"In year {years}: {', '.join(moved)}.")


def tell(rothc, name, book):
    soil, weather, land = field_of(book)
    old_years, old_start, old = by_total(rothc, new_state(rothc, soil), weather, land)
    new_years, new_start, new = by_pools(rothc, soil, weather, land)
    end = without_stop(rothc, new_state(rothc, soil), weather, land)
    print(f"{name} (examples/light/{book}), carbon in kilograms a hectare:")
    print(f"{'rule':14}{'years':>8}" + "".join(f"{pool:>7}" for pool in POOLS))
    line("start", 0, pools(new_state(rothc, soil)))
    line("total alone", old_years, old)
    line("each pool too", new_years, new)
    line("no stop", MOST_YEARS, end)
    changes(old_years, old_start, old)
    changes(new_years, new_start, new)
    left = [kilograms(abs(end[HUM] - reached[HUM])) for reached in (old, new)]
    print(f"HUM is {left[0]} from its end by the total alone, {left[1]} by each pool too.")


def main():
    rothc = load()
    for place, (name, book) in enumerate(FIELDS.items()):
        if place:
            print()
        tell(rothc, name, book)


if __name__ == "__main__":
    main()
