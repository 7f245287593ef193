"""table.py NAME..: prints one table of what the measurements NAME.. found, as they left it under bench/out/.

Every line of a file of figures has what was measured, the unit, plain C's figure and that of the proved code. What was measured several
times counts with the best of each.
"""
import pathlib
import sys

OUT = pathlib.Path(__file__).resolve().parent / "out"
WHAT, FIGURE, RATIO = 40, 10, 7     # the columns' widths
SIDE = 2 * FIGURE + RATIO


def best(unit, pairs):
    """Of plain C's figures, and of the proved code's."""
    return tuple(map(max if unit == "MB/s" else min, zip(*pairs)))


def figures(build, name):
    """What was measured and its unit, in order, each with its two figures."""
    found = {}
    for line in (OUT / build / f"{name}.figures").read_text().splitlines():
        what, unit, plain, proved = line.split("\t")
        found.setdefault((what, unit), []).append((float(plain), float(proved)))
    return {(what, unit): best(unit, pairs) for (what, unit), pairs in found.items()}


def ratio(unit, plain, proved):
    """Above 1 where the proved code is faster, or takes less memory."""
    return proved / plain if unit == "MB/s" else plain / proved


def side(unit, plain, proved):
    places = 1 if unit == "MB/s" else 0
    return f"{proved:{FIGURE}.{places}f}{plain:{FIGURE}.{places}f}{ratio(unit, plain, proved):{RATIO}.2f}"


def heading():
    sides = f"{'proved':>{FIGURE}}{'plain C':>{FIGURE}}{'ratio':>{RATIO}}"
    return f"{'':{WHAT}}{'by tools/native':>{SIDE}}{'as rt builds it':>{SIDE}}\n{'':{WHAT}}{sides}{sides}"


def main(names):
    print(heading())
    for name in names:
        native, kit = figures("native", name), figures("kit", name)
        for what, unit in native:
            print(f"{f'{what}, {unit}':{WHAT}}{side(unit, *native[what, unit])}{side(unit, *kit[what, unit])}")


if __name__ == "__main__":
    main(sys.argv[1:])
