"""How a run over seeds is asked for, the same in every runner: `--seeds A..B`, or `--seeds A` for one."""
import re
import sys


def seed_range(text):
    """The seeds from A to B, both counted. A run over none would pass without a look at anything, so that it is refused."""
    found = re.fullmatch(r"([0-9]+)(?:\.\.([0-9]+))?", text)
    if not found:
        refuse(f"--seeds {text}", "allowed is A..B, or A alone, each a whole number from 0 on")
    first, last = int(found[1]), int(found[2] or found[1])
    if last < first:
        refuse(f"--seeds {text}", f"there is no seed from {first} to {last}")
    return range(first, last + 1)


def refuse(asked, why):
    """Says in a line what is wrong with what was asked for, and ends."""
    print(f"{asked}: {why}", file=sys.stderr)
    sys.exit(2)
