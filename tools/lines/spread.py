"""How evenly `find --random` chooses, over many seeds: no contract says that each choice is equally likely."""
from collections import Counter
from itertools import combinations

from lib.paths import GAMESMAN

# The lost positions of Countdown.
LOST = ("0", "3", "6", "9")


def chosen(room, number, seed):
    """The positions that are chosen."""
    words = [GAMESMAN, "find", "countdown", "--value", "lose", "--random", str(number), "--seed", str(seed)]
    ran = room.run(words)
    if ran.status or ran.err:
        raise ValueError(f"{words}: {ran}")
    return tuple(sorted(line.split("\t")[0] for line in ran.out.decode().splitlines()))


def random_choices_are_spread(room):
    """Each of the sets of so many positions comes a hundred times on average, and the deviation of such a count is about nine."""
    for number in 1, 2, 3:
        sets = list(combinations(LOST, number))
        counts = Counter(chosen(room, number, seed) for seed in range(100 * len(sets)))
        if set(counts) != set(sets) or not all(60 <= count <= 140 for count in counts.values()):
            return f"of {number} positions: {dict(counts)}"
    return None


SPREAD = (random_choices_are_spread,)
