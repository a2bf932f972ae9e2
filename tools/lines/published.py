"""King and rook against king with Black to move, counted by moves to mate, beside the table that the machine learning repository of the University of
California at Irvine publishes (docs/GAMES.md)."""
from collections import Counter

from lib.programs import told

# The positions up to symmetry that are lost in 0, 1, 2, .. of White's moves, and those that are drawn.
LOST = [27, 78, 246, 81, 198, 471, 592, 683, 1433, 1712, 1985, 2854, 3597, 4194, 4553, 2166, 390]
DRAWN = 2796


def found(value, folder):
    """The text and the value of each canonical position of a value."""
    text = told("find", "krk", "--value", value, "--folder", folder, "--read-only")
    return [line.split("\t")[:2] for line in text.splitlines()]


def king_and_rook_as_published(room):
    """The counts of the positions with three men and Black to move."""
    folder = room.fresh()
    told("solve", "krk", folder)
    moves = Counter(int(value.split()[2]) for _, value in found("lose", folder))
    lost = [moves.pop(2 * number, 0) for number in range(len(LOST))]
    drawn = sum(text.endswith(" b") for value in ("tie", "draw") for text, _ in found(value, folder))
    if moves or lost != LOST:
        return f"lost in {lost}, and in other numbers of moves {dict(moves)}"
    return None if drawn == DRAWN else f"{drawn} are drawn"


PUBLISHED = (king_and_rook_as_published,)
