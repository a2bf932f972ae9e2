"""The moves of worked positions, and how many positions the games have (docs/GAMES.md)."""
import json

from lib.programs import told

# The columns of the points of Hare and Hounds.
COLUMNS = (0, 1, 1, 1, 2, 2, 2, 3, 3, 3, 4)

# The size of each tier, and how many indexes are legal and canonical, in Tic-tac-toe and to tier 8 in Achi.
NINE_POINTS = [
    (1, 1, 1),
    (9, 9, 3),
    (72, 72, 12),
    (252, 252, 38),
    (756, 756, 108),
    (1260, 1260, 174),
    (1680, 1520, 204),
    (1260, 1140, 153),
    (630, 390, 57),
    (126, 78, 15),
]


def moves(game, *words):
    """The moves of a position, the start where none is named, with the texts of the positions that they lead to."""
    rows = [line.split("\t") for line in told("moves", game, *words).splitlines()]
    return {move: result for move, _, result in rows}


def wrong_start(game, text, wanted, children):
    """Why a game's start has not this text, these moves and so many canonical children, if it has not."""
    start, found = told("line", game, "--limit", "1").splitlines()[0].split("\t")[1], set(moves(game))
    distinct = moves(game, "--distinct")
    if start != text or found != set(wanted.split()) or len(distinct) != children:
        return f"the start {start!r} has the moves {sorted(found)}, of which {len(distinct)} are distinct"
    return None


def mutorere_start(room):
    # No opponent's piece is beside 1 and 2.
    return wrong_start("mutorere", "xxxxoooo.", "0-c 3-c", 1)


def dao_start(room):
    # A slide goes as far as it can.
    return wrong_start("dao", "x..o.xo..ox.o..x", "a1-a3 a1-c1 b2-a2 b2-a3 b2-b1 b2-c1 c3-b4 c3-c4 c3-d2 c3-d3 d4-b4 d4-d2", 3)


def hare_start(room):
    why = wrong_start("hare", "dd.d......h d", "L-M1 T1-M1 T1-T2 T1-M2 B1-M1 B1-M2 B1-B2", 4)
    tiers = [sum(COLUMNS[point] for point, piece in enumerate(text[:11]) if piece == "d") for text in moves("hare", "--distinct").values()]
    return why or (None if sorted(tiers) == [2, 3, 3, 3] else f"the canonical children lie in the tiers {sorted(tiers)}")


def moves_in_the_last_tier(room):
    """A piece moves to a neighbor in its row or column, in Achi also between the center and a corner, and none is placed."""
    if "b3" not in moves("tictactoe") or "a1-b1" not in moves("threemens", "xxo.o.x.o") or "b2-a3" in moves("threemens", "xo..xo.xo"):
        return "a move is missing, or one too many"
    achi = moves("achi", "xo.oxxoxo")
    return None if "b2-a3" in achi and "a3" not in achi else f"{sorted(achi)}"


def counted(game):
    """The size of each tier, and how many indexes are legal and canonical."""
    return {tier["tier"]: (tier["size"], tier["legal"], tier["canonical"]) for tier in map(json.loads, told("analyse", game).splitlines())}


def nine_point_counts(room):
    if counted("tictactoe") != dict(enumerate(NINE_POINTS)) or counted("achi") != dict(enumerate(NINE_POINTS[:9])):
        return "other numbers of positions"
    threemens = counted("threemens")
    low = {tier: numbers for tier, numbers in threemens.items() if tier < 6}
    return None if low == dict(enumerate(NINE_POINTS[:6])) and threemens[6][:2] == (1680, 1560) and len(threemens) == 7 else f"{threemens}"


def dao_counts(room):
    # 18 of the mover's 1,820 placements are formations, each beside 495 of the opponent's.
    found = counted("dao")
    return None if found == {0: (900_900, 891_990, 111_864)} else f"{found}"


GAMES = (mutorere_start, dao_start, hare_start, moves_in_the_last_tier, nine_point_counts, dao_counts)
