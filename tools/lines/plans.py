"""Whole games tier by tier, by one thread and by workers under nine plans (`drill plans`), beside the files of the program's own plan."""
import json
import os
import re
import subprocess

from lib.paths import GAMESMAN
from lib.programs import SECONDS, drill, told
from lines.large import found_digests, right_digests
from lines.lines import same

# More than the tiers of any game.
ALL = "2000"

TACTIX = [f"tactix-{rows}{end}" for end in ("", "-misere") for rows in (1, 2, 3, 4)]


def solved(game, folder, *options):
    """The deliveries of a game that the program solves into an empty folder, none of them by hand."""
    text = told("solve", game, folder, *options)
    found = re.fullmatch(r"solved (\d+) reused 0 migrated 0 deliveries (\d+) by hand 0\n", text)
    if not found or int(found[1]) != len(os.listdir(folder)):
        raise ValueError(f"solve {game} {' '.join(options)}: {text}")
    return int(found[2])


def tiers_by_plans(program, game, count=ALL):
    """For each of a game's first tiers its deliveries and the digest that ends its file, on which one thread and all plans agree."""
    ran = subprocess.run([program, "plans", game, count], capture_output=True, text=True, timeout=SECONDS, check=False)
    if ran.returncode:
        raise ValueError(f"{game}: status {ran.returncode}: {ran.stdout[-200:]}{ran.stderr}")
    lines = re.findall(r"tier (\d+): (\d+) deliveries, 0 by hand, digest ([0-9a-f]{64})\n", ran.stdout)
    return {int(tier): (int(deliveries), digest) for tier, deliveries, digest in lines}


def ends_of(folder):
    """For each file of a folder, by its tier, the digest that ends it."""
    ends = {}
    for name in os.listdir(folder):
        with open(os.path.join(folder, name), "rb") as file:
            ends[int(name.removeprefix("tier-").removesuffix(".gmt"))] = file.read()[-32:].hex()
    return ends


def under_nine_plans(room, games):
    """Why a game's tables or deliveries depend on who solves it, if they do: the program's own plan, one thread, or workers in every tier."""
    program = drill()
    for game in games:
        folder = room.fresh()
        deliveries = solved(game, folder)
        tiers = tiers_by_plans(program, game)
        if sum(number for number, _ in tiers.values()) != deliveries:
            return f"{game}: other deliveries"
        if {tier: digest for tier, (_, digest) in tiers.items()} != ends_of(folder):
            return f"{game}: other files"
    return None


def by_each_number_of_threads(room):
    """The program's own plan by one thread and by sixteen, over games whose tiers are settled, solved level by level, or both."""
    for game in ("countdown", "wheel", "tactix-1", "tactix-4-misere", "threemens", "mutorere", "hare"):
        right = room.fresh()
        deliveries = solved(game, right)
        for workers in "1", "16":
            folder = room.fresh()
            if solved(game, folder, "--workers", workers) != deliveries:
                return f"{game} by {workers}: other deliveries"
            why = same(right, folder)
            if why:
                return f"{game} by {workers}: {why}"
    return None


def toys_of_the_program_under_nine_plans(room):
    return under_nine_plans(room, ("countdown", "wheel"))


def tactix_under_nine_plans(room):
    return under_nine_plans(room, TACTIX)


def nine_point_games_under_nine_plans(room):
    return under_nine_plans(room, ("tictactoe", "threemens", "achi"))


def ring_and_star_under_nine_plans(room):
    return under_nine_plans(room, ("ponghauki", "shisima"))


def low_tiers_of_five_under_nine_plans(room):
    """The tiers 0 to 5 of Tac Tix on 5 by 5, in this order, which a row of five reaches; their files are those that independent solvers made."""
    program, folder = drill(), room.fresh()
    told("query", "tactix-5", "xxxxx" + 20 * ".", "--folder", folder)
    right = {name: digest for name, digest in right_digests().items() if int(name.removeprefix("tier-")) <= 5}
    if found_digests(folder) != right:
        return "the folder has other files"
    tiers = tiers_by_plans(program, "tactix-5", "6")
    return None if list(tiers) == [0, 1, 2, 3, 4, 5] and {tier: digest for tier, (_, digest) in tiers.items()} == ends_of(folder) else f"{tiers}"


def tictactoe_table(room):
    """The positions of Tic-tac-toe, over all tiers: legal, canonical, and of these the lost and the tied ones at the end of the game."""
    tiers = [json.loads(line) for line in told("analyse", "tictactoe").splitlines()]
    ended = {"lose": 0, "tie": 0}
    for value, remoteness, number in (count for tier in tiers for count in tier["counts"]):
        if remoteness == 0:
            ended[value] += number
    found = (len(tiers), sum(tier["legal"] for tier in tiers), sum(tier["canonical"] for tier in tiers), ended)
    return None if found == (10, 5478, 765, {"lose": 135, "tie": 3}) else f"{found}"


def file_of_dao(room):
    """Its length, and that it is used again."""
    folder = room.fresh()
    if solved("dao", folder) != 256_358 or os.path.getsize(f"{folder}/tier-0.gmt") != 3_603_672:
        return "another number of deliveries, or another length"
    again = told("solve", "dao", folder)
    return None if again == "solved 0 reused 1 migrated 0 deliveries 0 by hand 0\n" else again


def threads_of(room, game, *words):
    """How many threads a solve of a game starts."""
    ran = room.run([GAMESMAN, "solve", game, room.fresh(), *words], kind="thread")
    if ran.status:
        raise ValueError(f"solve {game} {words}: {ran}")
    return ran.calls


def workers_start_where_moves_stay(room):
    """Levels are solved by workers in threads of their own: by one worker none starts, and smaller pieces give more workers work."""
    for game in ("dao", "achi", "hare"):
        alone = threads_of(room, game, "--workers", "1")
        wide, narrow = (threads_of(room, game, "--workers", "4", "--piece", piece) for piece in ("4096", "1"))
        if alone or not wide < narrow:
            return f"{game}: {alone} threads by one worker, {wide} by four with wide pieces, {narrow} with narrow ones"
    settled = threads_of(room, "tictactoe", "--workers", "4", "--piece", "1")
    return f"tictactoe: {settled} threads, though no move stays in a tier" if settled else None


PLANS = (
    by_each_number_of_threads,
    toys_of_the_program_under_nine_plans,
    tactix_under_nine_plans,
    nine_point_games_under_nine_plans,
    ring_and_star_under_nine_plans,
    low_tiers_of_five_under_nine_plans,
    tictactoe_table,
    file_of_dao,
    workers_start_where_moves_stay,
)
