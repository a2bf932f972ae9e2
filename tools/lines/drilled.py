"""What the built drill says of the solver alone."""
import os
import subprocess

from lib.files import content
from lib.programs import drill, told


def by(room, way):
    """Why Dao, solved in a way, differs from what the program writes, if it does: the digest that ends its file, and the number of deliveries."""
    program, folder = drill(), room.fresh()
    told("solve", "dao", folder)
    digest = content(os.path.join(folder, "tier-0.gmt"))[-32:].hex()
    ran = subprocess.run([program, "dao", way], capture_output=True, text=True, timeout=120, check=False)
    right = (ran.returncode, ran.stdout) == (0, f"256358 deliveries, 0 by hand, digest {digest}\n")
    return None if right else f"status {ran.returncode}, {ran.stdout}"


def records_of_dao_by_one_thread(room):
    return by(room, "alone")


def records_of_dao_by_pieces(room):
    return by(room, "pieces")


def records_of_dao_by_passes(room):
    return by(room, "passes")


def tables(game, deliveries, records):
    """Why a toy, solved by one thread, by pieces and by passes, twice each, differs from these records and this number, if it does."""
    wanted = [f"{what}: {deliveries} deliveries: {records}" for what in ("answer", "again")]
    for way in ("alone", "pieces", "passes"):
        ran = subprocess.run([drill(), f"{way}-{game}"], capture_output=True, text=True, timeout=120, check=False)
        if ran.returncode or ran.stdout.splitlines() != wanted:
            return f"{way}: status {ran.returncode}, {ran.stdout}"
    return None


def countdown_table(room):
    # Lost in 0, won in 1, won in 1, lost in 2, and so on, from 0 to 10.
    return tables("countdown", 19, "L0 W1 W1 L2 W3 W3 L4 W5 W5 L6 W7")


def wheel_table(room):
    # Ties and draws (with no remoteness) beside wins and losses, from 0 to 9.
    return tables("wheel", 9, "T0 T1 T2 D0 D0 L0 W1 L2 D0 W3")


def analysis_of_one_position(room):
    # Countdown from 0, of which nothing is printed but its one position (docs/FORMATS.md).
    text = '{"canonical":1,"counts":[["lose",0,1]],"game":"countdown","legal":1,"longest_win":null,"size":1,"tier":0}'
    ran = subprocess.run([drill(), "json-of-one"], capture_output=True, text=True, timeout=120, check=False)
    return None if not ran.returncode and ran.stdout.splitlines() == [f"answer: {text}", f"again: {text}"] else f"status {ran.returncode}, {ran.stdout}"


DRILLED = (records_of_dao_by_one_thread, records_of_dao_by_pieces, records_of_dao_by_passes, countdown_table, wheel_table, analysis_of_one_position)
