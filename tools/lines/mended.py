"""Folders in which a file is damaged, cut short or half written, or of version 1: `check` says why, and `solve` puts the right file in its place."""
import os

from lib.files import as_version_1, content, digested, put
from lib.paths import GAMESMAN
from lines.lines import old, same

# The file of Countdown from 10 up to its digest (docs/FORMATS.md, `file_of_countdown`): a front, and eleven records.
FRONT = b"GMTIER02" + b"countdown".ljust(16, b"\0") + (0).to_bytes(8, "little") + (11).to_bytes(8, "little")
RECORDS = [0x100000, 0x400001, 0x400001, 0x100002, 0x400003, 0x400003, 0x100004, 0x400005, 0x400005, 0x100006, 0x400007]
LONGER_WIN = RECORDS[:-1] + [0x400008]

SOLVED = b"solved 1 reused 0 migrated 0 deliveries 19 by hand 0\n"
REUSED = b"solved 0 reused 1 migrated 0 deliveries 0 by hand 0\n"
MIGRATED = b"solved 0 reused 0 migrated 1 deliveries 0 by hand 0\n"


def file_of(records):
    return digested(FRONT + b"".join(record.to_bytes(4, "little") for record in records))


RIGHT = file_of(RECORDS)

# The same of version 1 (`old_file_of_countdown`), and one whose last record is no true one.
OLD = as_version_1(RIGHT)
OLD_LONGER_WIN = as_version_1(file_of(LONGER_WIN))


def solves(room, folder, told):
    """Why a line of `solve` does not end as it must, with the right file and no other, if it does not."""
    ran = room.run([GAMESMAN, "solve", "countdown", folder])
    if (ran.status, ran.out, ran.err) != (0, told, b""):
        return str(ran)
    if os.listdir(folder) != ["tier-0.gmt"] or content(f"{folder}/tier-0.gmt") != RIGHT:
        return "the folder does not hold the right file alone"
    return None


def a_folder_is_built_reused_and_mended(room):
    folder = room.fresh()
    why = solves(room, folder, SOLVED) or solves(room, folder, REUSED)
    # A record that is no true one, with a digest that is right.
    put(f"{folder}/tier-0.gmt", file_of(LONGER_WIN))
    return why or solves(room, folder, SOLVED)


def mends(room, name, text, at, told=SOLVED):
    folder = room.fresh()
    put(f"{folder}/{name}", text)
    why = solves(room, folder, told)
    return why and f"at {at}: {why}"


def a_file_cut_to_any_length_is_mended(room):
    wrong = room.in_lanes(lambda at: mends(room, "tier-0.gmt", RIGHT[:at], at), range(len(RIGHT)))
    return next(filter(None, wrong), None)


def a_half_written_file_is_no_file(room):
    wrong = room.in_lanes(lambda at: mends(room, "tier-0.tmp", RIGHT[:at], at), range(len(RIGHT) + 1))
    return next(filter(None, wrong), None)


def an_old_file_is_migrated_where_it_is_true(room):
    damaged = OLD[:-1] + bytes([OLD[-1] ^ 1])
    files = (("true", OLD, MIGRATED), ("damaged", damaged, SOLVED), ("false", OLD_LONGER_WIN, SOLVED))
    wrong = [mends(room, "tier-0.gmt", text, what, told) for what, text, told in files]
    return next(filter(None, wrong), None) if len(OLD) == 94 else "an old file of another length"


def one_tier_of_five_is_solved_anew(room):
    """Of five files of version 1 one is cut short."""
    new, folder = room.fresh(), room.fresh()
    room.run([GAMESMAN, "solve", "tactix-2", new])
    old(new, folder)
    put(f"{folder}/tier-2.gmt", content(f"{folder}/tier-2.gmt")[:60])
    ran = room.run([GAMESMAN, "solve", "tactix-2", folder])
    right = (ran.status, ran.out, ran.err) == (0, b"solved 1 reused 0 migrated 4 deliveries 3 by hand 0\n", b"")
    return same(new, folder) if right else str(ran)


def fresh(text):
    """A file with its digest made anew."""
    return digested(text[:-32])


def changed(at, bytes_):
    """The right file with other bytes at a place, and a fresh digest."""
    return fresh(RIGHT[:at] + bytes_ + RIGHT[at + len(bytes_) :])


# Each word of `check` on a file that is there (docs/PROGRAM.md), with files of Countdown from 10 that earn it.
WORDS = (
    ("truncated", (b"", RIGHT[:39], RIGHT[:40], RIGHT[:115])),
    ("old version", (OLD, OLD[:40])),
    ("bad magic", (b"X" + RIGHT[1:], changed(0, b"GMTIER03"), changed(0, b"GMTIER00"))),
    ("wrong game", (changed(8, b"countdowm"), changed(8, b"wheel".ljust(16, b"\0")))),
    ("wrong tier", (changed(24, b"\1"),)),
    ("wrong size", (changed(32, b"\x0c"), changed(32, b"\x0a"))),
    ("bad record 0", (changed(40, bytes.fromhex("03002000")), changed(40, bytes.fromhex("01000000")))),
    ("bad record 10", (changed(80, bytes.fromhex("00005000")),)),
    ("trailing bytes", (RIGHT + b"\0", digested(RIGHT))),
    ("bad digest", (RIGHT[:-1] + bytes([RIGHT[-1] ^ 1]), RIGHT[:80] + b"\x08" + RIGHT[81:])),
    ("wrong record 0", (changed(40, bytes.fromhex("01001000")), changed(40, bytes(4)))),
    ("wrong record 10", (file_of(LONGER_WIN), changed(80, bytes.fromhex("00002000")))),
)


def every_word_of_check(room):
    """What `check` says of each file that is bad, and that it leaves the file as it is."""
    for word, texts in WORDS:
        for text in texts:
            folder = room.fresh()
            put(f"{folder}/tier-0.gmt", text)
            ran = room.run([GAMESMAN, "check", "countdown", folder])
            if (ran.status, ran.out, ran.err) != (1, f"tier 0 bad: {word}\n".encode(), b""):
                return f"{word}: {ran}"
            if os.listdir(folder) != ["tier-0.gmt"] or content(f"{folder}/tier-0.gmt") != text:
                return f"{word}: the file is another one after the check"
    return None


MENDED = (
    every_word_of_check,
    a_folder_is_built_reused_and_mended,
    a_file_cut_to_any_length_is_mended,
    a_half_written_file_is_no_file,
    an_old_file_is_migrated_where_it_is_true,
    one_tier_of_five_is_solved_anew,
)
