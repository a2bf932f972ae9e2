"""Damaged tier files, of both versions: nothing is taken that differs from the text of the true table."""
import random
import re
import struct
import subprocess

from lib.figures import Figures
from lib.files import as_version_1, digested
from lib.programs import drill
from lib.room import right_files

GAMES = ("countdown", "tactix-2")
OTHERS = ("wheel", "tactix-2-misere", "tactix-1", "hare")


def tier_of(name):
    return int(re.search(r"\d+", name)[0])


def bits(chance, text, _all):
    text = bytearray(text)
    for _ in range(chance.randint(1, 3)):
        text[chance.randrange(len(text))] ^= 1 << chance.randrange(8)
    return bytes(text)


def cut(chance, text, _all):
    return text[: chance.randrange(len(text))]


def longer(chance, text, _all):
    return text + chance.randbytes(chance.randint(1, 40))


def swapped(chance, _text, all_texts):
    return chance.choice(all_texts)


def sized(chance, text, _all):
    """Another size, from small ones to those past every limit, with the digest made anew."""
    size = chance.choice([0, 1, 2, len(text), 2**24, 2**24 + 1, 2**31, 2**32, 2**61, 2**62, 2**63, 2**64 - 1, chance.randrange(2**64)])
    return digested(text[:32] + struct.pack("<Q", size) + text[40:-32])


def header(chance, text, _all):
    """Another byte of the header, with the digest made anew."""
    front = bytearray(text[:-32])
    front[chance.randrange(40)] = chance.randrange(256)
    return digested(bytes(front))


def record(chance, text, _all):
    """Other records, with the digest made anew."""
    front, (form, shift) = bytearray(text[:-32]), ("<H", 12) if text.startswith(OLD) else ("<I", 20)
    width = struct.calcsize(form)
    for _ in range(chance.randint(1, 2)):
        at = 40 + width * chance.randrange((len(front) - 40) // width)
        front[at : at + width] = chance.choice([struct.pack(form, chance.randint(0, 4) << shift | chance.randint(0, 9)), chance.randbytes(width)])
    return digested(bytes(front))


def other_version(_chance, text, _all):
    """The first bytes of the other version, with the digest made anew."""
    return digested((NEW if text.startswith(OLD) else OLD) + text[8:-32])


def same(_chance, text, _all):
    return text


NEW, OLD = b"GMTIER02", b"GMTIER01"
WAYS = (bits, bits, cut, longer, swapped, sized, header, record, record, other_version, same)


def damage(room, options):
    """Seeded mutations of the files of two games, half of them of version 1, through one drill each."""
    program, figures = drill(), Figures(f"damage (seed {options.seed})")
    right = {game: right_files(room, game) for game in (*GAMES, *OTHERS)}
    everything = [text for files in right.values() for file in files.values() for text in (file, as_version_1(file))]
    for game in GAMES:
        chance = random.Random(f"{options.seed} {game}")
        cases = []
        for _ in range(100_000 if options.all else 10_000):
            name, true = chance.choice(sorted(right[game].items()))
            text = chance.choice(WAYS)(chance, chance.choice([true, as_version_1(true)]), everything)
            cases.append((tier_of(name), text, true))
        given = "".join(f"{tier} {text.hex()}\n" for tier, text, _ in cases)
        ran = subprocess.run([program, f"damage-{game}"], input=given.encode(), capture_output=True, timeout=600)
        signs = ran.stdout.decode().split()
        if ran.returncode or len(signs) != len(cases):
            figures.add(0, f"{game}: status {ran.returncode}, {len(signs)} answers to {len(cases)} files")
            continue
        for (tier, text, true), sign in zip(cases, signs):
            wanted = "+" if text == true else "1" if text == as_version_1(true) else "-"
            figures.add(sign == "-", None if sign == wanted else f"{game}, tier {tier}, {sign} for {text.hex()}")
    return figures
