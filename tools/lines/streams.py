"""Sessions and progress over streams that fail, by the library that refuses calls (tools/hostile); clients that wait for each answer."""
import os
import select
import subprocess

from lib.paths import GAMESMAN
from lib.programs import SECONDS

SESSION = [GAMESMAN, "play", "countdown", "--second"]
INPUT = b"3\nquit\n"
OUTPUT = b"10 win in 7\ncomputer: 1\n9 lose in 6\nyour move?\nnot a move\nyour move?\nbye\n"

# The person first, who wins (docs/PROGRAM.md, "A session").
FROM_FOUR = [GAMESMAN, "play", "countdown", "--from", "4"]
WINNING = b"1\n2\n"
WON = b"4 win in 3\nyour move?\n3 lose in 2\ncomputer: 1\n2 win in 1\nyour move?\n0 lose in 0\nover: you win\n"


def fails(room, words, given, output, kind, told):
    """Why a session by one byte a call, of which each in turn fails, ends otherwise than it must, if it does."""
    count = len(given if kind == "input" else output)
    for at in range(1, count + 1):
        ran = room.run(words, kind=kind, at=at, short=True, given=given)
        if (ran.status, ran.err) != (1, told) or not output.startswith(ran.out):
            return f"{kind} {at}: {ran}"
    whole = room.run(words, kind=kind, at=count + 1, short=True, given=given)
    return None if (whole.status, whole.out, whole.err) == (0, output, b"") else f"{kind} {count + 1}: {whole}"


def a_reader_that_fails(room):
    return fails(room, SESSION, INPUT, OUTPUT, "input", b"gamesman: input failed\n")


def a_writer_that_fails(room):
    return fails(room, SESSION, INPUT, OUTPUT, "output", b"gamesman: output failed\n")


def a_reader_that_fails_the_first_player(room):
    return fails(room, FROM_FOUR, WINNING, WON, "input", b"gamesman: input failed\n")


def a_writer_that_fails_the_first_player(room):
    return fails(room, FROM_FOUR, WINNING, WON, "output", b"gamesman: output failed\n")


def what_follows_the_last_line(room):
    """A session reads nothing after the line that ends it."""
    read_end, write_end = os.pipe()
    os.write(write_end, b"quit\n3\n")
    os.close(write_end)
    ran = subprocess.run(SESSION, stdin=read_end, capture_output=True, timeout=60)
    rest = os.read(read_end, 100)
    os.close(read_end)
    right = (ran.returncode, ran.stdout, rest) == (0, b"10 win in 7\ncomputer: 1\n9 lose in 6\nyour move?\nbye\n", b"3\n")
    return None if right else f"{ran}, {rest} left"


def progress_that_nobody_reads(room):
    """No line follows the first one that could not be written, and nothing else changes."""
    read_end, closed = os.pipe()
    os.close(read_end)
    ran = room.run([GAMESMAN, "solve", "tictactoe", room.fresh(), "--progress"], kind="errors", errors=closed)
    os.close(closed)
    right = (ran.status, ran.out, ran.calls) == (0, b"solved 10 reused 0 migrated 0 deliveries 2096 by hand 0\n", 1)
    return None if right else f"{ran}, {ran.calls} writes of errors"


ASK = [GAMESMAN, "ask", "countdown", "--values"]
LINES = b"2\nx\n10\r\n3"
ANSWERS = (
    b'{"position":"2","positionValue":"win","remoteness":1}\n',
    b'{"error":"no such position","line":2,"read":"x"}\n',
    b'{"position":"10","positionValue":"win","remoteness":7}\n',
    b'{"position":"3","positionValue":"lose","remoteness":2}\n',
)


def a_reader_that_fails_the_service(room):
    """By one byte a call, of which each in turn fails: each line that has ended is answered, and nothing else is written."""
    for at in range(1, len(LINES) + 2):
        ran = room.run(ASK, kind="input", at=at, short=True, given=LINES)
        ended = b"".join(ANSWERS[: LINES[: at - 1].count(b"\n")])
        if (ran.status, ran.out, ran.err) != (1, ended, b"gamesman: input failed\n"):
            return f"read {at}: {ran}"
    return None


def a_writer_that_fails_the_service(room):
    return fails(room, ASK, LINES, b"".join(ANSWERS), "output", b"gamesman: output failed\n")


ASKED = ("ask countdown --values", "ask countdown", "query countdown -", "moves countdown - --json")


def unanswered(words):
    """The first line that is written to a filter, in one write with the one before it, whose answer does not come before the next is written, if there is one."""
    with subprocess.Popen([GAMESMAN, *words.split()], stdin=subprocess.PIPE, stdout=subprocess.PIPE, bufsize=0) as client:
        for number in range(0, 10, 2):
            client.stdin.write(b"%d\n%d\n" % (number, number + 1))
            for line in (number, number + 1):
                if not select.select([client.stdout], [], [], SECONDS)[0] or not client.stdout.readline().endswith(b"\n"):
                    client.kill()
                    return line
        client.stdin.close()
        return None if client.stdout.read() == b"" and client.wait(SECONDS) == 0 else "the end"


def a_client_that_waits(room):
    """What was read is answered before more is waited for."""
    for words in ASKED:
        line = unanswered(words)
        if line is not None:
            return f"{words}: {line} is not answered"
    return None


STREAMS = (
    a_reader_that_fails,
    a_writer_that_fails,
    a_reader_that_fails_the_first_player,
    a_writer_that_fails_the_first_player,
    what_follows_the_last_line,
    progress_that_nobody_reads,
    a_client_that_waits,
    a_reader_that_fails_the_service,
    a_writer_that_fails_the_service,
)
