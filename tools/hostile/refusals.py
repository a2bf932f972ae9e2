"""Calls refused one after another: inside each library call that may want memory (by the drill), and in whole runs of the program."""
import os
import re
import shutil

from lib.figures import Figures
from lib.files import as_version_1, files_of, wrong_file
from lib.paths import DRILL, GAMESMAN
from lib.programs import drill
from lib.room import right_files

# Calls that go on without a worker that could not be started, so that they may answer although something was refused.
WITH_THREADS = ("pieces-", "passes-", "build")


def lines_of(out):
    """What a drill printed, by its words."""
    return dict(line.split(": ", 1) for line in out.decode().splitlines() if ": " in line)


def judge_call(word, free, ran):
    """Why what a drill answered is wrong, if it is."""
    if ran.status != 0 or ran.err:
        return f"{word}: {ran}"
    if ran.out == free.out:
        return None if not ran.refused or word.startswith(WITH_THREADS) else f"{word}: a refusal went unnoticed"
    said, wanted = lines_of(ran.out), lines_of(free.out)
    if said.get("answer") != "out of memory":
        return f"{word}: {ran}"
    if "before" in wanted and said.get("after") != wanted["before"]:
        return f"{word}: after want of memory {said.get('after')}, before {wanted['before']}"
    if "texts" in wanted and not re.fullmatch("=*-*", said.get("texts", "x")):
        return f"{word}: after want of memory the store holds {said.get('texts')}"
    if said.get("again") != wanted["again"] or said.get("end") != wanted.get("end"):
        return f"{word}: a second call answers {said.get('again')}, {said.get('end')}"
    return None


def refuse_in_call(room, word, kind):
    """Each call of a kind inside one call refused in turn. Gives what was wrong and the numbers of runs."""
    figures = Figures(word)
    free = room.run([DRILL, word])
    if free.status != 0:
        figures.add(0, f"{word}: {free}")
        return figures
    at = 1
    while True:
        ran = room.run([DRILL, word], kind=kind, at=at, marks=True)
        figures.add(ran.refused, judge_call(word, free, ran))
        if not ran.refused:
            return figures
        at += 1


def calls(room, _options):
    """Each allocation inside each library call, and each start of a thread in those that have workers."""
    figures = Figures("calls")
    words = room.run([drill(), "list"]).out.decode().split()
    work = [(word, "malloc") for word in words] + [(word, "thread") for word in words if word.startswith(WITH_THREADS)]
    for each in room.in_lanes(lambda it: refuse_in_call(room, *it), work):
        figures.take(each)
    if len(words) < 20:
        figures.wrong.append("the drill lists too few words")
    return figures


# The fault that a refusal of each kind leads to. A thread that could not be started is done without, so of that kind nothing is told.
FAULTS = {
    "malloc": rb"out of memory",
    "input": rb"input failed",
    "output": rb"output failed",
    **dict.fromkeys(("open", "stat", "read", "write", "sync", "rename", "unlink"), rb"store failed at tier (\d+)"),
}


def plain(out):
    """What was printed, but for the number of deliveries by hand, which depends on the workers that could be started."""
    return re.sub(rb"by hand \d+", b"by hand H", out)


def is_unhindered(free, ran):
    return ran.status == free.status and plain(ran.out) == plain(free.out) and ran.err == free.err


class Line:
    """A line of the program, with the files that its folder (the word @) holds before and the right ones."""

    def __init__(self, words, before=None, right=None, given=b"", by_threads=False):
        self.words, self.before, self.right, self.given, self.by_threads = words.split(), before or {}, right or {}, given, by_threads

    def __str__(self):
        return " ".join(self.words)

    def once(self, room, **how):
        """Runs the line over a new folder. Gives the run and the folder."""
        folder = room.fresh()
        for name, text in self.before.items():
            with open(os.path.join(folder, name), "wb") as it:
                it.write(text)
        words = [GAMESMAN] + [folder if word == "@" else word for word in self.words]
        return room.run(words, given=self.given, **how), folder

    def told(self, free, ran, kind, at, folder):
        """Why what a disturbed run says is wrong, if it is: the undisturbed answer where nothing was refused or only threads were, and else the one fault."""
        if is_unhindered(free, ran):
            return self.unhindered(ran, kind, folder)
        if not ran.refused or kind not in FAULTS:
            return str(ran)
        fault = re.fullmatch(rb"gamesman: " + FAULTS[kind] + rb"\n", ran.err)
        if ran.status != 1 or not fault:
            return str(ran)
        if not free.out.startswith(ran.out):
            return f"printed {ran.out!r}, which no undisturbed run begins with"
        return self.stopped_at(int(fault[1]), kind, at, folder) if fault.groups() else None

    def unhindered(self, ran, kind, folder):
        """Why an undisturbed answer is wrong, if it is: a refusal went unnoticed, or a line that builds does not leave all files right."""
        if ran.refused and kind in FAULTS and not self.may_miss(kind):
            return f"a refusal went unnoticed: {ran}"
        if "@" in self.words and ran.status == 0 and files_of(folder) != self.right:
            return f"it ends well, and the folder holds {sorted(files_of(folder))}, not all of them right"
        return None

    def may_miss(self, kind):
        """Whether a refusal may go unnoticed: if levels are solved by workers, or a tier is solved or checked by threads, others do the work of one that gets no
        memory, as of one that could not be started."""
        return kind == "malloc" and (self.by_threads or self.words[1] in BY_LEVELS)

    def stopped_at(self, tier, kind, at, folder):
        """Why a fault of the store names the wrong tier, if it does: those before it are right, and it and those after it are as they were. The folder is opened and
        synced after the file has its name, so where such a call is refused the file of the tier may be right already. Each write syncs its file first and its folder
        second, so a refused sync with an odd number is one of a file that has no name yet."""
        found, is_before = files_of(folder), True
        for name in self.order():
            is_named = name == f"tier-{tier}.gmt"
            is_before = is_before and not is_named
            wanted = self.right if is_before else self.before
            is_named_already = kind == "open" or (kind == "sync" and at % 2 == 0)
            may_be_right = is_named and is_named_already and found.get(name) == self.right.get(name)
            if found.get(name) != wanted.get(name) and not may_be_right:
                return f"it names tier {tier}, and {name} is {'not yet right' if is_before else 'another one'}"
        return f"there is no tier {tier}" if is_before else None

    def order(self):
        """The names of the files in the order in which their tiers are built."""
        return sorted(self.right, key=lambda name: int(re.search(r"\d+", name)[0]), reverse=self.words[1] == "hare")

    def disturbed(self, room, free, **how):
        """Runs the line with a call refused. Gives the run and why it is wrong, if it is."""
        ran, folder = self.once(room, **how)
        why = self.told(free, ran, how["kind"], how["at"], folder)
        if not why and "@" in self.words:
            why = wrong_file(folder, self.right, self.before)
            if not why and self.words[0] == "solve":
                room.run([GAMESMAN, "solve", self.words[1], folder])
                after = {name: text for name, text in files_of(folder).items() if name.endswith(".gmt")}
                why = None if after == self.right else "the next run does not make all right"
        shutil.rmtree(folder)
        return ran, f"{self}, {how['kind']} {how['at']}{' on' if how['on'] else ''}: {why}" if why else None


def refuse_in_line(room, line, kind, on):
    """Each call of a kind in a line refused in turn, or from there on."""
    figures = Figures(kind)
    free, _ = line.once(room, kind=kind)
    if free.status not in (0, 1, 2) or FAULTS["malloc"] in free.err:
        figures.add(0, f"{line} undisturbed: {free}")
        return figures
    at = 1
    while True:
        ran, why = line.disturbed(room, free, kind=kind, at=at, on=on)
        figures.add(ran.refused > 0, why)
        if not ran.refused:
            return figures
        at += 1


def refuse_in_sample(room, line, kind, runs):
    """A sample of the calls of a kind in a line refused, spread evenly over all of them."""
    figures = Figures(kind)
    free, _ = line.once(room, kind=kind)
    if free.status != 0:
        figures.add(0, f"{line} undisturbed: {free}")
        return figures
    for at in range(1, free.calls + 1, max(1, free.calls // runs)):
        ran, why = line.disturbed(room, free, kind=kind, at=at, on=False)
        figures.add(ran.refused > 0, why)
    return figures


def torn_lines(room, line):
    """Whether a line that is written takes another number of writes than one a line; a text of several lines may take one."""
    figures = Figures("lines")
    for kind, stream in (("output", "out"), ("errors", "err")):
        ran, _ = line.once(room, kind=kind)
        written = getattr(ran, stream).count(b"\n")
        figures.add(0, f"{line}: {written} lines by {ran.calls} writes" if ran.calls > written else None)
    return figures


def without(files, *names):
    return {name: text for name, text in files.items() if name not in names}


# Games whose positions are settled level by level; those of Tac Tix, of which no move stays in its tier, are settled in one pass, and without workers.
BY_LEVELS = ("countdown", "wheel")

# Lines of every command, over tables in memory.
IN_MEMORY = (
    "list",
    "query countdown 10",
    "query wheel 3",
    "query tactix-2 xxxx",
    "query wheel x",
    "query chess 1",
    "query",
    "moves tactix-2",
    "moves tactix-2 --distinct",
    "moves tactix-2 --json",
    "line tactix-2",
    "line tactix-2 --json",
    "show tactix-2",
    "page tactix-2 --limit 4",
    "find tactix-2 --value win",
    "find tactix-2 --value lose --reached --json",
    "counts tactix-2",
    "counts tactix-2 --reached",
    "analyse tactix-2",
    "completions bash",
    "man",
    "--version",
    "--help",
    "query --help",
)

# Lines that read, with what they are given.
READING = (
    ("play countdown", b"1\n2\n1\n"),
    ("play tactix-2", b"a1\nb1\na2\nb2\n"),
    ("play tactix-2 --second", b""),
    ("play tactix-2 --show", b"a1\nquit\n"),
    ("ask tactix-2", b"x..x\nx\n"),
    ("ask tactix-2 --distinct --with canonical,parents,symmetric,best --ready", b"x..x\nx\n"),
    ("ask tactix-2", b'x..x\n{"game": "tactix-1"}\nx\n'),
    ("sheet --title Two", b"tactix-2\txxxx\ntactix-1\tx\n"),
    ("query tactix-2 -", b"x..x\nxxxx\n"),
    ("moves tactix-2 - --json", b"x..x\n"),
)

# Lines over the files of a game.
OVER_FILES = (
    "query tactix-2 xxxx --folder @",
    "moves tactix-2 --folder @",
    "moves tactix-2 --json --folder @",
    "line tactix-2 --folder @",
    "show tactix-2 --folder @",
    "page tactix-2 --limit 4 --folder @",
    "find tactix-2 --value win --folder @",
    "counts tactix-2 --folder @",
    "analyse tactix-2 --folder @",
    "query tactix-2 xxxx --read-only --folder @",
)

ON_FILES = ("open", "stat", "read", "write", "sync", "rename", "unlink")


def lines_of_the_program(room):
    """Every line with the kinds of calls that are refused in it. What follows on files that are read is the same as in memory, so there allocations are refused
    in some lines only."""
    small, hare = right_files(room, "tactix-2"), right_files(room, "hare")
    old, left = {name: as_version_1(text) for name, text in small.items()}, {"tier-3.tmp": b"left"}
    yield from ((Line(words), ("malloc", "output")) for words in IN_MEMORY)
    yield from ((Line(words, given=given), ("malloc", "input", "output")) for words, given in READING)
    yield from ((Line(words, before=small, right=small), ("output", *ON_FILES)) for words in OVER_FILES)
    yield Line("ask tactix-2 --folder @", before=small, right=small, given=b"xxxx\n"), ("input", "output", *ON_FILES)
    yield Line("play tactix-2 --folder @", before=small, right=small, given=b"quit\n"), ("input", "output", *ON_FILES)
    for line in (
        Line("query tactix-2 xxxx --folder @", right=small),
        Line("solve tactix-2 @", right=small),
        Line("solve tactix-2 @", before=small, right=small),
        Line("solve tactix-2 @", before=without(small, "tier-3.gmt") | left, right=small),
        Line("solve tactix-2 @", before=old, right=small),
        Line("check tactix-2 @", before=small, right=small),
        Line("check tactix-2 @", before=without(small, "tier-2.gmt"), right=small),
    ):
        yield line, ("malloc", "output", *ON_FILES)
    yield Line("solve hare @", right=hare), ("rename",)
    # A game whose tiers are settled, and one that is solved level by level.
    for game in ("tactix-4", "dao"):
        yield Line(f"solve {game} @", right=right_files(room, game)), ("thread",)


# A position of Tac Tix on 5 by 5 with six counters: threads solve the largest tier that it reaches, and check its file.
SIX_COUNTERS = "xxxxxx" + "." * 19

# How many of the allocations of a large solve are refused, one in each run.
SAMPLE = 40


def sampled_lines(room):
    """Lines whose levels workers solve, or whose tiers threads solve and check."""
    words = f"query tactix-5 {SIX_COUNTERS} --folder @"
    folder = room.fresh()
    room.run([GAMESMAN, *(folder if word == "@" else word for word in words.split())])
    files = files_of(folder)
    yield Line("solve dao @", right=right_files(room, "dao"), by_threads=True)
    yield Line(words, right=files, by_threads=True)
    yield Line(words, before=files, right=files, by_threads=True)


def program(room, options):
    """Each allocation, thread, read, write, output and call about files of lines of every command."""
    lines = list(lines_of_the_program(room))
    work = [
        (line, kind, on)
        for line, kinds in lines
        for kind in kinds
        for on in ((False,) if kind == "malloc" and not options.all else (False, True))
    ]
    figures = Figures("program")
    done = [torn_lines(room, line) for line, _ in lines]
    sampled = room.in_lanes(lambda line: refuse_in_sample(room, line, "malloc", SAMPLE), list(sampled_lines(room)))
    for each in done + sampled + room.in_lanes(lambda it: refuse_in_line(room, *it), work):
        figures.take(each)
    return figures
