"""What other commands say: searches, counts, best answers, lines of best play; what a notebook shows, pickles, and the reasons of errors."""
import copy
import os
import pickle
import re
import subprocess
import xml.dom.minidom
from collections import Counter
from typing import Any, Callable, List, Set

import gamesman
from common import WithRoom, backend, solved
from gamesman import Failed, Game, NoSuchPosition, Position, ProgramMissing, Record
from gamesman.process import own_program
from lib.paths import GAMESMAN

# Games with moves, ties, draws, and texts with a space.
GAMES = ("tictactoe", "wheel", "mutorere", "hare")


def told(*words: str) -> List[str]:
    return subprocess.run([GAMESMAN, *words], capture_output=True, text=True, check=True).stdout.splitlines()


def texts(found: Any) -> List[str]:
    return [position.text for position in found]


class Searches(WithRoom):
    def test_find_by_keywords(self) -> None:
        """Each option is the program's, as the lines of the program show."""
        for options, words in (
            ({}, []),
            ({"remoteness": 3}, ["--remoteness", "3"]),
            ({"remoteness": (3, 5)}, ["--remoteness", "3..5"]),
            ({"tier": 4}, ["--tier", "4"]),
            ({"only_move": True}, ["--only-move"]),
            ({"only_fastest": True, "distinct": True}, ["--only-fastest", "--distinct"]),
            ({"whole_line": True, "reached": True}, ["--whole-line", "--reached"]),
            ({"min_moves": 5, "limit": 7}, ["--min-moves", "5", "--limit", "7"]),
            ({"min_tries": 1, "sort": "long"}, ["--min-tries", "1", "--sort", "long"]),
            ({"sort": "hard", "limit": 9}, ["--tries", "--sort", "hard", "--limit", "9"]),
            ({"random": 9, "seed": 0}, ["--random", "9", "--seed", "0"]),
            ({"spread": True, "per_move": 2}, ["--spread", "--per-move", "2"]),
        ):
            with self.subTest(words=words), Game("tictactoe", program=GAMESMAN) as game:
                call: Callable[..., Any] = game.find
                wanted = [line.split("\t")[0] for line in told("find", "tictactoe", "--value", "win", *words)]
                self.assertTrue(wanted)
                found = call("win", **options)
                self.assertEqual(texts(found), wanted)
                self.assertEqual(found.sheet().html.splitlines(), told("find", "tictactoe", "--value", "win", *words, "--page"))

    def test_counts(self) -> None:
        for name in GAMES[:3]:
            right = solved(name)
            with Game(name, program=GAMESMAN) as game:
                tiers = game.counts_by_tier()
                wanted = {tier: Counter(Record(*right.values[text]) for _, text in rows) for tier, rows in right.canonical().items() if rows}
                self.assertEqual(tiers, wanted)
                self.assertEqual(game.counts(), sum(wanted.values(), Counter()))
                self.assertEqual(game.counts(legal=True), Counter(Record(*right.values[text]) for text in right.game.legal))
                reached = self.reached(right)
                self.assertEqual(sum(game.counts(reached=True).values()), len({right.least[text] for text in reached}))

    def reached(self, right: Any) -> Set[str]:
        """The positions that play from the start reaches."""
        found, new = {right.game.start}, [right.game.start]
        while new:
            new = [child for text in new for _, _, child in right.moves[text] if child not in found]
            found |= set(new)
            new = sorted(set(new))
        return found

    def test_longest(self) -> None:
        with Game("achi", program=GAMESMAN) as game:
            some = list(game.longest(limit=2, reached=True))
            self.assertEqual(texts(some), [line.split("\t")[0] for line in told("longest", "achi", "--limit", "2", "--reached")])
            self.assertEqual({it.value for it in some}, {"win", "lose"})

    def test_why_and_line(self) -> None:
        for name in GAMES:
            with Game(name, program=GAMESMAN) as game:
                for position in [game.start, *game.find("lose", random=3), *game.find("win", random=3), *game.longest(1)]:
                    rows = [
                        [
                            reply.move.text,
                            gamesman.value_text(*reply.move[1:3]),
                            reply.answer.text if reply.answer else "",
                            reply.position.text,
                            gamesman.value_text(reply.position.value, reply.position.remoteness),
                        ]
                        for reply in position.why()
                    ]
                    self.assertEqual(rows, [line.split("\t") for line in told("why", name, position.text)])
                    line = [row.split("\t") for row in told("line", name, position.text)]
                    if line[-1][0].startswith("again "):
                        # (the position before is the one that comes again)
                        self.assertEqual(line[int(line.pop()[0].split()[1])][1], line[-1][1])
                    self.assertEqual(texts(position.line()), [row[1] for row in line])


class Shown(WithRoom):
    def test_boards_in_a_notebook(self) -> None:
        with Game("hare", program=GAMESMAN) as game:
            position: Any = game.start
            drawing, shown = position._repr_svg_(), position._repr_html_()
            xml.dom.minidom.parseString(drawing)
            xml.dom.minidom.parseString(shown)
            value = gamesman.value_text(position.value, position.remoteness)
            self.assertIn(value, drawing)
            self.assertEqual(re.findall("<td>(.*?)</td><td>(.*?)</td><td>(.*?)</td>", shown), [
                (move.text, gamesman.value_text(move.value, move.remoteness), move.result) for move in position.moves()
            ])
            over: Any = game.position(position.line()[-1].text)
            self.assertEqual("The game is over." in over._repr_html_(), over.is_over)

    def test_explorer(self) -> None:
        with Game("tictactoe", program=GAMESMAN) as game:
            wanted = "\n".join(told("page", "tictactoe", "--limit", "30"))
            page: Any = game.explorer(limit=30)
            self.assertEqual(page.html.rstrip("\n"), wanted)
            frame = xml.dom.minidom.parseString(page._repr_html_()).documentElement
            assert frame
            self.assertEqual(frame.getAttribute("sandbox"), "allow-scripts")
            self.assertEqual(frame.getAttribute("srcdoc").replace('<base href="about:srcdoc">', "").split(), page.html.split())
            other = game.explorer(game.position("xo......."), limit=2)
            self.assertEqual(game.explorer("xo.......", limit=2).html, other.html)
            for text in ("nothing", "a\0", "-"):
                with self.assertRaises(NoSuchPosition):
                    game.explorer(text)
            path = os.path.join(self.room, "page.html")
            other.save(path)
            with open(path, encoding="utf-8") as file:
                self.assertEqual(file.read(), other.html)

    def test_copies_and_pickles(self) -> None:
        with Game("tictactoe", program=GAMESMAN) as game:
            some: List[Position] = [game.start, game.position("xo.......")]
            for copied in (copy.copy(some[1]), copy.deepcopy(some)[1]):
                self.assertEqual((copied, copied.moves()), (some[1], some[1].moves()))
                self.assertIs(copied.game, game)
            self.assertIs(copy.deepcopy(game), game)
            read = [*pickle.loads(pickle.dumps(some)), pickle.loads(pickle.dumps(some[1]))]
            self.assertEqual(texts(read), texts([*some, some[1]]))
            self.assertEqual({id(it.game) for it in read}, {id(read[0].game)})
            self.assertEqual(read[2].play("b1"), some[1].play("b1"))
            read[0].game.close()
            reply = some[1].why()[0]
            self.assertEqual(pickle.loads(pickle.dumps(reply)), reply)
            read[0].game.close()

    def test_errors_are_pickled(self) -> None:
        why = Failed("bad line", 2, "gamesman find")
        read = pickle.loads(pickle.dumps(why))
        self.assertEqual((type(read), str(read), read.fault, read.status, read.reason), (Failed, "bad line: gamesman find", "bad line", 2, "gamesman find"))


class Reasons(WithRoom):
    def test_reasons(self) -> None:
        absent = os.path.join(self.room, "none")
        with Game("tictactoe", program=GAMESMAN) as game, Game("tictactoe", absent, GAMESMAN) as lost:
            for call, wanted in (
                (lambda: game.find("lose", only_move=True), "bad line: '--only-move' goes with '--value win' and '--value tie' alone"),
                (lambda: game.run("show", "a b", "c"), "bad line: unexpected argument 'c' found"),
                (lambda: lost.start, f"store failed at tier 9: there is no folder {absent!r}: make it first"),
                (lambda: lost.position("........."), f"store failed at tier 9: there is no folder {absent!r}: make it first"),
                (lambda: lost.solve(), f"store failed at tier 9: there is no folder {absent!r}: make it first"),
                (lambda: lost.solve(progress=lambda _: None), f"store failed at tier 9: there is no folder {absent!r}: make it first"),
            ):
                with self.assertRaises(Failed) as caught:
                    call()
                self.assertEqual(str(caught.exception), wanted)
            for wrong in (lambda: game.find("victory"), lambda: game.find("")):
                with self.assertRaisesRegex(ValueError, "a value is win, tie, draw or lose"):
                    wrong()
            missing: Any = None
            for ask in (game.position, game.locate, lambda it: next(game.positions([it]))):
                with self.assertRaisesRegex(TypeError, "a str, and not NoneType"):
                    ask(missing)
        with self.assertRaisesRegex(ProgramMissing, "GAMESMAN"):
            Game("tictactoe", program=absent)

    def test_further_lines_of_a_fault_are_its_reason(self) -> None:
        program = self.program('[ "$1" = list ] && echo wheel && exit; printf "gamesman: bad line\\nerror: first\\nsecond\\n\\nUsage\\n" >&2; exit 2')
        with Game("wheel", program=program) as game, self.assertRaises(Failed) as caught:
            game.run("show")
        why = caught.exception
        self.assertEqual((why.fault, why.status, why.reason), ("bad line", 2, "first\nsecond"))

    def test_the_program_of_a_wheel(self) -> None:
        """As pip lays a wheel with the program out: the list of files names it."""
        packages, programs = self.folder("packages"), self.folder("bin")
        self.assertIsNone(own_program(packages))
        about = os.path.join(packages, f"gamesman-{backend().version()}.dist-info")
        os.mkdir(about)
        program = os.path.join(programs, "gamesman")
        with open(os.path.join(about, "RECORD"), "w", encoding="utf-8") as file:
            file.write("../bin/gamesman,sha256=x,1\ngamesman/__init__.py,,\n")
        own_program.cache_clear()
        self.assertIsNone(own_program(packages))
        with open(program, "w", encoding="utf-8") as file:
            file.write("#!/bin/sh\n")
        os.chmod(program, 0o755)
        own_program.cache_clear()
        self.assertEqual(own_program(packages), program)
        own_program.cache_clear()
