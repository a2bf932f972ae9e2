"""Programs that are missing, that fail, that are killed, and games that are closed: each is an error at once."""
import multiprocessing
import os
import signal
import subprocess
import sys
import threading
import time
import unittest
from typing import Any, Iterator, List, Tuple, Union

import gamesman
from common import WithRoom, solved
from gamesman import Failed, Folder, Game, NoSuchGame, NoSuchMove, Position, ProgramMissing, Stopped, games
from lib.paths import GAMESMAN

# An error that takes so many seconds was waited for.
LATE = 20

# A stand-in for the program that knows one game, and answers no question.
KNOWS = 'if [ "$1" = list ]; then echo wheel; exit; fi\n'


def asked(given: Tuple[Union[Game, Position], List[str]]) -> List[str]:
    """Asks by a game, or by that of a position."""
    by, texts = given
    game = by.game if isinstance(by, Position) else by
    return [it.text for it in game.positions(texts)]


class Ends(WithRoom):
    def setUp(self) -> None:
        super().setUp()
        self.began = time.monotonic()

    def tearDown(self) -> None:
        self.assertLess(time.monotonic() - self.began, LATE)

    def stopped(self, game: Game, fault: str, status: int) -> None:
        """A question is refused, and so is each later one."""
        for _ in range(2):
            with self.assertRaises(Stopped) as caught:
                game.position("3")
            self.assertEqual((caught.exception.fault, caught.exception.status), (fault, status))

    def kill(self, game: Game) -> None:
        pid = game._asker(()).process_id
        assert pid
        os.kill(pid, signal.SIGKILL)

    def test_a_program_that_is_not_there(self) -> None:
        with self.assertRaises(ProgramMissing):
            Game("wheel", program=os.path.join(self.room, "none"))
        with self.assertRaises(ProgramMissing):
            games(program=self.room)

    def test_no_such_game(self) -> None:
        for name in ("chess", "", "--help", "wheel\n"):
            with self.assertRaises(NoSuchGame):
                Game(name, program=GAMESMAN)
        self.assertIn("takeaway", games(GAMESMAN))

    def test_no_such_move(self) -> None:
        with Game("wheel", program=GAMESMAN) as game:
            position = game.position("3")
            self.assertEqual(position.play("4").text, "4")
            for text in ("5", "", "3"):
                with self.assertRaises(NoSuchMove):
                    position.play(text)
            self.assertEqual(position.play(position.moves()[0]), game.position("4"))

    def test_a_folder_without_files(self) -> None:
        with Game("wheel", folder=self.folder("empty"), program=GAMESMAN) as game:
            self.stopped(game, "store failed at tier 0", 1)
            with self.assertRaises(Failed):
                game.at(0, 3)

    def test_a_folder_of_another_game(self) -> None:
        mixed = self.folder("mixed")
        with Game("countdown", program=GAMESMAN) as game:
            game.solve(mixed)
        with Game("wheel", program=GAMESMAN) as game:
            for call in (None, lambda _: None):
                with self.assertRaises(Failed) as caught:
                    game.solve(mixed, call)
                self.assertEqual((caught.exception.fault, caught.exception.status), ("tier 0 is another game's", 1))
            with self.assertRaises(ValueError):
                game.solve()

    def test_killed_between_two_questions(self) -> None:
        with Game("wheel", program=GAMESMAN) as game:
            game.ready()
            self.kill(game)
            self.stopped(game, "the program was ended by signal 9", -9)

    def test_killed_while_it_is_waited_for(self) -> None:
        """A program that reads a line, and never answers."""
        program = self.program(KNOWS + "echo '{\"ready\":true}'; read line; exec sleep 600")
        with Game("wheel", program=program) as game:
            game.ready()
            timer = threading.Timer(0.3, self.kill, [game])
            timer.start()
            self.stopped(game, "the program was ended by signal 9", -9)
            timer.join()

    def test_killed_amid_many_questions(self) -> None:
        def texts(game: Game) -> Iterator[str]:
            for number in range(100_000):
                if number == 20_000:
                    self.kill(game)
                yield "3"

        with Game("wheel", program=GAMESMAN) as game:
            seen = 0
            with self.assertRaises(Stopped):
                for position in game.positions(texts(game)):
                    self.assertEqual(position.value, "draw")
                    seen += 1
            self.assertLess(seen, 30_000)

    def test_ended_without_a_word(self) -> None:
        for script, fault, status in (
            ("exit 3", "the program ended with status 3", 3),
            ("echo 'gamesman: out of memory' >&2; exit 1", "out of memory", 1),
            ("echo '{\"ready\":true}'; read line; exit 0", "the program ended with status 0", 0),
            ("echo '{\"ready\":true}'; read line; printf '{\"pos'; exit 7", "the program ended with status 7", 7),
            ("kill -TERM $$", "the program was ended by signal 15", -15),
        ):
            with self.subTest(script=script), Game("wheel", program=self.program(KNOWS + script)) as game:
                self.stopped(game, fault, status)

    def test_closed_and_asked_again(self) -> None:
        game = Game("wheel", program=GAMESMAN)
        first = game.position("3")
        pid = game._asker(()).process_id
        game.close()
        with self.assertRaises(ProcessLookupError):
            os.kill(pid or 0, 0)
        self.assertEqual(game.position("3"), first)
        game.close()
        game.close()

    def test_answers_that_nobody_takes(self) -> None:
        """Some answers of many are taken, and then another question is asked: it has its own answer."""
        with Game("wheel", program=GAMESMAN) as game:
            some = game.positions(["3"] * 5000)
            other = game.positions(str(number % 10) for number in range(5000))
            self.assertEqual([next(some).text for _ in range(3)], ["3"] * 3)
            self.assertEqual([next(other).text for _ in range(12)], [str(number % 10) for number in range(12)])
            self.assertEqual(game.position("7").text, "7")
            self.assertEqual(len(list(some)), 4997)
            self.assertEqual([it.text for it in other], [str(number % 10) for number in range(12, 5000)])

    def test_more_answers_than_pipes_have_room_for(self) -> None:
        """Many batches are begun, and none is read to its end before the next one."""
        texts = [text for text in sorted(solved("tictactoe").game.legal)[:1000]]
        with Game("tictactoe", program=GAMESMAN) as game:
            begun = [game.positions(texts) for _ in range(60)]
            self.assertEqual({next(it).text for it in begun}, {texts[0]})
            self.assertEqual([[position.text for position in it] for it in begun], [texts[1:]] * 60)

    def test_closed_while_answers_are_to_come(self) -> None:
        with Game("wheel", program=GAMESMAN) as game:
            some = game.positions(["3"] * 5000)
            next(some)
            game.close()
            with self.assertRaises(Stopped):
                list(some)
            self.assertEqual(game.position("3").text, "3")

    def test_closed_while_it_works(self) -> None:
        """A program that does not look whether it is still asked."""
        game = Game("wheel", program=self.program(KNOWS + "echo '{\"ready\":true}'; exec sleep 600"))
        game.ready()
        game.close()

    def test_interrupted_while_it_waits(self) -> None:
        """As by Ctrl-C: the next question is asked of another process. (A process that is started in the background ignores the signal.)"""
        self.addCleanup(signal.signal, signal.SIGINT, signal.signal(signal.SIGINT, signal.default_int_handler))
        mark = os.path.join(self.room, "mark")
        script = f"[ -e {mark} ] && exec {GAMESMAN} \"$@\"; touch {mark}; echo '{{\"ready\":true}}'; read line; exec sleep 600"
        with Game("wheel", program=self.program(KNOWS + script)) as game:
            game.ready()
            timer = threading.Timer(0.3, os.kill, [os.getpid(), signal.SIGINT])
            timer.start()
            with self.assertRaises(KeyboardInterrupt):
                game.position("3")
            timer.join()
            self.assertEqual(game.position("3").value, "draw")

    def test_each_error_is_one_of_the_package(self) -> None:
        for name in gamesman.__all__:
            it = getattr(gamesman, name)
            if isinstance(it, type) and issubclass(it, BaseException):
                self.assertTrue(issubclass(it, gamesman.GamesmanError), name)

    def test_many_threads(self) -> None:
        wrong = []

        def ask(game: Game, first: int) -> None:
            texts = [str((first + number) % 10) for number in range(3000)]
            if [it.text for it in game.positions(texts)] != texts:
                wrong.append(first)

        with Game("wheel", program=GAMESMAN) as game:
            threads = [threading.Thread(target=ask, args=(game, first)) for first in range(8)]
            for thread in threads:
                thread.start()
            for thread in threads:
                thread.join()
        self.assertEqual(wrong, [])

    def test_forked(self) -> None:
        """A child starts a program of its own, and that of its parent goes on to answer the parent."""
        texts = [str(number % 10) for number in range(5000)]
        game = Game("wheel", program=GAMESMAN)
        some = game.positions(texts)
        first = [next(some).text]
        with multiprocessing.get_context("fork").Pool(3) as pool:
            begun = pool.map_async(asked, [(game, texts)] * 2 + [(game.position("3"), texts)])
            self.assertEqual(first + [it.text for it in some], texts)
            self.assertEqual(begun.get(LATE), [texts] * 3)
        pid = os.fork()
        if not pid:
            # (what ends a program runs here too, as in a child that ends by itself)
            game.close()
            os._exit(0 if [it.text for it in game.positions(texts)] == texts else 1)
        self.assertEqual(os.waitpid(pid, 0)[1], 0)
        self.assertEqual([it.text for it in game.positions(texts)], texts)
        game.close()

    def test_no_process_is_left(self) -> None:
        """Of a game that nobody closes, and of a program that ends."""
        script = f"from gamesman import Game\ngame = Game('wheel', program={GAMESMAN!r})\ngame.ready()\nprint(game._asker(()).process_id)"
        python = sys.executable
        ran = subprocess.run([python, "-c", script], capture_output=True, text=True, check=True, env={**os.environ, "PYTHONPATH": os.pathsep.join(sys.path)})
        with self.assertRaises(ProcessLookupError):
            os.kill(int(ran.stdout), 0)

    def test_a_folder_that_is_not_there(self) -> None:
        with self.assertRaises(FileNotFoundError):
            Folder(os.path.join(self.room, "none"))
        empty: Any = Folder(self.folder("nothing"))
        self.assertEqual((empty.game, empty.tiers, list(empty)), (None, [], []))
        with self.assertRaises(KeyError):
            empty[0]


if __name__ == "__main__":
    unittest.main()
