"""Each legal position of six games, and each text that is none, beside an independent solver."""
import json
import unittest
from collections import Counter, defaultdict
from dataclasses import astuple
from typing import Any, Dict, List, Set

from common import WithRoom, solved
from gamesman import Folder, Game, NoSuchPlace, NoSuchPosition, Position, Record, positions_of
from gamesman.game import BATCH, batches
from lib.paths import GAMESMAN

GAMES = ("wheel", "tactix-3-misere", "tictactoe", "threemens", "achi", "mutorere")

# How many positions of a game are looked at by a process each.
FEW = 12


def parents_of(right: Any) -> Dict[str, Set[str]]:
    """Returns the canonical positions from which a move leads to a position or to one that is symmetric to it, by its canonical position."""
    found: Dict[str, Set[str]] = defaultdict(set)
    for position in set(right.least.values()):
        for _, _, child in right.moves[position]:
            found[right.least[child]].add(position)
    return found


def rows_of(position: Position) -> List[Any]:
    """Returns the moves with all that is said of them."""
    return [tuple(move) for move in position.moves()]


def rows_wanted(right: Any, text: str) -> List[Any]:
    """Returns the moves as the solver has them."""
    other = {"win": "lose", "lose": "win"}
    rows = []
    for _, name, child in right.ranked(text):
        value, remoteness = right.values[child]
        rows.append((name, other.get(value, value), 0 if value == "draw" else remoteness + 1, child))
    return rows


class Answers(WithRoom):
    """Each test goes through all games."""

    def games(self) -> Any:
        for name in GAMES:
            with Game(name, program=GAMESMAN) as game:
                yield game, solved(name)

    def test_each_legal_position_has_its_value_and_its_moves(self) -> None:
        for game, right in self.games():
            legal = sorted(right.game.legal)
            seen = 0
            for text, position in zip(legal, game.positions(legal)):
                self.assertEqual((position.text, (position.value, position.remoteness)), (text, right.values[text]))
                self.assertEqual(rows_of(position), rows_wanted(right, text))
                self.assertEqual(position.is_over, not right.moves[text])
                best = position.best_move()
                self.assertEqual(best and tuple(best), next(iter(rows_wanted(right, text)), None))
                seen += 1
            self.assertEqual(seen, len(legal))
            self.assertEqual(game.start.text, right.game.start)

    def test_each_other_text_is_refused(self) -> None:
        for game, right in self.games():
            others = [text for text in right.game.texts if not right.game.is_legal(text)]
            others += ["\n", f"{right.game.start}\r", f"{right.game.start}\n", "\u00e9", "\u0661", "", "x" * 5000, "\ud800", "a\0"]
            for text in others:
                with self.assertRaises(NoSuchPosition):
                    game.position(text)
            self.assertEqual(game.position(right.game.start).text, right.game.start)

    def test_parents_and_places(self) -> None:
        """By one process for all positions; what the methods say of some."""
        for game, right in self.games():
            parents, orbits = parents_of(right), Counter(right.least.values())
            legal = sorted(right.game.legal)
            words = ("--values", "--with", "canonical,parents,symmetric")
            for text, (asked, line) in zip(legal, game._lines(legal, words)):
                least, answer = right.least[text], json.loads(line)
                self.assertEqual((asked, set(answer["parents"])), (text, parents[least]))
                self.assertEqual(answer["symmetric"], orbits[least])
            for text in legal[:: len(legal) // FEW + 1]:
                least, position = right.least[text], game.position(text)
                self.assertEqual({parent.text for parent in position.parents()}, parents[least])
                self.assertEqual(position.symmetric(), orbits[least])
                place = (right.game.tier(text), right.game.index(text), least == text, right.game.index(least), least)
                self.assertEqual(astuple(position.place()), place)
                self.assertEqual(game.at(place[0], place[3]).text, least)

    def test_each_place(self) -> None:
        """Each legal position by its place, in one process for all, and each text by its record's place."""
        for game, right in self.games():
            texts: Dict[int, Dict[int, str]] = defaultdict(dict)
            for text in right.game.legal:
                texts[right.game.tier(text)][right.game.index(text)] = text
            for tier, found in texts.items():
                self.assertEqual(dict(zip(found, game.texts_of(tier, found))), found)
                self.assertEqual([it.text for it in game.positions_at(tier, found)], list(found.values()))
                some = [(right.game.tier(right.least[it]), right.game.index(right.least[it])) for it in found.values()]
                self.assertEqual(list(game.indexes_of(found.values())), some)
                free = next(index for index in range(right.game.size(tier) + 1) if index not in found)
                for place in ((tier, free), (tier, -1), (-1, 0), (2**64, 0)):
                    with self.assertRaises(NoSuchPlace):
                        game.text_of(*place)
            for text in sorted(right.game.legal)[:: len(right.game.legal) // FEW + 1]:
                least = right.least[text]
                self.assertEqual(game.index_of(text), (right.game.tier(least), right.game.index(least)))
            with self.assertRaises(NoSuchPosition):
                game.position(f"@{right.game.tier(right.game.start)} {right.game.index(right.game.start)}")

    def test_places_up_to_one_that_is_none(self) -> None:
        """Those before it are given, in the same line and in others."""
        for game, right in self.games():
            tier = right.game.tier(right.game.start)
            index = right.game.index(right.game.start)
            for number in (0, 1, BATCH - 1, BATCH, BATCH + 1, 3 * BATCH):
                for none in (right.game.size(tier), -1, 2**64):
                    texts = game.texts_of(tier, [index] * number + [none] + [index] * 2)
                    self.assertEqual([next(texts) for _ in range(number)], [right.game.start] * number)
                    with self.assertRaises(NoSuchPlace):
                        next(texts)
            self.assertEqual(list(game.texts_of(tier, [])), [])
            self.assertEqual(len(list(game.positions_at(tier, [index] * (2 * BATCH + 1)))), 2 * BATCH + 1)

    def test_several_games_by_one_process(self) -> None:
        asked = [(game, sorted(right.game.legal)[:FEW]) for game, right in self.games()]
        asked += [(asked[0][0], []), *asked[:2]]
        found = list(positions_of(asked))
        self.assertEqual([[it.text for it in some] for some in found], [texts for _, texts in asked])
        for (game, _), some in zip(asked, found):
            right = solved(game.name)
            self.assertEqual([(it.value, it.remoteness) for it in some], [right.values[it.text] for it in some])
        with self.assertRaises(NoSuchPosition):
            list(positions_of([(asked[0][0], []), (asked[1][0], ["none"])]))
        self.assertEqual(list(positions_of([])), [])

    def test_batches(self) -> None:
        self.assertEqual(list(batches([], 2)), [])
        self.assertEqual(list(batches([1, 2, 3, 4], 2)), [[1, 2], [3, 4]])
        self.assertEqual(list(batches([1, -1, 2, 3, 4, 2**64], 2)), [[1], [-1], [2, 3], [4], [2**64]])
        self.assertEqual(list(batches([5, 6], 1)), [[5], [6]])
        longest = '{"tier":%d,"indexes":[%s]}' % (2**64 - 1, ",".join([str(2**64 - 1)] * BATCH))
        self.assertLessEqual(len(longest), 65536)

    def test_frames(self) -> None:
        for game, right in self.games():
            to = self.folder(game.name)
            game.solve(to)
            for tier in Folder(to):
                wanted = [(index, text, *right.values[text]) for index, text in sorted(right.canonical()[tier.tier])]
                found = tier.frame(game)
                rows = found if isinstance(found, list) else list(found.itertuples(name=None))
                self.assertEqual(rows, wanted)

    def test_best_play(self) -> None:
        """The line of best play is that of the best moves, and its end is what the value says."""
        for game, right in self.games():
            legal = sorted(right.game.legal)
            for text in legal[:: len(legal) // FEW + 1]:
                position = game.position(text)
                line = position.best_line()
                if position.value != "draw":
                    self.assertEqual(len(line), position.remoteness)
                for move in line:
                    best = position.best_move()
                    self.assertEqual(best and best.text, move)
                    position = position.play(move)
                if game.position(text).value != "draw":
                    self.assertTrue(position.is_over)

    def test_each_record_of_the_files(self) -> None:
        for game, right in self.games():
            to = self.folder(game.name)
            heard: List[Any] = []
            summary = game.solve(to, heard.append)
            self.assertEqual((summary.solved, summary.reused, summary.migrated), (len(right.game.tiers), 0, 0))
            self.assertTrue(heard and all(it.tiers == len(right.game.tiers) and it.stage for it in heard))
            self.assertEqual(game.solve(to).reused, len(right.game.tiers))
            folder = Folder(to)
            self.assertEqual((folder.game, folder.tiers), (game.name, sorted(right.game.tiers)))
            wanted = {(tier, index): right.values[text] for tier, rows in right.canonical().items() for index, text in rows}
            self.assertEqual({(tier, index): tuple(record) for tier, index, record in folder.records()}, wanted)
            self.assertEqual(folder.counts(), Counter(Record(*it) for it in wanted.values()))
            for tier in folder:
                self.assertEqual(len(tier), right.game.size(tier.tier))
                self.assertEqual([index for index in range(len(tier)) if tier[index]], [index for index, _ in tier])
            with Game(game.name, folder=to, program=GAMESMAN) as read:
                texts = sorted(right.game.legal)[:50]
                self.assertEqual([(it.value, it.remoteness) for it in read.positions(texts)], [right.values[it] for it in texts])

    def test_places_that_are_none(self) -> None:
        for game, right in self.games():
            tier = sorted(right.game.tiers)[-1]
            taken = {index for index, _ in right.canonical()[tier]}
            free = [index for index in range(right.game.size(tier)) if index not in taken][:3]
            for at in [(tier, right.game.size(tier)), (-1, 0), (tier, -1), (9999, 0), *((tier, index) for index in free)]:
                with self.assertRaises(NoSuchPlace):
                    game.at(*at)
            with self.assertRaises(NoSuchPosition):
                game.locate("no such text")


if __name__ == "__main__":
    unittest.main()
