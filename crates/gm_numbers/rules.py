"""Nim and Chomp by their rules, as docs/GAMES.md states them, for tools/solver: nothing here was taken from the program."""
from itertools import product

from playing import Game


def text_of(numbers):
    return " ".join(map(str, numbers))


def numbers_in(text):
    return [int(number) for number in text.split()]


class OfNumbers(Game):
    """A game whose positions are four numbers. There is no symmetry."""

    def __init__(self, most):
        every = list(product(*(range(number + 2) for number in most)))
        self.start, self.legal = text_of(most), {text_of(numbers) for numbers in every if self.is_one(numbers, most)}
        self.texts = [*map(text_of, every), "1 1 1", "1 1 1 0 0", "1  1 1 1", " 1 1 1 1", "01 1 1 1", "1111", "1 1 1 -1", "1 1 1 x", ""]

    @staticmethod
    def is_one(numbers, most):
        return all(number <= limit for number, limit in zip(numbers, most))

    def orbit(self, position):
        return {position}


class Nim(OfNumbers):
    """Heaps of 1, 3, 5 and 7 counters."""

    def __init__(self, name, end_of_none):
        self.name, self.end_of_none = name, end_of_none
        super().__init__((1, 3, 5, 7))

    def size(self, _tier):
        return 384

    def index(self, position):
        a, b, c, d = numbers_in(position)
        return 192 * a + 48 * b + 8 * c + d

    def end(self, position):
        return self.end_of_none if position == "0 0 0 0" else None

    def moves(self, position):
        heaps, found = numbers_in(position), []
        for heap, counters in enumerate(heaps):
            for taken in range(1, counters + 1):
                left = [*heaps[:heap], counters - taken, *heaps[heap + 1 :]]
                found.append((8 * heap + taken, f"{heap + 1}-{taken}", text_of(left)))
        return found


class Chomp(OfNumbers):
    """A bar of 4 rows of 7 squares."""

    name, tiers = "chomp", range(8)

    def __init__(self):
        super().__init__((7, 7, 7, 7))

    @staticmethod
    def is_one(numbers, most):
        return OfNumbers.is_one(numbers, most) and list(numbers) == sorted(numbers, reverse=True)

    def tier(self, position):
        return numbers_in(position)[0]

    def rank_of(self, tier):
        return tier

    def size(self, _tier):
        return 512

    def index(self, position):
        _, b, c, d = numbers_in(position)
        return 64 * b + 8 * c + d

    def end(self, position):
        return "win" if position == "0 0 0 0" else None

    def moves(self, position):
        rows, found = numbers_in(position), []
        for row, column in product(range(4), range(7)):
            if column < rows[row]:
                left = [length if at < row else min(length, column) for at, length in enumerate(rows)]
                found.append((28 * self.index(position) + 7 * row + column, f"{row + 1}-{column + 1}", text_of(left)))
        return found


def games():
    return [Nim("nim", "lose"), Nim("nim-misere", "win"), Chomp()]
