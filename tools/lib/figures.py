"""Figures of a part: how many runs it made, and what was wrong."""
from typing import Optional


class Figures:
    """How many runs a part of hostile use made, in how many of them something was refused, and what was wrong."""

    def __init__(self, part: str) -> None:
        self.part, self.runs, self.refused = part, 0, 0
        self.wrong: list[str] = []

    def add(self, refused: int, why: Optional[str]) -> None:
        """Counts a run, and keeps why it was wrong, if it was."""
        self.runs += 1
        self.refused += refused
        if why:
            self.wrong.append(why)

    def take(self, other: "Figures") -> None:
        """Adds the figures of another part to these."""
        self.runs += other.runs
        self.refused += other.refused
        self.wrong += other.wrong

    def tell(self) -> bool:
        """Prints the figures and the first wrong runs, and returns whether nothing was wrong."""
        for why in self.wrong[:10]:
            print(f"hostile: {self.part}: WRONG: {why}")
        print(f"hostile: {self.part}: {self.runs} runs, {self.refused} refused, {len(self.wrong)} wrong", flush=True)
        return not self.wrong
