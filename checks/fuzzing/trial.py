"""What a slice of checks/fuzz knows: where its inputs come from, what it has found, and how much it has tried."""

import collections
import os
import re
import time
from collections.abc import Callable
from dataclasses import dataclass, field
from random import Random


@dataclass
class Figures:
    """Of one kind of inputs."""

    inputs: int = 0
    octets: int = 0
    seconds: float = 0.0
    """Of all slices together, which run side by side."""
    processor: float = 0.0
    answers: collections.Counter = field(default_factory=collections.Counter)
    finds: collections.Counter = field(default_factory=collections.Counter)
    grown: int | None = None
    """KiB by which the memory of a cluster grew: the most of all slices."""

    def add(self, other: "Figures") -> None:
        self.inputs += other.inputs
        self.octets += other.octets
        self.seconds += other.seconds
        self.processor += other.processor
        self.answers += other.answers
        self.finds += other.finds
        self.grown = max((it for it in (self.grown, other.grown) if it is not None), default=None)


@dataclass
class Trial:
    """A slice: inputs of one kind, from one index on, tried by one process."""

    program: str
    seed: str
    folder: str
    """Its own."""
    finds_folder: str
    waits: int
    kind: str
    first: int
    network: str
    """The first three numbers of addresses of this machine that no other slice uses."""
    told: Callable[[], None] = lambda: None
    """Is called behind each input."""
    at: int = -1
    """The index of the input that was begun last."""
    figures: Figures = field(default_factory=Figures)
    shown: collections.Counter = field(default_factory=collections.Counter)
    begun: float = field(default_factory=time.monotonic)

    def random(self, index: int) -> Random:
        """Where the input of this kind and index is drawn from, whatever was tried before."""
        return Random(f"{self.seed} {self.kind} {index}")

    def address(self, number: int) -> str:
        return f"{self.network}.{number}"

    def tried(self, octets: int, answer: str) -> None:
        self.figures.inputs += 1
        self.figures.octets += octets
        self.figures.answers[answer] += 1
        self.told()

    def find(self, what: str, index: int, octets: bytes, told: object) -> None:
        """Keeps the octets of a find, and says how it is had again, but of many of one input the first three alone. `what` is a crash, a hang or a wrong answer."""
        self.figures.finds[what] += 1
        self.shown[what, index] += 1
        if self.shown[what, index] > 3:
            return
        os.makedirs(self.finds_folder, exist_ok=True)
        path = f"{self.finds_folder}/{re.sub('[^a-z0-9]+', '-', self.kind)}-{self.seed}-{index}"
        with open(path, "wb") as file:
            file.write(octets)
        again = f"--seed {self.seed} --only '{self.kind}' --at {index}"
        print(f"FOUND a {what}: {self.kind} {index} ({again}; behind what came before it: --from {self.first}): {told!s:.600}\n  octets: {path}\n", end="", flush=True)


def number_free(answer: bytes) -> str:
    """An answer without what differs from one to the next, to count kinds by."""
    return re.sub(r"\d+", "N", answer.decode("latin-1"))[:40]
