"""Slices of kinds, each tried by a process of its own, so many at a time."""

import contextlib
import os
import resource
import signal
import subprocess
import time
from collections.abc import Callable
from dataclasses import dataclass, field
from multiprocessing import Pipe, Process
from multiprocessing.connection import Connection, wait

from fuzzing.trial import Figures, Trial
from peers import started

# How often a slice tells its figures so far, and how long it may take to end when it is told to, in seconds.
PAUSE, LAST = 1, 20


@dataclass(eq=False)
class Slice:
    kind: str
    first: int
    """The index of its first input."""
    is_over: Callable[[Trial, int], bool]
    """Whether an index is none of it, or enough was tried."""
    begin: Callable[[Trial], contextlib.AbstractContextManager]
    """Begins what its inputs are played to, and gives what plays the input of an index."""
    figures: Figures = field(default_factory=Figures)
    failure: str = ""
    """Why it ended before it was over, where nothing was found."""


def processor_seconds() -> float:
    """Of this process and of those below it that have ended."""
    return sum(it.ru_utime + it.ru_stime for it in map(resource.getrusage, (resource.RUSAGE_SELF, resource.RUSAGE_CHILDREN)))


class Teller:
    """Tells the figures of a slice from its process."""

    def __init__(self, channel: Connection) -> None:
        self.channel, self.trial, self.last, self.is_telling = channel, None, time.monotonic(), False

    def tell(self) -> None:
        """Tells them now, but not in the midst of telling."""
        if self.trial is None or self.is_telling:
            return
        self.is_telling = True
        self.trial.figures.seconds = time.monotonic() - self.trial.begun
        self.trial.figures.processor = processor_seconds()
        self.channel.send(self.trial.figures)
        self.last, self.is_telling = time.monotonic(), False

    def tell_at_times(self) -> None:
        if time.monotonic() > self.last + PAUSE:
            self.tell()

    def stop(self, *_: object) -> None:
        """Tells them, and ends the process and all that it started."""
        for it in started:
            with contextlib.suppress(OSError):
                it.kill()
        self.tell()
        os._exit(0)


def tried(piece: Slice, trial_of: Callable[[Slice, Callable[[], None]], Trial], channel: Connection) -> None:
    """Tries a slice, in a process of its own."""
    teller = Teller(channel)
    signal.signal(signal.SIGTERM, teller.stop)
    signal.signal(signal.SIGINT, signal.SIG_IGN)
    # (what the one above has started is not this one's to end)
    started.clear()
    teller.trial = trial = trial_of(piece, teller.tell_at_times)
    status = 0
    try:
        with piece.begin(trial) as play:
            index = piece.first
            while not piece.is_over(trial, index):
                trial.at = index
                play(index)
                index += 1
    except (Exception, SystemExit) as why:
        # (behind a find there may be no cluster to go on with)
        if not trial.figures.finds:
            print(f"FAILED: {piece.kind} from {piece.first}: {type(why).__name__}: {why}\n", end="", flush=True)
            status = 3
    ended()
    teller.tell()
    os._exit(status)


def ended() -> None:
    """Ends what this process has started."""
    for it in started:
        it.terminate()
    for it in started:
        with contextlib.suppress(subprocess.TimeoutExpired):
            it.wait(5)
        it.kill()
        it.wait()


class Pool:
    def __init__(self, jobs: int, trial_of: Callable[[Slice, Callable[[], None]], Trial]) -> None:
        self.jobs, self.trial_of, self.is_stopped = jobs, trial_of, False
        self.running: dict[Connection, tuple[Slice, Process]] = {}

    def play(self, pieces: list[Slice], over: Callable[[Slice], None]) -> None:
        """Tries all of them, and tells of each that is over. Where it is to stop meanwhile, it takes in what was tried so far."""
        left = list(reversed(pieces))
        while (left or self.running) and not self.is_stopped:
            while left and len(self.running) < self.jobs:
                self.begin(left.pop())
            self.hear(over)
        self.stop(over)

    def begin(self, piece: Slice) -> None:
        own, other = Pipe(False)
        process = Process(target=tried, args=(piece, self.trial_of, other))
        process.start()
        other.close()
        self.running[own] = piece, process

    def hear(self, over: Callable[[Slice], None]) -> None:
        """Takes in the figures that come, and the ends of slices."""
        for channel in wait(list(self.running), 1):
            piece, process = self.running[channel]
            try:
                piece.figures = channel.recv()
            except EOFError:
                process.join()
                del self.running[channel]
                piece.failure = f"status {process.exitcode}" if process.exitcode else ""
                over(piece)

    def stop(self, over: Callable[[Slice], None]) -> None:
        for _, process in self.running.values():
            process.terminate()
        end = time.monotonic() + LAST
        while self.running and time.monotonic() < end:
            self.hear(over)
        for _, process in self.running.values():
            process.kill()
