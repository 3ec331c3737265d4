"""Runs the program and the model on random scripts and rosters; see checks/against-model."""

import subprocess
import sys
import tempfile
from collections.abc import Callable
from dataclasses import dataclass
from itertools import zip_longest
from pathlib import Path
from random import Random
from typing import NoReturn

from model.answer import play_lines
from model.fault import Fault
from model.lines import MOST_LINE_OCTETS, split_lines
from model.make_lines import answer_script, full_table_script, wire_script
from model.make_rosters import any_roster
from model.make_worlds import world_script
from model.roster import read_roster
from model.safety import broken_promises
from model.world import World

MOST_SECONDS = 300
MOST_SHOWN = 1_000
MOST_TRIES = 300
LONG_SCRIPT = 10_000
SHORT_SCRIPT = [b"client 1 http://o/a", b"issue http://o/a"]


@dataclass
class Told:
    """What a run tells: a line for each line of its script, and the fault that ended it, if one did."""

    answers: list[bytes]
    fault: str | None


@dataclass
class Runner:
    program: str
    work: Path

    def run(self, command: str, script: bytes, roster: bytes | None = None) -> Told:
        arguments = [self.program, *command.split()]
        if roster is not None:
            path = self.work / "roster.toml"
            path.write_bytes(roster)
            arguments.append(str(path))
        (self.work / "script").write_bytes(script)
        with open(self.work / "script", "rb") as lines:
            ran = subprocess.run(arguments, stdin=lines, capture_output=True, timeout=MOST_SECONDS)
        faults = [line.decode(errors="replace") for line in ran.stderr.split(b"\n") if line.startswith(b"fault: ")]
        if ran.returncode != (1 if faults else 0):
            return Told(split_lines(ran.stdout), f"status {ran.returncode}: {ran.stderr[:MOST_SHOWN]!r}")
        return Told(split_lines(ran.stdout), faults[0].removeprefix("fault: ") if faults else None)


def model_of_lines(command: str, lines: list[bytes]) -> Told:
    return Told(*play_lines(command, text_of(lines)))


def model_of_world(roster: bytes, lines: list[bytes]) -> Told:
    try:
        world = World(read_roster(roster))
    except Fault as fault:
        return Told([], fault.name)
    answers: list[bytes] = []
    for line in split_lines(text_of(lines)):
        if len(line) > MOST_LINE_OCTETS:
            return Told(answers, "LineTooLong")
        answers.append(world.play(line))
    return Told(answers, None)


def text_of(lines: list[bytes]) -> bytes:
    return b"".join(line + b"\n" for line in lines)


def smaller(lines: list[bytes], differs: Callable[[list[bytes]], bool]) -> list[bytes]:
    """Leaves out ever shorter runs of lines while a difference stays, for so many tries."""
    size, tries = len(lines) // 2, 0
    while size:
        place = 0
        while place < len(lines) and tries < MOST_TRIES:
            tries += 1
            fewer = lines[:place] + lines[place + size:]
            if differs(fewer):
                lines = fewer
            else:
                place += size
        size //= 2
    return lines


def stop(kind: str, lines: list[bytes], model: Callable[[list[bytes]], Told], program: Callable[[list[bytes]], Told], roster: bytes = b"") -> NoReturn:
    """Prints a difference, its script made smaller, and ends. A long script is not made smaller, and its last lines alone are printed."""
    print(f"{kind}: model and program differ", flush=True)
    pairs = zip_longest(model(lines).answers, program(lines).answers)
    first = next((place for place, (expected, told) in enumerate(pairs, start=1) if expected != told), len(lines))
    lines = lines[:first]
    if len(lines) < LONG_SCRIPT:
        lines = smaller(lines, lambda fewer: model(fewer) != program(fewer))
    for name, octets in (("roster", split_lines(roster)), ("script", lines)):
        print_lines(name, octets)
    for name, told in (("model", model(lines)), ("program", program(lines))):
        print_lines(name, told.answers + ([f"fault: {told.fault}".encode()] if told.fault else []))
    sys.exit(1)


def print_lines(name: str, lines: list[bytes]) -> None:
    print(f"--- {name}")
    for line in lines[-LONG_SCRIPT // 10:]:
        print(line[:MOST_SHOWN].decode(errors="backslashreplace") + ("..." if len(line) > MOST_SHOWN else ""))


def compare_lines(runner: Runner, random: Random, command: str, count: int) -> None:
    """Scripts of `cache answer`, or lines of a codec."""
    compared = 0
    for at in range(count):
        script = wire_script(random, command) if command != "answer" else answer_script(random) if at else full_table_script(random)
        told = Told(*play_lines(command, script))
        if told != runner.run(command, script):
            stop(command, split_lines(script), lambda lines: model_of_lines(command, lines), lambda lines: runner.run(command, text_of(lines)))
        compared += len(told.answers)
    print(f"{command}: {count} scripts, {compared} lines equal", flush=True)


def compare_worlds(runner: Runner, random: Random, count: int) -> None:
    compared = done = admitted = 0
    for _ in range(count):
        roster, maker = world_script(random)
        told = runner.run("world", text_of(maker.lines), roster)
        broken = broken_promises(maker.world, maker.lines, told.answers)
        for promise in broken:
            print(f"world: {promise}")
        if told != Told(maker.answers, None):
            stop("world", maker.lines, lambda lines: model_of_world(roster, lines), lambda lines: runner.run("world", text_of(lines), roster), roster)
        if broken:
            print_lines("roster", split_lines(roster))
            print_lines("script", maker.lines)
            sys.exit(1)
        compared += len(told.answers)
        done += maker.world.last_number - len(maker.world.pending)
        admitted += len(maker.world.admitted)
    print(f"world: {count} scripts, {compared} lines equal; {admitted} members admitted, {done} numbers done, no promise broken", flush=True)


def compare_rosters(runner: Runner, random: Random, count: int) -> None:
    faults: dict[str, int] = {}
    for _ in range(count):
        roster = any_roster(random)
        told = model_of_world(roster, SHORT_SCRIPT)
        if told != runner.run("world", text_of(SHORT_SCRIPT), roster):
            stop("roster", SHORT_SCRIPT, lambda lines: model_of_world(roster, lines), lambda lines: runner.run("world", text_of(lines), roster), roster)
        name = told.fault or "no fault"
        faults[name] = faults.get(name, 0) + 1
    print(f"rosters: {count} equal: " + ", ".join(f"{number} {name}" for name, number in sorted(faults.items())), flush=True)


def main() -> None:
    program, seed, count = sys.argv[1], int(sys.argv[2]), int(sys.argv[3])
    random = Random(seed)
    with tempfile.TemporaryDirectory() as work:
        runner = Runner(program, Path(work))
        compare_lines(runner, random, "wire icp", count)
        compare_lines(runner, random, "wire htcp", count)
        compare_lines(runner, random, "answer", count)
        compare_rosters(runner, random, 2 * count)
        compare_worlds(runner, random, count)


if __name__ == "__main__":
    main()
