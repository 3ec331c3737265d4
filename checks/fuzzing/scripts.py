"""Scripts and rosters, each played by a run of the program and by checks/model."""

import contextlib
import subprocess
from pathlib import Path
from random import Random

from fuzzing.inputs import changed, mutated
from fuzzing.trial import Trial
from model.__main__ import Runner, Told, model_of_lines, model_of_world, smaller, text_of
from model.htcp import NUMBER_LINE, STAMP_LINE, ClrAnswer, ClrAsk, TstAsk, TstHit, number_line, write_htcp
from model.icp import IcpMessage, write_icp
from model.make_datagrams import made_htcp, made_icp
from model.make_lines import CLEARS, STAMPS, question
from model.make_lines import KINDS as LINE_KINDS
from model.make_rosters import any_roster
from model.make_urls import KEYS, made_url
from model.make_worlds import world_script

LINES = 200
NOP = bytes.fromhex("000e000000080002000000070002")
WORDS = [b" ", b"  ", b"\t", b"\r", b"\0", b"icp ", b"htcp ", b"master ", b"stranger ", b"store ", b"http://o/a", b"00", b"zz", b"-", b"client 1 ", b"only-if-cached",
         b"issue ", b"status ", b"resend", b"datagram 1", b"4294967296"]
TOML = [b"\n", b"\r\n", b"=", b"[", b"]", b"[[", b"]]", b"\"", b"'", b"\"\"\"", b"'''", b"#", b".", b",", b"{", b"}", b"true", b"1e9", b"0x10", b"1_000", b"inf", b"nan",
        b"1979-05-27", b"\\u0041", b"\\", b"[[node]]\n", b"[[node.peer]]\n", b"[[origin]]\n", b"[[foreign]]\n", b"[master]\n", b"id = 1\n", b"\xef\xbb\xbf", b"\xc3\xa9", b"\xff",
        b"9223372036854775808", b"a.b.c = 1\n", b"\"\" = 1\n"]


def datagram(random: Random, protocol: str, clears: float = 0.4) -> bytes:
    """A datagram that was changed."""
    return changed_datagram(random, protocol, made_icp(random) if protocol == "icp" else made_htcp(random, clears))


def changed_datagram(random: Random, protocol: str, made: bytes) -> bytes:
    """Changes a datagram. In most of them the lengths are mended then, so that what stands behind them is looked at."""
    octets = bytearray(mutated(random, made)[:65_507])
    if len(octets) >= 20 - 6 * (protocol == "htcp") and random.random() < 0.8:
        if protocol == "icp":
            octets[2:4] = len(octets).to_bytes(2, "big")
        else:
            octets[0:2], octets[4:6] = len(octets).to_bytes(2, "big"), (len(octets) - 6 - random.choice([0, 0, 0, 1])).to_bytes(2, "big")
            octets[-2:] = b"\0\2"
    return bytes(octets)


def wire_lines(random: Random, protocol: str) -> tuple[list[bytes], int]:
    """Datagrams in hex, a few of them changed as texts, and how many octets they have."""
    lines, octets = [], 0
    for _ in range(LINES):
        whole = datagram(random, protocol)
        octets += len(whole)
        line = whole.hex().encode()
        lines.append(changed(random, line, WORDS).replace(b"\n", b"") if random.random() < 0.02 else line)
    return lines, octets


def answer_lines(random: Random) -> tuple[list[bytes], int]:
    lines, octets = [], 0
    for _ in range(LINES):
        kind = random.choice(LINE_KINDS[:5])
        if kind == "store":
            line = b"store " + made_url(random).replace(b"\n", b"\v") + (b" " + random.choice(STAMPS) if random.random() < 0.6 else b"")
            octets += len(line)
        else:
            whole = datagram(random, "icp" if kind == "icp" else "htcp", CLEARS.get(kind, 0))
            octets += len(whole)
            line = kind.encode() + b" " + whole.hex().encode()
        lines.append(mutated(random, line, WORDS).replace(b"\n", b"") if random.random() < 0.05 else line)
    return lines + [question(random, key, 1) for key in KEYS], octets


def edges(octets: bytes) -> list[bytes]:
    """Each proper front of a datagram, and it with each octet set to 0 and to 255."""
    fronts = [octets[:length] for length in range(len(octets))]
    return fronts + [octets[:place] + bytes([octet]) + octets[place + 1:] for place in range(len(octets)) for octet in (0, 255)]


def edge_lines(random: Random, index: int) -> list[bytes]:
    """A datagram with its edges, each behind a copy and a floor, and before a question that shows the copy. The first ten are of each kind, the others any."""
    key, number = b"http://o/a", number_line(NUMBER_LINE, 7)
    specifier = (b"GET", key, b"HTTP/1.1")
    query = write_icp(IcpMessage("Query", 7, key))
    messages = [
        (b"icp", query), (b"icp", write_icp(IcpMessage("Hit", 7, key))), (b"icp", write_icp(IcpMessage("Miss", 7, key))),
        (b"htcp", write_htcp(TstAsk(7, 1, *specifier, b""))), (b"htcp", NOP), (b"htcp", write_htcp(TstHit(7, b"", b"", number_line(STAMP_LINE, 7)))),
        (b"master", write_htcp(ClrAsk(7, 1, 0, *specifier, number))), (b"htcp", write_htcp(ClrAsk(7, 1, 0, *specifier, b""))),
        (b"stranger", write_htcp(ClrAsk(7, 1, 0, *specifier, number))), (b"htcp", write_htcp(ClrAnswer(7, 0))),
    ]
    word, octets = messages[index] if index < len(messages) else any_message(random)
    lines = []
    for it in edges(octets):
        lines += [b"store " + key + b" 9", word + b" " + it.hex().encode(), b"icp " + query.hex().encode()]
    return lines


def any_message(random: Random) -> tuple[bytes, bytes]:
    """The word of a line, and a datagram of 300 octets at most, so that it has few edges."""
    word = random.choice([b"icp", b"htcp", b"master", b"stranger"])
    while True:
        octets = made_icp(random) if word == b"icp" else made_htcp(random, CLEARS.get(word.decode(), 0))
        if len(octets) <= 300:
            return word, octets


def edges_of_datagrams(trial: Trial, runner: Runner, index: int) -> None:
    lines = edge_lines(trial.random(index), index)
    compare(trial, runner, index, "answer", lines, sum(len(it.split(b" ")[1]) // 2 for it in lines[1::3]))


def told(runner: Runner, command: str, script: bytes, roster: bytes | None, waits: int) -> Told | str:
    """What the program tells, or the word `hang`."""
    try:
        return runner.run(command, script, roster)
    except subprocess.TimeoutExpired:
        return "hang"


def compare(trial: Trial, runner: Runner, index: int, command: str, lines: list[bytes], octets: int, roster: bytes | None = None) -> None:
    model = (lambda some: model_of_lines(command, some)) if roster is None else (lambda some: model_of_world(roster, some))
    wanted, came = model(lines), told(runner, command, text_of(lines), roster, trial.waits)
    counted = wanted.answers or [(wanted.fault or "no answer").encode()]
    for at, answer in enumerate(counted):
        known = answer.split(b" ")[0]
        trial.tried(octets if at == 0 else 0, known.decode("latin-1")[:24] if known.isalpha() else "a datagram or a value")
    if came == wanted:
        return
    if isinstance(came, str) or "status" in (came.fault or ""):
        what = "hang" if isinstance(came, str) else "crash"
        return trial.find(what, index, (roster or b"") + b"\0" * (roster is not None) + text_of(lines), came if isinstance(came, str) else came.fault)
    few = smaller(lines, lambda some: told(runner, command, text_of(some), roster, trial.waits) != model(some))
    says = told(runner, command, text_of(few), roster, trial.waits)
    trial.find("wrong answer", index, (roster or b"") + b"\0" * (roster is not None) + text_of(few), f"program {says}, model {model(few)}")


def wire_icp(trial: Trial, runner: Runner, index: int) -> None:
    compare(trial, runner, index, "wire icp", *wire_lines(trial.random(index), "icp"))


def wire_htcp(trial: Trial, runner: Runner, index: int) -> None:
    compare(trial, runner, index, "wire htcp", *wire_lines(trial.random(index), "htcp"))


def answer(trial: Trial, runner: Runner, index: int) -> None:
    compare(trial, runner, index, "answer", *answer_lines(trial.random(index)))


def rosters(trial: Trial, runner: Runner, index: int) -> None:
    random = trial.random(index)
    roster = any_roster(random)
    roster = changed(random, roster, TOML)[:20_000] if random.random() < 0.6 else roster
    compare(trial, runner, index, "world", [b"client 1 http://o/a", b"issue http://o/a"], len(roster), roster)


def world(trial: Trial, runner: Runner, index: int) -> None:
    random = trial.random(index)
    roster, maker = world_script(random)
    lines = [mutated(random, line, WORDS).replace(b"\n", b"") if random.random() < 0.1 else line for line in maker.lines]
    compare(trial, runner, index, "world", lines, sum(map(len, lines)), roster)


def begun(play):
    """A kind whose inputs are played by runs of the program."""

    @contextlib.contextmanager
    def begin(trial: Trial):
        runner = Runner(trial.program, Path(trial.folder))
        yield lambda index: play(trial, runner, index)

    return begin


# The kinds: what begins them, and of a hundred octets how many are theirs.
KINDS = {"wire icp": (begun(wire_icp), 14), "wire htcp": (begun(wire_htcp), 14), "answer": (begun(answer), 20),
         "edges of datagrams": (begun(edges_of_datagrams), 2), "rosters": (begun(rosters), 6), "world": (begun(world), 3)}
