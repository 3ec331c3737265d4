"""`cache answer`, `cache wire icp` and `cache wire htcp`: docs/FORMATS.md, the headings of these names."""

import dataclasses
from collections.abc import Callable

from model.fault import Fault
from model.htcp import MOST_NUMBER, read_htcp
from model.icp import read_icp
from model.keys import read_key
from model.lines import MOST_LINE_OCTETS, BadLine, decimal, hex_word, split_lines, split_words
from model.node import Node
from model.roster import Cache, Peer, Roster
from model.store import Answer, Copy

HOST = "127.0.0.1"
MASTER = (HOST, 4800)
STRANGER = ("127.0.0.9", 9)
MOMENT = 0
LIFETIME = 60


def member(identity: int, peer: int) -> Cache:
    ports = [(HOST, base + identity) for base in (8100, 3100, 4100)]
    return Cache(identity, f"n{identity}", *ports, (Peer(peer, "sibling", "icp"),))


def first_node() -> Node:
    """Member 1 of two siblings that ask each other by ICP."""
    roster = Roster(LIFETIME, 1000, 1_048_576, MASTER, {1: member(1, 2), 2: member(2, 1)})
    return Node(roster, 1)


def place(node: Node, key: bytes, stamp: int) -> str:
    """A copy that is put by hand."""
    if stamp < node.floors.of(key):
        return "Old"
    told = node.store.put(Copy(key, stamp, MOMENT, LIFETIME, Answer(200)))
    return "stored" if told == "Stored" else told


def answer_line(node: Node, line: bytes) -> str:
    other = node.roster.nodes[2]
    match split_words(line):
        case [b"store", url]:
            return place(node, read_key(url), node.floors.seen)
        case [b"store", url, word]:
            stamp = decimal(word, MOST_NUMBER)
            if stamp is None:
                raise BadLine
            return place(node, read_key(url), stamp)
        case [b"icp", word]:
            reply = node.icp(other.icp, hex_word(word), MOMENT)
        case [b"htcp", word]:
            reply = node.htcp(other.htcp, hex_word(word), MOMENT)
        case [b"master", word]:
            reply = node.htcp(MASTER, hex_word(word), MOMENT)
        case [b"stranger", word]:
            reply = node.htcp(STRANGER, hex_word(word), MOMENT)
        case _:
            raise BadLine
    return reply.sent[0].octets.hex() if reply.sent else "nothing"


def shown(value: bytes | int | str) -> str:
    return value.hex() or "-" if isinstance(value, bytes) else str(value)


def icp_line(line: bytes) -> str:
    message = read_icp(datagram_of(line))
    fields = dataclasses.astuple(message)
    return " ".join(map(shown, fields if message.operation == "HitObj" else fields[:3]))


def htcp_line(line: bytes) -> str:
    message = read_htcp(datagram_of(line))
    return " ".join(map(shown, (type(message).__name__, *dataclasses.astuple(message))))


def datagram_of(line: bytes) -> bytes:
    words = split_words(line)
    if len(words) != 1:
        raise BadLine
    return hex_word(words[0])


def answered(answer: Callable[[bytes], str], line: bytes) -> bytes:
    try:
        return answer(line).encode()
    except BadLine:
        return b"bad line"
    except Fault as fault:
        return fault.name.encode()


def play_lines(command: str, script: bytes) -> tuple[list[bytes], str | None]:
    """The answers to the lines, and the fault that ends the run, if one does."""
    node = first_node()
    answer = {"answer": lambda line: answer_line(node, line), "wire icp": icp_line, "wire htcp": htcp_line}[command]
    answers: list[bytes] = []
    for line in split_lines(script):
        if len(line) > MOST_LINE_OCTETS:
            return answers, "LineTooLong"
        answers.append(answered(answer, line))
    return answers, None
