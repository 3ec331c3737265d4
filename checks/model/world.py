"""`cache world FILE`: docs/FORMATS.md, the heading of that name, and docs/RULES.md, "The master of purges". What is written here beside the
answers, for docs/SAFETY.md: which lines were requests to a sibling, and for each body its key and the line whose step began its reading."""

from dataclasses import dataclass, field

from model.fault import Fault
from model.htcp import BASE_LINE, NUMBER_LINE, ClrAnswer, ClrAsk, TstAsk, number_line, read_htcp, write_htcp
from model.icp import read_icp
from model.keys import read_key
from model.lines import BadLine, number_word, split_words
from model.node import SERIALS_OF_BLOCK, BeginFetch, BeginRead, BeginRound, Datagram, Node, Reply
from model.roster import Roster
from model.store import MAX_AGE_60, Answer

MOST_PENDING = 1_024
MOST_BODY_OCTETS = 65_536
NO_BODY_STATUSES = (204, 304)


@dataclass(frozen=True)
class MemberAsk:
    asker: int
    asked: int
    serial: int
    key: bytes
    only_if_cached: bool


@dataclass(frozen=True)
class MemberAnswer:
    sender: int
    ask: MemberAsk
    answer: Answer


@dataclass
class Pending:
    """What the master waits for under a number: a purge of a key, or an admission, which has none."""

    key: bytes | None
    needed: set[int]
    acknowledged: set[int] = field(default_factory=set)


def is_query(datagram: Datagram) -> bool:
    if datagram.protocol == "icp":
        return read_icp(datagram.octets).operation == "Query"
    return isinstance(read_htcp(datagram.octets), TstAsk)


class World:
    def __init__(self, roster: Roster) -> None:
        self.roster = roster
        self.nodes = {identity: Node(roster, identity) for identity in roster.nodes}
        self.clock = 0
        self.datagrams: list[Datagram] = []
        self.asks: list[MemberAsk] = []
        self.answers: list[MemberAnswer] = []
        self.last_number = 0
        self.pending: dict[int, Pending] = {}
        """By number."""
        self.admitted: dict[int, int] = {}
        """The numbers of the admissions, done or not, by member."""
        self.served_asks: dict[tuple[int, int], MemberAsk] = {}
        """The asks of members that wait at a member, by it and the block that the ask has there."""
        self.line = 0
        self.read_began: dict[tuple[int, int], int] = {}
        self.body_sources: dict[bytes, tuple[bytes, int]] = {}
        self.sibling_requests: set[int] = set()

    def play(self, line: bytes) -> bytes:
        """The answer to one line."""
        self.line += 1
        try:
            told = self.play_words(split_words(line))
        except BadLine:
            told = b"bad line"
        except Fault as fault:
            told = fault.name.encode()
        return b"%d %s" % (self.line, told)

    def play_words(self, words: list[bytes]) -> bytes:
        match words:
            case [b"clock", moment]:
                self.clock = number_word(moment, 64)
                return b"-"
            case [b"client", member, url]:
                return self.event(self.client, number_word(member, 8), read_key(url), False)
            case [b"client", member, url, b"only-if-cached"]:
                return self.event(self.client, number_word(member, 8), read_key(url), True)
            case [b"datagram", place]:
                return self.event(self.datagram, number_word(place, 64))
            case [b"ask", place]:
                return self.event(self.ask, number_word(place, 64))
            case [b"answer", place]:
                return self.event(self.answer, number_word(place, 64), None)
            case [b"answer", place, serial]:
                return self.event(self.answer, number_word(place, 64), number_word(serial, 32))
            case [b"origin", member, serial, status, body]:
                answer = self.origin_answer(number_word(status, 16), body)
                return self.event(self.origin, number_word(member, 8), number_word(serial, 32), answer)
            case [b"fail", member, serial]:
                return self.event(self.fail, number_word(member, 8), number_word(serial, 32))
            case [b"expire", member, serial]:
                return self.event(self.expire, number_word(member, 8), number_word(serial, 32))
            case [b"fault", member]:
                return self.event(self.close, number_word(member, 8))
            case [b"restart", member]:
                return self.event(self.restart, number_word(member, 8))
            case [b"issue", url]:
                return self.event(self.issue, read_key(url))
            case [b"admit", member]:
                return self.event(self.admit, number_word(member, 8))
            case [b"resend"]:
                return self.event(self.resend)
            case [b"status", purge]:
                return self.event(self.status, number_word(purge, 32))
            case [b"master"]:
                return b"-"
        raise BadLine

    def event(self, apply, *arguments) -> bytes:
        try:
            return apply(*arguments) or b"-"
        except Fault as fault:
            return b"refused " + fault.name.encode()

    def node(self, identity: int) -> Node:
        if identity not in self.nodes:
            raise Fault("NoSuchPacket")
        return self.nodes[identity]

    # What a step of a member tells.

    def send(self, datagrams: list[Datagram]) -> bytes:
        first = len(self.datagrams) + 1
        self.datagrams += datagrams
        places = range(first, len(self.datagrams) + 1)
        return b"send " + b" ".join(b"%d" % place for place in places) if datagrams else b""

    def tell(self, member: int, reply: Reply, ask: MemberAsk | None = None) -> bytes:
        """The ask is the one that came in this event from a member: it is answered now, or waits."""
        told = []
        if ask is not None and reply.served is None:
            self.served_asks[member, reply.begun.serial // SERIALS_OF_BLOCK] = ask
        if reply.served is not None:
            answer = reply.served.answer
            is_copy = reply.served.copy is not None
            told.append(b"serve %d" % answer.status + (b" stamp %d body %s" % (answer.stamp, answer.body) if is_copy else b""))
            if reply.asker is not None:
                answered = ask if reply.block is None else self.served_asks.pop((member, reply.block))
                self.answers.append(MemberAnswer(member, answered, answer))
                told.append(b"answer %d" % len(self.answers))
        if isinstance(reply.begun, BeginRound):
            told.append(b"round %d" % reply.begun.serial)
        told.append(self.send(reply.sent))
        if isinstance(reply.begun, BeginFetch):
            begun = reply.begun
            self.asks.append(MemberAsk(member, begun.peer, begun.serial, begun.key, begun.only_if_cached))
            told.append(b"ask %d" % len(self.asks))
        if isinstance(reply.begun, BeginRead):
            self.read_began[member, reply.begun.serial] = self.line
            told.append(b"read %d" % reply.begun.serial)
        return b" ".join(filter(None, told))

    # The events, one for each kind of line.

    def client(self, member: int, key: bytes, only_if_cached: bool) -> bytes:
        return self.tell(member, self.node(member).ask(key, only_if_cached, None, self.clock))

    def datagram(self, place: int) -> bytes:
        datagram = packet(self.datagrams, place)
        if is_query(datagram):
            self.sibling_requests.add(self.line)
        if datagram.receiver == self.roster.master:
            return self.acknowledge(datagram)
        for node in self.nodes.values():
            if getattr(node.me, datagram.protocol) == datagram.receiver:
                receive = node.icp if datagram.protocol == "icp" else node.htcp
                return self.tell(node.id, receive(datagram.sender, datagram.octets, self.clock))
        raise Fault("NoSuchPacket")

    def ask(self, place: int) -> bytes:
        ask = packet(self.asks, place)
        if self.roster.is_sibling(ask.asker, ask.asked):
            self.sibling_requests.add(self.line)
        reply = self.node(ask.asked).ask(ask.key, ask.only_if_cached, ask.asker, self.clock)
        return self.tell(ask.asked, reply, ask)

    def answer(self, place: int, serial: int | None) -> bytes:
        answer = packet(self.answers, place)
        receiver = answer.ask.asker
        at = answer.ask.serial if serial is None else serial
        return self.tell(receiver, self.nodes[receiver].peer_answer(at, answer.sender, answer.ask.key, answer.answer, self.clock))

    def origin_answer(self, status: int, body: bytes) -> Answer:
        if not 200 <= status <= 599 or status in NO_BODY_STATUSES or len(body) > MOST_BODY_OCTETS:
            raise BadLine
        return Answer(status, (MAX_AGE_60,), body)

    def origin(self, member: int, serial: int, answer: Answer) -> bytes:
        node = self.node(member)
        try:
            waiting, fetch = node.fetching(serial)
        except Fault:
            raise Fault("NotPending") from None
        if fetch.peer is not None:
            raise Fault("NotPending")
        self.body_sources[answer.body] = (waiting.key, self.read_began[member, serial])
        return self.tell(member, node.origin_answer(serial, answer, self.clock))

    def fail(self, member: int, serial: int) -> bytes:
        return self.tell(member, self.node(member).fetch_failed(serial, self.clock))

    def expire(self, member: int, serial: int) -> bytes:
        return self.tell(member, self.node(member).round_over(serial, self.clock))

    def close(self, member: int) -> bytes:
        self.node(member).close()
        return b""

    def restart(self, member: int) -> bytes:
        self.node(member).restart()
        return b""

    # The master.

    def clear(self, number: int, member: int) -> Datagram:
        """The CLR of a purge or of an admission: its TRANS-ID is the number, and a line of its REQ-HDRS tells it. An admission has no URI."""
        key = self.pending[number].key
        line = number_line(BASE_LINE if key is None else NUMBER_LINE, number)
        message = ClrAsk(number, 1, 0, b"GET", key or b"", b"HTTP/1.1", line)
        return Datagram(self.roster.master, self.roster.nodes[member].htcp, "htcp", write_htcp(message))

    def give_number(self, key: bytes | None, needed: set[int]) -> int:
        if len(self.pending) >= MOST_PENDING:
            raise Fault("TooManyPending")
        self.last_number += 1
        self.pending[self.last_number] = Pending(key, needed)
        return self.last_number

    def issue(self, key: bytes) -> bytes:
        """A purge needs the founding members, and those that were admitted before it."""
        founding = {node.id for node in self.nodes.values() if not node.me.joins}
        number = self.give_number(key, founding | set(self.admitted))
        return b"purge %d " % number + self.send_again(number)

    def admit(self, member: int) -> bytes:
        if member not in self.nodes or not self.nodes[member].me.joins or member in self.admitted:
            raise Fault("NotJoining")
        number = self.give_number(None, {member})
        self.admitted[member] = number
        return b"admitted %d " % number + self.send_again(number)

    def missing(self, number: int) -> list[int]:
        pending = self.pending[number]
        return sorted(pending.needed - pending.acknowledged)

    def send_again(self, *numbers: int) -> bytes:
        return self.send([self.clear(number, member) for number in numbers for member in self.missing(number)])

    def resend(self) -> bytes:
        return self.send_again(*sorted(self.pending))

    def status(self, number: int) -> bytes:
        if number in self.pending:
            return b"pending %d" % len(self.missing(number))
        return b"done %d" % number if 1 <= number <= self.last_number else b"unknown"

    def acknowledge(self, datagram: Datagram) -> bytes:
        """A response to a CLR of the code 0 or 2 marks the member that sent it, if its number needs it."""
        message = read_htcp(datagram.octets)
        if not isinstance(message, ClrAnswer):
            return b""
        pending = self.pending.get(message.number)
        if pending is not None and message.response in (0, 2):
            pending.acknowledged |= {member for member in pending.needed if self.roster.nodes[member].htcp == datagram.sender}
            if not self.missing(message.number):
                del self.pending[message.number]
        return self.status(message.number)


def packet(packets: list, place: int):
    """What was sent at this place, counted from 1."""
    if not 1 <= place <= len(packets):
        raise Fault("NoSuchPacket")
    return packets[place - 1]
