"""The rules of a node: docs/RULES.md, "Floors" and "The node" (RFC 2186, RFC 2756, RFC 2187, RFC 9111)."""

from dataclasses import dataclass, field

from model.fault import Fault
from model.floors import Floors
from model.htcp import (BASE_LINE, CLR, NUMBER_LINE, STAMP_LINE, TST, ClrAnswer, ClrAsk, NopAnswer, NopAsk, Other, OtherAnswer, Overall, TstAsk, TstHit,
                        TstMiss, number_in, number_line, read_htcp, write_htcp)
from model.icp import IcpMessage, read_icp, write_icp
from model.keys import origin_of, read_key
from model.roster import FIRST_FOREIGN, Address, Peer, Roster
from model.round import Round, ToPeer, may_be_asked
from model.store import Answer, Copy, Store, lifetime_of

MOST_WAITING = 1_024
LAST_BLOCK = 134_217_727
SERIALS_OF_BLOCK = 32
MOST_READS = 3
GONE, NOT_HELD, REFUSED = 0, 2, 5
FAILED_STATUSES = (502, 503, 504)


def block_after(block: int) -> int:
    return block + 1 if block < LAST_BLOCK else 1


@dataclass(frozen=True)
class Datagram:
    sender: Address
    receiver: Address
    protocol: str
    octets: bytes


@dataclass(frozen=True)
class Served:
    """A copy with the age that it has now, or a status alone."""

    answer: Answer
    copy: Copy | None = None


@dataclass(frozen=True)
class BeginRound:
    serial: int


@dataclass(frozen=True)
class BeginFetch:
    serial: int
    peer: int
    key: bytes
    only_if_cached: bool


@dataclass(frozen=True)
class BeginRead:
    serial: int


@dataclass
class Reply:
    """What a step tells: who is served what (a waiting ask by its block), what is sent, and what begins."""

    served: Served | None = None
    asker: int | None = None
    block: int | None = None
    sent: list[Datagram] = field(default_factory=list)
    begun: BeginRound | BeginFetch | BeginRead | None = None


@dataclass
class Fetch:
    """A fetch that runs: of a peer, or, without one, a read of the origin under the stamp that it bears."""

    serial: int
    peer: int | None
    began_at: int
    stamp: int = 0


@dataclass
class Waiting:
    """An ask that waits."""

    block: int
    key: bytes
    asker: int | None
    round: Round | None = None
    fetch: Fetch | None = None
    fetches: int = 0
    reads: int = 0
    tried: list[int] = field(default_factory=list)


class Node:
    def __init__(self, roster: Roster, identity: int) -> None:
        self.roster = roster
        self.id = identity
        self.me = roster.nodes[identity]
        self.floors = Floors()
        self.restart()

    def restart(self) -> None:
        """A node that starts again has its floors and nothing else."""
        self.is_closed = False
        self.store = Store(self.roster.copies, self.roster.octets)
        self.waiting: dict[int, Waiting] = {}
        self.next_block = 1

    def close(self) -> None:
        self.is_closed = True
        self.waiting = {}

    def refuse_if_closed(self) -> None:
        if self.is_closed:
            raise Fault("Closed")

    @property
    def is_outside(self) -> bool:
        """A joining member without a base serves nothing and answers no question."""
        return self.me.joins and self.floors.base == 0

    def servable(self, key: bytes, now: int) -> Copy | None:
        """The copy that may be served: it is fresh, and its stamp is at least the key's floor."""
        copy = self.store.peek(key)
        return copy if copy is not None and copy.stamp >= self.floors.of(key) and copy.is_fresh(now) else None

    def is_known(self, sender: Address, protocol: str) -> bool:
        others = {identity for identity in self.roster.nodes if identity != self.id} | {peer.id for peer in self.me.peers}
        return any(getattr(self.roster.cache(identity), protocol) == sender for identity in others)

    # An ask comes.

    def ask(self, key: bytes, only_if_cached: bool, asker: int | None, now: int) -> Reply:
        """From a client, or from a member; what a sibling asks for is served from what is held alone (RFC 2187, section 1)."""
        self.refuse_if_closed()
        if self.is_outside:
            return Reply(Served(Answer(503)), asker)
        copy = self.servable(key, now)
        if copy is not None:
            self.store.move_to_front(key)
            return Reply(self.serve(copy, now), asker)
        if only_if_cached or asker is not None and self.roster.is_sibling(asker, self.id):
            return Reply(Served(Answer(504)), asker)
        if len(self.waiting) >= MOST_WAITING:
            raise Fault("Busy")
        asked = [peer for peer in self.me.peers if may_be_asked(peer, self.floors.of(key))]
        waiting = Waiting(self.free_block(), key, asker)
        self.next_block = block_after(waiting.block)
        if not asked and origin_of(key) not in self.roster.origins:
            return Reply(Served(Answer(502)), asker)
        self.waiting[waiting.block] = waiting
        if not asked:
            return self.go_on(waiting, now)
        waiting.round = Round(asked)
        serial = waiting.block * SERIALS_OF_BLOCK
        return Reply(sent=[self.query(peer, serial, key) for peer in asked], begun=BeginRound(serial))

    def free_block(self) -> int:
        """The first block from the next one on, going round, that no ask which waits has."""
        block = self.next_block
        while block in self.waiting:
            block = block_after(block)
        return block

    def query(self, peer: Peer, serial: int, key: bytes) -> Datagram:
        other = self.roster.cache(peer.id)
        if peer.by == "icp":
            return Datagram(self.me.icp, other.icp, "icp", write_icp(IcpMessage("Query", serial, key)))
        return Datagram(self.me.htcp, other.htcp, "htcp", write_htcp(TstAsk(serial, 1, b"GET", key, b"HTTP/1.1", b"")))

    def go_on(self, waiting: Waiting, now: int) -> Reply:
        """An ask that is not fetching goes on as its round says; without a round it reads the origin."""
        if waiting.round is None:
            return self.read_origin(waiting, now)
        choice = waiting.round.choose(self.floors.of(waiting.key), waiting.tried)
        if choice is None:
            return Reply()
        if not isinstance(choice, ToPeer):
            return self.read_origin(waiting, now)
        serial = self.begin_fetch(waiting, choice.peer, now)
        return Reply(begun=BeginFetch(serial, choice.peer, waiting.key, choice.only_if_cached))

    def read_origin(self, waiting: Waiting, now: int) -> Reply:
        """At most three times, and only an origin that the roster has."""
        if waiting.reads == MOST_READS:
            return self.end(waiting, Served(Answer(503)))
        if origin_of(waiting.key) not in self.roster.origins:
            return self.end(waiting, Served(Answer(502)))
        waiting.reads += 1
        return Reply(begun=BeginRead(self.begin_fetch(waiting, None, now)))

    def begin_fetch(self, waiting: Waiting, peer: int | None, now: int) -> int:
        waiting.fetches += 1
        serial = waiting.block * SERIALS_OF_BLOCK + waiting.fetches
        waiting.fetch = Fetch(serial, peer, now, self.floors.seen)
        return serial

    def end(self, waiting: Waiting, served: Served) -> Reply:
        del self.waiting[waiting.block]
        return Reply(served, waiting.asker, waiting.block)

    def serve(self, copy: Copy, now: int) -> Served:
        answer = copy.answer
        return Served(Answer(answer.status, answer.fields, answer.body, copy.served_age(now), copy.stamp), copy)

    # An answer comes.

    def fetching(self, serial: int) -> tuple[Waiting, Fetch]:
        self.refuse_if_closed()
        waiting = self.waiting.get(serial // SERIALS_OF_BLOCK)
        if waiting is None or waiting.fetch is None or waiting.fetch.serial != serial:
            raise Fault("UnknownSerial")
        return waiting, waiting.fetch

    def peer_answer(self, serial: int, peer: int, key: bytes, answer: Answer, now: int) -> Reply:
        """A member's counts with the stamp that it bears, 0 where it bears none."""
        waiting, fetch = self.fetching(serial)
        if fetch.peer != peer or waiting.key != key:
            raise Fault("UnknownSerial")
        stamp = answer.stamp or 0
        if answer.status in FAILED_STATUSES or stamp < self.floors.of(key):
            return self.try_another(waiting, peer, now)
        return self.use(waiting, fetch, answer, stamp, now)

    def try_another(self, waiting: Waiting, peer: int, now: int) -> Reply:
        waiting.fetch = None
        waiting.tried.append(peer)
        return self.go_on(waiting, now)

    def origin_answer(self, serial: int, answer: Answer, now: int) -> Reply:
        """It counts with the stamp that its read bore as it began."""
        waiting, fetch = self.fetching(serial)
        if fetch.stamp < self.floors.of(waiting.key):
            waiting.fetch = None
            return self.go_on(waiting, now)
        return self.use(waiting, fetch, answer, fetch.stamp, now)

    def use(self, waiting: Waiting, fetch: Fetch, answer: Answer, stamp: int, now: int) -> Reply:
        lifetime = lifetime_of(answer, self.roster.default_lifetime)
        copy = Copy(waiting.key, stamp, fetch.began_at, lifetime or 0, answer)
        if lifetime is not None:
            self.store.put(copy)
        return self.end(waiting, self.serve(copy, now))

    def fetch_failed(self, serial: int, now: int) -> Reply:
        waiting, fetch = self.fetching(serial)
        if fetch.peer is None:
            return self.end(waiting, Served(Answer(502)))
        return self.try_another(waiting, fetch.peer, now)

    def round_over(self, serial: int, now: int) -> Reply:
        self.refuse_if_closed()
        waiting = self.waiting_round(serial)
        if waiting is None or waiting.round is None:
            raise Fault("UnknownSerial")
        waiting.round.is_over = True
        return Reply() if waiting.fetch is not None else self.go_on(waiting, now)

    # A datagram comes.

    def waiting_round(self, number: int) -> Waiting | None:
        waiting = self.waiting.get(number // SERIALS_OF_BLOCK)
        return waiting if waiting is not None and waiting.round is not None and number % SERIALS_OF_BLOCK == 0 else None

    def told(self, number: int, sender: Address, protocol: str, kind: str, stamp: int | None, now: int, url: bytes | None = None) -> Reply:
        """A peer's answer to a round. It counts where that peer was asked by this protocol and sent it from its address, and, in ICP, its URL's key
        is the ask's."""
        waiting = self.waiting_round(number)
        if waiting is None or waiting.round is None or url is not None and key_or_none(url) != waiting.key:
            return Reply()
        for peer in waiting.round.asked:
            if peer.by == protocol and getattr(self.roster.cache(peer.id), protocol) == sender:
                is_news = waiting.round.tell(peer, kind, stamp if peer.id < FIRST_FOREIGN else None)
                return self.go_on(waiting, now) if is_news and waiting.fetch is None else Reply()
        return Reply()

    def icp(self, sender: Address, octets: bytes, now: int) -> Reply:
        message = read_icp(octets)
        self.refuse_if_closed()
        if message.operation == "Query":
            answer = IcpMessage(self.icp_operation(sender, message.url, now), message.number, message.url)
            return Reply(sent=[Datagram(self.me.icp, sender, "icp", write_icp(answer))])
        kind = {"Hit": "hit", "HitObj": "hit", "Miss": "miss"}.get(message.operation, "none")
        return self.told(message.number, sender, "icp", kind, None, now, message.url)

    def icp_operation(self, sender: Address, url: bytes, now: int) -> str:
        if self.is_outside or not self.is_known(sender, "icp"):
            return "Denied"
        key = key_or_none(url)
        if key is None:
            return "Error"
        return "Miss" if self.servable(key, now) is None else "Hit"

    def htcp(self, sender: Address, octets: bytes, now: int) -> Reply:
        """Where no response is desired nothing is sent, and the rest holds."""
        message = read_htcp(octets)
        self.refuse_if_closed()
        match message:
            case TstHit(number, _, _, cache_headers):
                return self.told(number, sender, "htcp", "hit", stamp_or_none(cache_headers), now)
            case TstMiss(number):
                return self.told(number, sender, "htcp", "miss", None, now)
            case (Overall(number, opcode) | OtherAnswer(number, opcode)) if opcode == TST:
                return self.told(number, sender, "htcp", "none", None, now)
            case NopAsk(number):
                answer = NopAnswer(number)
            case Other(number, opcode):
                answer = Overall(number, opcode, 2)
            case TstAsk():
                answer = self.tst(sender, message, now)
            case ClrAsk():
                answer = self.clr(sender, message)
            case _:
                return Reply()
        return Reply(sent=[Datagram(self.me.htcp, sender, "htcp", write_htcp(answer))] if message.desired else [])

    def tst(self, sender: Address, message: TstAsk, now: int) -> TstHit | TstMiss | Overall:
        if self.is_outside or not self.is_known(sender, "htcp"):
            return Overall(message.number, TST, REFUSED)
        key = key_or_none(message.uri)
        copy = self.servable(key, now) if key is not None and message.method == b"GET" else None
        if copy is None:
            return TstMiss(message.number, b"")
        return TstHit(message.number, b"", b"", number_line(STAMP_LINE, copy.stamp))

    def clr(self, sender: Address, message: ClrAsk) -> ClrAnswer | Overall:
        refused = Overall(message.number, CLR, REFUSED)
        key = key_or_none(message.uri)
        try:
            number = number_in(message.request_headers, NUMBER_LINE)
            base = number_in(message.request_headers, BASE_LINE)
        except Fault:
            return refused
        if base is not None:
            if sender != self.roster.master or base != message.number or base < 1 or number is not None:
                return refused
            return ClrAnswer(message.number, self.raise_base(base))
        if number is None:
            if not self.is_known(sender, "htcp") and sender != self.roster.master:
                return refused
            return ClrAnswer(message.number, self.drop(key, None))
        if sender != self.roster.master or number != message.number or number < 1 or key is None:
            return refused
        return ClrAnswer(message.number, self.purge(key, number))

    def purge(self, key: bytes, number: int) -> int:
        """Raises the key's floor, and tells by a code whether the key's copy went. Where the base rises, all copies below it go."""
        base = self.floors.raise_to(key, number)
        code = self.drop(key, max(number, base))
        if base:
            self.store.remove_all_below(base)
        return code

    def raise_base(self, number: int) -> int:
        """Tells by a code whether a copy went, of whatever key."""
        self.floors.raise_base(number)
        held = len(self.store.copies)
        self.store.remove_all_below(number)
        return GONE if len(self.store.copies) < held else NOT_HELD

    def drop(self, key: bytes | None, below: int | None) -> int:
        """Removes the copy of the key, or only one whose stamp is less; tells by a code whether one went."""
        copy = self.store.peek(key) if key is not None else None
        if copy is None or below is not None and copy.stamp >= below:
            return NOT_HELD
        self.store.remove(copy.key)
        return GONE


def key_or_none(text: bytes) -> bytes | None:
    try:
        return read_key(text)
    except Fault:
        return None


def stamp_or_none(cache_headers: bytes) -> int | None:
    """A stamp's line that is bad counts as absent."""
    try:
        return number_in(cache_headers, STAMP_LINE)
    except Fault:
        return None
