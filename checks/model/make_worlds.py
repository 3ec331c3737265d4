"""Random scripts of `cache world`. The model's own world plays each line as it is made, so that the next one can name what is on its way."""

from collections.abc import Callable
from random import Random

from model.make_rosters import good_roster, toml_text
from model.roster import read_roster
from model.world import World

TEXTS = [[b"http://o/a", b"HTTP://O/a", b"http://o:/a", b"http://o:80/a", b"hTtP://o:00080/a"], [b"http://o/", b"http://o", b"http://O:080"], [b"http://o?q", b"http://o/?q"],
         [b"http://o/bb", b"http://O/bb"], [b"http://o/%41"], [b"http://o/A"], [b"http://o:8080/x", b"http://O:08080/x"], [b"http://p/", b"http://P:80/"],
         [b"http://q/", b"http://q:80"]]
BAD_URLS = [b"https://o/", b"/a", b"http://u@o/", b"http://o:0/", b"http://o/a#b", b"http://o/" + b"x" * 1016, b"http://o/\x7f", b"http://o:x/",
            b"*", b"http://o/a\r"]
BAD_LINES = [line.strip(b"\n") for line in b"""
 clock 1
clock
clock 01
clock +1
clock 18446744073709551616
clock 1 2
clock  1
clock 1\t
Clock 1
client 256 http://o/a
client 1
client 1 http://o/a only
client 1 http://o/a only-if-cached x
client 01 http://o/a
client 256 https://o/
client 1 https://o/ foo
datagram
datagram 1 2
datagram 00
ask 1 33
ask x
answer
answer 1 2 3
answer 1 4294967296
answer 1 033
origin 1 33 200
origin 1 33 199 x
origin 1 33 600 x
origin 1 33 204 x
origin 1 33 304 x
origin 1 33 65536 x
origin 1 33 200 x y
origin 1 33 0200 x
fail 1
expire 1 032
fault
fault 256
restart x
issue
issue http://o/a x
admit
admit 01
admit 256
admit 1 2
admit x
resend 1
status 4294967296
status -
master 1
quit
store http://o/a""".split(b"\n")] + [b"\xff", b"resend\r", b"clock \xd9\xa1"]
STATUSES = [200] * 6 + [404, 500, 503, 302, 599, 410, 502, 504, 203, 300, 301, 206, 201]
MOST_SENT_AGAIN = 60
ORIGIN = {"host": "o", "port": 80, "address": "127.0.0.1", "connect": 8080}


class ScriptMaker:
    """Makes lines by weights that are drawn anew for each script: some lose much, some repeat much, some purge much."""

    def __init__(self, random: Random, world: World) -> None:
        self.random = random
        self.world = world
        self.members = list(world.nodes)
        self.texts = random.sample(TEXTS, random.choice([1, 1, 2, 3, 5]))
        self.texts[0] = TEXTS[0]
        self.statuses = random.choice([[200], STATUSES])
        self.loss = random.choice([0, 0.1, 0.3])
        self.bodies = 0
        self.lines: list[bytes] = []
        self.answers: list[bytes] = []
        self.ahead: dict[str, list[int]] = {"datagram": [], "ask": [], "answer": []}
        self.kinds = self.weights()

    def weights(self) -> dict[Callable[[], bytes | None], float]:
        choose = self.random.choice
        return {
            self.client: choose([3, 6, 12]), self.client_of_cached: choose([0, 0.5, 2]),
            self.datagram: choose([15, 25, 40]), self.ask: choose([5, 10, 15]), self.answer: choose([2, 5, 12]),
            self.sent_before: choose([0, 2, 6]), self.answer_elsewhere: choose([0, 1, 4]),
            self.origin: choose([3, 8, 12]), self.fail: choose([0, 0.5, 2]), self.expire: choose([0, 0.7, 3]),
            self.close: choose([0, 0, 0.15, 0.6]), self.restart: choose([0, 0, 0.3, 1]),
            self.issue: choose([0.3, 1, 2.5, 5]), self.admit: choose([0, 0.3, 1, 3]), self.resend: choose([0, 0.3, 1]), self.status: choose([0.2, 1]), self.master: choose([0, 0.2]),
            self.clock: choose([0, 0.5, 1.5]), self.bad: choose([0, 0.2, 1]), self.stray: choose([0, 0.2, 1]),
        }

    def race(self) -> None:
        """One page, read, handed on and purged all the time: what comes late meets a floor that has risen."""
        choose = self.random.choice
        self.texts = self.texts[:1]
        self.kinds |= {
            self.client: choose([4, 8]), self.datagram: choose([25, 40]), self.ask: 15, self.answer: choose([2, 12]), self.answer_elsewhere: choose([2, 6]),
            self.origin: choose([3, 10]), self.issue: choose([1, 2, 4]), self.admit: choose([0.3, 1, 3]), self.close: choose([0, 0, 0.1]), self.restart: choose([0, 0.2]), self.bad: 0,
            self.stray: 0.1,
        }

    def make(self, count: int) -> None:
        while len(self.lines) < count:
            line = self.random.choices(list(self.kinds), list(self.kinds.values()))[0]()
            if line is not None:
                self.put(line)

    def put(self, line: bytes) -> None:
        sent = {"datagram": self.world.datagrams, "ask": self.world.asks, "answer": self.world.answers}
        counts = {kind: len(packets) for kind, packets in sent.items()}
        self.lines.append(line)
        self.answers.append(self.world.play(line))
        for kind, packets in sent.items():
            loss = self.loss if kind == "datagram" else 0
            self.ahead[kind] += [place for place in range(counts[kind] + 1, len(packets) + 1) if self.random.random() >= loss]

    def member(self) -> int:
        return self.random.choice(self.members)

    def url(self) -> bytes:
        return self.random.choice(self.random.choice(self.texts))

    def client(self) -> bytes:
        return b"client %d %s" % (self.member(), self.url())

    def client_of_cached(self) -> bytes:
        return self.client() + b" only-if-cached"

    def delivery(self, kind: str) -> bytes | None:
        """Mostly one of the oldest that are on their way, at times any."""
        ahead = self.ahead[kind]
        if not ahead:
            return None
        most = min(len(ahead), 3) if self.random.random() < 0.7 else len(ahead)
        return b"%s %d" % (kind.encode(), ahead.pop(self.random.randrange(most)))

    def datagram(self) -> bytes | None:
        return self.delivery("datagram")

    def ask(self) -> bytes | None:
        return self.delivery("ask")

    def answer(self) -> bytes | None:
        return self.delivery("answer")

    def sent_before(self) -> bytes:
        """For the first time or again, or a place that nothing has."""
        kind, packets = self.random.choice([(b"datagram", self.world.datagrams), (b"ask", self.world.asks), (b"answer", self.world.answers)])
        return b"%s %d" % (kind, self.random.randrange(len(packets) + 2))

    def fetches(self, of_origin: bool) -> list[tuple[int, int]]:
        fetching = [(node.id, waiting.fetch) for node in self.world.nodes.values() for waiting in node.waiting.values() if waiting.fetch is not None]
        return [(member, fetch.serial) for member, fetch in fetching if (fetch.peer is None) == of_origin]

    def answer_elsewhere(self) -> bytes | None:
        """An answer that comes under another serial of its receiver, one that it fits if there is one."""
        fits, runs = [], []
        for place, answer in enumerate(self.world.answers, start=1):
            for waiting in self.world.nodes[answer.ask.asker].waiting.values():
                if waiting.fetch is not None:
                    runs.append((place, waiting.fetch.serial))
                    if waiting.fetch.peer == answer.sender and waiting.key == answer.ask.key:
                        fits.append(runs[-1])
        choices = fits if fits and self.random.random() < 0.8 else runs
        return b"answer %d %d" % self.random.choice(choices) if choices else None

    def origin(self) -> bytes | None:
        """No two bodies are equal."""
        reads = self.fetches(of_origin=True)
        if not reads:
            return None
        self.bodies += 1
        body = b"b%d" % self.bodies + self.random.choice([b"", b"", b"x" * self.random.choice([1, 5, 17, 20, 43, 60]), b"\xff", b"\r", b"\0", b"-"])
        return b"origin %d %d %d %s" % (*self.random.choice(reads), self.random.choice(self.statuses), body)

    def fail(self) -> bytes | None:
        fetches = self.fetches(of_origin=True) + self.fetches(of_origin=False)
        return b"fail %d %d" % self.random.choice(fetches) if fetches else None

    def expire(self) -> bytes | None:
        rounds = [(node.id, 32 * block) for node in self.world.nodes.values() for block in node.waiting]
        return b"expire %d %d" % self.random.choice(rounds) if rounds else None

    def close(self) -> bytes:
        return b"fault %d" % self.member()

    def restart(self) -> bytes:
        closed = [node.id for node in self.world.nodes.values() if node.is_closed]
        return b"restart %d" % self.random.choice(closed if closed and self.random.random() < 0.7 else self.members)

    def issue(self) -> bytes:
        return b"issue " + self.url()

    def admit(self) -> bytes | None:
        """Mostly a member that was not admitted."""
        joining = [node.id for node in self.world.nodes.values() if node.me.joins and node.id not in self.world.admitted]
        if self.random.random() < 0.9:
            return b"admit %d" % self.random.choice(joining) if joining else None
        return b"admit %d" % self.random.choice([*self.members, 0, 17, 101, 255])

    def resend(self) -> bytes | None:
        return b"resend" if len(self.world.pending) * len(self.members) < MOST_SENT_AGAIN else None

    def status(self) -> bytes:
        last = self.world.last_number
        return b"status %d" % self.random.choice([0, self.random.randint(0, last + 1), last, last + 1, 4_294_967_295])

    def master(self) -> bytes:
        return b"master"

    def clock(self) -> bytes:
        step = self.random.choice([1, 10, 20, 30, 59, 60, 61, -1, -30, -100, 0])
        moment = self.random.choice([0, 2**64 - 1, self.world.clock + 2_147_483_648]) if self.random.random() < 0.03 else self.world.clock + step
        return b"clock %d" % min(max(moment, 0), 2**64 - 1)

    def bad(self) -> bytes:
        url = self.random.choice(BAD_URLS)
        return self.random.choice([self.random.choice(BAD_LINES), b"issue " + url, b"client %d %s" % (self.random.choice([*self.members, 99]), url)])

    def stray(self) -> bytes:
        """A member or a serial that may not be there."""
        member = self.random.choice([*self.members, *self.members, *self.members, 0, 17, 101, 255])
        block = self.random.randrange(8)
        serial = self.random.choice([32 * block + self.random.choice([0, 1, 2, 3, 31]), 4_294_967_295])
        self.bodies += 1
        return self.random.choice([b"fail %d %d" % (member, serial), b"expire %d %d" % (member, serial), b"restart %d" % member,
                                   b"origin %d %d 200 b%d" % (member, serial, self.bodies), b"client %d %s" % (member, self.url())])


def world_script(random: Random) -> tuple[bytes, ScriptMaker]:
    """A roster's text, and the script with its world and the answers of the model."""
    is_race = random.random() < 0.5
    table = good_roster(random)
    while is_race and sum(len(node["peer"]) for node in table["node"]) < 2:
        table = good_roster(random)
    if is_race:
        table |= {"copies": random.choice([1, 2, 1000]), "bytes": random.choice([90, 1000, 1_048_576]), "origin": [ORIGIN]}
    roster = toml_text(table)
    maker = ScriptMaker(random, World(read_roster(roster)))
    if is_race:
        maker.race()
    maker.make(random.choice([20, 40, 80, 150, 250, 400]))
    return roster, maker
