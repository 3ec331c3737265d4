"""Datagrams to the master of a cluster of two members.

What member 16 sends by HTCP comes here instead of to the master, so purges stay pending until its acknowledgement is sent
on from its address, by a raw socket. Member 1's own go to the master beside what is sent here."""

import contextlib
import re
import select
import shutil
import socket
import struct
import subprocess
import time
from random import Random

from fuzzing.cluster import Running, started, stopped
from fuzzing.scripts import changed_datagram, datagram
from fuzzing.trial import Trial
from model.fault import Fault
from model.htcp import BASE_LINE, CLR, NUMBER_LINE, ClrAnswer, ClrAsk, Overall, frame, number_line, read_htcp, write_htcp
from model.make_urls import KEYS
from peers import CACHE, HERE, ports

FAR = 16
# How many datagrams are sent together, how many purges are kept pending, how long a purge may take, and how many pages `check` has.
BATCH, PENDING, PATIENCE, HISTORY = 128, 12, 5, 64
# So many inputs of a slice have no acknowledgement of a member that it did not send, so `check` says `yes`. Behind the first one it says `no PLACE NotSent`.
TRUE = 16

Place = tuple[str, int]


class Crowd(Running):
    """A cluster of two members, of which the second one's acknowledgements come here."""

    def __init__(self, trial: Trial) -> None:
        self.far, self.here = trial.address(2), socket.socket(socket.AF_INET, socket.SOCK_DGRAM)
        self.here.bind((trial.address(5), 0))
        http, icp, self.far_htcp = ports(3)
        node = CACHE.format(kind="node", id=FAR, name="n16", address=self.far, http=http, icp=icp, htcp=self.far_htcp)
        library = f"{trial.folder}/diverted.so"
        subprocess.run(["cc", "-O2", "-shared", "-fPIC", "-o", library, f"{HERE}/checks/fuzzing/diverted.c", "-ldl"], check=True)
        own, other = f"{self.far}:{self.far_htcp}", "%s:%d" % self.here.getsockname()
        super().__init__(trial, node, ("env", f"DIVERTED={own}", f"DIVERTED_TO={other}", f"LD_PRELOAD={library}"), HISTORY)
        self.raw = socket.socket(socket.AF_INET, socket.SOCK_RAW, socket.IPPROTO_RAW)
        # The URL of each pending purge, and the acknowledgements of member 16.
        self.pending: dict[int, bytes] = {}
        self.held: dict[int, bytes] = {}
        self.last, self.is_forged = 0, False

    # The console.

    def line(self, text: bytes) -> bytes:
        self.run.stdin.write(text + b"\n")
        answer = self.read_line()
        if answer is None or answer == b"(the end)":
            raise EOFError(f"the console does not answer {text!r}")
        return answer

    def rows(self, text: bytes) -> list[bytes]:
        return [self.read_line() or b"" for _ in range(int(self.line(text).split()[1]))]

    def purge(self, index: int, url: bytes) -> int:
        """Issues a purge, whose number has to be the next one, and waits until both members have acknowledged it, the second one to here."""
        self.last += 1
        answer = self.line(b"purge " + url)
        if answer != b"purge %d" % self.last:
            self.trial.find("wrong answer", index, url, f"{answer!r} and not purge {self.last}")
            raise EOFError("the numbers are others")
        self.pending[self.last] = url
        if not self.comes(self.last, b"pending 1") or not self.comes_here(self.last):
            self.trial.find("hang", index, url, f"purge {self.last} is not acknowledged: {self.line(b'status %d' % self.last)!r}")
            raise EOFError("a purge is not acknowledged")
        return self.last

    def comes(self, number: int, wanted: bytes) -> bool:
        """Whether a purge comes to be so far in time."""
        end = time.monotonic() + PATIENCE * self.trial.waits
        while self.line(b"status %d" % number) != wanted:
            if time.monotonic() > end:
                return False
            time.sleep(0.002)
        return True

    def comes_here(self, number: int) -> bool:
        """Whether member 16 acknowledges a purge in time."""
        end = time.monotonic() + PATIENCE * self.trial.waits
        while number not in self.held and select.select([self.here], [], [], max(0, end - time.monotonic()))[0]:
            octets = self.here.recv(65536)
            with contextlib.suppress(Fault):
                if isinstance(message := read_htcp(octets), ClrAnswer):
                    self.held[message.number] = octets
        return number in self.held

    # Datagrams.

    def send(self, sender: Place, octets: bytes) -> None:
        """Sends a datagram to the master as one of this address and port."""
        target = (self.host, self.master)
        header = struct.pack(">HHHH", sender[1], target[1], 8 + len(octets), 0)
        front = struct.pack(">BBHHHBBH4s4s", 0x45, 0, 28 + len(octets), 0, 0, 64, socket.IPPROTO_UDP, 0, socket.inet_aton(sender[0]), socket.inet_aton(target[0]))
        self.raw.sendto(front + header + octets, target)

    def sender(self, random: Random) -> Place:
        """Half of them are of the member that is missing, the others of anybody: its port at another address, another port at its address, member 1, the master."""
        if random.random() < 0.5:
            return self.far, self.far_htcp
        hosts = [self.host, self.far, self.loader, self.stranger]
        return random.choice(hosts), random.choice([self.htcp, self.far_htcp, self.icp, self.http, self.master, 9, 65_535])

    def made(self, random: Random) -> bytes:
        """Most of them a response to a CLR, of a number that is pending, is done or was never given, and then changed."""
        number = random.choice([*self.pending, *self.pending, random.randrange(1, self.last + 1), 0, self.last + 50, 2**32 - 1, random.randrange(2**32)])
        specifier = (b"GET", random.choice(KEYS), b"HTTP/1.1")
        octets = random.choice([
            *[write_htcp(ClrAnswer(number, code)) for code in (0, 0, 0, 1, 1, 2)], *[write_htcp(Overall(number, CLR, code)) for code in (0, 2, 5)],
            frame(CLR, random.randrange(16), random.choice([1, 1, 3, 5, 253]), number, random.randbytes(random.randrange(9))),
            frame(random.randrange(16), 0, 1, number), write_htcp(ClrAsk(number, 1, 0, *specifier, number_line(random.choice([NUMBER_LINE, BASE_LINE]), number))),
            datagram(random, "htcp"), random.randbytes(random.randrange(1, 200)),
        ])
        return changed_datagram(random, "htcp", octets)[:9_000]

    def heard(self, sender: Place, octets: bytes) -> tuple[str, int, bool]:
        """What the master has to make of a datagram, the number that it acknowledges, or 0, and whether it is of a member that did not send it."""
        try:
            message = read_htcp(octets)
        except Fault as fault:
            return fault.name, 0, False
        if not isinstance(message, ClrAnswer):
            return type(message).__name__, 0, False
        if sender not in ((self.host, self.htcp), (self.far, self.far_htcp)):
            return "a response of a stranger", 0, False
        # (no member holds a page that is purged, so each says 2)
        is_forged = not 1 <= message.number <= self.last or message.response != 2
        if message.response == 1 or message.number == 0:
            return "a response that counts for nothing", 0, is_forged
        if message.number > self.last:
            return "a response to what was not sent", message.number, True
        if sender[0] == self.host or message.number not in self.pending:
            return "a response once more", 0, is_forged
        return "an acknowledgement", message.number, is_forged

    def batch(self, random: Random, may_forge: bool) -> list[tuple[Place, bytes]]:
        """Datagrams that are sent together. All but a few of the pending purges stay so, and no number is acknowledged before it is given."""
        batch: list[tuple[Place, bytes]] = []
        while len(batch) < BATCH and sum(len(octets) for _, octets in batch) < 60_000:
            sender, octets = self.sender(random), self.made(random)
            told, number, is_forged = self.heard(sender, octets)
            is_early = self.last < number < self.last + 20
            if is_early or (is_forged and not may_forge) or (number in self.pending and random.random() < 0.7):
                continue
            self.is_forged |= is_forged
            self.pending.pop(number, None)
            self.trial.tried(len(octets), told)
            batch.append((sender, octets))
        return batch

    def play(self, index: int) -> None:
        random = self.trial.random(index)
        while len(self.pending) < PENDING:
            self.purge(index, random.choice([b"http://o/%d" % self.last, random.choice(KEYS)]))
        batch = self.batch(random, index >= self.trial.first + TRUE)
        octets = b"\n=====\n".join(octets for _, octets in batch)
        for sender, sent in batch:
            self.send(sender, sent)
        self.finish(index, octets, b"http://o/genuine")
        if self.rows(b"pending") != self.wanted():
            # (the system drops datagrams where too many came; sent again, they change no more)
            for sender, sent in batch:
                self.send(sender, sent)
            self.finish(index, octets, b"http://o/again")
        self.look(index, octets)
        self.lives(index, [octets])

    def wanted(self) -> list[bytes]:
        return [b"%d %s %d" % (number, url, FAR) for number, url in sorted(self.pending.items())]

    def finish(self, index: int, octets: bytes, url: bytes) -> None:
        """Issues a purge, which is done as soon as its acknowledgement comes from member 16. What came to the master before was read then."""
        number, end = self.purge(index, url), time.monotonic() + PATIENCE * self.trial.waits
        while self.line(b"status %d" % number) != b"done %d" % number and time.monotonic() < end:
            self.send((self.far, self.far_htcp), self.held[number])
            time.sleep(0.002)
        if self.line(b"status %d" % number) != b"done %d" % number:
            self.trial.find("hang", index, octets, f"purge {number}, which both have acknowledged, is {self.line(b'status %d' % number)!r}")
        self.pending.pop(number)

    def look(self, index: int, octets: bytes) -> None:
        """All is as it has to be, and nobody was answered."""
        wanted = {b"status %d" % (self.last + 1): rb"unknown", b"check": rb"no \d+ NotSent" if self.is_forged else rb"yes"}
        other = {line: answer for line in wanted if not re.fullmatch(wanted[line], answer := self.line(line))}
        found, members = self.rows(b"pending"), self.rows(b"members")
        if found != self.wanted() or other or members != [b"1 open", b"%d open" % FAR]:
            self.trial.find("wrong answer", index, octets, f"pending {sorted({*found} ^ {*self.wanted()})}, {other}, members {members}")
            raise EOFError("what follows would differ too")
        if select.select([self.udp["stranger"]], [], [], 0)[0]:
            self.trial.find("wrong answer", index, octets, f"an answer: {self.udp['stranger'].recv(65536).hex()}")


def has_what_it_needs() -> bool:
    """Whether this machine has a C compiler and lets raw sockets be made."""
    with contextlib.suppress(OSError), socket.socket(socket.AF_INET, socket.SOCK_RAW, socket.IPPROTO_RAW):
        return shutil.which("cc") is not None
    return False


@contextlib.contextmanager
def begun(trial: Trial):
    crowd = started(lambda: Crowd(trial))
    crowd.get(b"http://o/warm")
    try:
        yield crowd.play
    finally:
        stopped(trial, crowd)


# The kind, as those of scripts.
KINDS = {"datagrams of a master": (begun, 2)}
