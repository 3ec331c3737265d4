"""A cluster of one member that runs, with an origin, a foreign sibling and strangers, all of which send what they should not."""

import contextlib
import os
import re
import select
import socket
import subprocess
import tempfile
import threading
import time
from collections import Counter
from collections.abc import Callable
from concurrent.futures import ThreadPoolExecutor
from random import Random

from figures import resident
from fuzzing.inputs import mutated, request, response
from fuzzing.scripts import WORDS, datagram
from fuzzing.inputs import WORDS as HTTP_WORDS
from fuzzing.trial import Trial, number_free
from model.fault import Fault
from model.htcp import ClrAsk, read_htcp
from model.icp import IcpMessage, write_icp
from model.keys import read_key
from model.lines import MOST_LINE_OCTETS, BadLine, decimal, split_words
from model.make_urls import made_url
from model.node import Node
from model.roster import Cache, Peer, Roster
from model.store import Answer, Copy
from peers import CACHE, LOADER, ORIGIN, PEER, PROGRAM, ROSTER, begin, ports, query, wait_for

LIMITS = "fetch_wait = 1000\nask_wait = 4000\nanswer_wait = 2000\n"
# Pages that the member holds as datagrams come.
HELD = [b"http://o/a", b"http://o/b", b"http://o/", b"http://o/?", b"http://o/%41", b"http://o/A", b"http://p:8080/x?y"]
# Statuses of a client's response that no source sent: refusals (node_http) and ends of a wait (cluster_service, cluster_sockets). A request never gets 413.
OWN = (400, 414, 431, 501, 502, 503, 504)
HANG, PAGE = 12, 1
BATCH, CLIENTS = 64, 8
AGE = 86_400
# Responses of which each front is sent.
WHOLE = [b"HTTP/1.1 100 Continue\r\n\r\nHTTP/1.1 200 OK\r\ncache-control: max-age=60\r\ncontent-length: 9\r\n\r\nsome page",
         b"HTTP/1.1 200 OK\r\ntransfer-encoding: chunked\r\n\r\n4\r\nsome\r\n5;x=y\r\n page\r\n0\r\na: b\r\n\r\n", b"HTTP/1.0 404 No\r\nage: 1\r\n\r\nsome page"]


class Running:
    """The cluster, and what it is asked and told by."""

    def __init__(self, trial: Trial, nodes: str = "", words: tuple[str, ...] = (), history: int = 0) -> None:
        """`nodes` are further members, and `words` a command that begins the program."""
        self.trial, self.sent, self.before = trial, {}, 0
        self.host, self.loader, self.stranger = (trial.address(number) for number in (1, 9, 7))
        self.folder = tempfile.mkdtemp(dir=trial.folder)
        os.makedirs(f"{self.folder}/data")
        self.master, self.http, self.icp, self.htcp, peer_http, self.peer_icp, self.peer_htcp, origin = ports(8)
        node = CACHE.format(kind="node", id=1, name="n1", address=self.host, http=self.http, icp=self.icp, htcp=self.htcp) + PEER.format(id=101)
        peer = CACHE.format(kind="foreign", id=101, name="f1", address=self.loader, http=peer_http, icp=self.peer_icp, htcp=self.peer_htcp)
        with open(f"{self.folder}/roster.toml", "w") as file:
            text = LIMITS + ROSTER.format(master=self.master, nodes=node + nodes, foreign=peer, origin=origin)
            text += ORIGIN.format(host="p", origin=origin).replace("port = 80\n", "port = 8080\n")
            file.write(text.replace('"127.0.0.1"', f'"{self.host}"'))
        self.serve(self.host, origin, "origin")
        self.serve(self.loader, peer_http, "sibling")
        self.udp = {place: socket.socket(socket.AF_INET, socket.SOCK_DGRAM) for place in ("icp", "htcp", "stranger")}
        for place, at in (("icp", (self.loader, self.peer_icp)), ("htcp", (self.loader, self.peer_htcp)), ("stranger", (self.stranger, 0))):
            self.udp[place].bind(at)
        if trial.kind == "responses of a sibling":
            threading.Thread(target=self.answer_queries, daemon=True).start()
        command = [*words, PROGRAM, "cluster", f"{self.folder}/roster.toml", "--data", f"{self.folder}/data", "--history", str(history)]
        self.run = begin(command, stdin=subprocess.PIPE, stdout=subprocess.PIPE, bufsize=0)
        if not self.line_comes(b"status 1\n"):
            raise OSError(f"the cluster did not start: status {self.run.poll()}")
        wait_for(self.host, self.http)
        self.said = b""

    def line_comes(self, line: bytes) -> bool:
        """Whether a line of the console is answered."""
        try:
            self.run.stdin.write(line)
        except OSError:
            return False
        return bool(select.select([self.run.stdout], [], [], 60 * self.trial.waits)[0] and os.read(self.run.stdout.fileno(), 4096))

    # The origin, and the sibling.

    def serve(self, host: str, port: int, source: str) -> None:
        listener = socket.create_server((host, port), backlog=512)

        def accept() -> None:
            with ThreadPoolExecutor(2 * CLIENTS) as pool:
                while True:
                    pool.submit(self.give, listener.accept()[0], source)

        threading.Thread(target=accept, daemon=True).start()

    def give(self, stream: socket.socket, source: str) -> None:
        """Sends the response to a request: for a path of this kind what was made for it, else a page that tells the path."""
        with contextlib.suppress(OSError, ValueError), stream:
            stream.settimeout(HANG)
            ask = b""
            while b"\r\n\r\n" not in ask:
                piece = stream.recv(65536)
                if not piece:
                    return
                ask += piece
            target = ask.split(b" ")[1]
            path = b"/" + target.split(b"/", 3)[-1] if b"://" in target else target
            pieces, stays = self.sent.get((source, path), ([b"HTTP/1.1 200 OK\r\ncache-control: max-age=%d\r\ncontent-length: %d\r\n\r\npage %s" % (AGE, 5 + len(path), path)], 0))
            for at, piece in enumerate(pieces):
                time.sleep(0.005 * (at > 0))
                stream.sendall(piece)
            stream.shutdown(socket.SHUT_WR)
            time.sleep(stays)

    def answer_queries(self) -> None:
        """Says of each page that the sibling has it."""
        while True:
            asked, place = self.udp["icp"].recvfrom(65536)
            url = asked[24:-1]
            self.udp["icp"].sendto(write_icp(IcpMessage("Hit", int.from_bytes(asked[4:8], "big"), url)), place)

    # Clients.

    def exchange(self, octets: bytes) -> bytes | None:
        """What comes for octets up to its end; nothing where it does not end."""
        answer, end = b"", time.monotonic() + HANG * self.trial.waits
        try:
            with socket.create_connection((self.host, self.http), HANG * self.trial.waits) as stream:
                stream.settimeout(HANG * self.trial.waits)
                with contextlib.suppress(ConnectionError):
                    stream.sendall(octets)
                # (fails where the other side has reset the connection)
                with contextlib.suppress(OSError):
                    stream.shutdown(socket.SHUT_WR)
                while piece := stream.recv(65536):
                    answer += piece
                    if time.monotonic() > end:
                        return None
        except ConnectionError:
            return answer
        except TimeoutError:
            return None
        return answer

    def get(self, url: bytes) -> bytes | None:
        return self.exchange(b"GET %s HTTP/1.1\r\nhost: o\r\n\r\n" % url)

    def lives(self, index: int, batch: list[bytes]) -> bool:
        """Whether the process runs and serves a page in time, after these inputs; else that is a find."""
        start, late = time.monotonic(), self.late()
        answer = self.get(b"http://o/warm") if self.run.poll() is None else b""
        took = time.monotonic() - start - max(0, self.late() - late)
        figures = self.trial.figures
        if self.run.poll() is None:
            size = resident(self.run.pid)
            self.before = self.before or size * (figures.inputs > 300)
            figures.grown = size - (self.before or size)
        if self.run.poll() is not None:
            self.trial.find("crash", index, b"\n=====\n".join(batch), f"status {self.run.returncode}")
        elif not answer or b"page /warm" not in answer or took > PAGE * self.trial.waits:
            self.trial.find("hang", index, b"\n=====\n".join(batch), f"a page took {took:.1f} s: {answer!r}")
        else:
            return True
        if self.run.poll() is not None:
            raise EOFError("the cluster has ended")
        return False

    def late(self) -> float:
        """How many seconds the threads of the cluster and this one have waited for a processor so far: a page that is late for that alone is no hang."""
        waited = 0
        for process in (self.run.pid, os.getpid()):
            for thread in tasks(process):
                with contextlib.suppress(OSError, IndexError), open(f"/proc/{process}/task/{thread}/schedstat") as file:
                    waited += int(file.read().split()[1])
        return waited / 1e9

    # Requests, and responses.

    def judged(self, index: int, octets: bytes, answer: bytes | None) -> tuple[int, bytes]:
        """The status and the body of a client's response, 0 where there is none. What is no whole response is a find."""
        if answer is None:
            self.trial.find("hang", index, octets, "a client's connection does not end")
            return 0, b""
        if not answer:
            return 0, b""
        head, _, body = answer.partition(b"\r\n\r\n")
        match = re.fullmatch(rb"HTTP/1\.1 ([2-5]\d\d) [^\r\n\0]*((?:\r\n[!-9;-~]+:[^\r\n\0]*)+)", head)
        lengths = re.findall(rb"\r\ncontent-length: (\d+)(?=\r\n|$)", head)
        has_none = match and int(match[1]) in (204, 304)
        if not match or (lengths != [b"%d" % len(body)] and not has_none) or (has_none and body) or b"\r\nconnection: close" not in head:
            self.trial.find("wrong answer", index, octets, answer[:400])
            return 0, b""
        return int(match[1]), body

    def requests(self, index: int) -> None:
        random = self.trial.random(index)
        if index == 0:
            whole = b"GET http://o/q1 HTTP/1.1\r\nHost: o\r\ncache-control: only-if-cached\r\nx-purge-member: 1\r\n\r\n"
            batch = [whole[:length] for length in range(len(whole) + 1)]
        else:
            batch = [mutated(random, request(random, b"/q%d" % random.randrange(50)), HTTP_WORDS) for _ in range(BATCH)]
        with ThreadPoolExecutor(CLIENTS) as pool:
            answers = list(pool.map(self.exchange, batch))
        for octets, answer in zip(batch, answers):
            status, body = self.judged(index, octets, answer)
            page = body.removeprefix(b"page ")
            if status and (status not in (*OWN, 200) or (status == 200 and page not in octets and page[:1] + page[1:2].strip(b"?") != b"/")):
                self.trial.find("wrong answer", index, octets, answer[:300])
            self.trial.tried(len(octets), str(status or "no response"))
        self.lives(index, batch)

    def responses(self, source: str, index: int) -> None:
        random = self.trial.random(index)
        if index < len(WHOLE):
            batch = [WHOLE[index][:length] for length in range(len(WHOLE[index]) + 1)]
            paths = [b"/%d/%d" % (index, at) for at in range(len(batch))]
        else:
            paths = [b"/%d/%d" % (index, at) for at in range(BATCH)]
            batch = [mutated(random, response(random, b"page %s," % path), HTTP_WORDS) for path in paths]
        for path, octets in zip(paths, batch):
            cuts = sorted(random.randrange(len(octets) + 1) for _ in range(random.choice([0, 0, 1, 3])))
            pieces = [octets[a:b] for a, b in zip([0, *cuts], [*cuts, len(octets)])]
            self.sent[source, path] = pieces, random.choices([0, 0.02, 1.5], [60, 10, 1])[0]
        with ThreadPoolExecutor(CLIENTS) as pool:
            for time_of in range(2):
                answers = list(pool.map(lambda path: self.get(b"http://o" + path), paths))
                for path, octets, answer in zip(paths, batch, answers):
                    self.judge_response(index, source, path, octets, answer, time_of)
        self.sent.clear()
        self.lives(index, batch)

    def judge_response(self, index: int, source: str, path: bytes, octets: bytes, answer: bytes | None, time_of: int) -> None:
        status, body = self.judged(index, octets, answer)
        of_origin = source == "sibling" and (status, body) == (200, b"page " + path)
        is_chunked = b"chunked" in octets.lower()
        is_sent = b"%d" % status in octets and (body in octets or (is_chunked and is_among(body, octets)))
        if not status or not (of_origin or is_sent or (status in (502, 504) and not body)):
            self.trial.find("wrong answer", index, octets, (answer or b"")[:300])
        name = "the origin's page" if of_origin else str(status)
        if time_of == 0:
            self.trial.tried(len(octets), name)

    # Datagrams.

    def model(self) -> Node:
        """The model of the member, which holds nothing yet."""
        me = Cache(1, "n1", (self.host, self.http), (self.host, self.icp), (self.host, self.htcp), (Peer(101, "sibling", "icp"),))
        peer = Cache(101, "f1", (self.loader, 0), (self.loader, self.peer_icp), (self.loader, self.peer_htcp))
        return Node(Roster(AGE, 2000, 1 << 24, (self.host, 1), {1: me}, {101: peer}), 1)

    def warm(self, node: Node) -> None:
        """Has the member read what it should hold, and holds the same."""
        for url in HELD:
            if url not in node.store.copies:
                self.get(url)
                node.store.put(Copy(url, 0, 0, AGE, Answer(200)))

    def datagrams(self, protocol: str, node: Node, index: int) -> None:
        random = self.trial.random(index)
        place = random.choice([protocol, protocol, "stranger"])
        self.warm(node)
        batch: list[bytes] = []
        for _ in range(BATCH):
            octets = datagram(random, protocol)
            if is_clear(protocol, octets):
                self.compare(protocol, place, node, index, batch)
                self.compare(protocol, place, node, index, [octets])
                batch = []
            elif sum(map(len, batch)) + len(octets) > 60_000:
                self.compare(protocol, place, node, index, batch)
                batch = [octets]
            else:
                batch.append(octets)
        self.compare(protocol, place, node, index, batch)
        self.lives(index, batch)

    def compare(self, protocol: str, place: str, node: Node, index: int, batch: list[bytes]) -> None:
        """Sends datagrams together, and compares what comes with what the model says."""
        at, held = self.udp[place], set(node.store.copies)
        sender, target = at.getsockname(), (self.host, self.icp if protocol == "icp" else self.htcp)
        wanted: Counter[bytes] = Counter()
        for octets in batch:
            try:
                sent = [it.octets for it in (node.icp if protocol == "icp" else node.htcp)(sender, octets, 0).sent]
                name = f"a reply {sent[0][0 if protocol == 'icp' else 6]:#x}" if sent else "nothing"
            except Fault as fault:
                sent, name = [], fault.name
            wanted.update(sent)
            self.trial.tried(len(octets), name)
        for octets in batch:
            at.sendto(octets, target)
        came = self.came(at, wanted, sum(wanted.values()))
        if came != wanted:
            told = f"came {[it.hex()[:80] for it in came - wanted]}, wanted {[it.hex()[:80] for it in wanted - came]}"
            self.trial.find("wrong answer", index, b"\n=====\n".join(batch), told)
        for url in held - set(node.store.copies):
            self.until_gone(url)

    def came(self, at: socket.socket, wanted: Counter[bytes], count: int) -> Counter[bytes]:
        """The datagrams that come: as many as are wanted, and those that are there then. Queries are the member's own."""
        came: Counter[bytes] = Counter()
        end = time.monotonic() + 3 * self.trial.waits
        while select.select([at], [], [], max(0, end - time.monotonic()) if sum(came.values()) < count else 0)[0]:
            octets = at.recv(65536)
            if octets[:1] != b"\x01" or octets in wanted:
                came[octets] += 1
        return came

    def until_gone(self, url: bytes) -> None:
        """Waits until the member has dropped a copy, which it was told to without an answer."""
        end = time.monotonic() + 3 * self.trial.waits
        while time.monotonic() < end:
            self.udp["icp"].sendto(query(url.decode()), (self.host, self.icp))
            while select.select([self.udp["icp"]], [], [], 0.2)[0]:
                octets = self.udp["icp"].recv(65536)
                if octets[:1] == b"\x03":
                    return
                if octets[:1] == b"\x02":
                    break

    # The console.

    def console(self, index: int, state: dict[str, int]) -> None:
        if "refuses" not in state:
            # (an older program does not know this line)
            self.run.stdin.write(b"refused\n")
            state["refuses"] = self.read_line() == b"refused 1" and self.read_line() is not None
        random = self.trial.random(index)
        batch = [console_line(random, state["last"]) for _ in range(BATCH)]
        for line in batch:
            wanted = self.console_answer(line, state)
            self.run.stdin.write(line + b"\n")
            answer = self.read_line()
            if answer is None:
                self.trial.find("hang", index, line, "no answer")
                raise EOFError("the console does not answer")
            if not re.fullmatch(wanted, answer):
                self.trial.find("wrong answer", index, line, f"{answer!r} and not {wanted!r}")
            more = re.fullmatch(rb"(purges|members|peers|refused) (\d+)", answer)
            for _ in range(int(more[2]) if more else 0):
                self.read_line()
            self.trial.tried(len(line), number_free(answer)[:24])
        self.lives(index, batch)

    def read_line(self) -> bytes | None:
        while b"\n" not in self.said:
            if not select.select([self.run.stdout], [], [], HANG * self.trial.waits)[0]:
                return None
            piece = os.read(self.run.stdout.fileno(), 65536)
            self.said += piece or b"(the end)\n"
        line, _, self.said = self.said.partition(b"\n")
        return line

    def console_answer(self, line: bytes, state: dict[str, int]) -> bytes:
        """The answers that a line may have."""
        if len(line) > MOST_LINE_OCTETS:
            return b"LineTooLong"
        with contextlib.suppress(BadLine, Fault):
            match split_words(line):
                case [b"purge", url]:
                    read_key(url)
                    state["last"] += 1
                    return b"purge %d" % state["last"]
                case [b"status", word] if (number := decimal(word, 2**32 - 1)) is not None:
                    return b"pending 1|done %d" % number if 1 <= number <= state["last"] else b"unknown"
                case [b"get", b"1", url]:
                    read_key(url)
                    return rb"\d{3} [0-9a-f-]+|[A-Z][A-Za-z]+"
                case [b"check"]:
                    return b"forgotten"
                case [b"pending"]:
                    return rb"purges \d+"
                case [b"members"]:
                    return b"members 1"
                case [b"peers"]:
                    return rb"peers \d+"
                case [b"refused"] if state["refuses"]:
                    return b"refused 1"
            return b"bad line"
        try:
            url = split_words(line)[-1]
            read_key(url)
        except Fault as fault:
            return re.escape(fault.name.encode())
        except BadLine:
            return b"bad line"
        return b"bad line"


def is_among(body: bytes, octets: bytes) -> bool:
    """Whether the octets of a body stand in others, in their order, perhaps with others between."""
    place = 0
    for octet in body:
        place = octets.find(octet, place) + 1
        if not place:
            return False
    return True


def is_clear(protocol: str, octets: bytes) -> bool:
    with contextlib.suppress(Fault):
        return protocol == "htcp" and isinstance(read_htcp(octets), ClrAsk)
    return False


def console_line(random: Random, last: int) -> bytes:
    while True:
        url = made_url(random).replace(b"\n", b"\v")
        line = random.choice([b"purge " + url, b"purge " + url, b"status %d" % random.randrange(last + 3), b"get 1 " + url, b"pending", b"members", b"peers", b"refused", b"check"])
        if random.random() < 0.4:
            line = mutated(random, line, WORDS).replace(b"\n", b"")
        if line.strip() != b"quit":
            return line


def tasks(process: int) -> list[str]:
    with contextlib.suppress(OSError):
        return os.listdir(f"/proc/{process}/task")
    return []


def started(begin_one: Callable[[], Running]) -> Running:
    """A cluster. Others may have taken a port that was free: then it is tried again with other ports."""
    for _ in range(3):
        with contextlib.suppress(OSError):
            return begin_one()
    raise EOFError("the cluster does not start")


def stopped(trial: Trial, running: Running) -> None:
    """Ends a cluster, which has to end well."""
    running.run.stdin.close()
    try:
        status = running.run.wait(30 * trial.waits)
    except subprocess.TimeoutExpired:
        status = "it does not end"
        running.run.kill()
    if status != 0 and not trial.figures.finds["crash"]:
        trial.find("crash", trial.at, b"", f"the end: {status}")


@contextlib.contextmanager
def begun(trial: Trial):
    running = started(lambda: Running(trial))
    running.get(b"http://o/warm")
    node, state = running.model(), {"last": 0}
    plays = {
        "icp datagrams": lambda index: running.datagrams("icp", node, index),
        "htcp datagrams": lambda index: running.datagrams("htcp", node, index),
        "requests": running.requests,
        "responses of an origin": lambda index: running.responses("origin", index),
        "responses of a sibling": lambda index: running.responses("sibling", index),
        "console lines": lambda index: running.console(index, state),
    }
    try:
        yield plays[trial.kind]
    finally:
        stopped(trial, running)


# The kinds, as those of scripts.
KINDS = {kind: (begun, part) for kind, part in (("icp datagrams", 7), ("htcp datagrams", 7), ("requests", 9), ("responses of an origin", 8),
                                                  ("responses of a sibling", 6), ("console lines", 2))}
