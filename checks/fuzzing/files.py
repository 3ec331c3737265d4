"""Files of members and of a master whose pages are overwritten, each in turn, and a start over them.

A start has to be refused by name, or to find what was in the files, and to tell so at its console. What SQLite cannot
notice is counted apart: an octet of a row that makes another row of it, and a page of the log (`-wal`) that is not what
was written. Such a page and all behind it count as not written, as after a stop in its midst: the start has to find what
a front of the log makes of the files."""

import contextlib
import os
import re
import shutil
import sqlite3
import subprocess
import tempfile
from dataclasses import dataclass
from random import Random

from files import Lone, opened
from fuzzing.trial import Trial
from peers import CACHE, ports

KINDS = ("node file", "joined node file", "master file", "node log", "master log")
NAMES = {"node": "node-1.db", "joined": "node-3.db", "master": "master.db"}
FAULTS = ("BadTable", "StoreFault", "Io", "MasterBehind", "MemberBehind", "OtherRoster")
PAGE, MOST_SECONDS = 4096, 60
# Ways to overwrite a page, and how often each is tried.
WAYS = ["zeros", "ones", "noise", "another page", "half of it", "cut off", "an octet", "an octet", "an octet", "an octet"]
# The same of a log, in turn: any of them has the log end there.
WAYS_OF_LOG = [["zeros", "an octet"], ["noise", "cut off"]]

# The members of the roster: one is founding, three join.
FOUNDING, JOINING = 1, (3, 4, 7)
MEMBERS = (FOUNDING, *JOINING)
# The admissions: the member, the number, and whether it is done. (Members 5 and 6 have left the roster. The file of member 4 is blank.)
ADMITTED = [(3, 400, 1), (5, 500, 1), (6, 899, 0), (4, 998, 0)]
# The last number, and the purges that are pending: from the first one on, but for an admission.
LAST, FIRST = 1000, 901
PENDING = [number for number in range(FIRST, LAST + 1) if number != 998]
# Which member has acknowledged which of these. (Member 2 has left. Members 1 and 3 have stored the last number, so what is lost is not refused for a file that lacks it.)
ACKS = [(number, 2) for number in PENDING] + [(number, 3) for number in PENDING if number % 2 == 0] + [(LAST, 1)]
# The bases of these two.
BASES = {1: 7, 3: 400}
# What a cluster is told that leaves logs.
LINES = "".join(f"purge http://l/{at}\n" for at in range(10)) + "admit 7\n" + "".join(f"purge http://l/{at}\n" for at in range(10, 20))
# What a cluster says of its members and of what is pending.
TOLD = re.compile(rb"members 4\n((?:\d (?:open|outside|closed StoreFault)\n){4})purges (\d+)\n((?:\d+ [^ \n]+(?: \d+)*\n)*)")


class Joined(Lone):
    """The roster of one member, and of three that join."""

    def __init__(self, folder: str) -> None:
        super().__init__(folder)
        with open(self.roster, "a") as file:
            for member in JOINING:
                http, icp, htcp = ports(3)
                file.write(CACHE.format(kind="node", id=member, name=f"n{member}", address=f"127.0.0.{member}", http=http, icp=icp, htcp=htcp) + "joins = true\n")


def joined_at(trial: Trial) -> Joined:
    """The same at the addresses of a slice."""
    lone = Joined(trial.folder)
    with open(lone.roster) as file:
        text = file.read()
    with open(lone.roster, "w") as file:
        file.write(re.sub(r'"127\.0\.0\.(\d+)"', lambda found: f'"{trial.address(int(found[1]))}"', text))
    return lone


# The files, as they are made.


def played(folder: str, lone: Lone, program: str, lines: str) -> None:
    """A cluster is told these lines over the files, and stops."""
    subprocess.run(lone.words(folder, program), input=f"{lines}quit\n".encode(), stdout=subprocess.DEVNULL, stderr=subprocess.DEVNULL, timeout=MOST_SECONDS, check=True)


def url_of(number: int) -> str:
    return f"http://f/{number}" + f"/{'x' * 200}" * (number in PENDING)


def floors_of(member: int) -> list[tuple[str, int]]:
    """What a member's file lists: of the purges above its base those that are done, and those that it has acknowledged."""
    admissions = {number for _, number, _ in ADMITTED}
    done = [number for number in range(BASES[member] + 1, FIRST) if number not in admissions]
    return [(url_of(number), number) for number in done + [number for number, by in ACKS if by == member]]


def written(path: str, *changes: tuple[str, list[tuple]]) -> None:
    """Changes a file by statements, each done with rows. Its log is empty then."""
    with contextlib.closing(sqlite3.connect(path)) as rows:
        for statement, values in changes:
            rows.executemany(statement, values)
        rows.commit()
        rows.execute("PRAGMA wal_checkpoint(TRUNCATE)")


def made(folder: str, lone: Lone, program: str) -> None:
    """The files of members of which two have bases and some hundred floors, and of a master with some hundred pending purges and with admissions, as the program makes their tables."""
    played(folder, lone, program, "")
    for member, base in BASES.items():
        written(f"{folder}/node-{member}.db", ("UPDATE base SET number = ?", [(base,)]), ("INSERT INTO floors VALUES (?, ?)", floors_of(member)))
    pending = [(number, url_of(number)) for number in PENDING]
    written(f"{folder}/master.db", ("UPDATE last SET number = ?", [(LAST,)]), ("INSERT INTO pending VALUES (?, ?)", pending),
            ("INSERT INTO acks VALUES (?, ?)", ACKS), ("INSERT INTO admitted VALUES (?, ?, ?)", ADMITTED))


# What the files say.


@dataclass
class Held:
    last: list[tuple[int]]
    pending: dict[int, str]
    acks: set[tuple[int, int]]
    """Numbers and members."""
    admitted: dict[int, tuple[int, int]]
    """By members: the number, and whether it is done."""
    floors: dict[int, dict[str, int]]
    """Of each member of the roster, by URLs."""
    bases: dict[int, int]

    def has(self, members: set[int], url: str, number: int) -> bool:
        """Whether each of these members has stored a purge."""
        return all(max(self.bases[member], self.floors[member].get(url, 0)) >= number for member in members)

    def is_in(self, member: int) -> bool:
        return member == FOUNDING or self.admitted.get(member, (0, 0))[1] == 1

    def needed(self, number: int) -> set[int]:
        """The members of the roster that a purge needs (docs/RULES.md, Master 12)."""
        return {FOUNDING} | {member for member in JOINING if member in self.admitted and self.admitted[member][0] < number}

    def owed(self, number: int) -> set[int]:
        """Those of them that have not acknowledged it."""
        return {member for member in self.needed(number) if (number, member) not in self.acks}

    def admissions(self) -> dict[int, int]:
        """The members of pending admissions, by their numbers."""
        return {number: member for member, (number, is_done) in self.admitted.items() if not is_done}


def typed(rows: sqlite3.Connection, query: str, *types: type) -> list[tuple]:
    """The rows of a query, which have to be of these types."""
    found = rows.execute(query).fetchall()
    if any(tuple(map(type, row)) != types for row in found):
        raise ValueError(f"rows of other types: {query}")
    return found


@contextlib.contextmanager
def read(path: str):
    """A file, to be read in a copy, so that its log stays. (Nothing of the copy has to reach the disk.)"""
    with opened(path) as rows:
        rows.execute("PRAGMA synchronous = OFF")
        yield rows


def held(folder: str) -> Held:
    with read(f"{folder}/master.db") as rows:
        admitted = {member: (number, is_done) for member, number, is_done in typed(rows, "SELECT member, number, done FROM admitted NOT INDEXED", int, int, int)}
        found = Held(typed(rows, "SELECT number FROM last", int), dict(typed(rows, "SELECT number, url FROM pending", int, str)),
                     set(typed(rows, "SELECT number, member FROM acks NOT INDEXED", int, int)), admitted, {}, {})
    for member in MEMBERS:
        with read(f"{folder}/node-{member}.db") as rows:
            found.floors[member] = dict(typed(rows, "SELECT url, number FROM floors NOT INDEXED", str, int))
            ((found.bases[member],),) = typed(rows, "SELECT number FROM base", int)
    return found


def said_by(folder: str) -> Held | str:
    """What the files say, or why they cannot be read."""
    try:
        return held(folder)
    except (sqlite3.Error, ValueError) as error:
        return f"a file that is not read: {error}"


def with_front(folder: str, name: str, octets: bytes) -> Held:
    """What the files say where one of them ends with these octets."""
    with tempfile.TemporaryDirectory() as other:
        shutil.copytree(folder, other, dirs_exist_ok=True)
        with open(f"{other}/{name}", "wb") as file:
            file.write(octets)
        return held(other)


# What a start makes of them.


@dataclass
class Told:
    """What a console said: how each member stands, and behind each pending number its URL, or the word `admission`, and the missing members."""

    members: dict[int, str]
    pending: dict[int, tuple[str, set[int]]]


def told_by(said: bytes) -> Told | None:
    """None where it is not what a console says."""
    match = TOLD.fullmatch(said)
    if not match or int(match[2]) != match[3].count(b"\n"):
        return None
    members = [line.split(" ", 1) for line in match[1].decode().splitlines()]
    pending = [line.split(" ") for line in match[3].decode(errors="replace").splitlines()]
    return Told({int(member): stands for member, stands in members}, {int(number): (what, {int(it) for it in missing}) for number, what, *missing in pending})


def started(trial: Trial, lone: Lone, folder: str) -> tuple[str, str, Told | None]:
    """How a start over the files ends: `opened`, a fault, or what should not be; what is to be said of it; and what its console told."""
    try:
        run = subprocess.run(lone.words(folder, trial.program), input=b"members\npending\nquit\n", stdout=subprocess.PIPE, stderr=subprocess.PIPE, timeout=MOST_SECONDS * trial.waits)
    except subprocess.TimeoutExpired:
        return "hang", "it does not end", None
    said = run.stderr.decode(errors="replace")
    fault = re.match(r"fault: (\w+)\n", said)
    if run.returncode == 1 and fault and fault[1] in FAULTS and not run.stdout:
        return fault[1], said, None
    told = told_by(run.stdout)
    if run.returncode == 0 and told:
        return ("closed StoreFault" if "closed StoreFault" in told.members.values() else "opened"), said, told
    return "crash", f"status {run.returncode}, {run.stdout!r}, {said!r}", None


def differs(before: Held, after: Held | str, told: Told) -> str:
    """What the files say otherwise after a start than before, and its console told otherwise. What was pending may have got done, with its acknowledgements, and with the floors and bases of it."""
    if isinstance(after, str):
        return after
    found = {**of_purges(before, after), **of_admissions(before, after), **of_members(before, after), **at_console(before, after, told)}
    return "; ".join(f"{what}: {str(sorted(them)[:3])[:200]}" for what, them in found.items() if them)


def of_purges(before: Held, after: Held) -> dict[str, list | set]:
    done = [(number, url) for number, url in before.pending.items() if number not in after.pending]
    come = [(number, member) for number, member in after.acks - before.acks]
    return {
        "other last numbers": after.last * (after.last != before.last),
        "pending purges that came": [it for it in after.pending.items() if it not in before.pending.items()],
        "pending purges that went without floors": [(number, url) for number, url in done if not after.has(before.owed(number), url, number)],
        "acknowledgements that went": [(number, member) for number, member in before.acks - after.acks if number in after.pending],
        "acknowledgements that came without floors": [(number, member) for number, member in come if not is_acknowledged(before, after, number, member)],
    }


def is_acknowledged(before: Held, after: Held, number: int, member: int) -> bool:
    """Whether a member may have acknowledged a purge since."""
    return number in after.pending and number in before.pending and member in before.owed(number) and after.has({member}, before.pending[number], number)


def of_admissions(before: Held, after: Held) -> dict[str, list | set]:
    others = [member for member in {*before.admitted, *after.admitted} if before.admitted.get(member) != after.admitted.get(member)]
    return {"other admissions": [(member, before.admitted.get(member), after.admitted.get(member)) for member in others if not is_admitted(before, after, member)]}


def is_admitted(before: Held, after: Held, member: int) -> bool:
    """Whether a pending admission has got done since, with the member's base."""
    base = after.bases.get(member)
    return before.admitted.get(member) == (base, 0) and after.admitted.get(member) == (base, 1)


def of_members(before: Held, after: Held) -> dict[str, list | set]:
    found: dict[str, list | set] = {}
    for member in MEMBERS:
        was, now = before.floors[member], after.floors[member]
        found[f"floors that member {member} lacks"] = [(url, number) for url, number in was.items() if now.get(url, 0) < number]
        others = [(url, number) for url, number in now.items() if was.get(url) != number]
        found[f"other floors of member {member}"] = [(url, number) for url, number in others if before.pending.get(number) != url or member not in before.needed(number)]
        base = after.bases[member]
        found[f"other bases of member {member}"] = [base] * (base != before.bases[member] and before.admitted.get(member) != (base, 0))
    return found


def at_console(before: Held, after: Held, told: Told) -> dict[str, list | set]:
    out = [member for member, stands in told.members.items() if stands == "outside" and before.is_in(member)]
    early = [member for member, stands in told.members.items() if stands == "open" and not after.is_in(member)]
    lines = [(number, what, sorted(missing)) for number, (what, missing) in told.pending.items()]
    return {
        "members that are told to be outside": out,
        "members that are told to be open": early,
        "pending numbers that are not told": {*after.pending, *after.admissions()} - told.pending.keys(),
        "pending numbers that are told otherwise": [(number, what, missing) for number, what, missing in lines if not may_tell(before, after, number, what, {*missing})],
    }


def may_tell(before: Held, after: Held, number: int, what: str, missing: set[int]) -> bool:
    """Whether a number was pending, and these members were missing, or more that have acknowledged it since."""
    if number not in before.pending:
        member = before.admissions().get(number)
        return what == "admission" and member is not None and missing == {member} & {*JOINING}
    owed = before.owed(number)
    since = {member for member in owed if number not in after.pending or (number, member) in after.acks}
    return what == before.pending[number] and owed - since <= missing <= owed


# Pages.


def overwritten(random: Random, octets: bytes, start: int, size: int, way: str) -> bytes:
    """A file in which a page, or a piece of it, is another."""
    page = octets[start:start + size]
    place = random.randrange(len(page))
    other = random.randrange(max(1, len(octets) // size)) * size + (start % size)
    new = {
        "zeros": bytes(len(page)), "ones": b"\xff" * len(page), "noise": random.randbytes(len(page)), "another page": octets[other:other + len(page)],
        "half of it": page[:len(page) // 2] + bytes(len(page) - len(page) // 2),
        "an octet": page[:place] + bytes([page[place] ^ random.randrange(1, 256)]) + page[place + 1:],
    }.get(way)
    return octets[:start] if new is None else octets[:start] + new + octets[start + size:]


def pages(name: str, size: int) -> list[tuple[int, int]]:
    """Where each page of a file of this size begins, and its size; in a log the header, and each frame with its page."""
    if not name.endswith("-wal"):
        return [(start, PAGE) for start in range(0, size, PAGE)]
    return [(0, 32)] + [(start, PAGE + 24) for start in range(32, size, PAGE + 24)]


def transactions(octets: bytes) -> list[int]:
    """Where the transactions of a log end, behind its beginning."""
    return [0] + [start + size for start, size in pages("-wal", len(octets))[1:] if any(octets[start + 4:start + 8])]


class Made:
    """Files that are overwritten, and the pages and the ways of one of them."""

    def __init__(self, work: str, kind: str, program: str) -> None:
        self.folder, self.is_log = f"{work}/made", kind.endswith("log")
        os.makedirs(self.folder)
        lone = Joined(work)
        made(self.folder, lone, program)
        if self.is_log:
            played(self.folder, lone, program, LINES)
        self.name = NAMES[kind.split()[0]] + "-wal" * self.is_log
        with open(f"{self.folder}/{self.name}", "rb") as file:
            self.octets = file.read()
        # How much of the file counts where a page is another, and what the files say with as much.
        self.ends = transactions(self.octets) if self.is_log else [len(self.octets)]
        self.said: dict[int, Held] = {}
        each = enumerate(pages(self.name, len(self.octets)))
        self.places = [(start, size, way) for at, (start, size) in each for way in (WAYS_OF_LOG[at % 2] if self.is_log else WAYS)]
        self.count = len(self.places)

    def before(self, end: int) -> Held:
        """What the files said, with as much of this one."""
        if end not in self.said:
            self.said[end] = with_front(self.folder, self.name, self.octets[:end])
        return self.said[end]

    @contextlib.contextmanager
    def begin(self, trial: Trial):
        """Gives what overwrites a page in a way, both told by an index."""
        lone = joined_at(trial)

        def play(index: int) -> None:
            start, size, way = self.places[index]
            folder = f"{trial.folder}/{index}"
            shutil.copytree(self.folder, folder)
            changed = overwritten(trial.random(index), self.octets, start, size, way)
            with open(f"{folder}/{self.name}", "wb") as file:
                file.write(changed)
            end = max((it for it in self.ends if it <= start), default=self.ends[-1])
            self.judge(trial, lone, index, folder, changed, way, end)
            shutil.rmtree(folder)

        yield play

    def judge(self, trial: Trial, lone: Lone, index: int, folder: str, changed: bytes, way: str, end: int) -> None:
        ended, said, told = started(trial, lone, folder)
        if ended in ("crash", "hang"):
            trial.find(ended, index, changed, said)
        elif ended == "opened":
            other = differs(self.before(end), said_by(folder), told)
            if other and (self.is_log or way != "an octet"):
                trial.find("wrong answer", index, changed, f"{way}: {other}")
            elif other or end < self.ends[-1]:
                ended = "opened with what SQLite cannot notice"
        trial.tried(len(changed), f"{way}: {ended}")
