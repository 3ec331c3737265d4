"""The folder of a member that lists as many URLs as may be, above an old base, and clusters over copies of it. The next URL that is purged makes a new base."""
import contextlib
import os
import re
import shutil
import sqlite3
import subprocess
import sys
import time

WORDS, PATIENCE = [sys.argv[1], "cluster", "roster.toml", "--data", "data", "--history", "0"], 60
ROWS, OLD, LOG = 65_536, 5, 600 * 1024
LAST = OLD + ROWS
# (the factor is odd, so each number from OLD + 1 to LAST comes once)
FLOORS = {f"http://f/{at}": OLD + 1 + at * 40_503 % ROWS for at in range(ROWS)}
with open("@ROOT@/docs/FORMATS.md", encoding="utf-8") as text:
    TABLES = {name: table for table, name in re.findall(r"(?m)^(CREATE TABLE (\w+) .*);$", text.read())}
VERSION = "INSERT INTO form VALUES (2)"


class Lost(Exception):
    """Something is not as it has to be."""


def until(is_so, else_told):
    end = time.monotonic() + PATIENCE
    while not is_so():
        if time.monotonic() > end:
            raise Lost(else_told)
        time.sleep(0.001)


# The folder.


def write(path, names, statements, floors=()):
    with contextlib.closing(sqlite3.connect(path)) as file:
        for statement in (*(TABLES[name] for name in names), VERSION, *statements):
            file.execute(statement)
        for row in floors:
            file.execute("INSERT INTO floors VALUES (?, ?)", row)
        file.commit()


def grow(path):
    """Leaves a log of over LOG octets beside a member's file, as a program that was killed."""
    if child := os.fork():
        os.waitpid(child, 0)
        return
    file = sqlite3.connect(path, isolation_level=None)
    for setting in ("journal_mode = WAL", "wal_autocheckpoint = 0", "synchronous = OFF"):
        file.execute(f"PRAGMA {setting}")
    while not os.path.exists(f"{path}-wal") or os.path.getsize(f"{path}-wal") <= LOG:
        for number in (0, OLD):
            file.execute("UPDATE base SET number = ?", (number,))
    # (a connection that is closed would empty the log)
    os._exit(0)


def make():
    """Makes the folder `first`, unless it is there."""
    if os.path.isdir("first"):
        return
    os.mkdir("first")
    write("first/node-1.db", ("form", "floors", "base"), [f"INSERT INTO base VALUES (1, {OLD})"], FLOORS.items())
    grow("first/node-1.db")
    os.remove("first/node-1.db-shm")
    write("first/master.db", ("form", "last", "pending", "acks", "admitted"), [f"INSERT INTO last VALUES (1, {LAST})"])


def lay():
    """Puts a copy of it in place of what is there."""
    shutil.rmtree("data", ignore_errors=True)
    shutil.copytree("first", "data")


# What the files say.


@contextlib.contextmanager
def opened(*names):
    """Files of a cluster that is not running, or has nothing to do. They are read in a copy, so that their logs stay."""
    shutil.rmtree("copy", ignore_errors=True)
    shutil.copytree("data", "copy")
    with contextlib.ExitStack() as stack:
        yield [stack.enter_context(contextlib.closing(sqlite3.connect(f"copy/{name}"))) for name in names]


def read():
    """A member's rows and base, and the master's last number and pending purges."""
    with opened("node-1.db", "master.db") as (node, master):
        rows = dict(node.execute("SELECT url, number FROM floors"))
        ((form, _, base),) = node.execute("SELECT * FROM form, base").fetchall()
        ((_, last),) = master.execute("SELECT * FROM last").fetchall()
        pending = dict(master.execute("SELECT number, url FROM pending"))
    if form != 2:
        raise Lost(f"the file has form {form}")
    return rows, base, last, pending


def judged(where, before, issued, done):
    """Whether there is a new base; else all is as before the purges that were issued. Some of these were reported done."""
    rows, base, last, pending = read()
    is_made = (rows, base) != (before, OLD)
    others = {url: number for url, number in rows.items() if issued.get(number) != url or number <= base}
    if is_made and (base not in issued or base < max(before.values()) or others):
        raise Lost(f"{where}: the base is {base}, with {len(rows)} rows, of which {len(others)} are not of {issued}")
    if last != max(issued) or not pending.items() <= issued.items() or done & pending.keys():
        raise Lost(f"{where}: the last number is {last}, pending are {pending}, done were {done} of {issued}")
    if lost := [number for number, url in issued.items() if number not in pending and max(rows.get(url, 0), base) < number]:
        raise Lost(f"{where}: {lost} are done, and not in the file")
    return is_made


# Clusters.


class Start:
    """A cluster that was started over the folder `data`."""

    def __init__(self, **how):
        with open("errors", "wb") as errors:
            self.run = subprocess.Popen(WORDS, stdin=subprocess.PIPE, stdout=subprocess.PIPE, stderr=errors, bufsize=0, **how)
        self.told("status 1")

    def told(self, line):
        with contextlib.suppress(OSError):
            self.run.stdin.write(f"{line}\n".encode())
        answer = self.run.stdout.readline().decode().strip()
        if not answer:
            with open("errors", encoding="utf-8") as errors:
                raise Lost(f"{line}: no answer. {errors.read().strip()}")
        return answer

    def purge(self, url, issued):
        """Issues a purge, which gets the next number."""
        number = max([LAST, *issued]) + 1
        if (answer := self.told(f"purge {url}")) != f"purge {number}":
            raise Lost(f"{answer} was told behind {issued}")
        issued[number] = url

    def has_done(self, numbers):
        return all(self.told(f"status {number}") == f"done {number}" for number in numbers)

    def wait_for(self, numbers):
        until(lambda: self.has_done(numbers), f"the purges {list(numbers)} are not done")

    def member(self):
        """How the member stands."""
        self.told("members")
        return self.run.stdout.readline().decode().strip()

    def kill(self):
        self.run.kill()
        self.run.communicate()


def end(where, before, issued, done):
    """Starts a cluster that ends what is pending, and purges one URL more: there is a new base."""
    start = Start()
    start.wait_for(issued)
    start.purge("http://n/end", issued)
    start.wait_for(issued)
    member = start.member()
    start.kill()
    if not judged(where, before, issued, done | issued.keys()) or member != "1 open":
        raise Lost(f"{where}: there is no new base, or the member is not open: {member}")
