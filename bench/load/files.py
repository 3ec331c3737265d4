"""Makes and reads the files of a cluster's folder by Python's sqlite3, with the tables of docs/FORMATS.md, and starts clusters of one member over them."""
import contextlib
import os
import re
import shutil
import sqlite3
import tempfile

from peers import CACHE, HERE, LOADER, PEER, PROGRAM, ROSTER, ports

with open(f"{HERE}/docs/FORMATS.md", encoding="utf-8") as text:
    TABLES = {name: table for table, name in re.findall(r"(?m)^(CREATE TABLE (\w+) .*);$", text.read())}
FORM, FLOORS, BASE = (TABLES[it] for it in ("form", "floors", "base"))
FIRST_FORM = (FORM, FLOORS, "INSERT INTO form VALUES (1)")
SECOND_FORM = (FORM, FLOORS, BASE, "INSERT INTO form VALUES (2)")
ZERO = "INSERT INTO base VALUES (1, 0)"
MOST_ROWS, GREATEST = 65_536, 4_294_967_295


def write(path, statements, floors=()):
    """A file of these statements, with these URLs and numbers."""
    with contextlib.closing(sqlite3.connect(path)) as rows:
        for statement in statements:
            rows.execute(statement)
        if floors:
            rows.executemany("INSERT INTO floors VALUES (?, ?)", floors)
        rows.commit()


def write_master(path, last):
    """The file of a master whose last number is this one, with no pending purge."""
    write(path, (FORM, TABLES["last"], TABLES["pending"], TABLES["acks"], "INSERT INTO form VALUES (1)", f"INSERT INTO last VALUES (1, {last})"))


def numbered(count, host="f"):
    """So many URLs with the numbers from 1 on."""
    return [(f"http://{host}/{at}", at) for at in range(1, count + 1)]


def copied(source, folder):
    """Copies a file and its log (`-wal`)."""
    for it in (source, f"{source}-wal"):
        if os.path.exists(it):
            shutil.copy(it, folder)


@contextlib.contextmanager
def opened(path):
    """A file, to be read. It is read in a copy, so its log stays."""
    with tempfile.TemporaryDirectory() as folder:
        copied(path, folder)
        with contextlib.closing(sqlite3.connect(f"{folder}/{os.path.basename(path)}")) as rows:
            yield rows


def read(path):
    """The version, the rows and the base of a member's file."""
    with opened(path) as rows:
        ((version,),) = rows.execute("SELECT version FROM form")
        base = rows.execute("SELECT number FROM base").fetchone()[0] if version > 1 else 0
        return version, dict(rows.execute("SELECT url, number FROM floors")), base


def read_last(path):
    """The last number of a master's file."""
    with opened(path) as rows:
        return rows.execute("SELECT number FROM last").fetchone()[0]


class Lone:
    """The roster of one member, whose peer by ICP is the port `client` of LOADER."""

    def __init__(self, work, origin=9):
        self.http, self.icp, htcp, master, self.client, *unused = ports(7)
        node = CACHE.format(kind="node", id=1, name="n1", address="127.0.0.1", http=self.http, icp=self.icp, htcp=htcp) + PEER.format(id=101)
        foreign = CACHE.format(kind="foreign", id=101, name="f1", address=LOADER, http=unused[0], icp=self.client, htcp=unused[1])
        self.roster = f"{work}/one.toml"
        with open(self.roster, "w") as file:
            file.write(ROSTER.format(master=master, nodes=node, foreign=foreign, origin=origin))

    def words(self, folder, program=PROGRAM):
        return [program, "cluster", self.roster, "--data", folder]
