"""Random rosters: good ones for the scripts of worlds, and ones with a fault of each kind (docs/RULES.md, "Rosters")."""

import copy
from random import Random
from typing import Any

Table = dict[str, Any]
RANGES = {"default_lifetime": (0, 2_147_483_648), "copies": (1, 65_536), "bytes": (1, 1_073_741_824), "query_wait": (1, 60_000), "http": (1, 65_535),
          "icp": (1, 65_535), "htcp": (1, 65_535), "port": (1, 65_535), "connect": (1, 65_535), "id": (1, 108)}
EDGE_TEXTS = {
    "address": ["1.2.3", "1.2.3.4.5", "256.0.0.1", "01.2.3.4", " 1.2.3.4", "1..2.3", "0.0.0.0", "255.255.255.255", "00.0.0.0", "", "::1", "localhost",
                "1.2.3.\u0661", "1.2.3.4\n", "1.2.3.1000"],
    "name": ["", "a" * 33, "a" * 32, "N1", "n-1", "n_1", "n1\n", "\u00e9", "z", "0", "n.1"],
    "host": ["", "a" * 256, "a" * 255, "O", "o_", "o.p", "-", ".", "o:80", "\u00e9", "0", "p\n", "[::1]"],
    "role": ["Sibling", "parent", "sibling", "", "child", "parent "],
    "by": ["http", "ICP", "icp", "htcp", "", "htcp\n"],
}
WRONG_VALUES = [1.0, 1, -1, 0, True, False, "x", "", "1", [], [1], [[]], {}, {"a": 1}, [{}]]
WRONG_LINES = [b"x =", b"copies = 1", b'"', b"[master]", b"= 1", b"[[master]]", b"\xff", b"[node]", b"copies = 01", b"\0", b'a = "\\q"', b"[x", b"x = 1 y = 2",
               b"# \xc3\xa9", b"", b"\xef\xbb\xbf", b"x = 99999999999999999999", b"x = 1__0", b"x = 0x1F", b"x.y = 1", b"# \x01", b'x = "a', b"x = 1979-05-27",
               b"x = inf"]


def made_cache(random: Random, identity: int) -> Table:
    address = random.choice(["127.0.0.1", f"10.0.0.{identity}"])
    return {"id": identity, "name": f"n{identity}", "address": address, "http": 8100 + identity, "icp": 3100 + identity, "htcp": 4100 + identity}


def made_peers(random: Random, node: int, order: list[int], foreign: list[int]) -> list[Table]:
    """Only members behind the node in the order become its parents, so that no loop stands."""
    peers = []
    for other in order + foreign:
        if other == node or random.random() > (0.8 if other in order else 0.35):
            continue
        may_be_parent = other in foreign or order.index(other) > order.index(node)
        role = random.choice(["parent", "sibling"]) if may_be_parent else "sibling"
        peers.append({"id": other, "role": role, "by": random.choice(["icp", "htcp"])})
    random.shuffle(peers)
    return peers


def good_roster(random: Random) -> Table:
    order = random.sample(range(1, 17), random.choice([1, 2, 2, 3, 3, 3, 4, 4]))
    foreign = random.sample(range(101, 109), random.choice([0, 0, 0, 1, 1, 2]))
    roster: Table = {
        "default_lifetime": random.choice([0, 0, 60, 1, 2_147_483_648]),
        "copies": random.choice([1, 2, 2, 3, 4, 1000, 65_536]),
        "bytes": random.choice([1, 39, 40, 41, 45, 60, 85, 100, 130, 1000, 1_048_576, 1_073_741_824]),
        "query_wait": random.choice([1, 2000, 60_000]),
        "master": {"address": "127.0.0.1", "htcp": 4800},
        "node": [made_cache(random, node) | {"peer": made_peers(random, node, order, foreign)} for node in order],
    }
    if foreign:
        roster["foreign"] = [made_cache(random, cache) for cache in foreign]
    for node in random.sample(roster["node"], min(random.choice([0, 0, 1, 1, 3]), len(order) - 1)):
        node["joins"] = random.random() < 0.9
    hosts = [place for place, known in ((("o", 80), 0.93), (("o", 8080), 0.4), (("p", 80), 0.4)) if random.random() < known]
    roster["origin"] = [{"host": host, "port": port, "address": "127.0.0.1", "connect": 8080} for host, port in hosts]
    return roster


def literal(value: Any) -> str:
    if isinstance(value, bool):
        return "true" if value else "false"
    if isinstance(value, str):
        return '"' + "".join(letter if " " <= letter <= "~" and letter not in '"\\' else f"\\u{ord(letter):04X}" for letter in value) + '"'
    if isinstance(value, list):
        return "[" + ", ".join(map(literal, value)) + "]"
    if isinstance(value, dict):
        return "{ " + ", ".join(f"{key} = {literal(item)}" for key, item in value.items()) + " }"
    return repr(value)


def is_tables(value: Any) -> bool:
    return isinstance(value, list) and bool(value) and all(isinstance(item, dict) for item in value)


def toml_lines(table: Table, path: tuple[str, ...] = ()) -> list[str]:
    lines = [f"{key} = {literal(value)}" for key, value in table.items() if not isinstance(value, dict) and not is_tables(value)]
    for key, value in table.items():
        name = ".".join((*path, key))
        if isinstance(value, dict):
            lines += [f"[{name}]", *toml_lines(value, (*path, key))]
        elif is_tables(value):
            for item in value:
                lines += [f"[[{name}]]", *toml_lines(item, (*path, key))]
    return lines


def toml_text(roster: Table) -> bytes:
    return ("\n".join(toml_lines(roster)) + "\n").encode()


def change_field(random: Random, roster: Table) -> None:
    """One field goes, comes, or gets a value at its edge or of another type."""
    tables = [roster, roster["master"], *roster["node"], *roster.get("foreign", []), *roster["origin"]]
    tables += [peer for node in roster["node"] for peer in node["peer"]]
    table = random.choice(tables)
    key = random.choice(list(table))
    match random.randrange(8):
        case 0:
            del table[key]
        case 1:
            table[random.choice(["x", "weight", "Id", "peer", "name", "copies", "nodes", "joins"])] = random.choice(WRONG_VALUES)
        case 2:
            table[key] = copy.deepcopy(random.choice(WRONG_VALUES))
        case _ if key in RANGES:
            least, most = RANGES[key]
            edges = [16, 17, 100, 101, 109] if key == "id" else [0, -1, 65_536]
            table[key] = random.choice([least, most, least - 1, most + 1, 2**63 - 1, 2**63, -2**63, -2**63 - 1, *edges])
        case _ if key in EDGE_TEXTS:
            table[key] = random.choice(EDGE_TEXTS[key])


def change_counts(random: Random, roster: Table) -> None:
    """Up to the most nodes, foreign caches, peers or origins, or one more."""
    match random.randrange(4):
        case 0:
            free = [identity for identity in range(1, 17) if identity not in [node["id"] for node in roster["node"]]] + [1]
            roster["node"] += [made_cache(random, identity) | {"name": f"m{identity}", "address": f"10.9.0.{place}", "peer": []}
                               for place, identity in enumerate(free[:len(free) - random.randrange(2)])]
        case 1:
            roster["foreign"] = [made_cache(random, 101 + place % 8) for place in range(random.choice([8, 9]))]
        case 2:
            peer = {"id": random.choice([1, 2, 3, 101]), "role": "sibling", "by": "icp"}
            random.choice(roster["node"])["peer"] = [peer] * random.choice([1, 2, 23, 24])
        case 3:
            roster["origin"] = [{"host": f"h{place}", "port": 80, "address": "127.0.0.1", "connect": 80} for place in range(random.choice([255, 256, 257]))]


def double_an_address(random: Random, roster: Table) -> None:
    caches = roster["node"] + roster.get("foreign", [])
    first, second = random.choice(caches), random.choice(caches)
    match random.randrange(5):
        case 0:
            key = random.choice(["id", "name"])
            first[key] = second[key]
        case 1:
            key, other = random.choice([("icp", "icp"), ("icp", "htcp"), ("htcp", "htcp"), ("http", "http"), ("http", "icp")])
            first[key], first["address"] = second[other], second["address"]
        case 2:
            first["address"], first[random.choice(["icp", "htcp", "http"])] = "127.0.0.1", 4800
        case 3 if roster["origin"]:
            roster["origin"].append(random.choice(roster["origin"]) | random.choice([{}, {"port": 81}, {"connect": 99}]))
        case 4:
            first["icp"] = first["htcp"]


def change_joins(random: Random, roster: Table) -> None:
    """All members join, or all but one."""
    for node in roster["node"]:
        node["joins"] = True
    if random.random() < 0.5:
        random.choice(roster["node"])["joins"] = False


def change_peers(random: Random, roster: Table) -> None:
    """A peer that no entry bears, the node itself, one twice, or a ring of parents."""
    nodes = roster["node"]
    if random.random() < 0.5:
        node = random.choice(nodes)
        identities = [node["id"], random.randint(1, 16), random.randint(101, 108), random.choice(nodes)["id"]]
        node["peer"].append({"id": random.choice(identities), "role": random.choice(["sibling", "parent"]), "by": "icp"})
        return
    ring = random.sample(nodes, random.randint(1, len(nodes)))
    for node, parent in zip(ring, ring[1:] + ring[:random.randrange(2)]):
        node["peer"] = [peer for peer in node["peer"] if peer["id"] != parent["id"]] + [{"id": parent["id"], "role": "parent", "by": "icp"}]


def faulty_text(random: Random, text: bytes) -> bytes:
    """A line too many, twice or missing, CR LF, or an end that is missing."""
    lines = text.split(b"\n")
    place = random.randrange(len(lines))
    match random.randrange(5):
        case 0 | 1:
            lines.insert(place, random.choice(WRONG_LINES))
        case 2:
            lines.insert(place, lines[place])
        case 3:
            return text[:random.randrange(len(text))] if random.random() < 0.5 else text.replace(b"\n", b"\r\n")
        case 4:
            del lines[place]
    return b"\n".join(lines)


def any_roster(random: Random) -> bytes:
    """A good roster with one change, perhaps two, or none."""
    roster = good_roster(random)
    changes = [change_counts, double_an_address, change_peers, change_peers, change_joins, change_field, change_field, change_field]
    chosen = random.choice(changes)
    if random.random() < 0.95:
        chosen(random, roster)
    if chosen is not change_field and random.random() < 0.3:
        change_field(random, roster)
    text = toml_text(roster)
    return faulty_text(random, text) if random.random() < 0.15 else text
