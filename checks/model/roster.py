"""Rosters: docs/RULES.md, "Rosters", and the tables of docs/FORMATS.md, "Rosters"."""

import math
import re
import tomllib
from dataclasses import dataclass, field
from typing import Any

from model.fault import Fault

Address = tuple[str, int]
CACHE_KEYS = ("id", "name", "address", "http", "icp", "htcp")
FIRST_FOREIGN, LAST_FOREIGN = 101, 108
MOST_NODES, MOST_FOREIGN, MOST_PEERS, MOST_ORIGINS = 16, 8, 23, 256


@dataclass(frozen=True)
class Peer:
    id: int
    role: str
    by: str


@dataclass(frozen=True)
class Cache:
    id: int
    name: str
    http: Address
    icp: Address
    htcp: Address
    peers: tuple[Peer, ...] = ()
    joins: bool = False
    """A joining member; else a founding one."""


@dataclass
class Roster:
    default_lifetime: int
    copies: int
    octets: int
    master: Address
    nodes: dict[int, Cache] = field(default_factory=dict)
    foreign: dict[int, Cache] = field(default_factory=dict)
    origins: set[tuple[bytes, int]] = field(default_factory=set)

    def cache(self, identity: int) -> Cache:
        return self.nodes[identity] if identity in self.nodes else self.foreign[identity]

    def is_sibling(self, asker: int, asked: int) -> bool:
        """Whether the entry of the member that asks names the other one a sibling."""
        return any(peer.id == asked and peer.role == "sibling" for peer in self.nodes[asker].peers)


def fits_64_bits(value: Any) -> bool:
    if isinstance(value, dict):
        return all(map(fits_64_bits, value.values()))
    if isinstance(value, list):
        return all(map(fits_64_bits, value))
    return not isinstance(value, int) or -2**63 <= value < 2**63


def float_of(text: str) -> float:
    """A float; one beyond 64 bits is a fault of the document."""
    value = float(text)
    if math.isinf(value) and "inf" not in text:
        raise ValueError(text)
    return value


def parse_toml(octets: bytes) -> dict[str, Any]:
    """A byte order mark in front is passed over; a number that does not fit 64 bits is a fault of the document."""
    try:
        document = tomllib.loads(octets.decode().removeprefix("\ufeff"), parse_float=float_of)
    except (ValueError, RecursionError):
        raise Fault("BadToml") from None
    if not fits_64_bits(document):
        raise Fault("BadToml")
    return document


def number(value: Any, least: int, most: int) -> int:
    if isinstance(value, bool) or not isinstance(value, int) or not least <= value <= most:
        raise Fault("BadField")
    return value


def port(value: Any) -> int:
    return number(value, 1, 65535)


def boolean(value: Any) -> bool:
    if not isinstance(value, bool):
        raise Fault("BadField")
    return value


def text(value: Any, form: str) -> str:
    if not isinstance(value, str) or not re.fullmatch(form, value):
        raise Fault("BadField")
    return value


def address(value: Any) -> str:
    """Four decimal numbers of 0 to 255 with dots and without leading zeros."""
    text(value, r"(0|[1-9][0-9]{0,2})(\.(0|[1-9][0-9]{0,2})){3}")
    if any(int(part) > 255 for part in value.split(".")):
        raise Fault("BadField")
    return value


def table(value: Any, required: tuple[str, ...], optional: tuple[str, ...] = ()) -> dict[str, Any]:
    if not isinstance(value, dict) or not set(required) <= set(value) <= set(required + optional):
        raise Fault("BadField")
    return value


def tables(value: Any) -> list[dict[str, Any]]:
    if not isinstance(value, list) or not all(isinstance(item, dict) for item in value):
        raise Fault("BadField")
    return value


def read_peer(value: Any) -> Peer:
    table(value, ("id", "role", "by"))
    identity = number(value["id"], 1, LAST_FOREIGN)
    if MOST_NODES < identity < FIRST_FOREIGN:
        raise Fault("BadField")
    return Peer(identity, text(value["role"], "sibling|parent"), text(value["by"], "icp|htcp"))


def read_cache(entry: dict[str, Any], least: int, most: int) -> Cache:
    host = address(entry["address"])
    return Cache(
        id=number(entry["id"], least, most),
        name=text(entry["name"], "[a-z0-9]{1,32}"),
        http=(host, port(entry["http"])),
        icp=(host, port(entry["icp"])),
        htcp=(host, port(entry["htcp"])),
        peers=tuple(read_peer(peer) for peer in tables(entry.get("peer", []))),
        joins=boolean(entry.get("joins", False)),
    )


def read_origin(value: Any) -> tuple[bytes, int]:
    table(value, ("host", "port", "address", "connect"))
    address(value["address"])
    port(value["connect"])
    return text(value["host"], "[a-z0-9.-]{1,255}").encode(), port(value["port"])


def read_fields(document: dict[str, Any]) -> tuple[Roster, list[Cache], list[Cache], list[tuple[bytes, int]]]:
    """The roster without its lists, and the lists: each field is there, known, of its type and in its range."""
    table(document, ("default_lifetime", "copies", "bytes", "query_wait", "master", "node"), ("foreign", "origin"))
    number(document["query_wait"], 1, 60_000)
    master = table(document["master"], ("address", "htcp"))
    roster = Roster(
        default_lifetime=number(document["default_lifetime"], 0, 2_147_483_648),
        copies=number(document["copies"], 1, 65_536),
        octets=number(document["bytes"], 1, 1_073_741_824),
        master=(address(master["address"]), port(master["htcp"])),
    )
    nodes = [read_cache(table(entry, CACHE_KEYS, ("peer", "joins")), 1, MOST_NODES) for entry in tables(document["node"])]
    foreign = [read_cache(table(entry, CACHE_KEYS), FIRST_FOREIGN, LAST_FOREIGN) for entry in tables(document.get("foreign", []))]
    origins = [read_origin(entry) for entry in tables(document.get("origin", []))]
    if all(node.joins for node in nodes):
        raise Fault("BadField")
    return roster, nodes, foreign, origins


def refuse_doubles(*lists: list[Any]) -> None:
    if any(len(set(items)) != len(items) for items in lists):
        raise Fault("DoubleAddress")


def refuse_unknown_peers(nodes: list[Cache], identities: set[int]) -> None:
    for node in nodes:
        named = [peer.id for peer in node.peers]
        if node.id in named or not identities.issuperset(named) or len(set(named)) != len(named):
            raise Fault("UnknownPeer")


def refuse_parent_loops(nodes: list[Cache]) -> None:
    """A member whose parents lead back to it, by way of members."""
    parents = {node.id: [peer.id for peer in node.peers if peer.role == "parent" and peer.id < FIRST_FOREIGN] for node in nodes}
    for node in nodes:
        reached: set[int] = set()
        ahead = list(parents[node.id])
        while ahead:
            parent = ahead.pop()
            if parent not in reached:
                reached.add(parent)
                ahead += parents[parent]
        if node.id in reached:
            raise Fault("ParentLoop")


def read_roster(octets: bytes) -> Roster:
    """The roster, else the first fault that holds."""
    roster, nodes, foreign, origins = read_fields(parse_toml(octets))
    too_many_peers = any(len(node.peers) > MOST_PEERS for node in nodes)
    if too_many_peers or len(nodes) > MOST_NODES or len(foreign) > MOST_FOREIGN or len(origins) > MOST_ORIGINS:
        raise Fault("TooMany")
    caches = nodes + foreign
    datagram_addresses = [cache.icp for cache in caches] + [cache.htcp for cache in caches] + [roster.master]
    refuse_doubles([cache.id for cache in caches], [cache.name for cache in caches], datagram_addresses, [cache.http for cache in caches], origins)
    refuse_unknown_peers(nodes, {cache.id for cache in caches})
    refuse_parent_loops(nodes)
    roster.nodes = {node.id: node for node in sorted(nodes, key=lambda node: node.id)}
    roster.foreign = {cache.id: cache for cache in foreign}
    roster.origins = set(origins)
    return roster
