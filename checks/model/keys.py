"""Keys of URLs: docs/RULES.md, "Keys". What a URI is goes by the forms of a request target, as docs/DECISIONS.md, "Keys", says."""

from typing import NamedTuple

from model.fault import Fault

MOST_OCTETS = 1024
MOST_SCHEME_OCTETS = 64
MOST_COLONS = 8
LETTERS_AND_DIGITS = frozenset(b"ABCDEFGHIJKLMNOPQRSTUVWXYZabcdefghijklmnopqrstuvwxyz0123456789")
DIGITS = frozenset(b"0123456789")
BEYOND_ASCII = frozenset(range(128, 256))
SCHEME_OCTETS = LETTERS_AND_DIGITS | frozenset(b"+-.~")
AUTHORITY_OCTETS = LETTERS_AND_DIGITS | frozenset(b"!$%&'()*+,-.:;=@[]_~")
PATH_OCTETS = LETTERS_AND_DIGITS | BEYOND_ASCII | frozenset(b"!\"$%&'()*+,-./:;=@[\\]^_{|}~")
QUERY_OCTETS = (PATH_OCTETS - {ord('"')}) | frozenset(b"?`")


class Target(NamedTuple):
    """The parts of a URI; without a scheme it is a path, an authority or `*` alone."""

    scheme: bytes | None
    authority: bytes
    tail: bytes


def is_authority(text: bytes) -> bool:
    """Colons and percent signs count from the last `@` or `]` on: behind it stand one colon at most and no percent sign."""
    if not text or not AUTHORITY_OCTETS.issuperset(text):
        return False
    colons = percents = opened = closed = 0
    for octet in text:
        if octet == ord(":"):
            if colons == MOST_COLONS:
                return False
            colons += 1
        elif octet == ord("%"):
            percents += 1
        elif octet == ord("["):
            if opened or percents:
                return False
            opened = 1
        elif octet == ord("]"):
            if not opened or closed:
                return False
            closed, colons, percents = 1, 0, 0
        elif octet == ord("@"):
            colons = percents = 0
    return opened == closed and colons <= 1 and percents == 0 and not text.endswith(b"@")


def is_path_and_query(text: bytes) -> bool:
    path, _, query = text.partition(b"?")
    return PATH_OCTETS.issuperset(path) and QUERY_OCTETS.issuperset(query)


def first_of(octets: bytes, text: bytes) -> int:
    """The place of the first of these octets in the text, or the text's end."""
    return next((place for place, octet in enumerate(text) if octet in octets), len(text))


def split_target(text: bytes) -> Target | None:
    """The parts of a text without a fragment, or nothing where it is no URI (RFC 9112, section 3.2)."""
    if text == b"*":
        return Target(None, b"", text)
    if text.startswith(b"/"):
        return Target(None, b"", text) if is_path_and_query(text) else None
    behind = next((place for place, octet in enumerate(text) if octet not in SCHEME_OCTETS), len(text))
    if len(text) > 3 and text[behind:behind + 3] == b"://":
        rest = text[behind + 3:]
        cut = first_of(b"/?", rest)
        authority, tail = rest[:cut], rest[cut:]
        is_uri = behind <= MOST_SCHEME_OCTETS and is_authority(authority) and is_path_and_query(tail)
        return Target(text[:behind], authority, tail) if is_uri else None
    return Target(None, text, b"") if is_authority(text) else None


def split_host(authority: bytes) -> tuple[bytes, bytes]:
    """The host and what stands behind it: a host that begins with `[` ends with the first `]`, any other before the first `:`."""
    cut = authority.index(b"]") + 1 if authority.startswith(b"[") else first_of(b":", authority)
    return authority[:cut], authority[cut:]


def read_port(behind_host: bytes) -> int:
    if behind_host in (b"", b":"):
        return 80
    digits = behind_host[1:]
    if not behind_host.startswith(b":") or not 1 <= len(digits) <= 5 or not DIGITS.issuperset(digits):
        raise Fault("BadPort")
    port = int(digits)
    if not 1 <= port <= 65535:
        raise Fault("BadPort")
    return port


def read_key(text: bytes) -> bytes:
    """The key of a text, else the first fault that holds."""
    if len(text) > MOST_OCTETS:
        raise Fault("TooLong")
    if any(not 0x21 <= octet <= 0x7E for octet in text):
        raise Fault("NotVisibleAscii")
    if b"#" in text:
        raise Fault("Fragment")
    target = split_target(text)
    if target is None:
        raise Fault("NotUri")
    if target.scheme is None or target.scheme.lower() != b"http":
        raise Fault("NotHttp")
    if b"@" in target.authority:
        raise Fault("UserInfo")
    host, behind_host = split_host(target.authority)
    if not host:
        raise Fault("NoHost")
    port = read_port(behind_host)
    path, mark, query = target.tail.partition(b"?")
    key = b"http://" + host.lower() + (b"" if port == 80 else b":%d" % port) + (path or b"/") + mark + query
    if len(key) > MOST_OCTETS:
        raise Fault("TooLong")
    return key


def origin_of(key: bytes) -> tuple[bytes, int]:
    """The host and the port of a key."""
    target = split_target(key)
    assert target is not None
    host, behind_host = split_host(target.authority)
    return host, read_port(behind_host)
