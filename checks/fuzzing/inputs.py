"""Mutations of octets, and the requests and responses that they begin with."""

from random import Random

EDGES = [0, 1, 9, 10, 13, 32, 34, 44, 58, 59, 61, 92, 127, 128, 254, 255]
NUMBERS = [b"0", b"1", b"-1", b"+1", b"00", b"16", b"17", b"1023", b"16384", b"65535", b"65536", b"65537", b"524288", b"4294967295", b"4294967296",
           b"18446744073709551615", b"18446744073709551616", b"9" * 19, b"9" * 20, b"9" * 400, b"0x10", b"1e3", b"1.5", b" 7", b"7 "]
MOST_OCTETS = 200_000

# What a request or a response may be made of beside what stands in it.
WORDS = [b"\r\n", b"\n", b"\r", b"\r\n\r\n", b"\0", b"\t", b" ", b"  ", b":", b";", b",", b"\"", b"%00", b"%2f", b"\xc3\xa9", b"\xff\xfe", b"http://", b"https://",
         b"host: o\r\n", b"host: o, p\r\n", b"Host:\r\n", b"host : o\r\n", b" host: o\r\n", b"content-length: 0\r\n", b"content-length: 5\r\n", b"content-length: 5, 5\r\n",
         b"content-length: 65536\r\n", b"content-length: 65537\r\n", b"content-length: -1\r\n", b"transfer-encoding: chunked\r\n", b"transfer-encoding: gzip, chunked\r\n",
         b"connection: close\r\n", b"connection: keep-alive, cache-control\r\n", b"connection: host\r\n", b"cache-control: no-cache\r\n",
         b"cache-control: only-if-cached\r\n", b"cache-control: max-age=60\r\n", b"cache-control: no-store\r\n", b"cache-control: private\r\n", b"pragma: no-cache\r\n",
         b"x-purge-member: 1\r\n", b"x-purge-member: 16\r\n", b"x-purge-stamp: 7\r\n", b"x-purge-stamp: 4294967295\r\n", b"age: 1\r\n", b"age: 99999999999\r\n",
         b"authorization: x\r\n", b"expect: 100-continue\r\n", b"upgrade: h2c\r\n", b"te: trailers\r\n", b"trailer: x\r\n", b"via: 1.1 n1\r\n", b"vary: *\r\n",
         b"vary: accept\r\n", b"date: Sun, 06 Nov 1994 08:49:37 GMT\r\n", b"expires: 0\r\n", b"expires: Thu, 01 Dec 2050 16:00:00 GMT\r\n",
         b"last-modified: Sun, 06 Nov 1994 08:49:37 GMT\r\n", b"etag: \"x\"\r\n", b"set-cookie: a=b\r\n", b"warning: 110 - x\r\n", b"range: bytes=0-1\r\n",
         b"HTTP/1.1 100 Continue\r\n\r\n", b"HTTP/1.1 103 Early Hints\r\nlink: x\r\n\r\n", b"HTTP/1.1 200 OK\r\n\r\n", b"HTTP/1.0", b"HTTP/1.1", b"HTTP/2.0", b"HTTP/1.10",
         b"0\r\n\r\n", b"5\r\nhello\r\n", b"5;x=y\r\nhello\r\n", b"ffffffffffffffff\r\n", b"00000000000000005\r\nhello\r\n", b"GET ", b"POST ", b"CONNECT ", b"OPTIONS * "]


# Fields that say nothing of the length.
FIELDS = [word for word in WORDS if word.endswith(b"\r\n") and b": " in word and word.count(b"\r\n") == 1 and not word.startswith((b"content-", b"transfer-", b" "))]


def run_of(random: Random, octets: bytes, most: int = 64) -> tuple[int, int]:
    """The ends of a run of the octets."""
    start = random.randrange(len(octets) + 1)
    return start, min(len(octets), start + random.randrange(1, most + 1))


def changed(random: Random, octets: bytes, words: list[bytes]) -> bytes:
    """One change: an octet, a run, a word, a number or a length is another."""
    start, end = run_of(random, octets)
    match random.randrange(12):
        case 0 if octets:
            place = random.randrange(len(octets))
            return octets[:place] + bytes([octets[place] ^ 1 << random.randrange(8)]) + octets[place + 1:]
        case 1 | 2 if octets:
            place = random.randrange(len(octets))
            return octets[:place] + bytes([random.choice(EDGES)]) + octets[place + 1:]
        case 3:
            return octets[:start] + bytes(random.choices(EDGES, k=random.randrange(1, 4))) + octets[start:]
        case 4:
            return octets[:start] + octets[end:]
        case 5:
            return octets[:end] + octets[start:]
        case 6:
            return octets[:start]
        case 7 if end > start:
            return octets[:start] + octets[start:end] * random.choices([2, 3, 17, 70, 300, 5000], [120, 80, 80, 50, 10, 3])[0] + octets[end:]
        case 8 if words:
            return octets[:start] + random.choice(words) + octets[end if random.random() < 0.3 else start:]
        case 9:
            places = [place for place, octet in enumerate(octets) if 48 <= octet <= 57]
            if places:
                first = last = random.choice(places)
                while octets[last:last + 1].isdigit():
                    last += 1
                return octets[:first] + random.choice(NUMBERS) + octets[last:]
            return octets
        case 10:
            other, behind = run_of(random, octets)
            return octets[:start] + octets[other:behind] + octets[end:]
    return octets[:start] + random.randbytes(random.randrange(1, 20)) + octets[end:]


def mutated(random: Random, octets: bytes, words: list[bytes] = []) -> bytes:
    """Octets with some changes, or, seldom, with none."""
    for _ in range(random.choice([0, 1, 1, 1, 2, 2, 3, 6])):
        octets = changed(random, octets, words)[:MOST_OCTETS]
    return octets


def request(random: Random, path: bytes) -> bytes:
    """A request that may be served."""
    lines = [random.choice([b"GET http://o%s HTTP/1.1\r\nhost: o\r\n", b"GET %s HTTP/1.1\r\nHost: o\r\n", b"GET http://o%s HTTP/1.0\r\n"]) % path]
    lines += random.choices(FIELDS[1:], k=random.choice([0, 0, 1, 3]))
    if random.random() < 0.05:
        lines += [b"x-%d: y\r\n" % number for number in range(random.choice([55, 62, 63, 64, 200]))]
    if random.random() < 0.03:
        lines.append(b"x: " + b"y" * random.choice([1000, 16_300, 16_384, 40_000]) + b"\r\n")
    return b"".join(lines) + b"\r\n"


def response(random: Random, page: bytes) -> bytes:
    """A response that may be taken, with any framing."""
    body = page + bytes(random.choices([46, 13, 10, 0, 255], k=random.choice([0, 1, 30, 3000])))
    if random.random() < 0.02:
        body += b"z" * random.choice([60_000, 65_536 - len(body), 65_537 - len(body)])
    status = random.choice([b"200 OK"] * 8 + [b"204 No Content", b"304 Not Modified", b"404 Not Found", b"301 Moved", b"500 No", b"503 No", b"504 No", b"203", b"599 "])
    front = b"".join(random.choices([b"", b"HTTP/1.1 100 Continue\r\n\r\n", b"HTTP/1.1 103 Early Hints\r\nlink: </x>\r\n\r\n"], [20, 1, 1], k=random.choice([1, 1, 1, 40])))
    fields = random.choices(FIELDS, k=random.choice([0, 1, 1, 2, 5]))
    if random.random() < 0.03:
        fields += [b"x-%d: y\r\n" % number for number in range(random.choice([55, 56, 57, 63, 64, 65, 200]))]
    match random.randrange(4):
        case 0 | 1:
            framing, body = b"content-length: %d\r\n" % len(body), body
        case 2:
            framing, body = b"transfer-encoding: chunked\r\n", chunked(random, body)
        case 3:
            framing = b""
    return front + b"HTTP/1.1 " + status + b"\r\ncache-control: max-age=600\r\n" + b"".join(fields) + framing + b"\r\n" + body


def chunked(random: Random, body: bytes) -> bytes:
    chunks, place = [], 0
    while place < len(body):
        size = random.choice([1, 7, 100, 65_536])
        piece = body[place:place + size]
        chunks.append(b"%x%s\r\n%s\r\n" % (len(piece), random.choice([b"", b"", b"", b";x", b";x=\"y\"", b" ", b";" + b"x" * 250]), piece))
        place += size
    return b"".join(chunks) + random.choice([b"0\r\n\r\n", b"000\r\nx: y\r\n\r\n", b"0\r\n" + b"x: y\r\n" * 70 + b"\r\n"])
