"""Random datagrams of ICP (RFC 2186) and HTCP (RFC 2756), most of them whole, some wrong in one field or damaged."""

from random import Random

from model.make_urls import made_url

NUMBERS = [0, 1, 2, 3, 5, 7, 32, 255, 256, 65535, 65536, 2**31, 2**32 - 2, 2**32 - 1]
ICP_OPCODES = [1] * 10 + [2, 3, 4, 21, 22, 23, 23, 23, 0, 5, 10, 11, 20, 24, 255]
METHODS = [b"GET"] * 12 + [b"get", b"HEAD", b"POST", b"", b"GE", b"GETT", b"GET ", b"GET\0"]
VERSIONS = [b"HTTP/1.1"] * 4 + [b"HTTP/1.0", b"", b"x"]
LINE_NAMES = [b"X-Purge-Number"] * 12 + [b"X-Purge-Base"] * 6 + [b"x-purge-NUMBER", b"X-Purge-Stamp", b"X-Purge-Numbe", b"X-Purge-Numbers",
                                                                  b"X-Purge-Number ", b" X-Purge-Number", b"X_Purge_Number", b"x-PURGE-base",
                                                                  b"X-Purge-Bas", b"X-Purge-Base ", b"Accept", b"", b"X-Purge-Number\0"]
LINE_ENDS = [b"\r\n"] * 16 + [b"\n", b"\r", b"\r\r\n", b"\r\n\r\n", b"\r\n ", b""]
BLANKS = [b" "] * 8 + [b"", b"\t", b" \t ", b"\v", b"\r", b"\0", b"\xa0"]


def junk(random: Random, most: int) -> bytes:
    return random.randbytes(random.randrange(most + 1))


def rarely(random: Random, probability: float, usual: int, *unusual: int) -> int:
    return random.choice(unusual) if random.random() < probability else usual


def two_octets(number: int) -> bytes:
    return (number % 65536).to_bytes(2, "big")


def damaged(random: Random, datagram: bytes) -> bytes:
    """An octet changed, put in or left out, a front of the datagram, or a length that is nearly right."""
    place = random.randrange(len(datagram))
    octet = random.choice([0, 1, 2, 128, 254, 255, random.randrange(256)])
    match random.randrange(6):
        case 0 | 1:
            return datagram[:place] + bytes([octet]) + datagram[place + 1:]
        case 2:
            return datagram[:place]
        case 3:
            return datagram[:place] + datagram[place + 1:]
        case 4:
            return datagram[:place] + bytes([octet]) + datagram[place:]
    place = random.choice([0, 2, 4])
    return datagram[:place] + two_octets(random.choice([0, 7, 8, 14, len(datagram), len(datagram) - random.randrange(8)])) + datagram[place + 2:]


def made_icp(random: Random) -> bytes:
    opcode = random.choice(ICP_OPCODES)
    url = made_url(random) if random.random() < 0.95 else junk(random, 30)
    if random.random() < 0.004:
        url = b"a" * random.choice([16384 - 26, 16384 - 25, 16384 - 24, 16384 - 21, 16384 - 20])
    payload = url + b"\0" * rarely(random, 0.03, 1, 0, 2)
    if opcode == 1:
        payload = junk(random, 4).rjust(4, b"\0") + payload
    elif opcode == 23:
        entity = junk(random, 10)
        payload += two_octets(len(entity) + rarely(random, 0.2, 0, 1, -1, 256)) + entity
    if random.random() < 0.03:
        payload += junk(random, 3)
    length = 20 + len(payload) + rarely(random, 0.1, 0, 1, -1, 256, -20)
    version = rarely(random, 0.08, 2, 0, 1, 3, 255)
    header = bytes([opcode, version]) + two_octets(length) + random.choice(NUMBERS).to_bytes(4, "big") + random.choice([bytes(12), random.randbytes(12)])
    return damaged(random, header + payload) if random.random() < 0.15 else header + payload


def string(random: Random, text: bytes) -> bytes:
    return two_octets(len(text) + rarely(random, 0.012, 0, 1, -1, 3, 256)) + text


def made_number_line(random: Random, number: int) -> bytes:
    digits = b"%d" % number
    usual = [digits] * 14
    wrong = [b"0" + digits, b"+" + digits, b"-" + digits, digits + b".0", digits + b"a", b"", b"0", b"00", b"4294967295", b"4294967296", b"0x7", b"9" * 30,
             digits + b" " + digits, digits + b"," + digits, b"\xb2", digits + b"\0", b"%d" % (number + 1), b"%d" % (number + 2**32)]
    colon = random.choice([b":"] * 20 + [b"", b"::", b" :"])
    return random.choice(LINE_NAMES) + colon + random.choice(BLANKS) + random.choice(usual + wrong) + random.choice([b""] * 8 + BLANKS[8:])


def made_headers(random: Random, number: int) -> bytes:
    """Header lines; the number is the TRANS-ID that a line has to repeat."""
    if random.random() < 0.25:
        return b""
    if random.random() < 0.6:
        name = random.choice([b"X-Purge-Number", b"X-Purge-Number", b"X-Purge-Base"])
        return (name + b": %d\r\n" % number) * rarely(random, 0.1, 1, 2)
    lines = [made_number_line(random, number) for _ in range(rarely(random, 0.3, 1, 2, 3))]
    lines.insert(random.randrange(len(lines) + 1), random.choice([b"Accept: */*", b"", b":", b"X-Purge-Number", b"X-Purge-Stamp: 9"]))
    return b"".join(line + random.choice(LINE_ENDS) for line in lines)


def made_data(random: Random, opcode: int, is_response: int, number: int) -> bytes:
    """OP-DATA."""
    if opcode == 1 and is_response:
        texts = [b"", b"a: b\r\n", b"X-Purge-Stamp: 7\r\n", junk(random, 5)]
        return b"".join(string(random, random.choice(texts)) for _ in range(rarely(random, 0.3, 3, 0, 1, 2)))
    if opcode in (1, 4) and not is_response:
        reason = random.choice([b"\0\0", b"\0\0", b"\0\1", b"\xff\xf0", b"\xff\xff"]) if opcode == 4 else b""
        texts = (random.choice(METHODS), made_url(random, 0.7), random.choice(VERSIONS), made_headers(random, number))
        return reason + b"".join(string(random, text) for text in texts)
    return junk(random, rarely(random, 0.3, 0, 12))


def made_htcp(random: Random, clears: float = 0.4) -> bytes:
    """With this probability a CLR."""
    number = rarely(random, 0.3, random.randrange(12), *NUMBERS)
    opcode = 4 if random.random() < clears else rarely(random, 0.4, 1, 0, 0, 2, 3, 5, 15)
    is_response = rarely(random, 0.25, 0, 1)
    flag = rarely(random, 0.35, 0, 1) if is_response else rarely(random, 0.15, 1, 0)
    response = rarely(random, 0.5 if is_response else 0.1, 0, 1, 2, 5, 15)
    data = made_data(random, opcode, is_response, number) + junk(random, rarely(random, 0.1, 0, 5))
    if random.random() < 0.03:
        data = data[:random.randrange(len(data) + 1)]
    if random.random() < 0.003:
        data += bytes(random.choice([10_000, 65_535 - 14 - len(data), 65_536 - 14 - len(data)]))
    octets = bytes([opcode << 4 | response, rarely(random, 0.2, 0, 1, 21, 63) << 2 | flag << 1 | is_response]) + number.to_bytes(4, "big") + data
    signature, trail = junk(random, rarely(random, 0.15, 0, 28)), junk(random, rarely(random, 0.12, 0, 5))
    data_length = two_octets(2 + len(octets) + rarely(random, 0.06, 0, 1, -1, 2, -2, 256))
    signature_length = two_octets(2 + len(signature) + rarely(random, 0.08, 0, 1, -1, 2, -2, len(trail), len(trail) + 1, 65_000))
    behind_header = data_length + octets + signature_length + signature + trail
    length = two_octets(4 + len(behind_header) + rarely(random, 0.06, 0, 1, -1, 2, 256))
    whole = length + bytes([rarely(random, 0.04, 0, 1, 255), rarely(random, 0.2, 0, 1, 255)]) + behind_header
    return damaged(random, whole) if random.random() < 0.08 else whole
