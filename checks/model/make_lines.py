"""Random scripts of `cache answer` and lines of `cache wire icp` and `cache wire htcp`."""

from random import Random

from model.floors import MOST_ROWS
from model.htcp import BASE_LINE, NUMBER_LINE, ClrAsk, TstAsk, number_line, write_htcp
from model.icp import IcpMessage, write_icp
from model.lines import MOST_LINE_OCTETS
from model.make_datagrams import made_htcp, made_icp
from model.make_urls import KEYS, made_url

KINDS = ["store", "icp", "htcp", "master", "stranger", "bad"]
CLEARS = {"htcp": 0.3, "master": 0.72, "stranger": 0.35}
STAMPS = [b"0", b"1", b"2", b"3", b"5", b"7", b"9", b"11", b"255", b"4294967295"] * 3 + [b"4294967296", b"01", b"00", b"-1", b"+1", b"x", b"", b"3.0", b"3 ",
                                                                                       b"99999999999999999999", b"\t3", b"3\r", b"0x3", b"1" * 5000]
BAD_LINES = [b"", b" ", b"icp", b"icp ", b"htcp  00", b" icp 00", b"master 00 ", b"store http://o/a 3 4", b"ICP 00", b"icp\t00", b"store  http://o/a",
             b"store http://o/a 3 ", b"store /a 01", b"store", b"quit", b"clock 3", b"answer", b"store\0 http://o/a", b"\r", b"\0", b"#", b"ic 00", b"icpx 00",
             b"icp 0", b"htcp 0g", b"master zz", b"stranger 0X00", b"icp 00 00", b"icp 00\r", b"icp \xef\xbc\x90\xef\xbc\x90", b"icp ::", b"icp @@"]


def hex_text(random: Random, datagram: bytes) -> bytes:
    text = datagram.hex().encode()
    if random.random() < 0.04:
        return text.upper()
    return random.choice([text[:-1], b"0x" + text, text + b"g", text.replace(b"0", b" ", 1)]) if random.random() < 0.03 else text


def answer_line(random: Random, kind: str) -> bytes:
    if kind == "bad":
        return random.choice(BAD_LINES)
    if kind == "store":
        stamp = b" " + random.choice(STAMPS) if random.random() < 0.6 else b""
        return b"store " + made_url(random).replace(b"\n", b"\v") + stamp
    datagram = made_icp(random) if kind == "icp" else made_htcp(random, CLEARS[kind])
    return kind.encode() + b" " + hex_text(random, datagram)


def question(random: Random, key: bytes, number: int) -> bytes:
    """Shows whether a copy of the key is held, and under which stamp."""
    if random.random() < 0.5:
        return b"icp " + write_icp(IcpMessage("Query", number, key)).hex().encode()
    return b"htcp " + write_htcp(TstAsk(number, 1, b"GET", key, b"HTTP/1.1", b"")).hex().encode()


def clear(key: bytes, number: int, headers: bytes) -> bytes:
    return write_htcp(ClrAsk(number, 1, 0, b"GET", key, b"HTTP/1.1", headers)).hex().encode()


def full_store_script(random: Random) -> list[bytes]:
    """More copies than a store has room for, looked at, replaced and purged, and asked for at the end."""
    keys = [b"http://h/%d" % number for number in range(random.choice([1000, 1001, 1005, 1100, 1300]))]
    lines = []
    for key in keys:
        other, number = random.choice(keys), random.randrange(1, 7)
        lines.append(b"store " + key + random.choice([b"", b"", b" 1", b" 2", b" 5"]))
        lines += random.choices([
            [],
            [b"store " + other + random.choice([b"", b" 0", b" 1", b" 5"])],
            [b"htcp " + clear(other, 7, b"")],
            [numbered_clear(other, number)],
            [base_clear(number)],
            [question(random, other, 5)],
        ], [70, 10, 4, 4, 0.1, 12])[0]
    return lines + [question(random, key, 5) for key in keys]


def numbered_clear(key: bytes, number: int) -> bytes:
    return b"master " + clear(key, number, number_line(NUMBER_LINE, number))


def base_clear(number: int) -> bytes:
    """What an admission sends."""
    return b"master " + clear(b"", number, number_line(BASE_LINE, number))


def full_table_script(random: Random) -> bytes:
    """Purges of as many URLs as a table of floors has rows, in any order of numbers; then purges of these and of further URLs, and copies under stamps
    near their numbers. All are asked for at the end."""
    rows = [b"http://f/%d" % number for number in range(MOST_ROWS)]
    lines = [numbered_clear(key, random.randint(1, 2 * MOST_ROWS)) for key in rows]
    keys = [b"http://h/%d" % number for number in range(200)] + random.sample(rows, 50)
    for _ in range(1500):
        key = random.choice(keys)
        number = random.choice([random.randint(1, 3 * MOST_ROWS), 2 * MOST_ROWS + random.randrange(-2, 3), random.randint(1, 9)])
        kinds = [numbered_clear(key, number), base_clear(number), b"store %s %d" % (key, number), b"store " + key, question(random, key, 5)]
        lines.append(random.choices(kinds, [15, 0.2, 50, 15, 20])[0])
    # (behind CR LF no line would be a purge)
    return b"".join(line + b"\n" for line in lines + [question(random, key, 5) for key in keys])


def answer_script(random: Random) -> bytes:
    if random.random() < 0.02:
        lines = full_store_script(random)
    else:
        kinds = random.choice([KINDS, KINDS, KINDS[:4], ["store", "htcp"], ["store", "master"], ["store", "stranger", "master"]])
        lines = [answer_line(random, random.choice(kinds)) for _ in range(random.choice([1, 3, 8, 30, 60, 500]))]
        lines += [question(random, key, 1) for key in KEYS]
    if random.random() < 0.02:
        lines.insert(random.randrange(len(lines)), b"a" * (MOST_LINE_OCTETS + random.randrange(2)))
    return joined(random, lines)


def wire_line(random: Random, command: str) -> bytes:
    if random.random() < 0.02:
        return random.choice([b"", b" ", b"00 00", b"0", b"0g", b" 00", b"00 ", b"00\r", b"0x00", b"::"])
    return hex_text(random, made_icp(random) if command == "wire icp" else made_htcp(random))


def wire_script(random: Random, command: str) -> bytes:
    return joined(random, [wire_line(random, command) for _ in range(100)])


def joined(random: Random, lines: list[bytes]) -> bytes:
    end = random.choice([b"\n", b"\n", b"\n", b"\r\n"])
    return end.join(line.replace(b"\n", b"") for line in lines) + random.choice([end, b""])
