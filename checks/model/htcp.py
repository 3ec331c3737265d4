"""HTCP datagrams: RFC 2756, and docs/FORMATS.md, "HTCP datagrams". The names of the messages and their fields are those of that page."""

from dataclasses import dataclass

from model.fault import Fault
from model.lines import decimal

LEAST_OCTETS = 14
DATA_START = 4
DATA_HEADER_OCTETS = 8
NOP, TST, CLR = 0, 1, 4
NUMBER_LINE = b"X-Purge-Number"
BASE_LINE = b"X-Purge-Base"
STAMP_LINE = b"X-Purge-Stamp"
MOST_NUMBER = 4_294_967_295


@dataclass(frozen=True)
class NopAsk:
    number: int
    desired: int


@dataclass(frozen=True)
class NopAnswer:
    number: int


@dataclass(frozen=True)
class TstAsk:
    number: int
    desired: int
    method: bytes
    uri: bytes
    version: bytes
    request_headers: bytes


@dataclass(frozen=True)
class TstHit:
    number: int
    response_headers: bytes
    entity_headers: bytes
    cache_headers: bytes


@dataclass(frozen=True)
class TstMiss:
    number: int
    cache_headers: bytes


@dataclass(frozen=True)
class ClrAsk:
    number: int
    desired: int
    reason: int
    method: bytes
    uri: bytes
    version: bytes
    request_headers: bytes


@dataclass(frozen=True)
class ClrAnswer:
    number: int
    response: int


@dataclass(frozen=True)
class Other:
    number: int
    opcode: int
    desired: int


@dataclass(frozen=True)
class Overall:
    number: int
    opcode: int
    response: int


@dataclass(frozen=True)
class OtherAnswer:
    number: int
    opcode: int
    response: int


HtcpMessage = NopAsk | NopAnswer | TstAsk | TstHit | TstMiss | ClrAsk | ClrAnswer | Other | Overall | OtherAnswer


def read_strings(data: bytes, count: int) -> list[bytes]:
    """So many strings from the front, each a length in two octets and that many octets; what follows is not looked at."""
    strings = []
    for _ in range(count):
        length = int.from_bytes(data[:2], "big")
        if len(data) < 2 + length:
            raise Fault("BadString")
        strings.append(data[2:2 + length])
        data = data[2 + length:]
    return strings


def read_request(opcode: int, number: int, desired: int, data: bytes) -> HtcpMessage:
    if opcode == NOP:
        return NopAsk(number, desired)
    if opcode == TST:
        return TstAsk(number, desired, *read_strings(data, 4))
    if opcode == CLR:
        if len(data) < 2:
            raise Fault("BadString")
        return ClrAsk(number, desired, data[1] & 15, *read_strings(data[2:], 4))
    return Other(number, opcode, desired)


def read_response(opcode: int, response: int, is_overall: int, number: int, data: bytes) -> HtcpMessage:
    if is_overall:
        return Overall(number, opcode, response)
    if opcode == NOP and response == 0:
        return NopAnswer(number)
    if opcode == TST and response == 0:
        return TstHit(number, *read_strings(data, 3))
    if opcode == TST and response == 1:
        return TstMiss(number, *read_strings(data, 1))
    if opcode == CLR and response <= 2:
        return ClrAnswer(number, response)
    return OtherAnswer(number, opcode, response)


def read_htcp(datagram: bytes) -> HtcpMessage:
    """The message, else the first fault that holds."""
    if len(datagram) < LEAST_OCTETS:
        raise Fault("Short")
    if int.from_bytes(datagram[0:2], "big") != len(datagram):
        raise Fault("BadLength")
    if datagram[2] != 0:
        raise Fault("BadMajor")
    data_end = DATA_START + int.from_bytes(datagram[4:6], "big")
    if data_end < DATA_START + DATA_HEADER_OCTETS or data_end + 2 > len(datagram):
        raise Fault("BadData")
    opcode, response = datagram[6] >> 4, datagram[6] & 15
    flag, is_response = datagram[7] >> 1 & 1, datagram[7] & 1
    number = int.from_bytes(datagram[8:12], "big")
    data = datagram[DATA_START + DATA_HEADER_OCTETS:data_end]
    message = read_response(opcode, response, flag, number, data) if is_response else read_request(opcode, number, flag, data)
    if not 2 <= int.from_bytes(datagram[data_end:data_end + 2], "big") <= len(datagram) - data_end:
        raise Fault("BadAuth")
    return message


def string(text: bytes) -> bytes:
    return len(text).to_bytes(2, "big") + text


def frame(opcode: int, response: int, flags: int, number: int, data: bytes = b"") -> bytes:
    """A whole message with an empty AUTH."""
    body = bytes([opcode << 4 | response, flags]) + number.to_bytes(4, "big") + data
    behind_header = (len(body) + 2).to_bytes(2, "big") + body + b"\0\2"
    return (len(behind_header) + DATA_START).to_bytes(2, "big") + b"\0\0" + behind_header


def write_htcp(message: HtcpMessage) -> bytes:
    """The messages that members and the master send."""
    match message:
        case NopAnswer(number):
            return frame(NOP, 0, 1, number)
        case TstAsk(number, desired, method, uri, version, headers):
            return frame(TST, 0, desired << 1, number, b"".join(map(string, (method, uri, version, headers))))
        case TstHit(number, response_headers, entity_headers, cache_headers):
            return frame(TST, 0, 1, number, b"".join(map(string, (response_headers, entity_headers, cache_headers))))
        case TstMiss(number, cache_headers):
            return frame(TST, 1, 1, number, string(cache_headers))
        case ClrAsk(number, desired, reason, method, uri, version, headers):
            specifier = b"".join(map(string, (method, uri, version, headers)))
            return frame(CLR, 0, desired << 1, number, reason.to_bytes(2, "big") + specifier)
        case ClrAnswer(number, response):
            return frame(CLR, response, 1, number)
        case Overall(number, opcode, response):
            return frame(opcode, response, 3, number)
    raise AssertionError(f"never written: {message}")


def number_line(name: bytes, number: int) -> bytes:
    return name + b": %d\r\n" % number


def number_in(headers: bytes, name: bytes) -> int | None:
    """The number of the one line of this name, nothing where there is no such line."""
    lines = [line.partition(b":") for line in headers.split(b"\r\n")]
    values = [value.strip(b" \t") for before, colon, value in lines if colon and before.lower() == name.lower()]
    if not values:
        return None
    number = decimal(values[0], MOST_NUMBER)
    if len(values) > 1 or number is None:
        raise Fault("BadNumber")
    return number
