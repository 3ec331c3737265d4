"""ICP datagrams: RFC 2186, and docs/FORMATS.md, "ICP datagrams"."""

from dataclasses import dataclass

from model.fault import Fault

HEADER_OCTETS = 20
MOST_OCTETS = 16_384
VERSION = 2
OPCODES = {"Query": 1, "Hit": 2, "Miss": 3, "Error": 4, "MissNoFetch": 21, "Denied": 22, "HitObj": 23}
OPERATIONS = {opcode: operation for operation, opcode in OPCODES.items()}


@dataclass(frozen=True)
class IcpMessage:
    operation: str
    number: int
    url: bytes
    entity: bytes = b""


def read_entity(octets: bytes) -> bytes:
    """The object of a HIT_OBJ: its size in two octets, and just as many octets."""
    if len(octets) < 2 or int.from_bytes(octets[:2], "big") != len(octets) - 2:
        raise Fault("BadObject")
    return octets[2:]


def read_icp(datagram: bytes) -> IcpMessage:
    """The message, else the first fault that holds."""
    if len(datagram) < HEADER_OCTETS:
        raise Fault("Short")
    if len(datagram) > MOST_OCTETS:
        raise Fault("TooLong")
    if datagram[1] != VERSION:
        raise Fault("BadVersion")
    if int.from_bytes(datagram[2:4], "big") != len(datagram):
        raise Fault("BadLength")
    if datagram[0] not in OPERATIONS:
        raise Fault("BadOpcode")
    operation = OPERATIONS[datagram[0]]
    payload = datagram[HEADER_OCTETS + 4:] if operation == "Query" else datagram[HEADER_OCTETS:]
    url, zero, rest = payload.partition(b"\0")
    if not zero:
        raise Fault("NoZero")
    if rest and operation != "HitObj":
        raise Fault("Trailing")
    entity = read_entity(rest) if operation == "HitObj" else b""
    return IcpMessage(operation, int.from_bytes(datagram[4:8], "big"), url, entity)


def write_icp(message: IcpMessage) -> bytes:
    """A HIT_OBJ is never written."""
    payload = (bytes(4) if message.operation == "Query" else b"") + message.url + b"\0"
    length = HEADER_OCTETS + len(payload)
    return bytes([OPCODES[message.operation], VERSION]) + length.to_bytes(2, "big") + message.number.to_bytes(4, "big") + bytes(12) + payload
