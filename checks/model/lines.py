"""Lines of scripts, their words and numbers: docs/FORMATS.md, "cache answer" and "cache world FILE"."""

from model.fault import Fault

MOST_LINE_OCTETS = 140_000
HEX_DIGITS = frozenset(b"0123456789abcdefABCDEF")


class BadLine(Exception):
    """The line is none of those that a script may have."""


def split_lines(script: bytes) -> list[bytes]:
    """Lines end with LF; a last line without LF counts unless it is empty."""
    lines = script.split(b"\n")
    return lines[:-1] if lines[-1] == b"" else lines


def split_words(line: bytes) -> list[bytes]:
    words = line.split(b" ")
    if b"" in words:
        raise BadLine
    return words


def decimal(text: bytes, most: int) -> int | None:
    """A number in decimal without leading zeros and not over the greatest one."""
    is_number = text.isdigit() and (text == b"0" or not text.startswith(b"0")) and len(text) <= len(str(most))
    return int(text) if is_number and int(text) <= most else None


def number_word(word: bytes, bits: int) -> int:
    number = decimal(word, 2**bits - 1)
    if number is None:
        raise BadLine
    return number


def hex_word(word: bytes) -> bytes:
    if len(word) % 2 or not HEX_DIGITS.issuperset(word):
        raise Fault("bad hex")
    return bytes.fromhex(word.decode())
