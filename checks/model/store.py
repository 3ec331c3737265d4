"""Answers, copies and the store: docs/RULES.md, "The store", "Responses that are kept" and "Lifetimes" (RFC 9111, section 4.2)."""

from dataclasses import dataclass, field

GREATEST_AGE = 2_147_483_648
STORED_STATUSES = (200, 203, 300, 301, 404, 410)
MAX_AGE_60 = (b"cache-control", b"max-age=60")


@dataclass(frozen=True)
class Answer:
    status: int
    fields: tuple[tuple[bytes, bytes], ...] = ()
    body: bytes = b""
    age: int = 0
    stamp: int | None = None


def lifetime_of(answer: Answer, default: int) -> int | None:
    """The lifetime of an answer that is stored. The answers of scripts have either `cache-control: max-age=60` or no field at all."""
    if answer.status not in STORED_STATUSES:
        return None
    return 60 if MAX_AGE_60 in answer.fields else default or None


@dataclass(frozen=True)
class Copy:
    key: bytes
    stamp: int
    asked_at: int
    lifetime: int
    answer: Answer

    def octets(self) -> int:
        return len(self.key) + len(self.answer.body) + sum(len(name) + len(value) + 4 for name, value in self.answer.fields)

    def age(self, now: int) -> int:
        """A clock that ran back counts as one that stood still."""
        return self.answer.age + max(0, now - self.asked_at)

    def is_fresh(self, now: int) -> bool:
        return self.age(now) < self.lifetime

    def served_age(self, now: int) -> int:
        return min(GREATEST_AGE, self.age(now))


@dataclass
class Store:
    most_copies: int
    most_octets: int
    copies: dict[bytes, Copy] = field(default_factory=dict)
    """By their keys. The last one is the front."""

    def peek(self, key: bytes) -> Copy | None:
        return self.copies.get(key)

    def move_to_front(self, key: bytes) -> None:
        self.copies[key] = self.copies.pop(key)

    def remove(self, key: bytes) -> None:
        del self.copies[key]

    def remove_all_below(self, stamp: int) -> None:
        self.copies = {key: copy for key, copy in self.copies.items() if copy.stamp >= stamp}

    def put(self, copy: Copy) -> str:
        if copy.octets() > self.most_octets:
            return "TooLarge"
        old = self.copies.get(copy.key)
        if old is not None and old.stamp > copy.stamp:
            return "Kept"
        self.copies.pop(copy.key, None)
        self.copies[copy.key] = copy
        octets = sum(held.octets() for held in self.copies.values())
        while len(self.copies) > self.most_copies or octets > self.most_octets:
            octets -= self.copies.pop(next(iter(self.copies))).octets()
        return "Stored"
