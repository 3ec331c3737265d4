"""The floors of a node: docs/RULES.md, "Floors"."""

from dataclasses import dataclass, field

MOST_ROWS = 65_536


@dataclass
class Floors:
    rows: dict[bytes, int] = field(default_factory=dict)
    """The purge numbers of keys."""
    base: int = 0
    """The floor of each key is at least this number."""
    seen: int = 0
    """The greatest floor of all."""

    def of(self, key: bytes) -> int:
        return max(self.rows.get(key, 0), self.base)

    def raise_to(self, key: bytes, number: int) -> int:
        """The new base where it rises, else 0."""
        risen = 0
        if key in self.rows:
            self.rows[key] = max(number, self.rows[key])
        elif number > self.base and len(self.rows) < MOST_ROWS:
            self.rows[key] = number
        elif number > self.base:
            risen = self.base = max(number, self.seen)
            self.rows = {}
        self.seen = max(number, self.seen)
        return risen

    def raise_base(self, number: int) -> None:
        """The rows stay."""
        self.base = max(number, self.base)
        self.seen = max(number, self.seen)
