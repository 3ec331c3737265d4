"""Where an ask goes: docs/RULES.md, "Where an ask goes" (RFC 2187, section 5)."""

from dataclasses import dataclass, field

from model.roster import FIRST_FOREIGN, Peer


@dataclass(frozen=True)
class Told:
    """What a peer said: it has a copy (`hit`), perhaps under a stamp, it has none (`miss`), or it gives none (`none`)."""

    peer: Peer
    kind: str
    stamp: int | None


@dataclass(frozen=True)
class ToPeer:
    peer: int
    only_if_cached: bool


@dataclass(frozen=True)
class ToOrigin:
    pass


def may_be_asked(peer: Peer, floor: int) -> bool:
    """A foreign cache takes no part in purges, so it counts only where the key's floor is 0."""
    return peer.id < FIRST_FOREIGN or floor == 0


@dataclass
class Round:
    asked: list[Peer]
    told: list[Told] = field(default_factory=list)
    is_over: bool = False

    def tell(self, peer: Peer, kind: str, stamp: int | None) -> bool:
        """Whether this is the peer's first answer: only that one counts, also when the waiting is over."""
        if any(told.peer == peer for told in self.told):
            return False
        self.told.append(Told(peer, kind, stamp))
        return True

    def choose(self, floor: int, tried: list[int]) -> ToPeer | ToOrigin | None:
        """Where the ask goes now, nothing where it waits."""
        usable = [told for told in self.told if told.peer.id not in tried and may_be_asked(told.peer, floor)]
        for told in usable:
            if told.kind == "hit" and (told.stamp is None or told.stamp >= floor):
                return ToPeer(told.peer.id, told.peer.role == "sibling")
        if not self.is_over and len(self.told) < len(self.asked):
            return None
        for told in usable:
            if told.kind == "miss" and told.peer.role == "parent":
                return ToPeer(told.peer.id, False)
        return ToOrigin()
