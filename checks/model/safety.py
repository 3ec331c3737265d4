"""The promise of docs/SAFETY.md, looked for in the program's own answers to a script of `cache world`. It needs what a world of the model has
noted while it played the same script, and bodies that are all different: then a body tells which reading brought the copy that is served."""

from model.keys import read_key
from model.world import World


def word_behind(words: list[bytes], name: bytes) -> bytes | None:
    return words[words.index(name) + 1] if name in words else None


def broken_promises(world: World, lines: list[bytes], answers: list[bytes]) -> list[str]:
    """Once `done P` was told of a purge P, no copy of that purge's key is served whose reading began before the line that issued it; and no request to a
    sibling begins a round, an ask or a read."""
    broken: list[str] = []
    issued: dict[int, tuple[bytes, int]] = {}
    done: set[int] = set()
    for place, (line, answer) in enumerate(zip(lines, answers), start=1):
        words = answer.split(b" ")
        if place in world.sibling_requests and {b"round", b"ask", b"read"}.intersection(words):
            broken.append(f"line {place}: a request to a sibling begins something")
        body = word_behind(words, b"body")
        if body is not None:
            key, began = world.body_sources.get(body, (b"", 0))
            if not began:
                broken.append(f"line {place}: no origin gave this body")
            broken += [f"line {place}: an old copy after purge {purge}" for purge in done if issued[purge][0] == key and began < issued[purge][1]]
        if words[1:2] == [b"purge"]:
            issued[int(words[2])] = (read_key(line.split(b" ")[1]), place)
        if words[1:2] == [b"done"] and int(words[2]) in issued:
            done.add(int(words[2]))
    return broken
