"""What is refused: one exception, with the name that docs/RULES.md and docs/FORMATS.md give it."""


class Fault(Exception):
    def __init__(self, name: str) -> None:
        super().__init__(name)
        self.name = name
