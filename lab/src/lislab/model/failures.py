"""Why a message isn't delivered."""


class Refused(Exception):
    """A message could not be delivered."""


class Unreachable(Refused):
    """Nothing could be delivered now, whatever the message is: this isn't counted as its failure. Whoever was asked may
    have said for how many seconds not to try again."""

    def __init__(self, why: str, wait: float = 0.0) -> None:
        super().__init__(why)
        self.wait = wait


class Quarantined(Refused):
    """A message can't be delivered with certainty, for example because a result has no sample: it is quarantined at
    once."""
