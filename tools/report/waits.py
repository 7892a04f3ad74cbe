"""Who waits for whom at the end of a run."""
from dataclasses import dataclass

from flow.circles import circles_of


@dataclass(frozen=True)
class Wait:
    """A module that waits for ever at a channel, which is `empty` or `full`; `other`, if there is one, could end it."""
    module: str
    side: str
    channel: str
    other: str


def circles(waits):
    """The modules that wait for each other in a circle, circle by circle."""
    return circles_of({wait.module: wait.other for wait in waits})
