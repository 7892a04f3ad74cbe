"""What the program tells of a session."""
from dataclasses import dataclass

from flow import answers
from report.timeline import Timeline
from report.waits import Wait
from report.words import Words


@dataclass
class Facts:
    """The answers to a session; in `run` those after each edit, too, and elsewhere the design as it is."""
    title: str
    session: object
    run: answers.Run
    stalls: answers.Stalls
    path: answers.Path
    size: answers.Depths  # or None, where it took too long
    advise: answers.Depths
    timeline: Timeline
    words: Words
    limits: tuple  # of clocks, and of operations of a module
    wait: int  # the seconds that `size` had

    @property
    def verdict(self):
        return self.stalls.verdict

    @property
    def held(self):
        """The modules that wait for ever."""
        return self.run.reports[0].held

    @property
    def asks_outcomes(self):
        return self.session.asks_outcomes

    @property
    def depths(self):
        return {fifo.name: fifo.depth for fifo in self.session.fifos()}

    def awaited(self, side, name):
        """The module that could end a wait, if there is one."""
        channel = self.session.channels[name]
        module = channel.writer if side == 'empty' else channel.reader
        return module.name if module else None

    def waits(self):
        """Who waits for whom, for ever."""
        return [Wait(one.module, one.side, one.channel, self.awaited(one.side, one.channel)) for one in self.held]


def too_shallow(facts):
    """The FIFOs that cost time, or keep the design from its end, with the depths that they need.

    Of a design with queries nothing is sure, so none is named.
    """
    now, size = facts.verdict, facts.size
    if facts.asks_outcomes or size is None or not size.verdict.is_done:
        return {}
    if now.is_done and size.verdict.clock >= now.clock:
        return {}
    return {name: depth for name, depth in size.depths.items() if depth > facts.depths[name]}


def bits_of(facts):
    """The bits of all FIFOs, now and with the depths of `size`, which are None where these are not known."""
    fifos = facts.session.fifos()
    now = sum(fifo.width * fifo.depth for fifo in fifos)
    return now, facts.size and sum(fifo.width * facts.size.depths[fifo.name] for fifo in fifos)
