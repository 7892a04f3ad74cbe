"""Reads the program's answers into plain objects. docs/COMMANDS.md and docs/LANGUAGE.md tell what they mean.

Each reader takes the whole text of an answer and raises BadAnswer where the text is none of its command. Clocks count
from 0.
"""
import functools
import re
from dataclasses import dataclass, field

from flow.refused import NO_PROGRAM, Refused

VERDICTS = ('done', 'deadlock', 'cycles', 'ops')
SIDES = {'pop': 'empty', 'push': 'full'}  # what a channel is when an access of that side waits


class BadAnswer(Refused):
    """A text is no answer of its command; the message names the line."""

    def __init__(self, text):
        super().__init__(NO_PROGRAM, text)


@dataclass(frozen=True)
class Verdict:
    """How a run ends, and the clock: the latency where it is done."""
    kind: str
    clock: int

    @property
    def is_done(self):
        return self.kind == 'done'

    def __str__(self):
        return f'{self.kind} {self.clock}'


@dataclass(frozen=True)
class Held:
    """A module that waits for ever at a channel, which is `empty` or `full`."""
    module: str
    side: str
    channel: str


@dataclass(frozen=True)
class Event:
    """An access that was done in a clock."""
    module: str
    kind: str
    channel: str
    clock: int


@dataclass
class Report:
    """The design after the first `number` edits."""
    number: int
    verdict: Verdict
    outputs: dict = field(default_factory=dict)  # the values of each sink, in order of declaration
    held: list = field(default_factory=list)
    events: list = field(default_factory=list)


@dataclass
class Run:
    """The reports of a session, and how many simulations they took."""
    reports: list
    runs: int


@dataclass(frozen=True)
class ModuleTime:
    """The clocks in which a module moves, and those in which it stalls."""
    module: str
    moved: int
    still: int


@dataclass(frozen=True)
class Stall:
    """The clocks in which a module stalled because a channel was `empty` or `full`."""
    module: str
    side: str
    channel: str
    clocks: int


@dataclass(frozen=True)
class Port:
    """What a module popped off a channel, or pushed on it: how many elements, and the clocks of the first and last."""
    module: str
    side: str  # pop or push
    channel: str
    count: int
    first: int
    last: int

    @property
    def interval(self):
        """The clocks from one element to the next, on average; None where there is one element."""
        return (self.last - self.first) / (self.count - 1) if self.count > 1 else None


@dataclass(frozen=True)
class Polls:
    """In how many clocks a module moves, has accesses due, and each of them is a query that was missed."""
    module: str
    clocks: int


@dataclass(frozen=True)
class Query:
    """The queries of one kind that a module makes on a channel: how many, and how many of them were missed."""
    module: str
    kind: str  # tryread, trywrite, empty or full
    channel: str
    tried: int
    missed: int


@dataclass(frozen=True)
class FifoTime:
    """The most elements that a FIFO held, and the clocks in which it was empty and full."""
    fifo: str
    most: int
    empty: int
    full: int


@dataclass
class Stalls:
    verdict: Verdict
    modules: list = field(default_factory=list)
    stalls: list = field(default_factory=list)
    ports: list = field(default_factory=list)
    fifos: list = field(default_factory=list)
    polls: list = field(default_factory=list)  # with --polls
    queries: list = field(default_factory=list)  # with --polls


@dataclass(frozen=True)
class Spend:
    """How many clocks of the chain are in a module."""
    module: str
    clocks: int


@dataclass(frozen=True)
class Cross:
    """How often the chain waited for an element (`empty`) of a channel, or for a place (`full`) in it."""
    side: str
    channel: str
    count: int


@dataclass(frozen=True)
class Poll:
    """How often the chain went back to the push of an element of a channel that was polled for, and the clocks in which such
    elements waited in all."""
    channel: str
    count: int
    waiting: int


@dataclass(frozen=True)
class Link:
    """The chain is in a module from clock `first` to clock `last`."""
    module: str
    first: int
    last: int


@dataclass
class Path:
    """The chain that makes the latency; its links come under `--events`, what was polled for along it under `--polls`."""
    verdict: Verdict
    spent: list = field(default_factory=list)
    crossed: list = field(default_factory=list)
    polled: list = field(default_factory=list)
    links: list = field(default_factory=list)

    @property
    def channels(self):
        """The channels that the chain goes through."""
        return {entry.channel for entry in self.crossed + self.polled}


@dataclass(frozen=True)
class Access:
    """An access with its outcome; `value` is what moved, and None where nothing did."""
    module: str
    kind: str
    channel: str
    clock: int
    outcome: int
    value: int = None


@dataclass
class Log:
    verdict: Verdict
    accesses: list = field(default_factory=list)


@dataclass
class Depths:
    """What `size` and `advise` answer: the depth of each FIFO, and the verdict with these depths."""
    verdict: Verdict
    depths: dict = field(default_factory=dict)


@dataclass
class LeastDepths(Depths):
    """What `least` answers: the depths of the fewest bits, the verdict with these depths, and how many bits they are."""
    bits: int = 0


@dataclass
class Sweep:
    """The verdict for each choice of depths; `best` is None where no choice is done."""
    points: list  # of pairs: the depths, and the verdict
    best: tuple


# ---- readers

class Lines:
    """The lines of an answer, each as its words, read from the first to the last."""

    def __init__(self, command, text):
        self.command, self.at = command, 0
        self.lines = [line.split(' ') for line in text.split('\n')]
        if self.lines.pop() != ['']:
            raise BadAnswer(f'the answer to {command} has no line feed at its end')

    def bad(self, wanted):
        told = ' '.join(self.lines[self.at]) if self.at < len(self.lines) else 'the end'
        return BadAnswer(f'line {self.at + 1} of the answer to {self.command} should be {wanted}, and is: {told[:200]}')

    def next_is(self, word):
        return self.at < len(self.lines) and self.lines[self.at][0] == word

    def take(self, word, count=None):
        """The words after the first of the next line, which begins with `word` and has so many words after it."""
        if not self.next_is(word) or count is not None and len(self.lines[self.at]) != count + 1:
            raise self.bad(f"'{word}'" + (f' with {count} words' if count else ''))
        self.at += 1
        return self.lines[self.at - 1][1:]

    def number(self, text):
        if not text.isdigit():
            self.at -= 1
            raise self.bad('a line with a number where it has none')
        return int(text)

    def numbers(self, texts):
        return [self.number(text) for text in texts]

    def all_of(self, word, count, make):
        """What `make` makes of each line from here on that begins with `word`."""
        found = []
        while self.next_is(word):
            found.append(make(*self.take(word, count)))
        return found

    def verdict(self):
        kind, clock = self.take('verdict', 2)
        if kind not in VERDICTS:
            self.at -= 1
            raise self.bad('a verdict')
        return Verdict(kind, self.number(clock))

    def end(self):
        if self.at < len(self.lines):
            raise self.bad('the end')


def read_run(text):
    """The answer to `run`, `alone` or `clock`, with `--events` or without."""
    lines, reports = Lines('run', text), []
    while lines.next_is('report'):
        report = Report(lines.number(lines.take('report', 1)[0]), lines.verdict())
        while lines.next_is('out'):
            name, *values = lines.take('out')
            report.outputs[name] = lines.numbers(values)
        report.held = lines.all_of('held', 3, Held)
        report.events = lines.all_of('event', 4, lambda *words: Event(*words[:3], lines.number(words[3])))
        reports.append(report)
    runs = lines.number(lines.take('runs', 1)[0])
    lines.end()
    return Run(reports, runs)


def read_stalls(text):
    """The answer to `stalls`, with `--polls` or without."""
    lines = Lines('stalls', text)
    lines.take('stalls', 0)
    found = Stalls(lines.verdict())
    while lines.next_is('module'):
        name, moved, still = lines.take('module', 3)
        found.modules.append(ModuleTime(name, lines.number(moved), lines.number(still)))
        found.stalls += lines.all_of('stall', 4, lambda *words: Stall(*words[:3], lines.number(words[3])))
        found.ports += lines.all_of('port', 6, lambda *words: Port(*words[:3], *lines.numbers(words[3:])))
        found.polls += lines.all_of('polls', 2, lambda name, clocks: Polls(name, lines.number(clocks)))
        found.queries += lines.all_of('poll', 5, lambda *words: Query(*words[:3], *lines.numbers(words[3:])))
    found.fifos = lines.all_of('fifo', 4, lambda name, *rest: FifoTime(name, *lines.numbers(rest)))
    lines.end()
    return found


def read_path(text):
    """The answer to `path`, with `--events` and `--polls` or without."""
    lines = Lines('path', text)
    lines.take('path', 0)
    found = Path(lines.verdict())
    found.spent = lines.all_of('spend', 2, lambda name, clocks: Spend(name, lines.number(clocks)))
    while lines.next_is('cross') or lines.next_is('poll'):
        found.crossed += lines.all_of('cross', 3, lambda side, name, count: Cross(side, name, lines.number(count)))
        found.polled += lines.all_of('poll', 4, lambda side, name, *counts: Poll(name, *lines.numbers(counts)))
    found.links = lines.all_of('link', 3, lambda name, *clocks: Link(name, *lines.numbers(clocks)))
    lines.end()
    return found


def read_log(text):
    """The answer to `log`."""
    lines = Lines('log', text)
    lines.take('log', 0)
    found = Log(lines.verdict())
    while lines.next_is('access'):
        words = lines.take('access')
        if len(words) not in (5, 6):
            lines.at -= 1
            raise lines.bad("'access' with 5 or 6 words")
        found.accesses.append(Access(*words[:3], *lines.numbers(words[3:])))
    lines.end()
    return found


def read_depths(command, text):
    """The answer to `size` or `advise`."""
    lines = Lines(command, text)
    lines.take(command, 0)
    found = Depths(lines.verdict())
    found.depths = dict(lines.all_of('depth', 2, lambda name, depth: (name, lines.number(depth))))
    lines.end()
    return found


def read_least(text):
    """The answer to `least`."""
    lines = Lines('least', text)
    lines.take('least', 0)
    found = LeastDepths(lines.verdict())
    found.bits = lines.number(lines.take('bits', 1)[0])
    found.depths = dict(lines.all_of('depth', 2, lambda name, depth: (name, lines.number(depth))))
    lines.end()
    return found


def read_sweep(text):
    """The answer to `sweep`."""
    lines, points = Lines('sweep', text), []
    while lines.next_is('point'):
        *depths, kind, clock = lines.take('point')
        points.append((tuple(lines.numbers(depths)), Verdict(kind, lines.number(clock))))
    best = lines.take('best')
    lines.end()
    return Sweep(points, None if best == ['none'] else tuple(lines.numbers(best)))


READERS = {  # of each command whose answer they read as a whole
    'run': read_run, 'alone': read_run, 'clock': read_run, 'stalls': read_stalls, 'path': read_path, 'log': read_log,
    'size': functools.partial(read_depths, 'size'), 'advise': functools.partial(read_depths, 'advise'), 'least': read_least,
    'sweep': read_sweep,
}


# ---- the trace, which may be too long to be read as a whole

BLOCK = 1 << 20
NAME = re.compile(rb'\{"ph":"M","pid":0,"tid":\d+,"name":"thread_name","args":\{"name":"(\w+)"\}\}')
SPAN = re.compile(rb'\{"ph":"X","pid":0,"tid":(\d+),"ts":(\d+),"dur":(\d+),"name":"(\w+(?: \w+)?)"\}')
FILL = re.compile(rb'\{"ph":"C","pid":0,"ts":(\d+),"name":"(\w+)","args":\{"fill":(\d+)\}\}')
TRACE_HEAD = b'{"displayTimeUnit":"ns","traceEvents":['


class TraceTaker:
    """What a reader of a trace does with it, a batch of events at a time. Numbers and names come as bytes."""

    def names(self, names):
        """The next modules, in order."""

    def spans(self, spans):
        """Tuples of a module's number, a first clock, a count of clocks, and `moves`, `empty F` or `full F`."""

    def fills(self, fills):
        """Tuples of a clock, a FIFO, and what the FIFO holds from that clock on."""


def take_trace(stream, taker):
    """Reads the answer to `trace` off a stream of bytes, and gives it to a TraceTaker."""
    rest, head, lines, events = b'', b'', 0, 0
    while True:
        block = stream.read(BLOCK)
        text = rest + block
        cut = text.rfind(b'\n') + 1
        text, rest = text[:cut], text[cut:]
        head = head or text[:len(TRACE_HEAD)]
        lines += text.count(b'\n')
        for pattern, take in ((NAME, taker.names), (SPAN, taker.spans), (FILL, taker.fills)):
            batch = pattern.findall(text)
            events += len(batch)
            if batch:
                take(batch)
        if not block:
            break
    if head != TRACE_HEAD or rest or lines != events + 2:
        raise BadAnswer(f'the answer to trace has {lines:,} lines, and {events:,} events where {lines - 2:,} should be')
