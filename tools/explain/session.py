"""Reads what a session text declares, as far as it can be read; a faulty line is passed over."""
import re

from flow.limits import DEFAULT_DEPTH
from flow.session import POPS, PUSHES, QUERIES


def tokens_of(line):
    """The tokens of a line with their columns, from 1; a comment is left out."""
    found = []
    for match in re.finditer(r'[^ \t\r]+', line):
        if match.group().startswith('#'):
            break
        found.append((match.group(), match.start() + 1))
    return found


class Body:
    """A block or a loop: its operations as (line, offset, guard, words), and its temps by name."""

    def __init__(self, name, interval, length, again):
        self.name, self.interval, self.length, self.again = name, interval, length, again
        self.temps, self.operations = {}, []


class Module:
    def __init__(self, name, line):
        self.name, self.line = name, line
        self.registers, self.memories, self.bodies = {}, {}, []


class Session:
    """What a text declares, as far as it can be read."""

    def __init__(self, lines):
        self.channels, self.widths, self.depths = {}, {}, {}
        self.modules, self.edits, self.statements = [], [], []
        self.cycles = self.ops = None
        for number, line in enumerate(lines, 1):
            words = [word for word, _ in tokens_of(line)]
            if words:
                try:
                    self.add(number, words)
                except (IndexError, ValueError):
                    pass

    def add(self, number, words):
        key = words[0]
        self.statements.append(key)
        if key in ('source', 'sink', 'fifo'):
            self.channels[words[1]] = (key, number)
            self.widths[words[1]] = int(words[2])
            if key == 'fifo':
                self.depths[words[1]] = int(words[3]) if len(words) > 3 else DEFAULT_DEPTH
        elif key == 'module':
            self.modules.append(Module(words[1], number))
        elif key == 'reg':
            self.modules[-1].registers[words[1]] = int(words[2])
        elif key == 'mem':
            self.modules[-1].memories[words[1]] = (int(words[2]), int(words[3]))
        elif key == 'block':
            self.modules[-1].bodies.append(Body(words[1], None, int(words[2]), None))
        elif key == 'loop':
            self.modules[-1].bodies.append(Body(words[1], int(words[2]), int(words[3]), words[5]))
        elif key == 'temp':
            self.modules[-1].bodies[-1].temps[words[1]] = int(words[2])
        elif key == 'at':
            guard = words[3] if words[2] == 'if' else None
            body = words[4:] if guard else words[2:]
            self.modules[-1].bodies[-1].operations.append((number, int(words[1]), guard, body))
        elif key == 'limits':
            self.cycles, self.ops = int(words[1]), int(words[2])
        elif key == 'depth':
            self.edits.append(words[1:])

    def users(self, channel, kinds):
        """The modules that have such an operation at a channel."""
        return [module.name for module in self.modules
                if any(words[0] in kinds and words[1:2] == [channel] for body in module.bodies
                       for _, _, _, words in body.operations)]

    def awaited(self, side, channel):
        """The module that could end a wait, if there is one."""
        return next(iter(self.users(channel, PUSHES if side == 'empty' else POPS)), None)


def asks_outcomes(session):
    """Whether some operation is a query, so that what a module does may depend on clocks."""
    return any(words[0] in QUERIES for module in session.modules for body in module.bodies
               for _, _, _, words in body.operations)
