"""Builds a session: channels, modules, blocks, loops and their operations. docs/PYTHON.md has an example.

    design = Design()
    a, y = design.source('a', 8, [1, 2, 3]), design.sink('y', 8)
    module = design.module('double')
    loop = module.loop('l', interval=1, length=2, trips=3)
    x = loop.temp('x', 8)
    loop.read(0, a, x)
    loop.write(1, y, x + x)
    print(design.text())

What the language does not allow, the program refuses; a Design checks names alone.
"""
import re

from flow.expressions import Value, value
from flow.limits import NAME_BYTES, STANDARD

NAME = re.compile(rf'[A-Za-z_][A-Za-z0-9_]{{0,{NAME_BYTES - 1}}}')


class DesignFault(Exception):
    """A name is no name, or is taken."""


class Scope:
    """Names that have to differ."""

    def __init__(self, what):
        self.what, self.names = what, set()

    def take(self, name):
        if not NAME.fullmatch(name) or name == 'sext':
            raise DesignFault(f'{name!r} is no name')
        if name in self.names:
            raise DesignFault(f'{self.what} {name} is there already')
        self.names.add(name)
        return name


class Body:
    """A block or a loop. Each operation has the offset at which it is done, and perhaps a guard: a register or temp."""

    def __init__(self, module, name, line, temps):
        self.module, self.name, self.line, self.scope = module, name, line, temps
        self.temps, self.operations, self.end = [], [], None

    def temp(self, name, width):
        """A value of one iteration."""
        self.temps.append(f'temp {self.scope.take(name)} {width}')
        return Value(name)

    def do(self, offset, words, guard):
        when = '' if guard is None else f'if {guard} '
        self.operations.append(f'at {offset} {when}{words}')

    def set(self, offset, place, what, guard=None):
        self.do(offset, f'set {place} {value(what)}', guard)

    def load(self, offset, place, memory, address, guard=None):
        self.do(offset, f'load {place} {memory} {value(address)}', guard)

    def store(self, offset, memory, address, what, guard=None):
        self.do(offset, f'store {memory} {value(address)} {value(what)}', guard)

    def read(self, offset, channel, place, guard=None):
        self.do(offset, f'read {channel} {place}', guard)

    def write(self, offset, channel, what, guard=None):
        self.do(offset, f'write {channel} {value(what)}', guard)

    def try_read(self, offset, channel, place, done, guard=None):
        self.do(offset, f'tryread {channel} {place} {done}', guard)

    def try_write(self, offset, channel, done, what, guard=None):
        self.do(offset, f'trywrite {channel} {done} {value(what)}', guard)

    def empty(self, offset, channel, place, guard=None):
        self.do(offset, f'empty {channel} {place}', guard)

    def full(self, offset, channel, place, guard=None):
        self.do(offset, f'full {channel} {place}', guard)

    def goto(self, body):
        """The body that comes next, by its name or itself."""
        self.end = f'goto {name_of(body)}'

    def branch(self, register, then, other):
        """The body that comes next: one where the register is not 0, else the other."""
        self.end = f'branch {register} {name_of(then)} {name_of(other)}'

    def stop(self):
        """The module ends after this body; so it does too where nothing is said."""
        self.end = 'stop'

    def lines(self):
        operations = sorted(self.operations, key=lambda line: int(line.split()[1]))
        return [self.line, *self.temps, *operations, self.end or 'stop']


def name_of(body):
    return body.name if isinstance(body, Body) else body


class Module:
    """A module; it begins with the body that is made first."""

    def __init__(self, name):
        self.name, self.scope, self.bodies_scope = name, Scope('a register, memory or temp'), Scope('a body')
        self.registers, self.memories, self.contents, self.bodies = [], [], [], []

    def register(self, name, width):
        """A register; it is 0 at first."""
        self.registers.append(f'reg {self.scope.take(name)} {width}')
        return Value(name)

    def memory(self, name, width, words):
        """A memory of so many words; they are 0 at first."""
        self.memories.append(f'mem {self.scope.take(name)} {width} {words}')
        return Value(name)

    def rom(self, name, width, values):
        """A memory with these words. Blocks that store them come before the first body: one clock for every 1,024 words of all."""
        memory = self.memory(name, width, max(1, len(values)))
        self.contents += [f'at 0 store {name} {address} {value(word)}' for address, word in enumerate(values)]
        return memory

    def body(self, name, line):
        temps = Scope('a temp')
        temps.names = set(self.scope.names)
        self.bodies.append(Body(self, self.bodies_scope.take(name), line, temps))
        return self.bodies[-1]

    def block(self, name, length):
        """Straight code of so many clocks."""
        return self.body(name, f'block {name} {length}')

    def loop(self, name, interval, length, again=None, trips=None):
        """A pipelined loop, which goes on while the register `again` is not 0, or for exactly `trips` iterations."""
        if (again is None) == (trips is None):
            raise DesignFault(f'the loop {name} wants either a register that decides, or a number of trips')
        if trips is None:
            return self.body(name, f'loop {name} {interval} {length} while {again}')
        count, go = self.counter(name, trips)
        made = self.body(name, f'loop {name} {interval} {length} while {go}')
        count_trips(made, count, go, trips)
        return made

    def counter(self, name, trips):
        """The two registers that count to a number of trips."""
        return self.register(f'{name}_n', max(1, (trips - 1).bit_length())), self.register(f'{name}_go', 1)

    def lines(self):
        first = self.bodies[0].name if self.bodies else None
        most = STANDARD.operations
        rows = [self.contents[at:at + most] for at in range(0, len(self.contents), most)]
        filling = []
        for number, row in enumerate(rows):
            after = f'fill_{number + 1}' if number + 1 < len(rows) else first
            filling += [f'block {self.bodies_scope.take(f"fill_{number}")} 1', *row, f'goto {after}' if after else 'stop']
        bodies = [line for body in self.bodies for line in body.lines()]
        return [f'module {self.name}', *self.registers, *self.memories, *filling, *bodies]


def count_trips(body, count, go, trips):
    """Counts the trips of a body in its offset 0, and decides on the next; the counter is then 0 again for the next time."""
    body.set(0, count, Value('?:', count < trips - 1, count + 1, 0))
    body.set(0, go, count < trips - 1)


class Design:
    """A design, with its inputs and limits."""

    def __init__(self, comment=()):
        self.comment, self.version, self.limits_line = list(comment), 1, []
        self.scope, self.modules_scope = Scope('a channel'), Scope('a module')
        self.channels, self.modules, self.inputs, self.depths = [], [], [], []

    def source(self, name, width, values):
        """A source with its values."""
        self.channels.append(f'source {self.scope.take(name)} {width}')
        self.inputs.append(' '.join(map(str, ['input', name, *(value(word) for word in values)])))
        return Value(name)

    def sink(self, name, width):
        self.channels.append(f'sink {self.scope.take(name)} {width}')
        return Value(name)

    def fifo(self, name, width, depth=2, delay=1):
        """A FIFO; with a delay above 1 the session is one of the second version."""
        self.version = 2 if delay > 1 else self.version
        self.channels.append(f'fifo {self.scope.take(name)} {width} {depth}' + (f' {delay}' if delay > 1 else ''))
        return Value(name)

    def module(self, name):
        self.modules.append(Module(self.modules_scope.take(name)))
        return self.modules[-1]

    def limits(self, cycles, operations):
        self.limits_line = [f'limits {cycles} {operations}']

    def depth(self, fifo, depth):
        """An edit: the design once more, with another depth."""
        self.depths.append(f'depth {fifo} {depth}')

    def text(self):
        """The session."""
        modules = [line for module in self.modules for line in module.lines()]
        lines = [*(f'# {line}' for line in self.comment), f'flow {self.version}', *self.channels, *modules, *self.inputs,
                 *self.limits_line, *self.depths, 'end']
        return '\n'.join(lines) + '\n'
