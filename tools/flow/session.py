"""Reads a session text into plain objects. It wants a session that `omnisim check` accepts, and tells little of one that is not."""
import re
from dataclasses import dataclass, field

from flow.limits import DEFAULT_CYCLES, DEFAULT_DEPTH, STANDARD

OPERANDS = {'~': 1, 'sext': 2, '?:': 3}  # how many words or expressions follow
OPERANDS.update({word: 2 for word in '+ - * & | ^ << >> == != <u <s / %'.split()})
POPS, PUSHES = ('read', 'tryread'), ('write', 'trywrite')
QUERIES = ('tryread', 'trywrite', 'empty', 'full')


class SessionFault(Exception):
    """What is wrong in a line."""


@dataclass
class Channel:
    kind: str  # source, sink or fifo
    name: str
    width: int
    depth: int = 0
    delay: int = 1
    values: list = field(default_factory=list)
    reader: object = None
    writer: object = None


@dataclass
class Operation:
    """`channel`, `memory`, `place`, `ok`, `address` and `value` are what the kind has of them."""
    text: str
    offset: int
    guard: str
    kind: str
    channel: Channel = None
    memory: str = None
    place: str = None
    ok: str = None
    address: tuple = None
    value: tuple = None


@dataclass
class Block:
    """A plain block has no `go` register, and its interval is its length."""
    name: str
    interval: int
    length: int
    go: str = None
    temps: dict = field(default_factory=dict)
    operations: list = field(default_factory=list)
    terminator: list = None

    def stages(self):
        return -(-self.length // self.interval)


@dataclass
class Module:
    name: str
    registers: dict = field(default_factory=dict)
    memories: dict = field(default_factory=dict)
    blocks: list = field(default_factory=list)

    def block(self, name):
        return next(block for block in self.blocks if block.name == name)


@dataclass
class Session:
    channels: dict = field(default_factory=dict)
    modules: list = field(default_factory=list)
    edits: list = field(default_factory=list)
    cycles: int = DEFAULT_CYCLES
    ops: int = STANDARD.default_operations
    has_end: bool = False

    def fifos(self):
        return [channel for channel in self.channels.values() if channel.kind == 'fifo']

    @property
    def asks_outcomes(self):
        """Whether some operation is a query, so that what a module does may depend on clocks."""
        return any(made.kind in QUERIES for module in self.modules for block in module.blocks for made in block.operations)

    def deepest(self, fifo):
        """The greatest depth that the FIFO has, declared or by an edit."""
        return max([fifo.depth] + [depth for name, depth in self.edits if name == fifo.name])


def expression(tokens, names):
    """Takes an expression off the front of the tokens: (operator, operand ..), ('number', N), ('name', N) or ('sext', K, A)."""
    token = tokens.pop(0)
    if token == 'sext':
        return (token, int(tokens.pop(0)), expression(tokens, names))
    if token in OPERANDS:
        return (token,) + tuple(expression(tokens, names) for _ in range(OPERANDS[token]))
    if token.isdigit():
        return ('number', int(token))
    if token not in names:
        raise SessionFault(f'there is no register or temp {token}')
    return ('name', token)


def operation(tokens, session, module, block):
    """The operation of a line `at OFF [if R] OP ..`."""
    names = {**module.registers, **block.temps}
    text, rest = ' '.join(tokens), tokens[1:]
    offset, guard = int(rest.pop(0)), None
    if rest[0] == 'if':
        guard, rest = rest[1], rest[2:]
    made = Operation(text, offset, guard, rest.pop(0))
    if made.kind in ('load', 'store'):
        made.place = rest.pop(0) if made.kind == 'load' else None
        made.memory = rest.pop(0)
        made.address = expression(rest, names)
        made.value = expression(rest, names) if made.kind == 'store' else None
    elif made.kind == 'set':
        made.place, made.value = rest.pop(0), expression(rest, names)
    else:
        made.channel = session.channels[rest.pop(0)]
        made.place = rest.pop(0) if made.kind in ('read', 'tryread', 'empty', 'full') else None
        made.ok = rest.pop(0) if made.kind in ('tryread', 'trywrite') else None
        made.value = expression(rest, names) if made.kind in PUSHES else None
    unknown = [name for name in (guard, made.place, made.ok) if name and name not in names]
    if rest or unknown or (made.memory and made.memory not in module.memories):
        raise SessionFault('this is no operation of this body')
    return made


def note_ends(module, made):
    """Notes the module as reader or writer of the operation's channel."""
    end = 'reader' if made.kind in POPS else 'writer' if made.kind in PUSHES else None
    if end and getattr(made.channel, end) not in (None, module):
        raise SessionFault(f'{made.channel.name} has two modules as {end}')
    if end:
        setattr(made.channel, end, module)


def statement(session, tokens):
    """Adds what one line says."""
    word, rest = tokens[0], tokens[1:]
    module = session.modules[-1] if session.modules else None
    block = module.blocks[-1] if module and module.blocks else None
    if word in ('source', 'sink', 'fifo'):
        sizes = [int(token) for token in rest[1:]] + ([DEFAULT_DEPTH] if word == 'fifo' and len(rest) == 2 else [])
        session.channels[rest[0]] = Channel(word, rest[0], *sizes)
    elif word == 'module':
        session.modules.append(Module(rest[0]))
    elif word == 'reg':
        module.registers[rest[0]] = int(rest[1])
    elif word == 'mem':
        module.memories[rest[0]] = (int(rest[1]), int(rest[2]))
    elif word == 'block':
        module.blocks.append(Block(rest[0], int(rest[1]), int(rest[1])))
    elif word == 'loop':
        module.blocks.append(Block(rest[0], int(rest[1]), int(rest[2]), rest[4]))
    elif word == 'temp':
        block.temps[rest[0]] = int(rest[1])
    elif word == 'at':
        block.operations.append(operation(tokens, session, module, block))
        note_ends(module, block.operations[-1])
    elif word in ('goto', 'branch', 'stop'):
        block.terminator = tokens
    elif word == 'input':
        source = session.channels[rest[0]]
        source.values = [int(token) % (1 << source.width) for token in rest[1:]]
    elif word == 'limits':
        session.cycles, session.ops = int(rest[0]), int(rest[1])
    elif word == 'depth':
        session.edits.append((rest[0], int(rest[1])))
    elif word == 'end':
        session.has_end = True
    elif word != 'flow':
        raise SessionFault(f'{word} is no statement')


def check_whole(session):
    """What the translation needs beyond the single lines."""
    if not session.has_end:
        raise SessionFault('there is no end')
    for channel in session.channels.values():
        if (channel.reader is None) != (channel.kind == 'sink') or (channel.writer is None) != (channel.kind == 'source'):
            raise SessionFault(f'{channel.name} wants one reader and one writer')
    for module in session.modules:
        if not module.blocks or any(block.terminator is None for block in module.blocks):
            raise SessionFault(f'module {module.name} wants blocks, and each block a terminator')
        names = {block.name for block in module.blocks}
        for block in module.blocks:
            if not set(block.terminator[1 if block.terminator[0] == 'goto' else 2:]) <= names:
                raise SessionFault(f'block {block.name} of module {module.name} goes on with a block that is not there')


def read_session(text, limits=STANDARD):
    """The session of a text. A SessionFault says what is wrong, and in which line where it is one line."""
    session = Session(ops=limits.default_operations)
    number = 0
    try:
        for number, line in enumerate(text.split('\n'), 1):
            tokens = re.sub(r'(^|[ \t\r])#.*', '', line).split()
            if tokens:
                statement(session, tokens)
    except (SessionFault, LookupError, ValueError, TypeError, AttributeError) as fault:
        raise SessionFault(f'line {number}: {fault if isinstance(fault, SessionFault) else "this cannot be read"}') from fault
    check_whole(session)
    return session
