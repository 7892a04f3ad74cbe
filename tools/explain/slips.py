"""What looks like a slip in a session that is accepted."""
import collections

from explain.language import count_of, expressions_at
from flow.limits import WIDTH
from flow.session import OPERANDS

PORTS = 2  # of a memory of hardware


def expression(words):
    """The first expression of these words as a tree, and the rest."""
    head, rest = words[0], words[1:]
    if head not in OPERANDS:
        return head, rest
    parts = []
    for _ in range(OPERANDS[head]):
        part, rest = expression(rest)
        parts.append(part)
    return (head, parts), rest


def expressions_of(words):
    """The expressions of an operation, as trees: an address before a value."""
    trees, rest = [], words[expressions_at(words[0])[0]:]
    while rest:
        tree, rest = expression(rest)
        trees.append(tree)
    return trees


def constant(tree):
    """The value of an expression that is a number, or None."""
    return int(tree) if isinstance(tree, str) and tree.isdigit() else None


def comparisons(tree):
    if isinstance(tree, tuple):
        if tree[0] in ('<u', '==', '!='):
            yield tree
        for part in tree[1]:
            yield from comparisons(part)


def cut_constant(session, words, widths, trees):
    """A constant that is wider than what it goes into."""
    name = words[1]
    width = (widths if words[0] == 'set' else session.widths).get(name, WIDTH)
    value = constant(trees[0]) if words[0] in ('set', 'write', 'trywrite') else None
    if value is not None and value >> width:
        yield f'{name} has {count_of(width, "bit")}, so {value} is cut'


def same_comparison(widths, trees):
    """A comparison with a number that its register or temp never reaches."""
    for tree in trees:
        for operator, (left, right) in comparisons(tree):
            for name, number in ((left, right), (right, left)):
                value = constant(number)
                if isinstance(name, str) and name in widths and value is not None and value >> widths[name]:
                    yield (f'{name} has {count_of(widths[name], "bit")}, so it never reaches {value}, and the comparison {operator} '
                           'always gives the same')


def memory_of(words):
    return {'load': words[2:3], 'store': words[1:2]}.get(words[0], [None])[0]


def far_address(module, words, trees):
    """A constant address past the end of its memory."""
    memory = memory_of(words)
    length, address = module.memories.get(memory, (0, 0))[1], constant(trees[0]) if memory else None
    if address is not None and address >= length > 0:
        yield f'{memory} has {count_of(length, "word")}, so the address {address} counts modulo {length}'


def is_filling(body):
    """Whether a body only stores numbers: what a memory holds at first, which hardware has without a clock."""
    return all(words[0] == 'store' and all(constant(tree) is not None for tree in expressions_of(words))
               for _, _, _, words in body.operations)


def crowded_memories(body):
    """Memories that are used more often in one clock than a memory of hardware has ports, each with its first line."""
    uses = collections.defaultdict(list)
    for number, offset, _, words in body.operations:
        if memory_of(words):
            uses[memory_of(words), offset % body.interval if body.interval else offset].append(number)
    for (memory, _), numbers in uses.items():
        if len(numbers) > PORTS and not is_filling(body):
            yield numbers[0], f'{memory} is used {len(numbers)} times in one clock: a memory of hardware has two ports'


def slips_of(session):
    """What looks like a slip: (line, text)."""
    for module in session.modules:
        for body in module.bodies:
            widths = dict(module.registers, **body.temps)
            for number, _, _, words in body.operations:
                trees = expressions_of(words)
                for found in (cut_constant(session, words, widths, trees), same_comparison(widths, trees),
                              far_address(module, words, trees)):
                    yield from ((number, told) for told in found)
            yield from crowded_memories(body)


def late_decision(module, body, words):
    """A loop that sets its register too late: (line, text)."""
    return body.operations[int(words[4])][0], (
        f'loop {body.name} of {module.name} sets its register {body.again} too late for the next decision: decide at an offset below '
        f'{body.interval}')


def wide_use(session, module, body, words):
    """A use that reaches further than the interval of its loop: (line, text)."""
    kind, number = words[4], int(words[5])
    names = {'register': list(module.registers), 'memory': list(module.memories)}.get(kind, list(session.channels))
    name, line = names[number], next(line for line, _, _, operation in body.operations if names[number] in operation)
    what = f'{kind} {name}' if kind in ('register', 'memory') else f'the {kind} end of {name}'
    return line, (f'loop {body.name} of {module.name} uses {what} at offsets that are too far apart for its interval {body.interval}: an '
                  'iteration may change what the one before still needs (omnisim order)')


def order_slips(session, orders):
    """What the lines of `order` say of loops, with names: (line, text)."""
    for line in orders:
        words = line.split()
        module = next(module for module in session.modules if module.name == words[1])
        if words[2] == 'late':
            yield late_decision(module, module.bodies[int(words[3])], words)
        elif words[2] == 'wide':
            yield wide_use(session, module, module.bodies[int(words[3])], words)


def tell_slips(session, orders, path):
    """Tells each slip once, at its first line, with how many more lines have it."""
    lines = {}
    for number, told in [*slips_of(session), *order_slips(session, orders)]:
        lines.setdefault(told, []).append(number)
    for told, numbers in lines.items():
        more = f' (and on {count_of(len(numbers) - 1, "more line")})' if len(numbers) > 1 else ''
        print(f'{path}:{numbers[0]}: {told}{more}.')
