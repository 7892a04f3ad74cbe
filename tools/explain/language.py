"""The forms, limits and tables of the language, as ./explain needs them."""
import os
import re

from flow.limits import ALL_MEMORY_WORDS, EDITS, EXPRESSION_DEPTH, EXPRESSION_NODES, FIFO_DELAY, VERSION, WIDTH
from flow.program import TOP

FORMS = {
    'flow': 'flow VERSION', 'source': 'source NAME WIDTH', 'sink': 'sink NAME WIDTH',
    'fifo': 'fifo NAME WIDTH [DEPTH [DELAY]] (DELAY under flow 2 alone)', 'module': 'module NAME', 'reg': 'reg NAME WIDTH',
    'mem': 'mem NAME WIDTH WORDS', 'block': 'block NAME LENGTH', 'loop': 'loop NAME II LENGTH while REGISTER',
    'temp': 'temp NAME WIDTH', 'at': 'at OFFSET [if REGISTER] OPERATION', 'goto': 'goto BLOCK',
    'branch': 'branch REGISTER BLOCK BLOCK', 'stop': 'stop', 'input': 'input SOURCE VALUE ..', 'limits': 'limits CYCLES OPS',
    'depth': 'depth FIFO DEPTH', 'end': 'end',
}
OPERATIONS = {
    'set': 'set PLACE EXPRESSION', 'load': 'load PLACE MEMORY ADDRESS', 'store': 'store MEMORY ADDRESS VALUE',
    'read': 'read CHANNEL PLACE', 'write': 'write CHANNEL VALUE', 'tryread': 'tryread CHANNEL PLACE OK',
    'trywrite': 'trywrite CHANNEL OK VALUE', 'empty': 'empty CHANNEL PLACE', 'full': 'full CHANNEL PLACE',
}
FOLLOW = [  # what may follow what
    (('nothing',), ('flow',)),
    (('flow', 'source', 'sink', 'fifo'), ('source', 'sink', 'fifo', 'module', 'input', 'limits', 'depth', 'end')),
    (('module', 'reg', 'mem'), ('reg', 'mem', 'block', 'loop')),
    (('block', 'loop', 'temp'), ('temp', 'at', 'goto', 'branch', 'stop')),
    (('at',), ('at', 'goto', 'branch', 'stop')),
    (('goto', 'branch', 'stop'), ('block', 'loop', 'module', 'input', 'limits', 'depth', 'end')),
    (('input',), ('input', 'limits', 'depth', 'end')),
    (('limits', 'depth'), ('depth', 'end')),
    (('end',), ()),
]
FIRST = {key: ' (channels come before all modules)' for key in ('source', 'sink', 'fifo')}
FIRST.update({key: ' (registers and memories come before all bodies of their module)' for key in ('reg', 'mem')})
FIRST['temp'] = ' (temps come before the operations of their body)'
BODY = ('block', 'loop', 'temp', 'at')
NUMBERS = ('VERSION', 'WIDTH', 'DEPTH', 'DELAY', 'WORDS', 'LENGTH', 'II', 'OFFSET', 'VALUE', 'CYCLES', 'OPS')


def parts_of(key):
    """The words of a statement's form, with those that may be left out."""
    return FORMS[key].split(' (')[0].replace('[', '').replace(']', '').split()


def expressions_at(kind):
    """Where the expressions of an operation begin, counted from its first word, and how many there are."""
    words = OPERATIONS[kind].split()
    count = sum(word in ('EXPRESSION', 'VALUE', 'ADDRESS') for word in words)
    return len(words) - count, count


def ranges_of(limits):
    """Of each place of a statement with a number: the least and the greatest one, and what it is."""
    most = {'VERSION': (VERSION, 'version'), 'WIDTH': (WIDTH, 'width'), 'DEPTH': (limits.fifo_depth, 'depth'),
            'DELAY': (FIFO_DELAY, 'delay'), 'WORDS': (limits.memory_words, 'number of words'), 'II': (limits.block_clocks, 'II'),
            'LENGTH': (limits.block_clocks, 'LEN')}
    return {(key, place): (1, *most[part]) for key in FORMS for place, part in enumerate(parts_of(key)) if part in most}


def most_of(limits):
    """Of each statement how many there may be."""
    most = {'module': f'at most {limits.modules:,} modules', 'reg': f'at most {limits.registers:,} registers in a module',
            'mem': f'at most {limits.memories:,} memories in a module, and {ALL_MEMORY_WORDS:,} words in all memories',
            'temp': f'at most {limits.temps:,} temps in a body', 'input': f'at most {limits.input_values:,} input values in all',
            'depth': f'at most {EDITS:,} edits',
            'at': f'at most {limits.operations:,} operations in a body, and {EXPRESSION_NODES} nodes and depth {EXPRESSION_DEPTH} '
                  'in an expression'}
    most.update({key: f'at most {limits.channels:,} sources, sinks and FIFOs' for key in ('source', 'sink', 'fifo')})
    most.update({key: f'at most {limits.blocks:,} blocks and loops in a module' for key in ('block', 'loop')})
    return most


def table(heading):
    """The rows of the table below a heading of docs/LANGUAGE.md, as lists of cells."""
    rows = []
    found = False
    with open(os.path.join(TOP, 'docs', 'LANGUAGE.md'), encoding='utf-8') as page:
        for line in page:
            if line.startswith('#') or line.startswith('**'):
                if rows:
                    break
                found = line.strip('#* \n').rstrip('.').lower() == heading
            elif found and line.startswith('|'):
                rows.append([cell.strip() for cell in re.split(r'(?<!\\)\|', line)[1:-1]])
    return rows[2:]


def plain(text):
    """A cell without the marks of the page: quotes in the place of backticks."""
    return text.replace('`', "'").replace('\\|', '|')


def count_of(number, noun):
    return f'{number:,} {noun}{"" if number == 1 else "s"}'
