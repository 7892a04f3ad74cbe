"""The limits of the language at both scales, as scripts tell and keep them; tools/tests compares them with the program's source."""
from dataclasses import dataclass

VERSION = 2
WIDTH = 64
NAME_BYTES = 64
CYCLES = 10 ** 15
EDITS = 1_000
FIFO_DELAY = 1_000
ALL_MEMORY_WORDS = 33_554_432
EXPRESSION_NODES = 256
EXPRESSION_DEPTH = 32
DEFAULT_CYCLES, DEFAULT_DEPTH = 10 ** 9, 2  # where the session names none
SWEEP_POINTS, SWEEP_DEPTH = 4_096, 64


@dataclass(frozen=True)
class Limits:
    """The limits that depend on the scale. `word` is the option that asks for it."""
    word: tuple
    text_bytes: int
    modules: int
    channels: int
    registers: int
    temps: int
    memories: int
    memory_words: int
    blocks: int
    operations: int
    block_clocks: int
    live_iterations: int
    input_values: int
    fifo_depth: int
    counted_operations: int
    default_operations: int


STANDARD = Limits(
    word=(), text_bytes=4_194_304, modules=64, channels=256, registers=256, temps=64, memories=16, memory_words=4_096, blocks=256,
    operations=1_024, block_clocks=10 ** 12, live_iterations=64, input_values=100_000, fifo_depth=1_000_000,
    counted_operations=200_000, default_operations=100_000)
LARGE = Limits(
    word=('--large',), text_bytes=134_217_728, modules=2_048, channels=8_192, registers=1_024, temps=256, memories=64,
    memory_words=1_048_576, blocks=2_048, operations=8_192, block_clocks=10 ** 8, live_iterations=1_024, input_values=16_777_216,
    fifo_depth=1_073_741_824, counted_operations=1_000_000_000, default_operations=10_000_000)


def limits_of(words):
    """The limits that these words of a command line ask for."""
    return LARGE if '--large' in words else STANDARD


def options_of(large, cycles, ops):
    """The words that ask the program for these limits; None leaves the session's."""
    limits = (('--cycles', cycles), ('--ops', ops))
    return ['--large'] * large + [word for name, limit in limits if limit is not None for word in (name, str(limit))]
