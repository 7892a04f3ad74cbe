"""The session whose depths are explored."""
from flow.depths import depths_of, widths_of, without_edits
from flow.limits import limits_of
from flow.program import Program
from flow.refused import Refused
from flow.script import read_bytes


class Base:
    """A checked session without its edits: its text without the last line, and of each FIFO its width and depth."""

    def __init__(self, path, limits):
        self.limits = limits_of(limits)
        checked = Program().ask(['check', *self.limits.word], read_bytes(path))
        if checked.status != 0:
            raise Refused(checked.status, f'{path}: {checked.text.strip()}; ./explain {path} tells more')
        self.text = without_edits(checked.text).removesuffix('end\n')
        self.widths, self.depths = widths_of(self.text), depths_of(self.text)
