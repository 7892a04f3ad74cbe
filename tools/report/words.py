"""What ./explain tells of a session, sorted by where it stands on a page."""
import re
from dataclasses import dataclass, field

HEAD = 'The design as it is: '
WAIT = re.compile(r'\w+ waits for (an element in|a place in) |In a circle: ')
OUTPUT = re.compile(r'Sink \w+ got ')


@dataclass
class Words:
    """Sentences: what looks like a slip in the text, who waits for ever, and what else is told of the design."""
    slips: list = field(default_factory=list)
    waits: list = field(default_factory=list)
    rest: list = field(default_factory=list)


def words_of(lines):
    """The sentences of the design as it is; what sinks got is left out, since a page has a table of it."""
    start = next((at for at, line in enumerate(lines) if line.startswith(HEAD)), len(lines))
    found = Words([line for line in lines[:start] if line])
    for line in lines[start + 1:]:
        if not line.startswith('  '):
            break
        told = line.strip()
        if WAIT.match(told):
            found.waits.append(told)
        elif not OUTPUT.match(told):
            found.rest.append(told)
    return found
