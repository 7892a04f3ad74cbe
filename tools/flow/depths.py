"""The FIFOs of a session's text: their widths and depths, and the text with other depths, or without its edits."""
import difflib
import re

from flow.limits import DEFAULT_DEPTH

FIFO = re.compile(r'(?P<head>[ \t\r]*fifo[ \t\r]+(?P<name>\S+)[ \t\r]+(?P<width>\S+))(?:(?P<space>[ \t\r]+)(?P<depth>\d+))?'
                  r'(?P<rest>(?:[ \t\r].*)?)')


def fifos_of(text):
    """What FIFO finds in each line of a FIFO, in the order of the text."""
    return [match for match in map(FIFO.fullmatch, text.split('\n')) if match]


def widths_of(text):
    """The width of each FIFO by its name, in the order of the text."""
    return {match['name']: int(match['width']) for match in fifos_of(text)}


def depths_of(text):
    """The depth of each FIFO by its name, in the order of the text."""
    return {match['name']: int(match['depth'] or DEFAULT_DEPTH) for match in fifos_of(text)}


def no_fifo(name, known):
    """Tells that no FIFO has a name, and which one of those that there are is spelled most like it."""
    near = difflib.get_close_matches(name, known, 1)
    return f'the session has no FIFO {name}' + (f'; did you mean {near[0]}?' if near else '')


def with_depths(text, depths):
    """The text with these depths, by the FIFOs' names, in its `fifo` lines; all else stays as it is."""
    lines = []
    for line in text.split('\n'):
        match = FIFO.fullmatch(line)
        if match and match['name'] in depths:
            line = f'{match["head"]}{match["space"] or " "}{depths[match["name"]]}{match["rest"]}'
        lines.append(line)
    return '\n'.join(lines)


def without_edits(text):
    """The text without its edits."""
    return '\n'.join(line for line in text.split('\n') if line.split(None, 1)[:1] != ['depth'])
