"""Asks the program. Answers are read by the reader that all scripts share."""
from flow.answers import READERS
from flow.program import ANSWERED, ask


def answer(command, options, text):
    """The answer to a command as plain objects, or None where there is no whole one."""
    told, status = ask([command] + options, text)
    return READERS[command](told) if status in ANSWERED else None
