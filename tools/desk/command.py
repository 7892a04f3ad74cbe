#!/usr/bin/env python3
"""Words of ./omnisim that the program does not know: other depths, the session with depths found, JSON, and the difference of two
sessions. ./omnisim calls this script where it meets one of them; all answers come from ./omnisim itself."""
import dataclasses
import json
import os
import sys

sys.path.insert(0, os.path.dirname(os.path.dirname(os.path.realpath(__file__))))
from desk.differing import tell_difference  # noqa: E402
from flow import program  # noqa: E402
from flow.answers import READERS  # noqa: E402
from flow.depths import depths_of, no_fifo, with_depths  # noqa: E402
from flow.limits import LARGE, STANDARD, options_of  # noqa: E402
from flow.refused import WRONG_WORDS, Refused  # noqa: E402
from flow.script import Parser, read_bytes, run  # noqa: E402


def wrong(text):
    """A refusal of the words."""
    return Refused(WRONG_WORDS, f'{text}; ./omnisim --help tells the words')


def ask(words, text):
    """What the program answers to a session, and its status."""
    return program.ask(words, text.encode('utf-8', 'surrogateescape'))


def read(path):
    """The text of a session; bytes that are no text stay as they are."""
    return read_bytes(path).decode('utf-8', 'surrogateescape')


def depth_of(word, known, limits):
    """A FIFO and its depth, off FIFO=N."""
    name, mark, depth = word.partition('=')
    if not mark or not depth.isdigit() or not 1 <= int(depth) <= limits.fifo_depth:
        raise wrong(f'--depth takes FIFO=N, with N from 1 to {limits.fifo_depth:,}, and not {word!r}')
    if name not in known:
        raise wrong(no_fifo(name, known))
    return name, int(depth)


def changed(text, found):
    """The session with the depths that the words give, each as FIFO=N."""
    known, limits = depths_of(text), LARGE if found.large else STANDARD
    return with_depths(text, dict(depth_of(word, known, limits) for word in found.depth))


def parsed(words):
    """The words: a command, perhaps numbers, a file or two, and options in any order."""
    parser = Parser(prog='./omnisim', add_help=False, allow_abbrev=False)
    parser.add_argument('command')
    parser.add_argument('rest', nargs='*')
    parser.add_argument('--depth', action='append', default=[])
    parser.add_argument('--apply', action='store_true')
    parser.add_argument('--json', action='store_true')
    parser.add_argument('--large', action='store_true')
    parser.add_argument('--events', action='store_true')
    parser.add_argument('--polls', action='store_true')
    parser.add_argument('--cycles')
    parser.add_argument('--ops')
    parser.add_argument('--slack')
    return parser.parse_intermixed_args(words)


def session_of(found):
    """The command's own words, and the session's path."""
    numbers = [word for word in found.rest if word.isdigit()]
    files = [word for word in found.rest if not word.isdigit()]
    if len(files) > 1:
        raise wrong(f'{found.command} takes one session, and not {files[0]} and {files[1]}')
    flags = [f'--{name}' for name in ('events', 'polls') if getattr(found, name)]
    slack = ['--slack', found.slack] if found.slack is not None else []
    limits = options_of(found.large, found.cycles, found.ops)
    return [found.command, *numbers, *flags, *slack, *limits], files[0] if files else '-'


def apply(command, answer, status, text):
    """Writes the session with the depths that `size`, `least` or `advise` found; the verdict goes to standard error."""
    if status not in program.ANSWERED:
        sys.stdout.write(answer)
        return status
    found = READERS[command](answer)
    print(f'omnisim: {command}: {found.verdict}', file=sys.stderr)
    sys.stdout.write(with_depths(text, found.depths))
    return status


def as_json(command, answer, status):
    """Writes an answer as JSON."""
    if status not in program.ANSWERED:
        sys.stdout.write(json.dumps({'command': command, 'status': status, 'refused': answer.split()[1:]}) + '\n')
        return status
    if command not in READERS:
        raise wrong(f'--json goes with {", ".join(READERS)}, and not with {command}')
    json.dump({'command': command, 'status': status, **dataclasses.asdict(READERS[command](answer))}, sys.stdout, indent=1)
    print()
    return status


def differ(found):
    """Tells the first difference of two sessions, or of one before and after other depths."""
    if found.apply or found.json or found.events or found.polls or found.slack is not None:
        raise wrong('diff takes --depth, --large, --cycles and --ops alone')
    if len(found.rest) == 2 and not found.depth:
        texts = [read(path) for path in found.rest]
    elif len(found.rest) == 1 and found.depth:
        text = read(found.rest[0])
        texts = [text, changed(text, found)]
    else:
        raise wrong('diff takes two sessions, or one and --depth FIFO=N')
    return tell_difference(ask, texts, options_of(found.large, found.cycles, found.ops))


def main():
    """Does what the words ask for, and gives the status."""
    found = parsed(sys.argv[1:])
    if found.command == 'diff':
        return differ(found)
    if found.apply and (found.command not in ('size', 'least', 'advise') or found.json):
        raise wrong('--apply goes with size, least and advise, without --json')
    asked, path = session_of(found)
    text = changed(read(path), found)
    answer, status = ask(asked, text)
    if found.apply:
        return apply(found.command, answer, status, text)
    if found.json:
        return as_json(found.command, answer, status)
    sys.stdout.write(answer)
    return status


if __name__ == '__main__':
    run('omnisim', main)
