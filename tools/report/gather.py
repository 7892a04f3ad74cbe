"""Asks the program all that a page tells of a session."""
import os
from concurrent.futures import ThreadPoolExecutor

from flow import answers
from flow.explained import explained
from flow.limits import limits_of
from flow.program import ANSWERED, NoAnswer, TookTooLong
from flow.session import read_session
from report.facts import Facts
from report.timeline import Timeline
from report.words import words_of

AT_ONCE = 3  # programs
AFTERWARDS = 1  # seconds that ./explain has beyond those of `size`


def title_of(path):
    """The name of a session's file, without its ending."""
    return 'standard input' if path == '-' else os.path.splitext(os.path.basename(path))[0]


def timeline_of(program, options, text, clock, session, path):
    """The spans and fills, read as the program writes them."""
    timeline = Timeline(clock, [module.name for module in session.modules], list(session.channels),
                        [fifo.name for fifo in session.fifos()], path.links)
    words = ['trace'] + options
    child = program.start(words, text)
    try:
        with child.stdout:
            answers.take_trace(child.stdout, timeline)
    except answers.BadAnswer as fault:
        if child.wait() not in ANSWERED:
            raise NoAnswer(words, child.returncode, str(fault)) from fault
        raise
    child.wait()
    return timeline


def sizes_of(program, options, text, wait):
    """The answer of `size`, or None where it takes longer."""
    try:
        return answers.read_depths('size', program.answer_within(wait, ['size'] + options, text))
    except TookTooLong:
        return None


def number_after(option, options, other):
    """The number that the words give after an option, or else another one."""
    return int(options[options.index(option) + 1]) if option in options else other


def gather(program, path, text, canonical, options, wait):
    """The facts of an accepted session: its file, its text in bytes, its canonical form, the words for its limits, and how many
    seconds `size` may take."""
    session = read_session(canonical, limits_of(options))
    with ThreadPoolExecutor(AT_ONCE) as pool:
        size = pool.submit(sizes_of, program, options, text, wait)
        lines = pool.submit(explained, path, text, options, wait + AFTERWARDS)
        run, advise = (pool.submit(program.answer, [command] + options, text) for command in ('run', 'advise'))
        stalls = answers.read_stalls(program.answer(['stalls'] + options, text))
        polls = ['--polls'] * session.asks_outcomes
        chain = answers.read_path(program.answer(['path', '--events'] + polls + options, text))
        timeline = timeline_of(program, options, text, stalls.verdict.clock, session, chain)
        return Facts(
            title_of(path), session, answers.read_run(run.result()), stalls, chain, size.result(),
            answers.read_depths('advise', advise.result()), timeline, words_of(lines.result()),
            (number_after('--cycles', options, session.cycles), number_after('--ops', options, session.ops)), wait)
