"""The command ./explain: its words, and the order in which things are told."""
from explain.faults import tell_refused
from explain.language import count_of
from explain.reports import tell_report
from explain.session import Session, asks_outcomes
from explain.slips import tell_slips
from explain.times import tell_depths, tell_time
from flow.answers import read_run
from flow.limits import limits_of, options_of
from flow.program import ANSWERED, ask
from flow.refused import REFUSED_SESSION
from flow.script import Parser, read_bytes, run, take_limits

ABOUT = '''Tells in words what OmniSim answers to a session.'''
DETAILS = '''If the session is refused: each faulty line, what is wrong with it, what was expected, and what to do. Otherwise: what the
verdict means, how far each sink came, which module waits for which channel and for whom; for a design that is done where its time
is lost and which FIFO depths matter; and what looks like a slip in a session that is accepted. Causes and remedies are read from
the tables of docs/LANGUAGE.md. Answers come from ./omnisim beside this script, and the status is the program's.'''


def parsed():
    """The session's path, and the options that the program takes."""
    parser = Parser(prog='explain', description=ABOUT, epilog=DETAILS, allow_abbrev=False)
    parser.add_argument('session', metavar='SESSION', help='a file, or - for standard input')
    take_limits(parser)
    found = parser.parse_args()
    return found.session, options_of(found.large, found.cycles, found.ops)


def tell_reports(found, options, text, session):
    """Tells the reports of an answer of `run`, one after the other."""
    known = {}
    for report in found.reports:
        tell_report(report, options, text, session, known)
        if report.number == 0 and report.verdict.is_done:
            tell_time(options, text, session, report.verdict)
        elif report.number == 0 and any(entry.side == 'full' for entry in report.held):
            tell_depths(options, text, session, report.held)
    if session.edits and asks_outcomes(session):
        print(f'{found.runs - 1} of {count_of(len(session.edits), "edit")} changed the outcome of a query, so that the design was '
              'simulated afresh.')


def explain():
    """Tells all of a session, and gives the program's status."""
    path, options = parsed()
    text = read_bytes(path)
    name = 'standard input' if path == '-' else path
    source = text.decode('ascii', 'replace').split('\n')
    scale = limits_of(options).word
    told, status = ask(['check', *scale], text)
    if status == REFUSED_SESSION:
        tell_refused(told.splitlines(), source, name, options)
    if status != 0:
        return status
    session = Session(source)
    told, status = ask(['run'] + options, text)
    if status not in ANSWERED:
        print(told, end='')
        return status
    tell_slips(session, ask(['order', *scale], text)[0].splitlines(), name)
    tell_reports(read_run(told), options, text, session)
    return status


def main():
    run('explain', explain)
