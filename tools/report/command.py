"""The command ./report: its words, and the page that it writes."""
from flow.explained import explained
from flow.limits import STANDARD, limits_of, options_of
from flow.program import NoAnswer, Program
from flow.refused import REFUSED_SESSION, WRONG_WORDS, Refused
from flow.script import Parser, number_to, read_bytes, run, take_limits
from report.explored import read_explored
from report.gather import gather, title_of
from report.jinja import need_jinja

ABOUT = '''Writes what OmniSim tells of a session as one HTML file to look at. The page has the dataflow graph, where time goes, the
FIFOs, a timeline and what makes the latency. It needs nothing but itself: no network and no server. docs/COMMANDS.md tells what is
on it. All numbers are the program's answers.'''


def parsed():
    """The words of the command line."""
    parser = Parser(prog='report', description=ABOUT, allow_abbrev=False)
    parser.add_argument('session', metavar='SESSION', help='the file with the session, or - for standard input')
    parser.add_argument('-o', '--output', metavar='FILE', help='the page; NAME.html without it')
    parser.add_argument('--explored', metavar='FOLDER', help='a folder of ./explore for this session: what other depths give')
    take_limits(parser)
    parser.add_argument('--wait', metavar='SECONDS', type=number_to(86_400), default=5,
                        help='how long size may take, 5 without it; a page without its answer says so')
    words = parser.parse_args()
    if words.ops and not words.large and words.ops > STANDARD.counted_operations:
        parser.error(f'--ops is at most {STANDARD.counted_operations:,} without --large')
    return words


def checked(program, path, text, options):
    """The canonical form of an accepted session; of another one ./explain tells what is wrong."""
    given = program.ask(['check', *limits_of(options).word], text)
    if given.status == REFUSED_SESSION:
        raise Refused(REFUSED_SESSION, '\n'.join([given.text.strip()] + explained(path, text, options)))
    if given.status != 0:
        raise NoAnswer(['check'], given.status, given.text.strip())
    return given.text


def write_page(path, text):
    """Writes the page's file."""
    try:
        with open(path, 'w', encoding='utf-8') as file:
            file.write(text)
    except OSError as fault:
        raise Refused(WRONG_WORDS, f'{path}: {fault.strerror}') from fault


def report():
    """Asks, and writes the page; gives the status."""
    words = parsed()
    need_jinja()
    from report.page import page_of
    program, text = Program(), read_bytes(words.session)
    program.need()
    options = options_of(words.large, words.cycles, words.ops)
    canonical = checked(program, words.session, text, options)
    explored = read_explored(words.explored, canonical) if words.explored else None
    page = page_of(gather(program, words.session, text, canonical, options, words.wait), explored)
    path = words.output or f'{"session" if words.session == "-" else title_of(words.session)}.html'
    write_page(path, page)
    print(path)
    return 0


def main():
    run('report', report)
