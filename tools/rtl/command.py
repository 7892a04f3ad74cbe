"""The command ./rtl: its words, and what it writes."""
import os
import sys

from flow.explained import explained
from flow.limits import LARGE, STANDARD
from flow.program import Program
from flow.refused import REFUSED_SESSION, WRONG_WORDS, Refused
from flow.script import Parser, read_bytes, run
from flow.session import SessionFault, read_session
from rtl.design import DesignText

ABOUT = 'Writes a session as SystemVerilog, with a testbench.'
DETAILS = '''With --hex the values of each source stand in FOLDER/SOURCE.hex, which this command writes and the testbench reads;
otherwise they stand in the text. A session that is refused is told in words on standard error, and the status is 2; the status is 1
for wrong words, and for a file that can't be read or written. docs/RTL.md tells how to simulate the text and what it leaves out.'''


def parsed():
    """The words of the command line."""
    parser = Parser(prog='rtl', description=ABOUT, epilog=DETAILS)
    parser.add_argument('session', metavar='SESSION', help='a file, or - for standard input')
    parser.add_argument('--large', action='store_true', help='the limits for designs of real size')
    parser.add_argument('--hex', metavar='FOLDER', help='where the values of the sources go')
    return parser.parse_args()


def write_values(session, folder):
    """Writes the values of each source as a file for $readmemh."""
    try:
        os.makedirs(folder, exist_ok=True)
        for channel in session.channels.values():
            if channel.kind == 'source':
                with open(os.path.join(folder, channel.name + '.hex'), 'w', encoding='ascii') as file:
                    file.writelines(f'{value:x}\n' for value in channel.values)
    except OSError as fault:
        raise Refused(WRONG_WORDS, f'{fault.filename}: {fault.strerror}') from fault


def is_refused(text, limits):
    """Whether the program is built, and refuses the session."""
    program = Program()
    return os.access(program.path, os.X_OK) and program.ask(['check', *limits.word], text).status == REFUSED_SESSION


def rtl():
    """Writes the text; gives the status."""
    words = parsed()
    text, limits = read_bytes(words.session), LARGE if words.large else STANDARD
    if is_refused(text, limits):
        print('\n'.join(explained('-', text, limits.word)), file=sys.stderr)
        return REFUSED_SESSION
    try:
        session = read_session(text.decode('ascii', 'replace'), limits)
    except SessionFault as fault:
        raise Refused(REFUSED_SESSION, f'{fault}; ./explain tells more about a session that is refused') from fault
    if words.hex is not None:
        write_values(session, words.hex)
    title = 'From standard input' if words.session == '-' else f'From {os.path.basename(words.session)}'
    sys.stdout.write(DesignText(session, title, words.hex).text())
    return 0


def main():
    run('rtl', rtl)
