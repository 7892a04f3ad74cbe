"""What a page shows, as plain rows and texts for its templates."""
import json
import os

from report.counts import count_of, told, told_or_dash
from report.curve import curve_of
from report.facts import bits_of, too_shallow
from report.graph import graph_of
from report.summary import edit_rows, figures, headline_of, output_rows
from report.tables import crossed_rows, fifo_rows, module_rows, port_row, size_note, spent_rows
from report.waits import circles

FOLDER = os.path.dirname(os.path.realpath(__file__))
SCRIPTS = ('series', 'frame', 'choice', 'lanes', 'fill', 'begin')
PARTS = {
    'summary': 'Summary', 'graph': 'Dataflow', 'time': 'Where time goes', 'fifos': 'FIFOs', 'timeline': 'Timeline',
    'latency': 'What makes the latency', 'depths': 'Other depths',
}
MEANINGS = {
    'done': 'every module has ended', 'deadlock': 'nobody can move, and some module has not ended',
    'ops': 'nobody can move, and a module has used up its operations',
    'cycles': 'the cycle limit was reached before the design came to rest',
}


def parts_of(facts, explored):
    """The parts of the page that this session has, each with its title."""
    absent = {'fifos': not facts.depths, 'depths': not explored}
    return [(name, title) for name, title in PARTS.items() if not absent.get(name)]


def chosen_first(facts):
    """What is chosen when the page opens: a FIFO that is too shallow, else the one that was full for longest."""
    shallow = too_shallow(facts)
    if shallow:
        return {'kind': 'channel', 'name': next(iter(shallow))}
    if facts.stalls.fifos:
        fullest = max(facts.stalls.fifos, key=lambda time: (time.full, time.most))
        return {'kind': 'channel', 'name': fullest.fifo}
    return {'kind': '', 'name': ''}


def script_data(facts):
    """What the page's script reads, as JSON that can stand in a page."""
    most = {time.fifo: time.most for time in facts.stalls.fifos}
    fifos = [{'name': fifo.name, 'depth': fifo.depth, 'most': most[fifo.name]} for fifo in facts.session.fifos()]
    data = {
        **facts.timeline.data(), 'modules': facts.timeline.modules, 'channels': list(facts.session.channels),
        'fifos': fifos, 'held': {one.module: f'{one.channel} is {one.side}' for one in facts.held},
        'chosen': chosen_first(facts),
    }
    return json.dumps(data, separators=(',', ':')).replace('<', '\\u003c')


def text_of(name):
    with open(os.path.join(FOLDER, name), encoding='utf-8') as file:
        return file.read().strip()


def script_text():
    """The page's script: its parts, one after the other, in a scope of their own."""
    parts = [text_of(os.path.join('script', f'{name}.js')) for name in SCRIPTS]
    return '\n\n'.join(["'use strict';\n(() => {", *parts, '})();'])


def view_of(facts, explored):
    """The names that the templates use."""
    now, outputs, bits = facts.verdict, output_rows(facts.run.reports[0]), bits_of(facts)
    headline, gravity = headline_of(facts)
    return {
        'title': facts.title, 'parts': parts_of(facts, explored), 'style': text_of('page.css'), 'script': script_text(),
        'data': script_data(facts), 'limits': f'{told(facts.limits[0])} clocks, and {told(facts.limits[1])} operations '
                                              'of a module',
        'verdict': now, 'clock': told(now.clock), 'verdict_rest': f'in clock {told(now.clock)}: {MEANINGS[now.kind]}',
        'headline': headline, 'headline_kind': gravity, 'figures': figures(facts), 'words': facts.words,
        'outputs': outputs, 'long_outputs': any(row['last'] for row in outputs), 'edits': edit_rows(facts),
        'runs': count_of(facts.run.runs, 'simulation'), 'graph': graph_of(facts, too_shallow(facts)),
        'stuck': bool(circles(facts.waits())), 'modules': module_rows(facts),
        'ports': [port_row(facts.session, port) for port in facts.stalls.ports], 'fifos': fifo_rows(facts),
        'size_note': size_note(facts), 'bits': told(bits[0]), 'size_bits': told_or_dash(bits[1]),
        'spent': spent_rows(facts.path), 'crossed': crossed_rows(facts.path),
        'explored': curve_of(explored, facts, bits[0]) if explored else None,
    }
