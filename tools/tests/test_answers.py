"""The reader of the program's answers."""
import io
import unittest

from flow.answers import (Access, BadAnswer, Cross, Event, FifoTime, Held, Link, Poll, Polls, Port, Query, Spend, Stall,
                          TraceTaker, Verdict, read_depths, read_least, read_log, read_path, read_run, read_stalls, read_sweep, take_trace)

RUN = '''report 0
verdict deadlock 2
out y 1 2
out z
held p full b
event p write b 0
report 1
verdict done 8
out y 1 2 3
out z 4
runs 2
'''
STALLS = '''stalls
verdict done 60
module p 48 12
stall p full b 12
port p push b 16 0 51
module q 33 22
fifo b 1 44 16
'''
PATH = 'path\nverdict done 6\nspend p 4\nspend q 2\ncross empty b 1\nlink p 0 3\nlink q 4 5\n'
LOG = 'log\nverdict done 8\naccess p write b 4 1 9\naccess q tryread b 4 0\n'
TRACE = '''{"displayTimeUnit":"ns","traceEvents":[
{"ph":"M","pid":0,"tid":0,"name":"thread_name","args":{"name":"p"}},
{"ph":"X","pid":0,"tid":0,"ts":0,"dur":2,"name":"moves"},
{"ph":"X","pid":0,"tid":0,"ts":2,"dur":1,"name":"full b"},
{"ph":"C","pid":0,"ts":0,"name":"b","args":{"fill":0}}
]}
'''


class Taker(TraceTaker):
    def __init__(self):
        self.taken = []

    def names(self, names):
        self.taken += names

    def spans(self, spans):
        self.taken += spans

    def fills(self, fills):
        self.taken += fills


class ReadsAnswers(unittest.TestCase):
    def test_reports(self):
        run = read_run(RUN)
        self.assertEqual([report.verdict for report in run.reports], [Verdict('deadlock', 2), Verdict('done', 8)])
        self.assertEqual(run.reports[0].outputs, {'y': [1, 2], 'z': []})
        self.assertEqual(run.reports[0].held, [Held('p', 'full', 'b')])
        self.assertEqual(run.reports[0].events, [Event('p', 'write', 'b', 0)])
        self.assertEqual(run.runs, 2)

    def test_polls(self):
        found = read_stalls(STALLS.replace('fifo b', 'polls q 5\npoll q tryread b 13 7\nfifo b'))
        self.assertEqual(found.polls, [Polls('q', 5)])
        self.assertEqual(found.queries, [Query('q', 'tryread', 'b', 13, 7)])
        self.assertEqual(found.fifos, [FifoTime('b', 1, 44, 16)])

    def test_stalls(self):
        found = read_stalls(STALLS)
        self.assertEqual([(time.moved, time.still) for time in found.modules], [(48, 12), (33, 22)])
        self.assertEqual(found.stalls, [Stall('p', 'full', 'b', 12)])
        self.assertEqual(found.ports, [Port('p', 'push', 'b', 16, 0, 51)])
        self.assertEqual(found.ports[0].interval, 3.4)
        self.assertEqual(found.fifos, [FifoTime('b', 1, 44, 16)])

    def test_chain(self):
        found = read_path(PATH)
        self.assertEqual((found.spent, found.crossed), ([Spend('p', 4), Spend('q', 2)], [Cross('empty', 'b', 1)]))
        self.assertEqual(found.links, [Link('p', 0, 3), Link('q', 4, 5)])

    def test_chain_with_polls(self):
        found = read_path(PATH.replace('cross empty b 1\n', 'cross empty b 1\npoll empty b 2 5\ncross full c 1\npoll empty d 1 0\n'))
        self.assertEqual(found.polled, [Poll('b', 2, 5), Poll('d', 1, 0)])
        self.assertEqual(found.crossed, [Cross('empty', 'b', 1), Cross('full', 'c', 1)])
        self.assertEqual(found.links, [Link('p', 0, 3), Link('q', 4, 5)])

    def test_accesses_with_and_without_a_value(self):
        self.assertEqual(read_log(LOG).accesses, [Access('p', 'write', 'b', 4, 1, 9), Access('q', 'tryread', 'b', 4, 0)])

    def test_depths(self):
        self.assertEqual(read_depths('size', 'size\nverdict done 48\ndepth b 3\n').depths, {'b': 3})
        least = read_least('least\nverdict done 48\nbits 24\ndepth b 3\n')
        self.assertEqual((least.verdict.clock, least.bits, least.depths), (48, 24, {'b': 3}))
        found = read_sweep('point 1 2 done 60\npoint 2 2 deadlock 5\nbest 1 2\n')
        self.assertEqual(found.points, [((1, 2), Verdict('done', 60)), ((2, 2), Verdict('deadlock', 5))])
        self.assertEqual(found.best, (1, 2))
        self.assertIsNone(read_sweep('point 1 ops 5\nbest none\n').best)

    def test_trace(self):
        taker = Taker()
        take_trace(io.BytesIO(TRACE.encode()), taker)
        self.assertEqual(taker.taken, [b'p', (b'0', b'0', b'2', b'moves'), (b'0', b'2', b'1', b'full b'), (b'0', b'b', b'0')])

    def test_what_is_no_answer_is_told_with_its_line(self):
        for read, text, line in [(read_run, RUN.replace('deadlock 2', 'asleep 2'), 'line 2 '),
                                 (read_stalls, STALLS.replace('48 12', '48'), 'line 3 '),
                                 (read_path, PATH.replace('p 4', 'p four'), 'line 3 '),
                                 (read_log, LOG + 'more\n', 'line 5 '), (read_run, 'refused 2 3\n', 'line 1 '),
                                 (read_log, LOG[:-1], 'no line feed')]:
            with self.assertRaises(BadAnswer) as caught:
                read(text)
            self.assertIn(line, str(caught.exception))
        with self.assertRaises(BadAnswer):
            take_trace(io.BytesIO(TRACE.replace('"dur":1', '"dur":x').encode()), Taker())


if __name__ == '__main__':
    unittest.main()
