"""The reader of sessions that ./rtl uses."""
import unittest

from flow.session import SessionFault, read_session

LINE = '''flow 2
source a 4   # cut to 4 bits
fifo q 8 3 5
sink y 8
module m
reg go 1
mem taps 8 4
loop l 2 5 while go
temp x 8
at 0 read a x
at 4 if go write q + x ?: go 1 0
stop
module n
block b 2
temp z 8
at 0 read q z
at 1 write y sext 4 z
goto b
input a 1 18
limits 100 50
depth q 7
end
'''


class ReadsSessions(unittest.TestCase):
    def setUp(self):
        self.session = read_session(LINE)

    def test_channels_have_their_sizes_and_ends(self):
        fifo = self.session.channels['q']
        self.assertEqual((fifo.width, fifo.depth, fifo.delay), (8, 3, 5))
        self.assertEqual((fifo.writer.name, fifo.reader.name), ('m', 'n'))
        self.assertEqual(self.session.deepest(fifo), 7)

    def test_inputs_are_cut_to_the_width(self):
        self.assertEqual(self.session.channels['a'].values, [1, 2])

    def test_a_loop_has_its_interval_and_a_block_its_length(self):
        loop, block = self.session.modules[0].block('l'), self.session.modules[1].block('b')
        self.assertEqual((loop.interval, loop.length, loop.go, loop.stages()), (2, 5, 'go', 3))
        self.assertEqual((block.interval, block.length, block.go, block.stages()), (2, 2, None, 1))

    def test_an_expression_is_a_tree(self):
        written = self.session.modules[0].block('l').operations[1]
        self.assertEqual((written.guard, written.offset), ('go', 4))
        self.assertEqual(written.value, ('+', ('name', 'x'), ('?:', ('name', 'go'), ('number', 1), ('number', 0))))

    def test_limits_and_edits(self):
        self.assertEqual((self.session.cycles, self.session.ops, self.session.edits), (100, 50, [('q', 7)]))


class TellsFaults(unittest.TestCase):
    def told(self, text):
        with self.assertRaises(SessionFault) as caught:
            read_session(text)
        return str(caught.exception)

    def test_an_unknown_statement_is_told_with_its_line(self):
        self.assertEqual(self.told(LINE.replace('sink y 8', 'snk y 8')), 'line 4: snk is no statement')

    def test_an_unknown_name_is_told_with_its_line(self):
        self.assertIn('line 11: there is no register or temp w', self.told(LINE.replace('+ x ?:', '+ w ?:')))

    def test_a_missing_end(self):
        self.assertEqual(self.told(LINE.replace('end\n', '')), 'there is no end')

    def test_a_channel_without_a_reader(self):
        self.assertEqual(self.told(LINE.replace('at 0 read q z\n', '')), 'q wants one reader and one writer')


if __name__ == '__main__':
    unittest.main()
