"""FIFOs in the text of a session."""
import unittest

from flow.depths import depths_of, no_fifo, widths_of, with_depths, without_edits

TEXT = 'flow 2\nfifo a 8\n fifo b 8 3 # deep\nfifo c 8 4 7\nfifo abc 8 1\ndepth a 9\n# fifo d 8 5\nend\n'


class Depths(unittest.TestCase):
    def test_each_fifo_has_its_width_and_depth(self):
        self.assertEqual(depths_of(TEXT), {'a': 2, 'b': 3, 'c': 4, 'abc': 1})
        self.assertEqual(widths_of(TEXT), dict.fromkeys(('a', 'b', 'c', 'abc'), 8))

    def test_edits_are_left_out_and_all_else_stays(self):
        self.assertEqual(without_edits(TEXT), TEXT.replace('depth a 9\n', ''))

    def test_the_nearest_name_is_told(self):
        self.assertEqual(no_fifo('ab', depths_of(TEXT)), 'the session has no FIFO ab; did you mean abc?')
        self.assertEqual(no_fifo('x', depths_of(TEXT)), 'the session has no FIFO x')

    def test_depths_change_and_all_else_stays(self):
        changed = with_depths(TEXT, {'a': 5, 'b': 6, 'c': 7})
        self.assertEqual(changed, 'flow 2\nfifo a 8 5\n fifo b 8 6 # deep\nfifo c 8 7 7\nfifo abc 8 1\ndepth a 9\n# fifo d 8 5\nend\n')

    def test_a_comment_right_after_the_width_stays(self):
        self.assertEqual(with_depths('fifo a 8 # two\n', {'a': 3}), 'fifo a 8 3 # two\n')


if __name__ == '__main__':
    unittest.main()
