"""The first difference of two sessions."""
import contextlib
import io
import unittest

from desk.differing import DIFFERENT, SAME, TROUBLE, tell_difference

DONE = 'report 0\nverdict done 9\nout y 1 2\nruns 1\n'
HELD = 'report 0\nverdict deadlock 4\nout y 1\nheld p full f\nruns 1\n'
LOG = 'log\nverdict done 9\naccess p write f 0 1 1\n'
LATER = 'log\nverdict deadlock 4\naccess p write f 1 1 1\n'


def told(*answers):
    """What is told of two sessions with these answers, each with its status and a log; and the status."""
    def ask(words, text):
        answer, status, log = answers[int(text)]
        return (answer, status) if words[0] == 'run' else (log, status)
    found = io.StringIO()
    with contextlib.redirect_stdout(found):
        status = tell_difference(ask, ['0', '1'], [])
    return found.getvalue().splitlines(), status


class Differences(unittest.TestCase):
    def test_the_same(self):
        self.assertEqual(told((DONE, 0, LOG), (DONE, 0, LOG)), (['the same'], SAME))

    def test_each_difference_is_told(self):
        self.assertEqual(told((DONE, 0, LOG), (HELD, 3, LATER)), ([
            'verdict done 9, and deadlock 4', 'out y: 2 and 1 values; value 1 is 2, and no value', 'held p: not held, and full f',
            'access 0:', '  access p write f 0 1 1', '  access p write f 1 1 1'], DIFFERENT))

    def test_a_refusal_is_told_with_the_session(self):
        self.assertEqual(told((DONE, 0, LOG), ('refused 3 6\n', 2, '')), (['session 2: refused 3 6'], TROUBLE))


if __name__ == '__main__':
    unittest.main()
