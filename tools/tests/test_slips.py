"""What ./explain takes for a slip."""
import contextlib
import io
import unittest

from explain.session import Session
from explain.slips import slips_of, tell_slips

HEAD = ['flow 1', 'fifo b 8', 'module m', 'reg n 4', 'mem t 8 4']


def told(*lines):
    return [text for _, text in slips_of(Session(HEAD + list(lines)))]


class Slips(unittest.TestCase):
    def test_a_constant_that_is_too_wide_is_cut(self):
        self.assertEqual(told('block k 1', 'at 0 write b 999', 'at 0 set n 16'),
                         ['b has 8 bits, so 999 is cut', 'n has 4 bits, so 16 is cut'])

    def test_a_memory_has_two_ports(self):
        loads = [f'at 0 load n t {address}' for address in range(3)]
        self.assertEqual(told('loop l 1 1 while n', *loads), ['t is used 3 times in one clock: a memory of hardware has two ports'])

    def test_a_block_that_fills_a_memory_is_none(self):
        self.assertEqual(told('block k 1', *[f'at 0 store t {address} 7' for address in range(4)]), [])

    def test_the_same_slip_is_told_once(self):
        session = Session(HEAD + ['block k 3', 'at 0 write b 999', 'at 1 write b 999', 'at 2 write b 999'])
        with contextlib.redirect_stdout(io.StringIO()) as shown:
            tell_slips(session, [], 'x.flow')
        self.assertEqual(shown.getvalue(), 'x.flow:7: b has 8 bits, so 999 is cut (and on 2 more lines).\n')


if __name__ == '__main__':
    unittest.main()
