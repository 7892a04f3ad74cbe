"""What a page keeps of a run, clock by clock and in buckets."""
import base64
import unittest
import zlib
from unittest import mock

from flow.answers import Link
from report import timeline
from report.timeline import Timeline, packed


def unpacked(text):
    """The numbers of a packed text."""
    numbers, value, unit = [], 0, 1
    for byte in zlib.decompress(base64.b64decode(text)):
        value += (byte & 127) * unit
        unit *= 128
        if byte < 128:
            numbers.append(value)
            value, unit = 0, 1
    return numbers


def taken():
    """A run of 100 clocks: p moves and waits for a place in turn, q waits for an element and then moves."""
    found = Timeline(100, ['p', 'q'], ['a', 'b'], ['b'], [Link('p', 0, 59), Link('q', 60, 99)])
    found.spans([(b'0', b'%d' % (2 * clock), b'2', b'full b' if clock % 2 else b'moves') for clock in range(50)])
    found.spans([(b'1', b'0', b'60', b'empty b'), (b'1', b'60', b'30', b'moves')])
    found.fills([(b'%d' % (10 * change), b'b', b'%d' % change) for change in range(10)])
    return found


class Timelines(unittest.TestCase):
    def test_numbers_are_packed_and_come_back(self):
        numbers = [0, 1, 127, 128, 300, 10 ** 15]
        self.assertEqual(unpacked(packed(numbers)), numbers)

    def test_a_short_run_is_kept_whole(self):
        data = taken().data()
        self.assertEqual((data['windows'], data['buckets']), ([(0, 100)], ''))
        numbers = unpacked(data['kept'])
        self.assertEqual(numbers[:5], [50, 2, 0, 2, 4])  # p: 50 spans, 2 clocks of moves, 2 of waiting for a place in b
        self.assertEqual(numbers[101:106], [2, 60, 3, 30, 0])  # q: 2 spans; it waits for an element of b, and moves
        self.assertEqual(numbers[-7:], [2, 0, 0, 60, 1, 0, 40])  # the links: module, clocks before it, its clocks

    def test_a_long_run_is_kept_at_its_ends_and_told_in_buckets(self):
        with mock.patch.object(timeline, 'MOST_KEPT', 30), mock.patch.object(timeline, 'BUCKETS', 10):
            data = taken().data()
        (_, low), (high, until) = data['windows']
        self.assertEqual((low, until, data['bucket']), (100 - high, 100, 10))
        self.assertTrue(0 < low < 50)
        numbers = unpacked(data['buckets'])
        shares = [numbers[at:at + 4] for at in range(0, 80, 4)]
        self.assertEqual(shares[0], [6, 0, 4, 10])  # p in clocks 0 to 9: moves, waits: empty, waits: full, the chain
        self.assertEqual([sum(column) for column in zip(*shares[:10])], [50, 0, 50, 60])
        self.assertEqual([sum(column) for column in zip(*shares[10:])], [30, 60, 0, 40])
        self.assertEqual(numbers[80:], [level for change in range(10) for level in (change, change)])

    def test_what_is_too_much_packed_is_kept_less(self):
        with mock.patch.object(timeline, 'MOST_PACKED', 60):
            data = taken().data()
        self.assertLessEqual(len(data['kept']), 60)
        self.assertTrue(data['buckets'])


if __name__ == '__main__':
    unittest.main()
