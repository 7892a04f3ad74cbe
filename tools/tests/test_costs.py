"""What FIFOs cost."""
import json
import os
import tempfile
import unittest

from flow.costs import Costs
from flow.refused import Refused


class CostsOfFifos(unittest.TestCase):
    def test_bits(self):
        self.assertEqual((Costs('bits').of(8, 3), Costs('bits').unit), (24, 'bits'))

    def test_a_fifo_takes_the_cheapest_shape(self):
        costs = Costs('bram18')
        self.assertEqual([costs.of(36, 512), costs.of(37, 512), costs.of(18, 1024), costs.of(18, 1025), costs.of(8, 2048)], [1, 2, 1, 2, 1])

    def test_shift_registers_hold_32_words(self):
        self.assertEqual([Costs('srl').of(8, 2), Costs('srl').of(8, 33)], [8, 16])

    def test_a_file_of_ones_own(self):
        with tempfile.TemporaryDirectory() as folder:
            path = os.path.join(folder, 'own.json')
            with open(path, 'w', encoding='utf-8') as file:
                json.dump({'uram': {'unit': 'uram', 'shapes': [{'bits': 72, 'words': 4096, 'cost': 1}]}}, file)
            self.assertEqual(Costs('uram', path).of(64, 5000), 2)
            with self.assertRaisesRegex(Refused, 'there is no cost bram18; there are bits, uram'):
                Costs('bram18', path)


if __name__ == '__main__':
    unittest.main()
