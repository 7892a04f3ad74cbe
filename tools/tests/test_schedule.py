"""The check of an HLS schedule."""
import copy
import importlib.util
import os
import unittest

PATH = os.path.join(os.path.dirname(os.path.dirname(os.path.realpath(__file__))), 'from_hls', 'schedule.py')
spec = importlib.util.spec_from_file_location('schedule', PATH)
schedule = importlib.util.module_from_spec(spec)
spec.loader.exec_module(schedule)

GOOD = {'inputs': [{'name': 'a', 'width': 8, 'values': [1]}],
        'processes': [{'name': 'p', 'regions': [{'name': 'r', 'latency': 2, 'operations': [
            {'start': 1, 'if': 'go', 'write': 'y', 'value': ['+', 'x', 1]}]}]}]}


class Schedules(unittest.TestCase):
    def told(self, change):
        entry = copy.deepcopy(GOOD)
        change(entry)
        with self.assertRaises(schedule.ScheduleFault) as caught:
            schedule.check_schedule(entry)
        return str(caught.exception)

    def test_a_good_one_passes(self):
        schedule.check_schedule(GOOD)

    def test_an_unknown_key_is_told_with_those_that_there_are(self):
        told = self.told(lambda it: it['inputs'][0].update(depth=3))
        self.assertEqual(told, 'schedule.inputs[0] (a): the input may not have depth; it has name, width, values')

    def test_a_missing_key(self):
        self.assertEqual(self.told(lambda it: it['processes'][0].pop('regions')), 'schedule.processes[0] (p): the process has no regions')

    def test_a_negative_number(self):
        region = 'schedule.processes[0] (p).regions[0] (r)'
        self.assertEqual(self.told(lambda it: it['processes'][0]['regions'][0].update(latency=-2)),
                         f'{region}.latency: -2 is not a number from 0 on')

    def test_an_operation_is_one(self):
        told = self.told(lambda it: it['processes'][0]['regions'][0]['operations'][0].update(read='q'))
        self.assertTrue(told.endswith('not read and write'), told)


if __name__ == '__main__':
    unittest.main()
