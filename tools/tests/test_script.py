"""How scripts take their words, read a file, and end."""
import contextlib
import io
import os
import subprocess
import tempfile
import unittest
from unittest import mock

from flow.limits import STANDARD, options_of
from flow.program import TOP, NoAnswer, NotBuilt
from flow.refused import Refused
from flow.script import Parser, read_bytes, run, take_limits


def ended(command):
    """What a script tells on standard error, and its status."""
    told = io.StringIO()
    with contextlib.redirect_stderr(told):
        try:
            run('name', command)
        except SystemExit as end:
            return told.getvalue(), end.code


def raising(fault):
    """A command that can't do what it should."""
    def command():
        raise fault
    return command


class Scripts(unittest.TestCase):
    def test_each_is_reached_by_a_link_from_any_folder(self):
        with tempfile.TemporaryDirectory() as folder:
            for name in 'explain', 'explore', 'report', 'rtl':
                link = os.path.join(folder, name)
                os.symlink(os.path.join(TOP, name), link)
                told = subprocess.run([link, '--help'], cwd=folder, stdout=subprocess.PIPE, check=True).stdout.decode()
                self.assertTrue(told.startswith(f'usage: {name} '), told)


class Ends(unittest.TestCase):
    def test_a_status_is_passed_on(self):
        self.assertEqual(ended(lambda: 3), ('', 3))

    def test_a_refusal_is_told_in_a_line(self):
        for fault, wanted in ((Refused(2, 'no'), ('name: no\n', 2)), (NotBuilt('none'), ('name: none\n', 125)),
                              (NoAnswer(['run'], 8, ''), ('name: omnisim run: out of memory\n', 8)),
                              (NoAnswer(['run'], -9, ''), ('name: omnisim run: no answer, status -9\n', 125))):
            self.assertEqual(ended(raising(fault)), wanted)

    def test_a_reader_that_goes_away_is_no_fault(self):
        with mock.patch('os.dup2'):
            self.assertEqual(ended(raising(BrokenPipeError())), ('', 0))


class Words(unittest.TestCase):
    def limits(self, *words):
        """The limits that these words give."""
        parser = Parser(prog='name')
        take_limits(parser)
        found = parser.parse_args(words)
        return options_of(found.large, found.cycles, found.ops)

    def test_limits_are_given_on(self):
        self.assertEqual(self.limits(), [])
        self.assertEqual(self.limits('--ops', '7', '--large'), ['--large', '--ops', '7'])
        self.assertEqual(options_of(False, 5, STANDARD.counted_operations), ['--cycles', '5', '--ops', '200000'])

    def test_wrong_words_are_told_with_the_way_to_help(self):
        for words, wanted in ((['--cycles', '0'], "argument --cycles: '0' is no number from 1 to 1,000,000,000,000,000"),
                              (['--ops', 'x'], "argument --ops: 'x' is no number from 1 to 1,000,000,000"),
                              (['x'], 'unrecognized arguments: x')):
            with self.assertRaises(Refused) as caught:
                self.limits(*words)
            self.assertEqual((str(caught.exception), caught.exception.status), (f'{wanted}; name --help tells the words', 1))

    def test_a_file_that_is_not_there_is_named(self):
        with self.assertRaisesRegex(Refused, '^/nowhere: No such file or directory$'):
            read_bytes('/nowhere')


if __name__ == '__main__':
    unittest.main()
