"""What render says of faulty words and templates."""
import os
import subprocess
import sys
import tempfile
import unittest

RENDER = os.path.join(os.path.dirname(os.path.dirname(os.path.realpath(__file__))), 'from_hls', 'render')

try:
    import jinja2  # noqa: F401
except ImportError:
    jinja2 = None


@unittest.skipUnless(jinja2, 'Jinja2 is not there')
class Renders(unittest.TestCase):
    def rendered(self, text, *values):
        """The status, the output and the message for a template with this text, rendered from another folder."""
        with tempfile.TemporaryDirectory() as folder:
            path = os.path.join(folder, 'one.flow.j2')
            with open(path, 'w', encoding='utf-8') as file:
                file.write(text)
            ran = subprocess.run([sys.executable, '-B', RENDER, path, *values], cwd='/', capture_output=True, text=True, check=False)
            return ran.returncode, ran.stdout, ran.stderr.replace(folder, 'FOLDER')

    def test_a_template_finds_the_macros_wherever_it_lies(self):
        status, out, told = self.rendered("{% import 'count.j2' as count %}depth {{ depth + 1 }}", 'depth=3')
        self.assertEqual((status, out, told), (0, 'depth 4\n', ''))

    def refusal(self, text, *values):
        """The message for a template that is not rendered."""
        status, out, told = self.rendered(text, *values)
        self.assertEqual((status, out), (1, ''))
        return told

    def test_a_parameter_that_is_missing_is_named(self):
        self.assertEqual(self.refusal('depth {{ depth }}'), "render: FOLDER/one.flow.j2: 'depth' is undefined; give it as NAME=VALUE\n")

    def test_a_word_that_is_no_parameter(self):
        self.assertEqual(self.refusal('depth', 'depth'), 'render: depth is not written NAME=VALUE\n')

    def test_a_fault_of_the_template_is_told_with_its_line(self):
        self.assertTrue(self.refusal('one\n{% for %}\n').startswith('render: FOLDER/one.flow.j2:2: '))

    def test_a_template_that_is_not_there(self):
        ran = subprocess.run([sys.executable, '-B', RENDER, '/none.flow.j2'], capture_output=True, text=True, check=False)
        self.assertEqual((ran.returncode, ran.stdout, ran.stderr), (1, '', 'render: there is no template none.flow.j2\n'))


if __name__ == '__main__':
    unittest.main()
