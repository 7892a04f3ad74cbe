"""The limits and forms that scripts tell are those of the program's source and of the page that teaches them."""
import os
import re
import unittest

from explain.language import FOLLOW, FORMS, OPERATIONS, most_of, plain, ranges_of, table
from explore.front import MOST_PAIRS
from flow import limits as told
from flow.design import NAME
from flow.limits import LARGE, STANDARD
from flow.program import TOP
from flow.session import OPERANDS, POPS, PUSHES, QUERIES, read_session


def read(*path):
    with open(os.path.join(TOP, *path), encoding='utf-8') as file:
        return file.read()


def source(crate, file):
    """The code in a file of a crate."""
    return read('crates', crate, 'src', f'{file}.rt')


def constants(crate, file):
    """The numbers that a file of a crate's code names."""
    found = re.findall(r'const (\w+): u64 = ([\d_]+);', source(crate, file))
    return {name: int(number.replace('_', '')) for name, number in found}


def words_of(enum, file):
    """The words that a file of the grammar's code gives to the variants of an enum."""
    return re.findall(rf'\b{enum}::\w+\)? => b"(\S+)"', source('flow_grammar', file))


def shape(form):
    """A form with all its placeholders alike."""
    return re.sub(r'\b[A-Z]\w*', 'A', form)


LIMITS = constants('flow_design', 'limits')


def record(name):
    """The limits of a scale, as the source has them: numbers, or names of constants."""
    body = re.search(rf'pub const {name}: Limits = Limits {{(.*?)}};', source('flow_design', 'limits'), re.DOTALL)[1]
    found = re.findall(r'(\w+): (\w+),', body)
    return {field: LIMITS[value] if value in LIMITS else int(value.replace('_', '')) for field, value in found}


class Limits(unittest.TestCase):
    def test_both_scales(self):
        for name, limits in (('STANDARD', STANDARD), ('LARGE', LARGE)):
            self.assertEqual({'word': limits.word, **record(name)}, vars(limits))

    def test_limits_at_each_scale(self):
        for name in ('CYCLES', 'EDITS', 'FIFO_DELAY', 'ALL_MEMORY_WORDS', 'EXPRESSION_NODES', 'EXPRESSION_DEPTH'):
            self.assertEqual(getattr(told, name), LIMITS[name], name)

    def test_limits_of_words(self):
        self.assertIn(f'if n >= 1 && n <= {told.WIDTH} {{', source('flow_word', 'width'))
        self.assertIn(f'&& bytes.len() <= {told.NAME_BYTES}\n', source('flow_design', 'name'))
        self.assertEqual([bool(NAME.fullmatch('n' * size)) for size in (told.NAME_BYTES, told.NAME_BYTES + 1)], [True, False])
        self.assertEqual(told.VERSION, constants('flow_grammar', 'version')['NEWEST'])

    def test_ranges_of_statements(self):
        for limits in (STANDARD, LARGE):
            self.assertEqual(ranges_of(limits)['mem', 3][:2], (1, limits.memory_words))
            self.assertIn(f'at most {limits.modules:,} modules', most_of(limits)['module'])

    def test_limits_of_runs(self):
        script = read('omnisim')
        self.assertEqual(told.CYCLES, constants('cli_words', 'rules')['MOST_CYCLES'])
        self.assertIn(f'most={told.CYCLES} ;;', script)
        self.assertIn(f'most_ops={STANDARD.counted_operations}\n', script)
        self.assertIn(f'most_ops={LARGE.counted_operations}\n', script)

    def test_limits_that_a_session_leaves_out(self):
        self.assertEqual(told.DEFAULT_CYCLES, constants('session_plan', 'defaults')['CYCLES'])
        self.assertIn(f'new_fifo(alloc, tables, name, width, b"{told.DEFAULT_DEPTH}", b"1")', source('flow_text', 'channels'))
        for limits in (STANDARD, LARGE):
            found = read_session('end\n', limits)
            self.assertEqual((found.cycles, found.ops), (told.DEFAULT_CYCLES, limits.default_operations))

    def test_limits_of_a_sweep(self):
        depth, points = constants('cli_words', 'rules')['MOST_SWEPT'], constants('depth_sweep', 'shape')['MOST_POINTS']
        self.assertEqual((told.SWEEP_DEPTH, told.SWEEP_POINTS), (depth, points))
        self.assertIn(f"sweep) numbers='1 {depth} 1 {depth}' ;;", read('omnisim'))

    def test_edits_of_an_exploration(self):
        self.assertLessEqual(2 * MOST_PAIRS, told.EDITS)  # there and back


class Forms(unittest.TestCase):
    def test_words_of_statements_and_operations(self):
        self.assertEqual(list(FORMS), words_of('Keyword', 'keyword'))
        self.assertEqual(list(OPERATIONS), words_of('Verb', 'keyword'))
        self.assertEqual({word for word in OPERATIONS if word not in ('set', 'load', 'store')}, {*POPS, *PUSHES, *QUERIES})

    def test_words_of_expressions(self):
        binary = words_of('BinOp', 'operator')
        self.assertEqual(OPERANDS, {'~': 1, 'sext': 2, '?:': 3, **dict.fromkeys(binary, 2)})
        self.assertEqual(len(OPERANDS), len(table('expressions')) - 2)  # numbers and names have no operator

    def test_what_may_follow_what(self):
        rows = table('statements')
        first = next(at for at, row in enumerate(rows) if row[0] == 'after') + 2
        shown = [tuple(tuple(re.findall(r'\w+', cell)) for cell in row) for row in rows[first:]]
        self.assertEqual([(before, after or ('nothing',)) for before, after in FOLLOW], shown)

    def test_forms_of_the_page(self):
        for heading, forms in (('statements', FORMS), ('operations', OPERATIONS)):
            shown = [shape(plain(row[0]).strip("'")) for row in table(heading)]
            for word, form in forms.items():
                if word != 'input':  # which has any number of values
                    self.assertIn(shape(form.split(' (')[0]), shown)


if __name__ == '__main__':
    unittest.main()
