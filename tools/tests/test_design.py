"""Sessions that are built in Python."""
import unittest

from flow.design import Design, DesignFault
from flow.expressions import choose, divide_signed, shift_signed, signed, value

DOUBLE = '''flow 1
source a 8
sink y 8
module double
reg l_n 2
reg l_go 1
loop l 1 2 while l_go
temp x 8
at 0 set l_n ?: <u l_n 2 + l_n 1 0
at 0 set l_go <u l_n 2
at 0 read a x
at 1 write y + x x
stop
input a 1 2 3
end
'''


def run(expression, **names):
    """The value of an expression's text, as the language defines it."""
    words = iter(str(expression).split())
    bits = 2 ** 64

    def sign(word, width=64):
        return word - (1 << width) if word >> (width - 1) & 1 else word

    def take():
        word = next(words)
        if word.isdigit():
            return int(word)
        if word == 'sext':
            width = int(next(words))
            return sign(take() % (1 << width), width) % bits
        if word == '~':
            return bits - 1 - take()
        if word == '?:':
            test, then, other = take(), take(), take()
            return then if test else other
        if word in names:
            return names[word] % bits
        a, b = take(), take()
        return {'+': a + b, '-': a - b, '*': a * b, '&': a & b, '|': a | b, '^': a ^ b, '<<': a << b if b < 64 else 0,
                '>>': a >> b if b < 64 else 0, '==': a == b, '!=': a != b, '<u': a < b, '<s': sign(a) < sign(b),
                '/': a // b if b else -1, '%': a % b if b else a}[word] % bits
    return sign(take())


class Designs(unittest.TestCase):
    def test_a_loop_that_counts(self):
        design = Design()
        a, y = design.source('a', 8, [1, 2, 3]), design.sink('y', 8)
        loop = design.module('double').loop('l', interval=1, length=2, trips=3)
        x = loop.temp('x', 8)
        loop.read(0, a, x)
        loop.write(1, y, x + x)
        self.assertEqual(design.text(), DOUBLE)

    def test_a_rom_is_stored_before_the_first_body(self):
        module = Design().module('m')
        module.rom('t', 8, [7, -1])
        module.block('first', 2)
        self.assertEqual(module.lines(), ['module m', 'mem t 8 2', 'block fill_0 1', 'at 0 store t 0 7',
                                          f'at 0 store t 1 {2 ** 64 - 1}', 'goto first', 'block first 2', 'stop'])

    def test_a_long_rom_takes_several_blocks(self):
        module = Design().module('m')
        module.rom('t', 8, range(2_000))
        module.block('first', 2)
        lines = module.lines()
        self.assertEqual([line for line in lines if line.startswith(('block', 'goto'))],
                         ['block fill_0 1', 'goto fill_1', 'block fill_1 1', 'goto first', 'block first 2'])

    def test_a_delay_makes_the_second_version(self):
        design = Design()
        design.fifo('q', 8, 4, 3)
        self.assertEqual(design.text(), 'flow 2\nfifo q 8 4 3\nend\n')

    def test_names_differ(self):
        design = Design()
        design.fifo('q', 8)
        with self.assertRaisesRegex(DesignFault, 'q is there already'):
            design.sink('q', 8)
        with self.assertRaisesRegex(DesignFault, 'is no name'):
            design.module('sext')


class Expressions(unittest.TestCase):
    def test_operators_come_first(self):
        x, y = value(5) + 1, value(2)
        self.assertEqual(str(choose(x <= y, x - y, -3)), f'?: == <u 2 + 5 1 0 - + 5 1 2 {2 ** 64 - 3}')

    def test_signed_recipes_are_those_of_c(self):
        from flow.expressions import Value, remainder_signed
        a, b = Value('a'), Value('b')
        for one, other in ((7, 2), (-7, 2), (7, -2), (-7, -2), (0, 3), (-1, 5)):
            quotient = int(one / other)
            self.assertEqual(run(divide_signed(a, b), a=one, b=other), quotient)
            self.assertEqual(run(remainder_signed(a, b), a=one, b=other), one - other * quotient)
            self.assertEqual(run(shift_signed(a, 1), a=one), one >> 1)
        self.assertEqual(run(signed(8, a), a=0x180), -128)

    def test_an_expression_decides_nothing_in_python(self):
        with self.assertRaises(TypeError):
            bool(value(1) < 2)


if __name__ == '__main__':
    unittest.main()
