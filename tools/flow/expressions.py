"""Expressions of a session, built with Python's operators. All values are words of 64 bits."""


class Value:
    """An expression as the session writes it: operators come before their operands."""

    def __init__(self, *words):
        self.words = words

    def __str__(self):
        return ' '.join(map(str, self.words))

    def __add__(self, other):
        return Value('+', self, value(other))

    def __radd__(self, other):
        return Value('+', value(other), self)

    def __sub__(self, other):
        return Value('-', self, value(other))

    def __rsub__(self, other):
        return Value('-', value(other), self)

    def __mul__(self, other):
        return Value('*', self, value(other))

    def __rmul__(self, other):
        return Value('*', value(other), self)

    def __and__(self, other):
        return Value('&', self, value(other))

    def __or__(self, other):
        return Value('|', self, value(other))

    def __xor__(self, other):
        return Value('^', self, value(other))

    def __lshift__(self, other):
        return Value('<<', self, value(other))

    def __rshift__(self, other):
        return Value('>>', self, value(other))

    def __floordiv__(self, other):
        return Value('/', self, value(other))

    def __mod__(self, other):
        return Value('%', self, value(other))

    def __invert__(self):
        return Value('~', self)

    def __lt__(self, other):
        return Value('<u', self, value(other))

    def __gt__(self, other):
        return Value('<u', value(other), self)

    def __le__(self, other):
        return Value('==', Value('<u', value(other), self), 0)

    def __ge__(self, other):
        return Value('==', Value('<u', self, value(other)), 0)

    def __eq__(self, other):
        return Value('==', self, value(other))

    def __ne__(self, other):
        return Value('!=', self, value(other))

    __hash__ = None

    def __bool__(self):
        raise TypeError('an expression of a session has no value in Python: use choose(), & and |')


def value(what):
    """An expression; a negative number becomes the word of its two's complement."""
    if isinstance(what, Value):
        return what
    if isinstance(what, bool) or not isinstance(what, int) or not -2 ** 63 <= what < 2 ** 64:
        raise TypeError(f'{what!r} is no expression, and no number of 64 bits')
    return Value(what % 2 ** 64)


def choose(condition, then, other):
    """`then` where the condition is not 0, else `other`."""
    return Value('?:', value(condition), value(then), value(other))


def signed(width, what):
    """The low bits of a value, so many, as a signed number: negative ones fill all 64 bits."""
    return Value('sext', width, value(what))


def signed_less(one, other):
    """1 where one signed number is below the other, else 0."""
    return Value('<s', value(one), value(other))


def negative(what):
    """The number with the other sign."""
    return 0 - value(what)


def magnitude(what):
    """A signed number without its sign."""
    return choose(signed_less(what, 0), negative(what), what)


def shift_signed(what, amount):
    """A signed number divided by a power of two, rounded down."""
    return choose(signed_less(what, 0), ~(~value(what) >> amount), value(what) >> amount)


def divide_signed(one, other):
    """The quotient of two signed numbers, rounded towards 0, as in C."""
    quotient = magnitude(one) // magnitude(other)
    return choose(signed_less(value(one) ^ value(other), 0), negative(quotient), quotient)


def remainder_signed(one, other):
    """The remainder that belongs to `divide_signed`: it has the sign of the first number."""
    rest = magnitude(one) % magnitude(other)
    return choose(signed_less(one, 0), negative(rest), rest)
