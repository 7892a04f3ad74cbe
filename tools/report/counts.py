"""Numbers as a page shows them."""


def told(number):
    return f'{number:,}'


def told_or_dash(number):
    """A number that may be unknown."""
    return '–' if number is None else told(number)


def count_of(number, noun):
    return f'{number:,} {noun}{"" if number == 1 else "s"}'


def percent(part, whole):
    return 100 * part / whole if whole else 0
