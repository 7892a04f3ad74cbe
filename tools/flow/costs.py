"""What the FIFOs of a design cost: bits, or blocks of memory by a table of widths and depths."""
import json
import os

from flow.refused import WRONG_WORDS, Refused

HERE = os.path.dirname(os.path.realpath(__file__))
TABLES = os.path.join(HERE, 'costs.json')


class Costs:
    """The cost of a FIFO by its width and depth, in units.

    `bits` is width times depth. A table has a `unit` and `shapes`, each with the most `bits` of a word and the most `words` that
    one block holds, and the `cost` of such a block; a FIFO is built of blocks of one shape, side by side and one after the other,
    and takes the cheapest shape.
    """

    def __init__(self, name, path=None):
        self.unit, self.shapes = 'bits', None
        if name == 'bits':
            return
        try:
            with open(path or TABLES, encoding='utf-8') as file:
                tables = json.load(file)
            table = tables[name]
            self.unit = str(table['unit'])
            self.shapes = [(int(shape['bits']), int(shape['words']), int(shape['cost'])) for shape in table['shapes']]
        except OSError as error:
            raise Refused(WRONG_WORDS, f'{error.filename}: {error.strerror}') from error
        except KeyError as lacking:
            known = ', '.join(['bits', *tables]) if lacking.args == (name,) else ''
            fault = f'there is no cost {name}; there are {known}' if known else f'the cost {name} has no {lacking}'
            raise Refused(WRONG_WORDS, fault) from lacking
        except (TypeError, ValueError) as fault:
            raise Refused(WRONG_WORDS, f'{path or TABLES}: {fault}') from fault
        if not self.shapes or any(min(shape[:2]) < 1 or shape[2] < 0 for shape in self.shapes):
            raise Refused(WRONG_WORDS, f'the cost {name} needs shapes with bits and words from 1 on, and a cost from 0 on')

    def of(self, width, depth):
        """The cost of one FIFO."""
        if self.shapes is None:
            return width * depth
        return min(-(-width // bits) * -(-depth // words) * cost for bits, words, cost in self.shapes)
