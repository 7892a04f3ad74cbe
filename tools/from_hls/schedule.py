"""The form of a schedule, and a check of one against it: what is unknown, missing, negative or of another kind is told with its place."""
import re

NAME, NUMBER, NUMBERS, VALUE, LINES = 'a name', 'a number from 0 on', 'a list of numbers from 0 on', 'an expression', 'a list of lines'
FORMS = {  # of each kind of entry: the keys that it must have and those that it may have, each with what stands there
    'schedule': ({'processes': ['process']},
                 {'comment': LINES, 'inputs': ['input'], 'outputs': ['output'], 'streams': ['stream'], 'limits': 'limits'}),
    'limits': ({'cycles': NUMBER, 'operations': NUMBER}, {}),
    'input': ({'name': NAME, 'width': NUMBER, 'values': NUMBERS}, {}),
    'output': ({'name': NAME, 'width': NUMBER}, {}),
    'stream': ({'name': NAME, 'width': NUMBER}, {'depth': NUMBER, 'delay': NUMBER}),
    'process': ({'name': NAME, 'regions': ['region']}, {'registers': ['register'], 'memories': ['memory']}),
    'register': ({'name': NAME, 'width': NUMBER}, {}),
    'memory': ({'name': NAME, 'width': NUMBER, 'words': NUMBER}, {}),
    'region': ({'name': NAME, 'latency': NUMBER},
               {'ii': NUMBER, 'trips': NUMBER, 'while': NAME, 'then': NAME, 'again': 'again', 'temps': ['register'],
                'operations': ['operation']}),
    'again': ({'to': NAME, 'trips': NUMBER}, {}),
}
OPERATIONS = {  # of each operation: the key that names it, and those beside it
    'set': {'set': NAME, 'value': VALUE},
    'load': {'load': NAME, 'into': NAME, 'address': VALUE},
    'store': {'store': NAME, 'address': VALUE, 'value': VALUE},
    'read': {'read': NAME, 'into': NAME},
    'write': {'write': NAME, 'value': VALUE},
    'read_nb': {'read_nb': NAME, 'into': NAME, 'ok': NAME},
    'write_nb': {'write_nb': NAME, 'ok': NAME, 'value': VALUE},
    'empty': {'empty': NAME, 'into': NAME},
    'full': {'full': NAME, 'into': NAME},
}


class ScheduleFault(Exception):
    """What is wrong in a schedule, and where."""


def is_number(value):
    return isinstance(value, int) and not isinstance(value, bool) and value >= 0


def is_value(value):
    """Whether this is an expression: a number, a name, or a list that begins with an operator."""
    if isinstance(value, list):
        return len(value) > 1 and isinstance(value[0], str) and all(map(is_value, value[1:]))
    return is_number(value) or isinstance(value, str) and bool(value)


FITS = {
    NAME: lambda value: isinstance(value, str) and bool(re.fullmatch(r'[A-Za-z_]\w{0,63}', value)),
    NUMBER: is_number,
    NUMBERS: lambda value: isinstance(value, list) and all(map(is_number, value)),
    VALUE: is_value,
    LINES: lambda value: isinstance(value, list) and all(isinstance(line, str) for line in value),
}


def check_value(value, wanted, where):
    """Checks what stands at a key."""
    if isinstance(wanted, list):
        if not isinstance(value, list):
            raise ScheduleFault(f'{where}: a list is wanted')
        for at, entry in enumerate(value):
            check_entry(entry, wanted[0], f'{where}[{at}]')
    elif wanted in FITS:
        if not FITS[wanted](value):
            raise ScheduleFault(f'{where}: {value!r} is not {wanted}')
    else:
        check_entry(value, wanted, where)


def form_of(entry, kind, where):
    """The keys that an entry must have, and those that it may have."""
    if kind != 'operation':
        return FORMS[kind]
    named = [name for name in OPERATIONS if name in entry]
    if len(named) != 1:
        raise ScheduleFault(f'{where}: an operation has one of {", ".join(OPERATIONS)}' + (f', not {" and ".join(named)}' if named else ''))
    return {'start': NUMBER, **OPERATIONS[named[0]]}, {'if': NAME}


def check_entry(entry, kind, where):
    """Checks an entry of a kind: its keys, and what stands at them."""
    if not isinstance(entry, dict):
        raise ScheduleFault(f'{where}: an object is wanted, the {kind}')
    wanted, more = form_of(entry, kind, where)
    name = f'{where} ({entry["name"]})' if isinstance(entry.get('name'), str) else where
    for key in wanted:
        if key not in entry:
            raise ScheduleFault(f'{name}: the {kind} has no {key}')
    for key, value in entry.items():
        form = wanted.get(key) or more.get(key)
        if form is None:
            raise ScheduleFault(f'{name}: the {kind} may not have {key}; it has {", ".join([*wanted, *more])}')
        check_value(value, form, f'{name}.{key}')


def check_loops(schedule):
    """Checks that each loop either counts its trips or has a register that decides."""
    for process in schedule['processes']:
        for region in process['regions']:
            if 'ii' in region and ('trips' in region) == ('while' in region):
                raise ScheduleFault(f'process {process["name"]}, region {region["name"]}: a loop has trips, or a register while')


def check_schedule(schedule):
    """Raises a ScheduleFault where something is wrong."""
    check_entry(schedule, 'schedule', 'schedule')
    check_loops(schedule)
