"""Tells what is wrong with a session that is refused, and what the other faults of its text are."""
import difflib
import re

from explain.language import (
    BODY, FIRST, FOLLOW, FORMS, NUMBERS, OPERATIONS, count_of, expressions_at, most_of, parts_of, plain, ranges_of, table)
from explain.session import Session, tokens_of
from flow.design import NAME
from flow.limits import STANDARD, WIDTH, limits_of
from flow.program import ask
from flow.session import OPERANDS, POPS, PUSHES

LONGEST = 200  # of a line of the session that is shown
MOST_FAULTS = 10  # that are told of one text
BY_LIMITS = (1, 4, 7, 10, 13)  # the codes of what is more than a limit


def sorts_in_scope(session):
    """The names that a line after these may use, with what each is."""
    sorts = {name: kind for name, (kind, _) in session.channels.items()}
    if session.modules:
        module = session.modules[-1]
        sorts.update({name: 'register' for name in module.registers})
        sorts.update({name: 'memory' for name in module.memories})
        if module.bodies:
            sorts.update({name: 'temp' for name in module.bodies[-1].temps})
    return sorts


def operation_at(words):
    """Where the operation of an `at` begins."""
    return 4 if words[2:3] == ['if'] else 2


def uses(words):
    """The places of a statement that use a name, each with what it may be."""
    values, channels = ('register', 'temp'), ('source', 'sink', 'fifo')
    if words[0] != 'at':
        parts = parts_of(words[0]) if words[0] in FORMS else []
        return [(place, (part.lower(),)) for place, part in enumerate(parts) if part in ('SOURCE', 'FIFO', 'REGISTER', 'BLOCK')]
    start = operation_at(words)
    found = [(3, values)] if start == 4 else []
    kind = words[start] if len(words) > start else ''
    wanted = {'set': [values], 'load': [values, ('memory',)], 'store': [('memory',)]}.get(kind, [channels])
    for place in range(start + 1, len(words)):
        at = place - start - 1
        if re.fullmatch(r'[A-Za-z_]\w*', words[place]) and words[place] != 'sext':
            found.append((place, wanted[at] if at < len(wanted) else values))
    return found


def sort_text(sorts):
    return ' or '.join('a FIFO' if sort == 'fifo' else f'a {sort}' for sort in sorts)


def unknown(words, before, whole):
    """The place of the first name of a line that is not declared or of another sort, what to say of it, and a name like it."""
    known = sorts_in_scope(before)
    blocks = [body.name for body in whole.modules[len(before.modules) - 1].bodies] if before.modules else []
    for place, wanted in uses(words):
        word = words[place] if place < len(words) else None
        if word is None or word in blocks and 'block' in wanted or known.get(word) in wanted:
            continue
        if word in known and 'block' not in wanted:
            return place, f'{word} is {sort_text([known[word]])}, and {sort_text(wanted)} is wanted here', None
        names = blocks if 'block' in wanted else [name for name, sort in known.items() if sort in wanted]
        near = next(iter(difflib.get_close_matches(word, names, 1)), None)
        scope = 'its module has no block' if 'block' in wanted else 'no line before this one declares'
        return place, f'{scope} {word}' + (f'; did you mean {near}?' if near else ''), near
    return None, None, None


def wrong_expression(words, place, count):
    """Of so many expressions from a place on: the place that is wrong and what is wrong, or None."""
    open_ends = count
    while place < len(words) and open_ends > 0:
        word = words[place]
        if word == 'sext':
            place += 1  # its number of bits
        elif word in OPERANDS:
            open_ends += OPERANDS[word] - 1
        elif re.fullmatch(r'\d+|[A-Za-z_]\w*', word):
            open_ends -= 1
        else:
            return place, f'{word} is no operator, name or number'
        place += 1
    if open_ends > 0:
        return len(words), f'the line ends before its expression does: {count_of(open_ends, "operand")} more'
    return (place, f'{words[place]} is too much: the expression ends before it') if place < len(words) else None


def wrong_operation(words):
    """The place of an `at` that is wrong, what to say, and what may have been meant."""
    start = operation_at(words)
    if len(words) <= start:
        return len(words), f'the statement is written: {FORMS["at"]}', None
    kind = words[start]
    if kind not in OPERATIONS:
        near = next(iter(difflib.get_close_matches(kind, OPERATIONS, 1)), None)
        return start, f'{kind} is no operation' + (f'; did you mean {near}?' if near else ''), near
    form = f'the operation is written: {OPERATIONS[kind]}'
    first, expressions = expressions_at(kind)
    for place in range(start + 1, start + first):
        if place >= len(words) or not re.fullmatch(r'[A-Za-z_]\w*', words[place]):
            return place, form, None
    if expressions:
        wrong = wrong_expression(words, start + first, expressions)
        return (wrong[0], f'{wrong[1]}; {form}', None) if wrong else (0, form, None)
    return start + first, form, None


def wrong_statement(words, statements):
    """The place of a line that is no statement, what to say of it, and what may have been meant in that place."""
    key, last = words[0], statements[-1] if statements else 'nothing'
    if key not in FORMS:
        near = next(iter(difflib.get_close_matches(key, FORMS, 1)), None)
        return 0, f'no statement begins with {key}' + (f'; did you mean {near}?' if near else ''), near
    allowed = next(after for before, after in FOLLOW if last in before)
    if key not in allowed:
        wanted = ', '.join(allowed[:-1]) + (' or ' if len(allowed) > 1 else '') + allowed[-1] if allowed else 'nothing'
        ended = ', since its body has no end' if last in BODY and key not in BODY + ('reg', 'mem') else ''
        told = f'{key} may not follow {last}{ended}; after {last} comes {wanted}' + FIRST.get(key, '')
        return 0, told if statements else 'a session begins with flow 1 or flow 2', None
    if key == 'at' and len(words) > 2 and words[1].isdigit():
        return wrong_operation(words)
    form = f'the statement is written: {FORMS[key]}'
    for place, part in enumerate(parts_of(key)):
        word = words[place] if place < len(words) else ''
        fits = word == part or part.isupper() and (word.isdigit() if part in NUMBERS else NAME.fullmatch(word))
        if not fits:
            return place, form, None
    return min(len(words) - 1, len(parts_of(key))), form, None


def wrong_number(words, limits):
    """The place of a number that is out of its range, and its range."""
    for place, word in enumerate(words):
        if not word.isdigit():
            continue
        low, high, what = ranges_of(limits).get((words[0], place), (0, 2 ** 64 - 1, 'number'))
        if words[place - 1] == 'sext':
            low, high, what = 1, WIDTH, 'width of sext'
        if not low <= int(word) <= high:
            highest = {10 ** 12: '10^12', 2 ** 64 - 1: '2^64 - 1'}.get(high, f'{high:,}')
            return place, f'{word} is no {what} from {low} to {highest}'
    return None, None


def ends_of(session, channel):
    """Who stands at the ends of a channel."""
    kind = session.channels[channel][0]
    parts = []
    for side, verb, kinds in (('sink', 'read', POPS), ('source', 'write', PUSHES)):
        if kind != side:
            users = session.users(channel, kinds)
            parts.append(f'{" and ".join(users) or "no module"} {verb}{"s" if len(users) < 2 else ""} {channel}')
    return ', and '.join(parts)


def wrong_in_body(code, words, before, limits):
    """What can be said of an operation or a loop in its body."""
    body = before.modules[-1].bodies[-1] if before.modules and before.modules[-1].bodies else None
    if code == 10 and words[2].isdigit() and words[3].isdigit():
        interval, length = int(words[2]), int(words[3])
        if length < interval:
            return 3, f'LEN {length} is below II {interval}'
        return 3, f'LEN {length} is above {limits.live_iterations:,} times II, {limits.live_iterations * interval}'
    if body and code == 11:
        return 1, f'{body.name} has {count_of(body.length, "clock")}, so its last offset is {body.length - 1}'
    if body and code == 9:
        start = operation_at(words)
        kinds = next(kinds for kinds in (POPS, PUSHES) if words[start] in kinds)
        for line, offset, _, other in body.operations:
            modulus = body.interval or 2 ** 64
            if other[0] in kinds and other[1] == words[start + 1] and offset % modulus == int(words[1]) % modulus:
                equal = f'which is the same modulo II {body.interval}' if body.interval and offset != int(words[1]) else 'too'
                return 1, f'line {line} does so at offset {offset}, {equal}'
    return None, None


def more_of(code, number, lines, whole, limits):
    """Of a fault: the column that it points at, what can be said of it, and what may have been meant there."""
    line = lines[number - 1] if 1 <= number <= len(lines) else ''
    if code == 2:
        column = next((at for at, char in enumerate(line, 1) if not (' ' <= char <= '~' or char in '\t\r')), None)
        return column, f'column {column} has such a byte' if column else None, None
    tokens = tokens_of(line)
    words = [word for word, _ in tokens]
    if not words:
        return None, None, None
    before = Session(lines[:number - 1])
    place, told, near = None, None, None
    if code == 3:
        place, told, near = wrong_statement(words, before.statements)
    elif code == 4:
        place, told = wrong_number(words, limits)
    elif code == 5:
        place, told = 1, f'{words[1]} has an input already' if words[0] == 'input' else f'{words[1]} is declared already'
    elif code == 6:
        place, told, near = unknown(words, before, whole)
    elif code in (8, 14):
        name = words[1] if code == 8 else words[operation_at(words) + 1]
        place, told = words.index(name), ends_of(whole, name) if name in whole.channels else None
    elif code in (9, 10, 11):
        place, told = wrong_in_body(code, words, before, limits)
    elif code == 13:
        told = most_of(limits).get(words[0])
    column = None if place is None else tokens[place][1] if place < len(tokens) else tokens[-1][1] + len(tokens[-1][0]) + 1
    return column, told, near


def is_large(code, answer, lines, limits):
    """Whether the line of a fault is in order with the larger limits."""
    if limits is not STANDARD or code not in BY_LIMITS:
        return False
    told, _ = ask(['check', '--large'], '\n'.join(lines).encode('ascii', 'replace'))
    return told.splitlines()[:1] != answer[:1]


def tell_fault(number, code, lines, path, found):
    """Tells a fault; the lines are those of the file, and the column is that of a line which was not mended."""
    column, told, _ = found
    print(f'{path}:{number}: refused with code {code}.')
    if 1 <= number <= len(lines) and lines[number - 1]:
        line = ''.join(char if ' ' <= char <= '~' or char == '\t' else '?' for char in lines[number - 1].rstrip('\r'))
        print(f'\n    {line if len(line) <= LONGEST else line[:LONGEST] + " ..."}')
        space = ''.join('\t' if char == '\t' else ' ' for char in line[:column - 1]) + ' ' * (column - 1 - len(line)) if column else ''
        print(f'    {space}^\n' if column and column <= LONGEST else '')
    for row in table('codes'):
        if row[0] == str(code):
            print(f'{plain(row[1])}: {plain(row[2])}.')
            if told:
                print(f'Here: {told}' + ('' if told.endswith('?') else '.'))
            if code != 3 or not told:
                print(f'What to do: {plain(row[3])}.')


def declared_by(line):
    words = [word for word, _ in tokens_of(line)]
    named = ('source', 'sink', 'fifo', 'module', 'reg', 'mem', 'block', 'loop', 'temp')
    return words[1] if len(words) > 1 and words[0] in named else None


def put(line, column, text):
    """The line with another token at this column."""
    old = re.match(r'[^ \t\r]*', line[column - 1:]).group()
    return line[:column - 1] + text + line[column - 1 + len(old):]


def mended(line, code, column, near, lost, unused):
    """A line that could stand in the place of a faulty one, or None where what follows can't be told apart from its consequences."""
    words = [word for word, _ in tokens_of(line)]
    key = words[0] if words else ''
    if code in (3, 6) and near and column:
        return put(line, column, near)
    if code == 4 and column:
        return put(line, column, '2' if key == 'flow' else '1')
    if code == 5 and key != 'input' and len(words) > 1:
        lost.add(f'other_{len(lost)}')
        return put(line, column, f'other_{len(lost) - 1}')
    if code in (6, 10) and key == 'loop' and len(words) > 3:
        return f'block {words[1]} {words[3]}'
    if code == 6 and key in ('goto', 'branch'):
        return 'stop'
    if key in ('flow', 'module', 'block', 'loop', 'goto', 'branch', 'stop', 'end') or code in (1, 12):
        return None
    lost.add(declared_by(line))
    unused.update(words[1:])
    return '# ' + ''.join(char if ' ' <= char <= '~' else '?' for char in line)


def tell_refused(answer, lines, path, options=()):
    """Tells the fault of a text, and the faults that are left when its line is mended."""
    limits = limits_of(options)
    shown, lines = lines, list(lines)
    lost, unused, told, numbers = set(), set(), 0, False
    for _ in range(4 * MOST_FAULTS):
        _, number, code = answer[0].split()
        number, code = int(number), int(code)
        whole = Session(lines)
        line = lines[number - 1] if 1 <= number <= len(lines) else ''
        found = more_of(code, number, lines, whole, limits)
        faulty = next((word for word, column in tokens_of(line) if column == found[0]), None)
        follows = (code == 6 and faulty in lost or code in (8, 14) and declared_by(line) in lost | unused
                   or code in (10, 11) and numbers)
        if not follows:
            print(end='\n' if told else '')
            same = line and line == shown[number - 1]
            tell_fault(number, code, shown, path, found if same else (None,) + found[1:])
            if is_large(code, answer, lines, limits):
                print('With --large this is in order: its limits are larger.')
            told += 1
        better = mended(line, code, found[0], found[2], lost, unused) if line else None
        if better is None or told == MOST_FAULTS or code == 8 and follows is False and declared_by(line) is None:
            break
        numbers = numbers or code == 4
        lines[number - 1] = better
        told_next, status = ask(['check', *limits.word], '\n'.join(lines).encode('ascii', 'replace'))
        if status != 2:
            break
        answer = told_next.splitlines()
