"""Sessions to compare on: those of `omnisim gen`, and random ones that keep all rules of a session."""

WIDTHS = (1, 1, 2, 3, 7, 8, 8, 8, 13, 16, 31, 32, 33, 63, 64, 64)
WORDS = 'x acc val wire logic moves phase block count go sum a_front k end_ int cycle'.split()
BINARY = '+ - * & | ^ << >> == != <u <s / %'.split()


def generated_session(seed, modules):
    """The text of `omnisim gen SEED MODULES`."""
    state = seed

    def draw():
        nonlocal state
        state = (75 * state + 74) % 65537
        return state
    drawn = [(1 + draw() % 3, draw() % 256, 1 + draw() % 4 if k + 1 < modules else 0) for k in range(modules)]
    lines = ['flow 1', 'source a 32', 'sink y 32'] + [f'fifo f{k + 1} 32 {depth}' for k, (_, _, depth) in enumerate(drawn[:-1])]
    for k, (interval, added, _) in enumerate(drawn):
        before, after = 'a' if k == 0 else f'f{k}', 'y' if k + 1 == modules else f'f{k + 1}'
        lines += [f'module m{k}', 'reg x 32', 'reg n 32', 'reg g 1', 'reg e 1', f'loop l {interval} {interval + 1} while g',
                  f'at 0 read {before} x', f'at 0 full {after} e', 'at 0 set n + n 1', 'at 0 set g <u n 999',
                  f'at 1 write {after} + x + {added} e', 'stop']
    return '\n'.join(lines + ['input a ' + ' '.join(str(value) for value in range(1000)), 'end', ''])


class RandomBody:
    """A block with its operations; no two pops, or pushes, of a channel meet in one clock."""

    def __init__(self, chance, module, name):
        self.chance, self.module = chance, module
        self.is_loop = chance.random() < 0.6
        self.interval = chance.choice((1, 1, 1, 2, 2, 3, 4, 7)) if self.is_loop else chance.randint(1, 6)
        self.length = chance.randint(self.interval, min(5 * self.interval, 16)) if self.is_loop else self.interval
        self.go = 'g' if chance.random() < 0.85 else chance.choice(list(module.registers))
        self.head = f'loop {name} {self.interval} {self.length} while {self.go}' if self.is_loop else f'block {name} {self.length}'
        self.temps = {f't{k}': chance.choice(WIDTHS) for k in range(chance.choice((0, 0, 1, 2, 3)))}
        self.taken, self.lines = set(), []

    def places(self):
        return list(self.module.registers) + list(self.temps) * 2

    def place(self):
        return self.chance.choice(self.places())

    def tree(self, depth=3):
        chance = self.chance
        if depth == 0 or chance.random() < 0.35:
            if chance.random() < 0.7:
                return self.place()
            return str(chance.choice((0, 1, 2, 3, 5, 8, 63, 64, 65, 200, (1 << 32) + 7, (1 << 63), (1 << 64) - 1, chance.getrandbits(64))))
        kind = chance.choice(BINARY + ['~', 'sext', '?:'])
        if kind == 'sext':
            return f'sext {chance.randint(1, 64)} {self.tree(depth - 1)}'
        return ' '.join([kind] + [self.tree(depth - 1) for _ in range({'~': 1, '?:': 3}.get(kind, 2))])

    def at(self, offset, text, guarded=0.2):
        guard = f'if {self.place()} ' if self.chance.random() < guarded else ''
        self.lines.append(f'at {offset} {guard}{text}')

    def access(self, channel, side, guarded=0.15):
        """A pop or a push at an offset that is free, if there is one."""
        chance = self.chance
        free = [offset for offset in range(self.length) if (channel, side, offset % self.interval) not in self.taken]
        if not free:
            return False
        offset = chance.choice(free)
        self.taken.add((channel, side, offset % self.interval))
        blocking = chance.random() < 0.65
        if side == 'pop':
            self.at(offset, f'read {channel} {self.place()}' if blocking else f'tryread {channel} {self.place()} {self.place()}', guarded)
        else:
            self.at(offset, f'write {channel} {self.tree(2)}' if blocking else f'trywrite {channel} {self.place()} {self.tree(2)}', guarded)
        return True

    def noise(self):
        chance, module = self.chance, self.module
        offset, kind = chance.randrange(self.length), chance.choice('set set load store access access test'.split())
        if kind == 'access' and module.ends:
            self.access(*chance.choice(module.ends))
        elif kind == 'test' and module.ends:
            channel, side = chance.choice(module.ends)
            self.at(offset, f'{"empty" if side == "pop" else "full"} {channel} {self.place()}')
        elif kind == 'load' and module.memories:
            self.at(offset, f'load {self.place()} {chance.choice(module.memories)} {self.tree(2)}')
        elif kind == 'store' and module.memories:
            self.at(offset, f'store {chance.choice(module.memories)} {self.tree(2)} {self.tree(2)}')
        else:
            self.at(offset, f'set {self.place()} {self.tree()}')

    def counter(self):
        """Counts, so that the loop may end; the comparison may come too late."""
        chance = self.chance
        offset = chance.randrange(self.interval) if chance.random() < 0.9 else chance.randrange(self.length)
        self.lines += [f'at {offset} set n + n 1', f'at {offset} set g <u n {chance.randint(0, 9)}']

    def text(self, terminator):
        temps = [f'temp {name} {width}' for name, width in self.temps.items()]
        self.chance.shuffle(self.lines)
        return [self.head] + temps + self.lines + [terminator]


class RandomModule:
    def __init__(self, chance, name, ends):
        self.chance, self.name, self.ends = chance, name, ends
        self.registers = {'n': chance.choice((4, 8, 16)), 'g': chance.choice((1, 1, 8))}
        self.registers.update({word: chance.choice(WIDTHS) for word in chance.sample(WORDS, chance.randint(1, 4))})
        sizes = [(f'mem{k}', chance.choice(WIDTHS), chance.choice((1, 2, 3, 4, 5, 8, 10))) for k in range(chance.choice((0, 0, 1, 2)))]
        self.memories = [name for name, _, _ in sizes]
        self.head = [f'module {name}'] + [f'reg {word} {width}' for word, width in self.registers.items()]
        self.head += [f'mem {name} {width} {length}' for name, width, length in sizes]

    def terminator(self, names, place):
        chance = self.chance
        if place == len(names) - 1 and chance.random() < 0.8 or chance.random() < 0.1:
            return 'stop'
        if chance.random() < 0.45 and place + 1 < len(names):
            return f'goto {names[place + 1]}'
        return f'branch {chance.choice(list(self.registers))} {chance.choice(names)} {chance.choice(names)}'

    def text(self):
        chance = self.chance
        names = chance.sample(['a', 'b', 'wait_', 'main', 'loop_', 'module_', 'x', 'over'], chance.randint(1, 4))
        bodies = [RandomBody(chance, self, name) for name in names]
        for channel, side in self.ends:
            while not bodies[chance.randrange(min(2, len(bodies)))].access(channel, side, 0.1):
                pass
        for body in bodies:
            if body.is_loop and body.go == 'g':
                body.counter()
            for _ in range(chance.choice((0, 1, 2, 4, 8))):
                body.noise()
        return self.head + sum((body.text(self.terminator(names, place)) for place, body in enumerate(bodies)), [])


def random_session(chance):
    """A session of one to four modules, whatever becomes of it: its limits are small."""
    count, version = chance.randint(1, 4), chance.choice((1, 2))
    names = chance.sample(['p', 'q', 'filter', 'design', 'table', 'x', 'out'], count)
    ends = {name: [] for name in names}
    lines, fifos, values = [f'flow {version}'], [], []
    kinds = ['source'] * chance.randint(0, 2) + ['sink'] * chance.randint(0, 2) + ['fifo'] * chance.randint(1, 4)
    for number, kind in enumerate(kinds):
        name = ('f', 'x', 'reg', 'data', 'p', 'y', 'wire_', 'go')[number]
        line = f'{kind} {name} {chance.choice(WIDTHS)}'
        near = number % count
        if kind != 'sink':
            ends[names[(near + 1) % count] if chance.random() < 0.7 else chance.choice(names)].append((name, 'pop'))
        if kind != 'source':
            ends[names[near] if chance.random() < 0.7 else chance.choice(names)].append((name, 'push'))
        if kind == 'fifo':
            fifos.append(name)
            line += f' {chance.choice((1, 2, 2, 3, 4, 9))}' + (f' {chance.choice((1, 1, 2, 3, 5))}' if version == 2 else '')
        if kind == 'source':
            given = [str(chance.getrandbits(chance.choice((3, 8, 64)))) for _ in range(chance.randint(0, 15))]
            values.append(' '.join(['input', name] + given))
        lines.append(line)
    for name in names:
        lines += RandomModule(chance, name, ends[name]).text()
    lines += values + [f'limits {chance.choice((3, 40, 200, 400, 400))} {chance.choice((1, 9, 50, 300, 2000, 200000))}']
    lines += [f'depth {chance.choice(fifos)} {chance.choice((1, 1, 2, 3, 6, 70))}' for _ in range(chance.choice((0, 0, 1, 2)))]
    return '\n'.join(lines + ['end', ''])
