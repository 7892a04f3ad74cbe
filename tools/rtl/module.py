"""One module of a session as a SystemVerilog module."""
from flow.session import POPS, PUSHES
from .words import Expressions, Names, bits, cast, number, vector

COUNT = 31  # bits of an operation count, which ends below 2^31
OWN = '''clk rst ops_limit block phase count moves stall ended spent over held log_events log_held cycle block_t ENDED done
quotient remainder less_signed sign_extended shifted_left shifted_right'''.split()


class Body:
    """A block with its signals: the temps of each stage, and the operations in commit order."""

    def __init__(self, block, names):
        self.block, self.names = block, names
        self.stages = block.stages()
        self.state = names.take('BLOCK_' + block.name)
        self.live, self.shift, self.more, self.over = (names.take(f'{block.name}_{end}') for end in ('live', 'shift', 'more', 'over'))
        self.operations = sorted(block.operations, key=lambda made: -(made.offset // block.interval))
        self.temps = {name: self.temp_stages(name) for name in block.temps}
        self.due = {id(made): names.take(self.due_name(made)) for made in block.operations}
        self.words = {id(made): [names.take(f'{self.due_name(made)}_{end}') for end in ('address', 'word')]
                      for made in block.operations if made.kind in ('load', 'store')}

    def due_name(self, made):
        object_name = made.channel.name if made.channel else made.memory if made.kind == 'store' else made.place
        return f'{self.block.name}_at{made.offset}_{made.kind}_{object_name}'

    def stage(self, made):
        return made.offset // self.block.interval

    def phase(self, made):
        return made.offset % self.block.interval

    def temp_stages(self, name):
        """A temp has a register in each stage up to the last that reads it."""
        last = max([self.stage(made) for made in self.block.operations if name in read_by(made)], default=0)
        return [self.names.take(name if last == 0 else f'{name}_{stage}') for stage in range(last + 1)]

    def is_loop(self):
        return self.block.go is not None


def leaves(tree):
    """The names in an expression."""
    if tree is None or tree[0] == 'number':
        return set()
    return {tree[1]} if tree[0] == 'name' else set().union(*(leaves(part) for part in tree[1:] if isinstance(part, tuple)))


def read_by(made):
    return leaves(made.address) | leaves(made.value) | {made.guard}


class ModuleText:
    """Writes a module."""

    def __init__(self, module, session, own_name):
        self.module, self.name = module, own_name
        names = Names(OWN)
        self.registers = {name: names.take(name) for name in module.registers}
        self.memories = {name: names.take(name) for name in module.memories}
        channels = session.channels.values()
        self.read = [channel for channel in channels if channel.reader is module]
        self.written = [channel for channel in channels if channel.writer is module]
        self.ports = {}
        for channel in self.read + self.written:
            for end in ('empty', 'none', 'front', 'pop') if channel in self.read else ():
                self.ports[channel.name, end] = names.take(f'{channel.name}_{end}')
            for end in ('full', 'push', 'data') if channel in self.written else ():
                self.ports[channel.name, end] = names.take(f'{channel.name}_{end}')
        deciding = {block.go for block in module.blocks} | {b.terminator[1] for b in module.blocks if b.terminator[0] == 'branch'}
        self.next = {name: names.take(f'{name}_next') for name in module.registers if name in deciding}
        self.bodies = [Body(block, names) for block in module.blocks]
        self.phase_width = bits(max(block.interval for block in module.blocks) - 1)
        self.has_phase = any(block.interval > 1 for block in module.blocks)

    def text(self):
        lines = self.header() + self.declarations()
        for body in self.bodies:
            lines += self.body_section(body)
        lines += self.moving() + self.channel_ends() + self.deciders() + self.commits() + self.logs()
        return lines + ['endmodule']

    # the interface

    def port(self, channel, end):
        return self.ports[channel.name, end]

    def port_list(self):
        """The ports of the channels: direction, width, end, channel."""
        found = []
        for channel in self.read:
            ends = [('input', 1, 'empty')] + ([('input', 1, 'none')] if channel.delay > 1 else [])
            found += [(*end, channel) for end in ends + [('input', channel.width, 'front'), ('output', 1, 'pop')]]
        for channel in self.written:
            ends = [('input', 1, 'full')] if channel.kind == 'fifo' else []
            found += [(*end, channel) for end in ends + [('output', 1, 'push'), ('output', channel.width, 'data')]]
        return found

    def header(self):
        ports = ['input  wire clk', 'input  wire rst', f'input  wire {vector(COUNT)}ops_limit']
        ports += [f'{way:6} wire {vector(width)}{self.port(channel, end)}' for way, width, end, channel in self.port_list()]
        count = len(self.bodies)
        reads, writes = (', '.join(channel.name for channel in some) or 'nothing' for some in (self.read, self.written))
        return [f'// Module {self.module.name}: {count} block{"s" if count > 1 else ""}; reads {reads}, writes {writes}.',
                f'module {self.name} (', ',\n'.join('    ' + port for port in ports), ');', '  import flow_words::*;']

    # registers and control

    def declarations(self):
        lines = ['  // Registers and memories']
        for name, width in self.module.registers.items():
            lines.append(f'  logic {vector(width)}{self.registers[name]};')
        for name, (width, length) in self.module.memories.items():
            lines.append(f'  logic {vector(width)}{self.memories[name]} [0:{length - 1}];')
            lines.append(f"  initial for (int word = 0; word < {length}; word++) {self.memories[name]}[word] = '0;")
        if self.next:
            lines += ['  // The registers that decide on blocks and iterations, after the writes of this clock']
            lines += [f'  logic {vector(self.module.registers[name])}{signal};' for name, signal in self.next.items()]
        states = [body.state for body in self.bodies] + ['ENDED']
        lines += ['  // The block, the clocks since its stages moved on, and the operations so far',
                  f'  typedef enum logic {vector(bits(len(states) - 1))}{{{", ".join(states)}}} block_t;', '  block_t block;']
        if self.has_phase:
            lines.append(f'  logic {vector(self.phase_width)}phase;')
        return lines + [f'  logic {vector(COUNT)}count;']

    def signals(self, body, stage):
        """The signal and the width of each register and temp that an operation of this stage names."""
        def signal(name):
            if name in self.module.registers:
                return self.registers[name], self.module.registers[name]
            return body.temps[name][stage], body.block.temps[name]
        return signal

    def is_set(self, signal, width):
        return signal if width == 1 else f'{signal} != 0'

    def at_phase(self, body, phase):
        """The condition on the phase; where a stage has one clock there is none."""
        return [f'phase == {number(phase, self.phase_width)}'] if body.block.interval > 1 else []

    def live(self, body, stage):
        return f'{body.live}[{stage}]' if body.stages > 1 else body.live

    def body_section(self, body):
        block = body.block
        kind = f'Block {block.name}: {clocks(block.length)}'
        if body.is_loop():
            kind = f'Loop {block.name}: an iteration of {clocks(block.length)} each {clocks(block.interval)}, while {block.go}'
        lines = ['', f'  // {kind}; then {" ".join(block.terminator)}.']
        if body.is_loop():
            lines.append(f'  logic {vector(body.stages)}{body.live};')
        lines += [f'  logic {vector(block.temps[name])}{", ".join(signals)};' for name, signals in body.temps.items()]
        for made in body.operations:
            lines.append(f'  wire {body.due[id(made)]} = {self.due_condition(body, made)};')
            if made.memory:
                width, length = self.module.memories[made.memory]
                address, word = body.words[id(made)]
                lines.append(f'  wire {vector(bits(length - 1))}{address} = {self.address(body, made)};')
                if made.kind == 'load':
                    lines.append(f'  wire {vector(width)}{word} = {self.memories[made.memory]}[{address}];')
        return lines + (self.loop_control(body) if body.is_loop() else [self.plain_over(body)])

    def due_condition(self, body, made):
        stage = body.stage(made)
        parts = [self.live(body, stage) if body.is_loop() else f'block == {body.state}'] + self.at_phase(body, body.phase(made))
        if made.guard:
            parts.append(self.is_set(*self.signals(body, stage)(made.guard)))
        return ' && '.join(parts)

    def plain_over(self, body):
        return f'  wire {body.over} = {" && ".join([f"block == {body.state}"] + self.at_phase(body, body.block.length - 1))};'

    def loop_control(self, body):
        block = body.block
        go = self.is_set(self.next[block.go], self.module.registers[block.go])
        more = f'{body.shift} && {self.live(body, 0)} && {go}'
        if body.stages == 1:
            over = [body.shift, f'!{body.more}']
        else:
            last = number(1 << (body.stages - 1), body.stages)
            over = [f'{body.live} == {last}'] + self.at_phase(body, (block.length - 1) % block.interval)
        return [f'  wire {body.shift} = {" && ".join([f"block == {body.state}"] + self.at_phase(body, block.interval - 1))};',
                f'  wire {body.more} = {more};', f'  wire {body.over} = {" && ".join(over)};']

    # one clock

    def blocking(self, empty):
        """The conditions under which a due operation blocks, in commit order; `empty` is the port that tells of no element."""
        found = []
        for body in self.bodies:
            for made in body.operations:
                due = body.due[id(made)]
                if made.kind == 'read':
                    end = empty if made.channel.delay > 1 else 'empty'
                    found.append((f'{due} && {self.port(made.channel, end)}', 'empty', made.channel))
                elif made.kind == 'write' and made.channel.kind == 'fifo':
                    found.append((f'{due} && {self.port(made.channel, "full")}', 'full', made.channel))
        return found

    def moving(self):
        stall, held = ([condition for condition, _, _ in self.blocking(end)] for end in ('empty', 'none'))
        return ['', '  // A due read of an empty channel, or a due write to a full one, stalls the whole module.',
                f'  wire stall = {any_of(stall)};',
                '  wire ended = block == ENDED;',
                '  wire spent = !ended && count >= ops_limit;',
                '  wire over = ended || spent;',
                '  wire moves = !over && !stall;',
                '  // Stalled, and no element that is on its way would end it',
                f'  wire held = !over && {"stall" if held == stall else f"({any_of(held)})"};']

    def channel_ends(self):
        lines = ['', '  // Reads and writes'] if self.read or self.written else []
        for channel in self.written:
            if channel.kind == 'sink':
                lines.append(f"  wire {self.port(channel, 'full')} = 1'b0;")
        for channel in self.read:
            lines.append(f'  assign {self.port(channel, "pop")} = moves && {self.accesses(channel, POPS, "empty")};')
        for channel in self.written:
            lines.append(f'  assign {self.port(channel, "push")} = moves && {self.accesses(channel, PUSHES, "full")};')
            lines.append(f'  assign {self.port(channel, "data")} = {self.pushed(channel)};')
        return lines

    def users(self, channel, kinds):
        return [(body, made) for body in self.bodies for made in body.operations if made.channel is channel and made.kind in kinds]

    def accesses(self, channel, kinds, blocked):
        found = []
        for body, made in self.users(channel, kinds):
            due = body.due[id(made)]
            found.append(due if made.kind in ('read', 'write') else f'({due} && !{self.port(channel, blocked)})')
        return found[0] if len(found) == 1 else f'({" || ".join(found)})'

    def pushed(self, channel):
        """The value that goes in: at most one push is due."""
        values = [(body.due[id(made)], self.value(body, made, channel.width)) for body, made in self.users(channel, PUSHES)]
        return ' : '.join([f'{due} ? {value}' for due, value in values[:-1]] + [values[-1][1]])

    def value(self, body, made, width):
        return Expressions(self.signals(body, body.stage(made))).write(made.value, width)

    def address(self, body, made):
        """The operation's address, which counts modulo the memory's length. It has a wire of its own, since Icarus takes a sum in an
        index for a wider one, and does not see what an address that never changes leads to."""
        length = self.module.memories[made.memory][1]
        writer = Expressions(self.signals(body, body.stage(made)))
        width = bits(length - 1)
        if length == 1:
            return number(0, 1)
        if length & (length - 1) == 0:
            return writer.write(made.address, width)
        whole = max(writer.width(made.address), bits(length))
        return cast(f'({writer.part(made.address, whole)} % {number(length, whole)})', whole, width)

    def target(self, body, name, made):
        """The signal that takes a value of the operation, and its width; none where no later stage reads the temp."""
        if name in self.module.registers:
            return self.registers[name], self.module.registers[name]
        stage = body.stage(made) + (body.is_loop() and body.phase(made) == body.block.interval - 1)
        signals = body.temps[name]
        return (signals[stage], body.block.temps[name]) if stage < len(signals) else (None, body.block.temps[name])

    def assigned(self, body, made):
        """What an operation assigns: the name, the further condition, the signal and the value."""
        found = []
        if made.place:
            signal, width = self.target(body, made.place, made)
            if made.kind == 'set':
                found.append((made.place, None, signal, self.value(body, made, width)))
            elif made.kind == 'load':
                found.append((made.place, None, signal, cast(body.words[id(made)][1], self.module.memories[made.memory][0], width)))
            elif made.kind in POPS:
                condition = f'!{self.port(made.channel, "empty")}' if made.kind == 'tryread' else None
                found.append((made.place, condition, signal, cast(self.port(made.channel, 'front'), made.channel.width, width)))
            else:
                found.append((made.place, None, signal, flag(width, self.port(made.channel, made.kind))))
        if made.ok:
            signal, width = self.target(body, made.ok, made)
            blocked = self.port(made.channel, 'empty' if made.kind == 'tryread' else 'full')
            found.append((made.ok, None, signal, flag(width, f'!{blocked}')))
        return [each for each in found if each[2]]

    def deciders(self):
        lines = []
        for name, signal in self.next.items():
            lines += ['', f'  // {name} after the writes of this clock', '  always_comb begin', f'    {signal} = {self.registers[name]};']
            for body in self.bodies:
                for made in body.operations:
                    for place, condition, _, value in self.assigned(body, made):
                        if place == name:
                            when = ' && '.join([body.due[id(made)]] + ([condition] if condition else []))
                            lines.append(f'    if ({when}) {signal} = {value};')
            lines.append('  end')
        return lines

    def commits(self):
        names = [body.due[id(made)] for body in self.bodies for made in body.operations]
        starts = [body.more for body in self.bodies if body.is_loop()]
        starts += [body.over for body in self.bodies if body.block.terminator[0] != 'stop']
        counted = names + starts
        done = ',\n      '.join(', '.join(counted[k:k + 5]) for k in range(0, len(counted), 5)) or "1'b0"
        lines = ['', '  // What counts as an operation: each one that is due, and each start of an iteration',
                 f'  wire {vector(max(1, len(counted)))}done = {{{done}}};', '',
                 '  // One clock: oldest iterations first, then in order of the text; the last write wins.',
                 '  always_ff @(posedge clk) begin', '    if (moves) begin', f"      count <= count + {COUNT}'($countones(done));"]
        if self.has_phase:
            lines.append(f'      phase <= phase + {number(1, self.phase_width)};')
        for body in self.bodies:
            lines += self.shifting(body) if body.is_loop() else []
        lines += [f'      {self.registers[name]} <= {signal};' for name, signal in self.next.items()]
        for body in self.bodies:
            for made in body.operations:
                lines += self.committed(body, made)
        for body in self.bodies:
            lines += [f'      if ({body.over}) begin'] + ['        ' + line for line in self.ending(body)] + ['      end']
        return lines + ['    end', '    if (rst) begin'] + ['      ' + line for line in self.reset()] + ['    end', '  end']

    def shifting(self, body):
        """At a stage's end each iteration goes on to the next stage, with its temps."""
        stages = body.stages
        live = f'{{{body.live}[{stages - 2}:0], {body.more}}}' if stages > 1 else body.more
        lines = ([f"phase <= '0;"] if self.has_phase else []) + [f'{body.live} <= {live};']
        for signals in body.temps.values():
            lines += [f'{signals[stage]} <= {signals[stage - 1]};' for stage in range(len(signals) - 1, 0, -1)] + [f"{signals[0]} <= '0;"]
        return [f'      if ({body.shift}) begin'] + ['        ' + line for line in lines] + ['      end']

    def committed(self, body, made):
        due, lines = body.due[id(made)], []
        if made.kind == 'store':
            width = self.module.memories[made.memory][0]
            word = f'{self.memories[made.memory]}[{body.words[id(made)][0]}]'
            lines.append(f'if ({due}) {word} <= {self.value(body, made, width)};')
        for place, condition, signal, value in self.assigned(body, made):
            if place not in self.next:
                lines.append(f'if ({" && ".join([due] + ([condition] if condition else []))}) {signal} <= {value};')
        return ['      ' + line for line in lines]

    def entering(self, name):
        """The first clock of a block."""
        body = next(body for body in self.bodies if body.block.name == name)
        lines = [f'block <= {body.state};']
        if body.is_loop():
            lines.append(f'{body.live} <= {number(1, body.stages)};')
        return lines + [f"{signals[0]} <= '0;" for signals in body.temps.values()]

    def ending(self, body):
        word, *rest = body.block.terminator
        lines = ([f"phase <= '0;"] if self.has_phase else []) + ([f"{body.live} <= '0;"] if body.is_loop() else [])
        if word == 'stop':
            return lines + ['block <= ENDED;']
        if word == 'goto':
            return lines + self.entering(rest[0])
        condition = self.is_set(self.next[rest[0]], self.module.registers[rest[0]])
        first, second = (['  ' + line for line in self.entering(name)] for name in rest[1:])
        return lines + [f'if ({condition}) begin'] + first + ['end else begin'] + second + ['end']

    def reset(self):
        lines = [f"{signal} <= '0;" for signal in self.registers.values()] + (["phase <= '0;"] if self.has_phase else [])
        lines += [f"{body.live} <= '0;" for body in self.bodies if body.is_loop()]
        return lines + [f'count <= {number(1, COUNT)};'] + self.entering(self.module.blocks[0].name)

    # what the testbench asks

    def logs(self):
        lines = ['', '`ifndef SYNTHESIS', '  // The accesses of this clock, in commit order',
                 '  task automatic log_events(input logic [63:0] cycle);', '    if (moves) begin']
        for body in self.bodies:
            for made in body.operations:
                if made.channel:
                    told = f'{self.module.name} {made.kind} {made.channel.name}'
                    lines.append(f'      if ({body.due[id(made)]}) $display("event {told} %0d", cycle);')
        lines += ['    end', '  endtask', '  // The first operation that blocks for good', '  task automatic log_held;']
        for place, (condition, cause, channel) in enumerate(self.blocking('none')):
            lines.append(f'    {"else " if place else ""}if ({condition}) $display("held {self.module.name} {cause} {channel.name}");')
        return lines + ['  endtask', '`endif']


def flag(width, signal):
    """A bit as a value of a width."""
    return signal if width == 1 else f"{{{width - 1}'d0, {signal}}}"


def clocks(count):
    return f'{count} clock{"" if count == 1 else "s"}'


def any_of(conditions):
    """Whether one of the conditions holds."""
    if not conditions:
        return "1'b0"
    return ' || '.join(f'({condition})' for condition in conditions) if len(conditions) > 1 else conditions[0]
