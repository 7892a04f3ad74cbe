"""The whole of a session: package, FIFO, modules, the design that joins them, and a testbench."""
import os

from .module import COUNT, ModuleText
from .words import Names, number, vector

HEAD = '''// {session}
//
// `flow_design` is the hardware: the modules of the session and the FIFOs between them. `testbench` feeds its sources, takes what its
// sinks get, and tells what `omnisim run --events` tells. One clock takes 1 ns: clock N of an answer is from N ns to N + 1 ns.
//
// Plus-arguments of a simulation:{arguments}
//   +events        tells each access        +vcd=FILE  writes waves
//   +cycles=N      the cycle limit          +ops=N     the operation limit of each module
`timescale 1ns/100ps
`default_nettype none
/* verilator lint_off DECLFILENAME */  // all modules stand in one file
/* verilator lint_off UNUSED */  // a session may set what it never reads,
/* verilator lint_off UNDRIVEN */  // have a block that nothing enters,
/* verilator lint_off UNSIGNED */  // and compare what never differs
/* verilator lint_off CMPCONST */
'''
CLOCK = '''
  // The clock rises at 0.1 ns for the reset, and then at each whole ns.
  logic clk, rst;
  initial begin
    clk = 1'b0;
    rst = 1'b1;
    #0.1 clk = 1'b1;
    #0.4 clk = 1'b0;
    rst = 1'b0;
    forever begin
      #0.5 clk = 1'b1;
      #0.5 clk = 1'b0;
    end
  end
'''
STEP = '''
  longint unsigned cycle;
  always @(posedge clk) begin
    if (rst) cycle <= 0;
    else if (settled) begin
      if (all_ended) $display("verdict done %0d", cycle);
      else if (some_spent) $display("verdict ops %0d", cycle);
      else $display("verdict deadlock %0d", cycle);
      tell_outputs;
      if (!all_ended) tell_held;
      $finish;
    end else if (cycle == cycle_limit) begin
      $display("verdict cycles %0d", cycle);
      tell_outputs;
      $finish;
    end else begin
      if ($test$plusargs("events") != 0) begin
{events}
      end
{sinks}
      cycle <= cycle + 1;
    end
  end'''


def part(name):
    """A part of the text that is the same for all sessions."""
    with open(os.path.join(os.path.dirname(os.path.realpath(__file__)), name), encoding='ascii') as file:
        return '\n' + file.read()


PACKAGE, FIFO, SOURCE = part('flow_words.sv'), part('flow_fifo.sv'), part('flow_source.sv')
SMALLEST = 64  # places of a FIFO's memory, so that greater depths can be tried
GREATEST = 1 << 20  # a FIFO that is deeper has so many places, and the simulation stops where it would hold more
DEPTH = 31  # bits of a depth


class DesignText:
    """Writes a session. With a folder, the values of sources are read from its files by $readmemh. With a prefix, which all names of
    modules begin with, several sessions may stand in one text."""

    def __init__(self, session, title, folder=None, prefix=''):
        self.session, self.title, self.folder = session, title, folder
        names = Names(['flow_fifo', 'flow_source', 'flow_words'])
        self.modules = [ModuleText(module, session, names.take(prefix + module.name)) for module in session.modules]
        self.design, self.testbench = names.take(prefix + 'flow_design'), names.take(prefix + 'testbench')
        inside = Names(['clk', 'rst', 'ops_limit'])
        self.fifos = {fifo.name: inside.take('fifo_' + fifo.name) for fifo in session.fifos()}
        self.instances = {module.module.name: inside.take('u_' + module.module.name) for module in self.modules}
        self.ends = [channel for channel in session.channels.values() if channel.kind != 'fifo']

    def text(self):
        kinds = {channel.kind for channel in self.session.channels.values()}
        parts = [self.head(), PACKAGE, FIFO if 'fifo' in kinds else '', SOURCE if 'source' in kinds else '', self.own_text()]
        return ''.join(parts + ['`default_nettype wire\n'])

    def head(self):
        told = '\n//   +depth_{}=N  the depth of FIFO {}: {}, at most {}'
        arguments = ''.join(told.format(fifo.name, fifo.name, fifo.depth, places(self.session, fifo)) for fifo in self.session.fifos())
        return HEAD.format(session=self.title, arguments=arguments)

    def own_text(self):
        """The modules of the session, the design and the testbench."""
        lines = ['']
        for module in self.modules:
            lines += module.text() + ['']
        return '\n'.join(lines + self.design_lines() + [''] + self.testbench_lines() + [''])

    @staticmethod
    def end_signals(channel):
        """The signals between the design and the testbench: direction as the design sees it, width, end."""
        if channel.kind == 'source':
            return [('input', channel.width, 'front'), ('input', 1, 'empty'), ('output', 1, 'pop')]
        if channel.kind == 'sink':
            return [('output', 1, 'push'), ('output', channel.width, 'data')]
        return [('input', DEPTH, 'depth')]

    def design_lines(self):
        ports = ['input  wire clk', 'input  wire rst', f'input  wire {vector(COUNT)}ops_limit']
        for channel in self.session.channels.values():
            ports += [f'{way:6} wire {vector(width)}{channel.name}_{end}' for way, width, end in self.end_signals(channel)]
        lines = ['// The modules and the FIFOs between them', f'module {self.design} (', ',\n'.join('    ' + port for port in ports), ');']
        for fifo in self.session.fifos():
            ends = ('push', 'data', 'full', 'pop', 'front', 'empty', 'none')
            sizes = f'.WIDTH({fifo.width}), .DELAY({fifo.delay}), .MAX_DEPTH({places(self.session, fifo)})'
            lines += [f'  wire {fifo.name}_push, {fifo.name}_full, {fifo.name}_pop, {fifo.name}_empty, {fifo.name}_none;',
                      f'  wire {vector(fifo.width)}{fifo.name}_data, {fifo.name}_front;',
                      f'  flow_fifo #({sizes}) {self.fifos[fifo.name]} (',
                      f'      .clk(clk), .rst(rst), .depth({fifo.name}_depth),',
                      '      ' + ', '.join(f'.{end}({fifo.name}_{end})' for end in ends) + ');']
        for module in self.modules:
            wired = [f'.{module.port(channel, end)}({channel.name}_{end})' for _, _, end, channel in module.port_list()]
            lines += [f'  {module.name} {self.instances[module.module.name]} (',
                      ',\n'.join('      ' + port for port in ['.clk(clk)', '.rst(rst)', '.ops_limit(ops_limit)'] + wired), '  );']
        return lines + ['endmodule']

    # the testbench

    def testbench_lines(self):
        lines = ['// Feeds the sources, takes what the sinks get, and tells the verdict', f'module {self.testbench};' + CLOCK]
        lines += self.limits()
        for channel in self.ends:
            lines += self.source(channel) if channel.kind == 'source' else self.sink(channel)
        wired = [f'.{channel.name}_{end}({channel.name}_{end})' for channel in self.session.channels.values()
                 for _, _, end in self.end_signals(channel)]
        lines += ['', f'  {self.design} dut (',
                  ',\n'.join('      ' + port for port in ['.clk(clk)', '.rst(rst)', '.ops_limit(ops_limit)'] + wired), '  );']
        return lines + self.verdict() + self.clock_step() + ['endmodule']

    def limits(self):
        session = self.session
        lines = ['  // The limits and the depths; plus-arguments change them.',
                 f'  longint unsigned cycle_limit = {number(session.cycles, 64)};',
                 f'  logic {vector(COUNT)}ops_limit = {number(session.ops, COUNT)};']
        lines += [f'  logic {vector(DEPTH)}{fifo.name}_depth = {number(fifo.depth, DEPTH)};' for fifo in session.fifos()]
        lines += ['  string file;', '  longint unsigned given, named;', '  initial begin', '    named = 0;',
                  '    if ($value$plusargs("cycles=%d", cycle_limit)) begin end',
                  '    if ($value$plusargs("ops=%d", ops_limit)) begin end']
        for fifo in session.fifos():
            most = max(places(session, fifo), session.deepest(fifo))
            lines += [f'    if ($value$plusargs("depth_{fifo.name}=%d", given)) begin', '      named = named + 1;',
                      f'      if (given < 1 || given > {most}) $fatal(1, "FIFO {fifo.name} has 1 to {most} places; raise its MAX_DEPTH");',
                      f'      {fifo.name}_depth = given[{DEPTH - 1}:0];', '    end']
        lines += ['    if ($test$plusargs("depth_") != 0 && named == 0) $fatal(1, "+depth_ names no FIFO of the design");']
        return lines + ['    if ($value$plusargs("vcd=%s", file)) begin', '      $dumpfile(file);',
                        f'      $dumpvars(0, {self.testbench});', '    end', '  end']

    def source(self, channel):
        name, values = channel.name, channel.values
        lines = ['', f'  // Source {name}: {len(values)} value{"" if len(values) == 1 else "s"}',
                 f'  wire {name}_empty, {name}_pop;', f'  wire {vector(channel.width)}{name}_front;',
                 f'  flow_source #(.WIDTH({channel.width}), .COUNT({len(values)})) source_{name} (',
                 f'      .clk(clk), .rst(rst), .pop({name}_pop), .front({name}_front), .empty({name}_empty));']
        if not values:
            return lines + [f"  initial source_{name}.values[0] = {number(0, channel.width)};  // never read"]
        if self.folder is not None:
            return lines + [f'  initial $readmemh("{self.folder}/{name}.hex", source_{name}.values, 0, {len(values) - 1});']
        given = [f'    source_{name}.values[{place}] = {number(value, channel.width)};' for place, value in enumerate(values)]
        return lines + ['  initial begin'] + given + ['  end']

    @staticmethod
    def sink(channel):
        name = channel.name
        return ['', f'  // Sink {name}', f'  wire {name}_push;', f'  wire {vector(channel.width)}{name}_data;',
                f'  logic {vector(channel.width)}{name}_values [$];']

    def all_of(self, signal):
        return ' && '.join(f'dut.{instance}.{signal}' for instance in self.instances.values()) or "1'b1"

    def verdict(self):
        spent = ' || '.join(f'dut.{instance}.spent' for instance in self.instances.values()) or "1'b0"
        settled = ' && '.join(f'(dut.{instance}.over || dut.{instance}.held)' for instance in self.instances.values()) or "1'b1"
        lines = ['', '  // A clock is settled where no module moves, and none would if all that is on its way had arrived.',
                 f'  wire settled = {settled};', f'  wire all_ended = {self.all_of("ended")};', f'  wire some_spent = {spent};', '',
                 '  task automatic tell_outputs;']
        for channel in self.ends:
            if channel.kind == 'sink':
                values = f'{channel.name}_values'
                lines += [f'    $write("out {channel.name}");',
                          f'    for (int place = 0; place < {values}.size(); place++) $write(" %0d", {values}[place]);',
                          '    $display("");']
        lines += ['  endtask', '', '  task automatic tell_held;']
        lines += [f'    if (!dut.{instance}.over) dut.{instance}.log_held;' for instance in self.instances.values()]
        return lines + ['  endtask']

    def clock_step(self):
        events = [f'        dut.{instance}.log_events(cycle);' for instance in self.instances.values()]
        sinks = [f'      if ({channel.name}_push) {channel.name}_values.push_back({channel.name}_data);' for channel in self.ends
                 if channel.kind == 'sink']
        return STEP.format(events='\n'.join(events), sinks='\n'.join(sinks)).split('\n')


def places(session, fifo):
    """The places of a FIFO's memory: a power of 2."""
    return min(GREATEST, max(SMALLEST, 1 << (session.deepest(fifo) - 1).bit_length()))
