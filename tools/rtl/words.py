"""Names and expressions in SystemVerilog. A value of a session has 64 bits; here each expression is as narrow as it may be."""
from flow.limits import WIDTH

# Words that no signal can be called: those of SystemVerilog, and those of C++, to which Verilator translates.
RESERVED = set('''
accept_on alias always always_comb always_ff always_latch and assert assign assume automatic before begin bind bins binsof bit break
buf bufif0 bufif1 byte case casex casez cell chandle checker class clocking cmos config const constraint context continue cover
covergroup coverpoint cross deassign default defparam design disable dist do edge else end endcase endchecker endclass endclocking
endconfig endfunction endgenerate endgroup endinterface endmodule endpackage endprimitive endprogram endproperty endspecify endsequence
endtable endtask enum event eventually expect export extends extern final first_match for force foreach forever fork forkjoin function
generate genvar global highz0 highz1 if iff ifnone ignore_bins illegal_bins implements implies import incdir include initial inout input
inside instance int integer interconnect interface intersect join join_any join_none large let liblist library local localparam logic
longint macromodule matches medium modport module nand negedge nettype new nexttime nmos nor noshowcancelled not notif0 notif1 null or
output package packed parameter pmos posedge primitive priority program property protected pull0 pull1 pulldown pullup
pulsestyle_ondetect pulsestyle_onevent pure rand randc randcase randsequence rcmos real realtime ref reg reject_on release repeat
restrict return rnmos rpmos rtran rtranif0 rtranif1 s_always s_eventually s_nexttime s_until s_until_with scalared sequence shortint
shortreal showcancelled signed small soft solve specify specparam static string strong strong0 strong1 struct super supply0 supply1
sync_accept_on sync_reject_on table tagged task this throughout time timeprecision timeunit tran tranif0 tranif1 tri tri0 tri1 triand
trior trireg type typedef union unique unique0 unsigned until until_with untyped use uwire var vectored virtual void wait wait_order
wand weak weak0 weak1 while wildcard wire with within wor xnor xor
abort alignas alignof and_eq asm auto bitand bitor bool catch char compl concept const_cast constexpr decltype delete double dynamic_cast
explicit false float friend goto inline long main mutable namespace noexcept not_eq nullptr operator or_eq private public register
reinterpret_cast requires return short sizeof static_assert static_cast std switch template thread_local throw true try typeid typename
using volatile wchar_t xor_eq NULL
'''.split())
FULL = WIDTH
NEAR = 31  # bits of the amount of a shift that tools take as it is


class Names:
    """The names of one scope; a name that is taken or reserved gets underscores after it."""

    def __init__(self, taken=()):
        self.taken = set(taken)

    def take(self, wanted):
        while wanted in self.taken or wanted in RESERVED:
            wanted += '_'
        self.taken.add(wanted)
        return wanted


def vector(width):
    """The range of a signal; a single bit has none."""
    return f'[{width - 1}:0] ' if width > 1 else ''


def bits(value):
    """How many bits a number needs; 0 needs one."""
    return max(1, value.bit_length())


def number(value, width):
    return f"{width}'d{value % (1 << width)}"


def cast(text, width, wanted):
    """The text in the wanted width; braces keep an expression from being widened within, and Icarus wants them."""
    if width == wanted:
        return text
    inner = text[1:-1] if text.startswith('(') and closes_last(text) else text
    return f"{wanted}'({inner})" if inner.isidentifier() else f"{wanted}'({{{inner}}})"


def call(function, arguments, wanted):
    """A call of a function of 64 bits."""
    return cast(f'{function}({", ".join(arguments)})', FULL, wanted)


class Expressions:
    """Writes the expressions of a body; `signals` gives the signal and the width of each register and temp."""

    def __init__(self, signals):
        self.signals = signals

    def width(self, tree):
        """So many bits surely hold the value, as a word of 64 bits."""
        kind, parts = tree[0], tree[1:]
        if kind == 'number':
            return bits(parts[0])
        if kind == 'name':
            return self.signals(parts[0])[1]
        if kind in ('==', '!=', '<u', '<s'):
            return 1
        if kind in ('~', '-', '<<', 'sext'):
            return FULL
        widths = [self.width(part) for part in parts]
        if kind == '+':
            return min(FULL, max(widths) + 1)
        if kind == '*':
            return min(FULL, sum(widths))
        if kind == '/':
            return widths[0] if self.is_divisor(parts[1]) else FULL
        return {'&': min(widths), '|': max(widths), '^': max(widths), '>>': widths[0], '%': widths[0], '?:': max(widths[1:])}[kind]

    @staticmethod
    def is_divisor(tree):
        return tree[0] == 'number' and tree[1] > 0

    def write(self, tree, width):
        """The value modulo 2^width, in so many bits, without parentheses around it."""
        text = self.part(tree, width)
        return text[1:-1] if text.startswith('(') and closes_last(text) else text

    def part(self, tree, width):
        kind, parts = tree[0], tree[1:]
        if kind == 'number':
            return number(parts[0], width)
        if kind == 'name':
            return cast(*self.signals(parts[0]), width)
        if kind == '~':
            return f'(~{self.part(parts[0], width)})'
        if kind in ('+', '-', '*', '&', '|', '^'):
            return f'({self.part(parts[0], width)} {kind} {self.part(parts[1], width)})'
        if kind in ('<<', '>>') and self.width(parts[1]) > NEAR:
            return call('shifted_left' if kind == '<<' else 'shifted_right', [self.write(part, FULL) for part in parts], width)
        if kind == '<<':
            return f'({self.part(parts[0], width)} << {self.whole(parts[1])})'
        if kind == '?:':
            return f'({self.condition(parts[0])} ? {self.part(parts[1], width)} : {self.part(parts[2], width)})'
        if kind == 'sext':
            return self.sign_extended(*parts, width)
        if kind in ('/', '%') and not self.is_divisor(parts[1]):
            return call('quotient' if kind == '/' else 'remainder', [self.write(part, FULL) for part in parts], width)
        return cast(*self.exact(kind, parts), width)

    def whole(self, tree):
        return self.part(tree, self.width(tree))

    def condition(self, tree):
        """Whether the value is not 0."""
        width = self.width(tree)
        return self.part(tree, 1) if width == 1 else f'({self.part(tree, width)} != 0)'

    def sign_extended(self, kept, tree, width):
        if width <= kept:
            return self.part(tree, width)
        return call('sign_extended', [self.write(tree, FULL), str(kept)], width)

    def exact(self, kind, parts):
        """What needs the whole operands: the text and its width."""
        width = max(self.width(part) for part in parts)
        if kind == '>>':
            width = self.width(parts[0])
            return f'({self.part(parts[0], width)} >> {self.whole(parts[1])})', width
        if kind == '<s' and width == FULL:
            return f'less_signed({", ".join(self.write(part, FULL) for part in parts)})', 1
        left, right = (self.part(part, width) for part in parts)
        sign = {'<u': '<', '<s': '<'}.get(kind, kind)
        return f'({left} {sign} {right})', 1 if kind in ('==', '!=', '<u', '<s') else width


def closes_last(text):
    """Whether the parenthesis that opens a text closes with its last letter."""
    depth = 0
    for place, letter in enumerate(text):
        depth += (letter == '(') - (letter == ')')
        if depth == 0:
            return place == len(text) - 1
    return False
