"""The instructions that are known, and how each is read from its line."""
# SPDX-License-Identifier: MIT OR Apache-2.0
from translator.lines import AddressOf, Array, Global, Local, Number, Offset, Parts, Vector

BINARY = set('add sub mul udiv urem shl lshr and or xor fadd fsub fmul fdiv'.split())
CASTS = set('zext sext trunc ptrtoint ptrtoaddr inttoptr uitofp bitcast'.split())
ORDERS = {'unordered': 'RELAXED', 'monotonic': 'RELAXED', 'acquire': 'ACQUIRE', 'release': 'RELEASE', 'acq_rel': 'ACQ_REL',
          'seq_cst': 'SEQ_CST'}
# Calls that only say something to passes.
IGNORED = ('llvm.lifetime.', 'llvm.experimental.noalias.', 'llvm.assume')


class Instruction:
    """`op`, the type and the name of its value, its operands as pairs of type and value, and what only some have."""

    def __init__(self, line, op, name, of='void', operands=(), **more):
        self.line, self.op, self.name, self.type, self.operands = line, op, name, of, list(operands)
        self.__dict__.update(more)

    def uses(self):
        """The names of the values that it uses; not those of a phi, which its jumps use."""
        return [name for _, value in self.operands for name in names_in(value)]


def names_in(value, kind=Local):
    """The names of the local or global values in a value."""
    if isinstance(value, kind):
        return [value.name]
    if isinstance(value, (Offset, AddressOf)):
        return names_in(value.base, kind)
    if isinstance(value, Parts):
        return [name for _, part in value.values for name in names_in(part, kind)]
    return []


def after_comma(line, of=None):
    """A value with its type, after a comma."""
    line.want(',')
    found = line.typed()
    if of is not None and found[0] != of:
        line.fail(f'the type is {found[0]}, not {of}')
    return found


def pair(line):
    """The operands of `T a, b`."""
    of, left = line.typed()
    line.want(',')
    return [(of, left), (of, line.value(of))]


def order(line):
    word = line.next()
    return ORDERS[word] if word in ORDERS else line.fail(f'unknown order "{word}"')


def binary(line):
    line.flags()
    operands = pair(line)
    return dict(of=operands[0][0], operands=operands)


def compare(line):
    line.flags()
    how = line.next()
    operands = pair(line)
    of = operands[0][0]
    return dict(of=Vector(of.length, 1) if isinstance(of, Vector) else 1, operands=operands, how=how)


def cast(line):
    line.flags()
    operand = line.typed()
    line.want('to')
    return dict(of=line.type(), operands=[operand])


def freeze(line):
    operand = line.typed()
    return dict(of=operand[0], operands=[operand])


def select(line):
    condition, first = line.typed(), after_comma(line)
    if condition[0] != 1:
        line.fail('a select of a vector')
    return dict(of=first[0], operands=[condition, first, after_comma(line, first[0])])


def alloca(line):
    """Bytes, or a number."""
    of = line.type()
    size = of.length if isinstance(of, Array) and of.element == 8 else of // 8 if of in (8, 16, 32, 64) else line.fail('an unknown type')
    return dict(of='ptr', size=size, alignment=line.alignment())


def load(line):
    atomic, volatile = line.eat('atomic'), line.eat('volatile')
    of = line.type()
    operand = after_comma(line, 'ptr')
    return dict(of=of, operands=[operand], order=atomic and order(line), volatile=volatile, alignment=line.alignment())


def store(line):
    atomic = line.eat('atomic')
    stored = line.typed()
    operands = [after_comma(line, 'ptr'), stored]
    return dict(operands=operands, order=atomic and order(line), alignment=line.alignment())


def atomicrmw(line):
    if not line.eat('xchg'):
        line.fail('an atomic that is no exchange')
    operands = [line.typed(), after_comma(line)]
    return dict(of=operands[1][0], operands=operands, order=order(line), alignment=line.alignment())


def getelementptr(line):
    """An address: a constant number of bytes behind another one, or one that is an operand."""
    inbounds = 'inbounds' in line.flags()
    line.want_type(8)
    base, index = after_comma(line, 'ptr'), after_comma(line, 64)
    constant = isinstance(index[1], Number)
    return dict(of='ptr', operands=[base] if constant else [base, index], offset=index[1].number if constant else 0, inbounds=inbounds)


def shufflevector(line):
    operand = line.typed()
    after_comma(line, operand[0])
    places = after_comma(line)[1]
    numbers = [getattr(part, 'number', 0) for _, part in getattr(places, 'values', [('', Number(n)) for n in range(16)])]
    if operand[0] != Vector(64, 8) or numbers[0] % 16 or numbers != list(range(numbers[0], numbers[0] + 16)):
        line.fail('places that are not 16 bytes of 64')
    return dict(of=Vector(16, 8), operands=[operand], part=numbers[0] // 16)


def extractvalue(line):
    operand = line.typed()
    line.want(',')
    index = line.integer()
    return dict(of=operand[0].fields[index], operands=[operand], index=index)


def insertvalue(line):
    operands = [line.typed(), after_comma(line)]
    line.want(',')
    return dict(of=operands[0][0], operands=operands, index=line.integer())


def phi(line):
    of = line.type()
    incoming = {}
    while True:
        line.want('[')
        value = line.value(of)
        line.want(',')
        incoming[line.name('local')] = value
        line.want(']')
        if line.kind(1) == 'metadata' or not line.eat(','):
            return dict(of=of, incoming=incoming)


def argument(line):
    of = line.type()
    line.attributes()
    return of, line.value(of)


def call(line):
    line.attributes()
    of = line.type()
    if line.eat('asm'):
        # Only this one: nothing but that the compiler keeps accesses to memory on their side of it.
        if [line.next() for _ in range(6)] != ['sideeffect', '""', ',', '"~{memory}"', '(', ')'] or of != 'void':
            line.fail('unknown assembly')
        return dict(op='barrier')
    if line.peek() == '(':
        line.skip_parentheses()                         # the type of a function that takes further arguments, as `open`
    callee = line.value('ptr')
    if not isinstance(callee, (Local, Global)):
        line.fail('a call of what is neither a function nor a value')
    line.want('(')
    operands = line.listed(')', lambda: argument(line))
    if isinstance(callee, Global) and callee.name.startswith(IGNORED):
        return dict(op='ignored')
    return dict(of=of, operands=operands + ([('ptr', callee)] if isinstance(callee, Local) else []), callee=callee)


def br(line):
    if line.peek() == 'label':
        return dict(to=[line.label()])
    condition = line.typed()
    line.want(',')
    first = line.label()
    line.want(',')
    return dict(operands=[condition], to=[first, line.label()])


def switch(line):
    operand = line.typed()
    line.want(',')
    default = line.label()
    line.want('[')
    cases = {}
    while not line.eat(']'):
        of, value = line.typed()
        if of != operand[0] or of not in (1, 8, 16, 32, 64) or not isinstance(value, Number):
            line.fail('a case that is no number')
        line.want(',')
        cases[value.number] = line.label()
    if operand[0] == 1:
        return dict(op='br', operands=[operand], to=[cases.get(1, default), cases.get(0, default)])
    return dict(operands=[operand], cases=cases, default=default, to=list(dict.fromkeys([*cases.values(), default])))


def ret(line):
    return dict(operands=[] if line.eat('void') else [line.typed()], to=[])


def unreachable(_):
    return dict(to=[])


READERS = {function.__name__: function for function in (
    freeze, select, alloca, load, store, atomicrmw, getelementptr, shufflevector, extractvalue, insertvalue, phi, call, br,
    switch, ret, unreachable)}
READERS.update(dict.fromkeys(BINARY, binary))
READERS.update(dict.fromkeys(CASTS, cast))
READERS.update(icmp=compare, fcmp=compare)


def instruction(line):
    name = None
    if line.kind() == 'local':
        name = line.name('local')
        line.want('=')
    op = line.next()
    if op == 'tail':
        op = line.next()
    if op not in READERS:
        line.fail(f'unknown instruction "{op}"')
    found = READERS[op](line)
    line.ended()
    return Instruction(line, found.pop('op', op), name, **found)
