"""What instructions are as terms and effects, and the ways through a function of the module with what each does."""
# SPDX-License-Identifier: MIT OR Apache-2.0
import collections
import copy

from validator.ir import bytes_of, fail, places
from validator.terms import FALSE, OPERATIONS, TRUE, Facts, constant, leaf, make, number, opaque, piece, replaced, \
    resized

MOST = 500                                              # ways from a cut, and blocks of one
WHOLE = (8, 16, 32, 64)                                # bits that C reads and writes at once
DIVISIONS = ('udiv', 'urem', 'sdiv', 'srem')
RESIZED = ('zext', 'sext', 'trunc', 'ptrtoint', 'ptrtoaddr', 'inttoptr')
EFFECTS = ('store', 'atomicrmw', 'barrier', 'memcpy', 'memmove', 'memset', 'trap')
# What changes memory, or is seen from outside: what it is, its operands, how these are aligned, and its result.
Effect = collections.namedtuple('Effect', 'what operands aligns result', defaults=[None])


def width(of):
    """In bits. The value of a struct is what memory holds of it."""
    if isinstance(of, tuple):
        return 8 * bytes_of(of) if of[0] == 'struct' else fail('an array as a value')
    return {'ptr': 64, 'void': 0}.get(of, of)


def evaluated(of, value, local, names):
    """The term of an operand. `local` gives those of names, `names` has what C names otherwise than the module."""
    kind, what, *offset = value
    if kind == 'local':
        return local(what)
    if kind == 'global':
        return leaf(f'@{names.get(what, what)}', 64)
    if kind == 'offset':
        return make('add', evaluated('ptr', what, local, names), constant(*offset, 64))
    return constant(what, width(of))


def address_of(i, base, *indices):
    """What getelementptr gives."""
    of = 'array', 0, i.of
    for index in indices:
        if of[0] == 'struct':
            apart, of = constant(places(of)[number(index)], 64), of[1 + number(index)]
        else:
            of = of[2]
            apart = make('mul', resized('sext', index, 64), constant(bytes_of(of), 64))
        base = make('add', base, apart)
    return base


def pure(i, x=None, *others):
    """The value of an instruction that does nothing else."""
    if i.op == 'icmp':
        return make('ite', make(i.how, x, *others), constant(1, 1), constant(0, 1))
    if i.op in OPERATIONS and not i.how:
        return make(i.op, x, *others)
    if i.op in RESIZED:
        return resized(i.op, x, width(i.type))
    if i.op == 'getelementptr':
        return address_of(i, x, *others)
    if i.op == 'extractvalue':
        return piece(x, 8 * i.place, width(i.type))
    if i.op == 'insertvalue':
        return replaced(x, 8 * i.place, *others)
    return x if i.op == 'freeze' else fail(f'instruction {i.op}{i.how and " "}{i.how}')


def effect_of(i, operands, names):
    """The effect of an instruction, or None. `names` are those in C of what a call names."""
    if i.op in EFFECTS or i.op == 'load' and i.how:
        return Effect((i.op, i.how, width(i.type)), operands, i.aligns)
    if i.op != 'call':
        return None
    name = names.get(i.callee) or fail(f'a call of {i.callee}') if i.callee else None
    return Effect((name, i.how, width(i.type)), operands, ())


def is_aligned(address, align):
    low = align.bit_length() - 1
    return make('eq', piece(address, 0, low), constant(0, low)) if low else TRUE


def choices(last, values):
    """Where the end of a block may go on to, with the condition of each."""
    cases = [make('eq', values[0], value) for value in values[1:]]
    first = make('not', make('any', *cases)) if cases else TRUE
    return [(first, label) for label in last.to[:1]] + list(zip(cases, last.to[1:]))


class Way:
    """From a cut of the module to the next one: what is true, the new values, what it does, reads, and relies on."""

    def __init__(self, source, cut):
        self.source, self.cut, self.end = source, cut, None
        self.facts, self.new, self.effects, self.loads, self.relied = Facts(), {}, (), (), ()

    def under(self, condition):
        """The same way, where a condition holds."""
        found = copy.copy(self)                         # what they share is replaced, and never changed
        found.facts = self.facts.under(condition)
        return found

    def local(self, name):
        return self.new[name] if name in self.new else self.source.at_cut(name)

    def value(self, of, value):
        return evaluated(of, value, self.local, self.source.names)

    def step(self, i):
        operands, done = [self.value(*operand) for operand in i.operands], len(self.effects)
        if i.op in ('load', 'store') and width(i.operands[1][0] if i.op == 'store' else i.type) not in WHOLE:
            fail(f'instruction {i.op} of parts')        # which C makes one by one
        effect, aligns = effect_of(i, operands, self.source.names), i.aligns if i.op == 'load' else ()
        if effect:
            aligns, bits = effect.aligns, width(i.type)
            found = leaf(f'{i.name} (effect {done})', bits) if bits else None
            self.effects += (effect._replace(result=found),)
        elif i.op == 'load':
            found = opaque(f'load {done}', width(i.type), operands[0])
            self.loads += ((done, operands[0], found),)
        else:
            found = pure(i, *operands)
        # What has to be true, since nothing is defined otherwise.
        relied = [is_aligned(*one) for one in zip(operands, aligns)]
        relied += [make('ne', operands[1], constant(0, i.type))] if i.op in DIVISIONS else []
        self.relied += tuple((done, condition) for condition in relied)
        self.new = {**self.new, i.name: found}


class Source:
    """A function of the module, and its ways from each cut to the next ones."""

    def __init__(self, function, names, cuts):
        self.function, self.names, self.cuts = function, names, cuts
        self.where = {i.name: (label, i) for label, block in function.blocks.items() for i in block if i.name}
        self.types = {name: i.type for name, (_, i) in self.where.items()}
        self.types.update((name, of) for of, name in function.parameters)
        self.at_cuts = {name: leaf(name, width(of)) for of, name in function.parameters}

    def at_cut(self, name):
        """What a value is where a way begins: over parameters, phis, and what was read or called before."""
        if name not in self.at_cuts:
            i = self.where[name][1]
            outside = i.op in ('phi', 'alloca', 'load', 'atomicrmw', 'call')
            self.at_cuts[name] = leaf(f'{i.op} {name}', width(i.type)) if outside else \
                pure(i, *[evaluated(*operand, self.at_cut, self.names) for operand in i.operands])
        return self.at_cuts[name]

    def walk(self, label, way, found, length=0):
        """Adds to the ways that are found those that go on with a block."""
        if len(found) + length > MOST:
            fail(f'too many ways, or a loop without a place, at {label}')
        *others, last = self.function.blocks[label]
        for i in others:
            if i.op not in ('phi', 'alloca', 'nothing', 'assume'):
                way.step(i)
        values = [way.value(*operand) for operand in last.operands]
        if not last.to:
            way.end = (last.op, *values)
            found.append(way)
        for condition, target in choices(last, values):
            if not way.facts.put(condition).eq(FALSE):
                onward, phis = way.under(condition), [i for i in self.function.blocks[target] if i.op == 'phi']
                onward.new = {**way.new, **{i.name: way.value(i.type, i.incoming[label]) for i in phis}}
                if target in self.cuts:
                    onward.end = ('cut', target)
                    found.append(onward)
                else:
                    self.walk(target, onward, found, length + 1)
