"""Expressions of C, and those of the instructions that change nothing.

What C leaves undefined and the module does not is never written, but for what docs/proof/proofs.md names. Arithmetic is that of
unsigned numbers. What is narrower than `int` is cast back to its width, and a literal is cast where C would compute with ints.
Counts of shifts are masked. An address is a sum of integers, unless the module reads or writes there: then it has to be inside
its object. Comparisons of order are those of integers."""
# SPDX-License-Identifier: MIT OR Apache-2.0
from translator.lines import Number, Real, Struct, Vector, Zero

TYPES = {1: 'bool', 8: 'uint8_t', 16: 'uint16_t', 32: 'uint32_t', 40: 'uint64_t', 48: 'uint64_t', 56: 'uint64_t', 64: 'uint64_t', 128: 'u128',
         'ptr': 'byte *', 'double': 'double', 'void': 'void', Vector(16, 8): 'bytes16', Vector(64, 8): 'bytes64',
         Vector(16, 1): 'uint16_t', Vector(64, 1): 'uint64_t'}
WIDTHS = (8, 16, 32, 64)
# Widths that C has no type for. Each is kept in a number of 64 bits, whose other bits are 0.
ODD_WIDTHS = (40, 48, 56)

# How tightly an operator binds. Two that bind alike are put in parentheses.
ATOM, UNARY, BINARY, CHOICE = range(4)


class Expression:
    """`variables`: those that it names. `reads`: whether it reads memory. `opposite`: of a condition, the text of its
    opposite. `base` and `offset`: of an address, what a further offset is added to. `anywhere`: the same address where nothing
    says that it is inside an object. `room`: of a whole object, its bytes. `literal`: whether C may take it for an int."""

    def __init__(self, text, level=ATOM, operands=(), reads=False, opposite=None, base=None, offset=0, anywhere=None):
        self.text, self.level, self.opposite = text, level, opposite
        self.variables = frozenset().union(*[e.variables for e in operands])
        self.reads = reads or any(e.reads for e in operands)
        self.base, self.offset, self.shifted, self.literal = base or self, offset, None, False
        self.anywhere, self.room = anywhere or self, -1

    def __str__(self):
        """As an operand."""
        return self.text if self.level <= UNARY else f'({self.text})'

    def call(self, function):
        return Expression(f'{function}({self.text})', ATOM, [self])


def variable(name):
    found = Expression(name)
    found.variables = frozenset([name])
    return found


def call(function, *operands, reads=False):
    return Expression(f'{function}({", ".join(e.text for e in operands)})', ATOM, operands, reads)


def cast(ctype, e):
    return Expression(f'({ctype}){e}', UNARY, [e])


def literal(text):
    found = Expression(text)
    found.literal = True
    return found


def c_type(of):
    if isinstance(of, Struct):
        return struct_name(of)
    return TYPES[of]


def struct_name(of):
    return 'of_' + '_'.join('ptr' if field == 'ptr' else f'i{field}' for field in of.fields)


def declared(of, name):
    """A declaration's type and name."""
    ctype = c_type(of)
    return f'{ctype}{name}' if ctype.endswith('*') else f'{ctype} {name}'


def number(value, bits):
    """A literal. One that C takes for an int is below 2^31."""
    value &= (1 << bits) - 1
    if bits == 128:
        return f'u128_of({number(value >> 64, 64)}, {number(value, 64)})'
    if bits == 1:
        return 'true' if value else 'false'
    if value < 1 << 31:
        return str(value)
    if value == (1 << 64) - 1:
        return 'UINT64_MAX'
    return f'{value}u' if bits == 32 else f'UINT64_C({value})'


def opposite(e):
    """A condition's opposite."""
    if e.opposite:
        return Expression(e.opposite, BINARY, [e], opposite=e.text)
    return Expression(f'!{e}', UNARY, [e])


def plus(pointer, offset, inside=True):
    """A pointer that is moved by a constant: to a field, where it is not said that both places are inside one object."""
    if not inside and offset < 0 or pointer.text == 'NULL':
        return call('at', pointer.anywhere, Expression(number(offset, 64)))
    base, offset = pointer.base, pointer.offset + offset
    if offset == 0:
        return base
    anywhere = None if 0 <= offset <= base.room else call('at', base.anywhere, Expression(number(offset, 64)))
    return Expression(f'{base} {"+" if offset > 0 else "-"} {abs(offset)}', BINARY, [base], base=base, offset=offset, anywhere=anywhere)


# ------------------------------------------------------------------------------------------------------------- arithmetic

SIGNS = {'add': '+', 'sub': '-', 'mul': '*', 'udiv': '/', 'urem': '%', 'and': '&', 'or': '|', 'xor': '^', 'shl': '<<', 'lshr': '>>',
         'fadd': '+', 'fsub': '-', 'fmul': '*', 'fdiv': '/'}


def binary(i, left, right):
    if i.type == 'double':
        # An expression of doubles could be computed more precisely as a whole.
        return Expression(f'{left} {SIGNS[i.op]} {right}', BINARY, [left, right]).call('rounded')
    if i.type == 1:
        return of_bits(i, left, right)
    if i.type == 128 and i.op not in ('udiv', 'urem'):
        return call(f'u128_{i.op}', left, call('u128_low', right) if i.op in ('shl', 'lshr') else right)
    if i.type == Vector(16, 1) and i.op == 'or':
        return cast('uint16_t', Expression(f'{left} | {right}', BINARY, [left, right]))
    if i.type not in WIDTHS:
        i.line.fail(f'{i.op} of {i.type}')
    if i.op in ('shl', 'lshr'):
        return shift(i, left, right)
    return sum_or_product(i, left, right)


def sum_or_product(i, left, right):
    constant = i.operands[1][1]
    if i.op == 'and' and isinstance(constant, Number) and left.shifted:
        # All bits of a shifted number but the lowest: passes write so what is shifted further and back.
        e, count = left.shifted
        lowest = max((-constant.number & constant.number).bit_length() - 1, 0)
        if constant.number == (1 << i.type - count) - (1 << lowest):
            return Expression(f'({e} >> {count + lowest}) << {lowest}', BINARY, [e])
    if left.literal and right.literal:
        left = cast(TYPES[i.type], left)                # C's would be an operation of ints
    if i.op in ('add', 'sub') and isinstance(constant, Number) and constant.number < 0:
        sign = {'add': '-', 'sub': '+'}[i.op]
        found = Expression(f'{left} {sign} {number(-constant.number, i.type)}', BINARY, [left])
    else:
        # 1u: the product of two numbers of 16 bits may not be an int.
        first = '1u * ' if i.op == 'mul' and i.type < 32 else ''
        found = Expression(f'{first}{left} {SIGNS[i.op]} {right}', BINARY, [left, right])
    return cast(TYPES[i.type], found) if i.type < 32 else found


def shift(i, left, right):
    count = i.operands[1][1]
    if isinstance(count, Number):
        if not 0 <= count.number < i.type:
            i.line.fail('a shift by the width or more')
    elif not right.text.endswith(f' & {i.type - 1}'):
        right = Expression(f'{right} & {i.type - 1}', BINARY, [right])
    if i.type < 32:
        left = cast('uint32_t', left)
    elif left.literal:
        left = cast(TYPES[i.type], left)
    found = Expression(f'{left} {SIGNS[i.op]} {right}', BINARY, [left, right])
    if i.op == 'lshr' and i.type == 64 and isinstance(count, Number):
        found.shifted = left, count.number
    return cast(TYPES[i.type], found) if i.type < 32 else found


def of_bits(i, left, right):
    """Operations of i1. Both sides are evaluated: they change nothing."""
    if i.op == 'xor' and i.operands[1][1] == Number(1):
        return opposite(left)
    if i.op == 'xor':
        return Expression(f'{left} != {right}', BINARY, [left, right], opposite=f'{left} == {right}')
    if i.op not in ('and', 'or'):
        i.line.fail(f'{i.op} of i1')
    # The cast tells compilers that && was not meant.
    return Expression(f'(int){left} {SIGNS[i.op]} (int){right}', BINARY, [left, right])


# ------------------------------------------------------------------------------------------------------------- comparisons

COMPARED = {'eq': '==', 'ne': '!=', 'ult': '<', 'ule': '<=', 'ugt': '>', 'uge': '>=', 'slt': '<', 'sle': '<=', 'sgt': '>', 'sge': '>='}
OPPOSITES = {'==': '!=', '!=': '==', '<': '>=', '>=': '<', '>': '<=', '<=': '>'}
OF_128 = {'ult': ('u128_less', False), 'uge': ('u128_less', True), 'eq': ('u128_equal', False), 'ne': ('u128_equal', True)}
ORDERED = {'olt': '<', 'ole': '<=', 'ogt': '>', 'oge': '>=', 'oeq': '=='}
# True, too, if one is no number: the opposite of what is false then.
UNORDERED = {'ult': '>=', 'ule': '>', 'ugt': '<=', 'uge': '<', 'une': '=='}


def compare(i, left, right):
    of = i.operands[0][0]
    if isinstance(of, Vector):
        return compare_vectors(i, of, left, right)
    if of == 128:
        return compare_128(i, left, right)
    if i.how not in COMPARED or of not in (*WIDTHS, 1, 'ptr') or of == 1 and i.how not in ('eq', 'ne'):
        i.line.fail(f'{i.how} of {of}')
    if i.how not in ('eq', 'ne') and (of == 'ptr' or i.how[0] == 's'):
        if of == 'ptr' and i.how[0] == 's':
            i.line.fail('a comparison of pointers with signs')
        ctype = 'uintptr_t' if of == 'ptr' else TYPES[of][1:]
        left, right = cast(ctype, left), cast(ctype, right)
    sign = COMPARED[i.how]
    return Expression(f'{left} {sign} {right}', BINARY, [left, right], opposite=f'{left} {OPPOSITES[sign]} {right}')


def compare_128(i, left, right):
    swapped = {'ugt': 'ult', 'ule': 'uge'}
    how = swapped.get(i.how, i.how)
    if how not in OF_128:
        i.line.fail(f'{i.how} of i128')
    function, turned = OF_128[how]
    found = call(function, right, left) if i.how in swapped else call(function, left, right)
    return opposite(found) if turned else found


def compare_vectors(i, of, left, right):
    if i.how == 'slt' and of == Vector(16, 8) and i.operands[1][1] == Zero():
        return call('bytes16_negative', left)
    if i.how != 'ne' or of not in TYPES:
        i.line.fail(f'{i.how} of {of}')
    return call(f'{TYPES[of]}_differ', left, right)


def compare_doubles(i, left, right):
    if i.how in ORDERED:
        return Expression(f'{left} {ORDERED[i.how]} {right}', BINARY, [left, right])
    if i.how not in UNORDERED:
        i.line.fail(f'{i.how} of doubles')
    return Expression(f'!({left} {UNORDERED[i.how]} {right})', UNARY, [left, right])


# ------------------------------------------------------------------------------------------------------------- conversions

def zext(to, of, e):
    if to == 128:
        return call('u128_of', Expression('0'), e)
    return e if of in ODD_WIDTHS else cast(TYPES[to], e)


def sext(to, of, e):
    if of == Vector(64, 1):
        return e.call('bytes64_of')
    return cast(TYPES[to], Expression(f'{e} ? {number(-1, to)} : 0', CHOICE, [e]))


def trunc(to, of, e):
    if of == 128:
        e = e.call('u128_low')
    if to == 1:
        return Expression(f'({e} & 1) != 0', BINARY, [e], opposite=f'({e} & 1) == 0')
    if to in ODD_WIDTHS:
        return Expression(f'{e} & {number(-1, to)}', BINARY, [e])
    return e if of == 128 and to == 64 else cast(TYPES[to], e)


def bitcast(to, of, e):
    return {16: e, 64: e.call('bits_of'), 'double': e.call('double_of')}[to]


CONVERSIONS = {
    'zext': (zext, lambda to, of: of in (1, *WIDTHS) and to in (*WIDTHS, 128) or of in ODD_WIDTHS and to == 64),
    'sext': (sext, lambda to, of: of == 1 and to in WIDTHS or (to, of) == (Vector(64, 8), Vector(64, 1))),
    'trunc': (trunc, lambda to, of: of in (*WIDTHS, *ODD_WIDTHS, 128) and to in (1, *WIDTHS) or of == 64 and to in ODD_WIDTHS),
    'bitcast': (bitcast, lambda to, of: (to, of) in ((16, Vector(16, 1)), (64, 'double'), ('double', 64))),
    'uitofp': (lambda to, of, e: cast('double', e), lambda to, of: to == 'double' and of in WIDTHS),
    'ptrtoint': (lambda to, of, e: cast('uint64_t', cast('uintptr_t', e)), lambda to, of: to == 64),
    'inttoptr': (lambda to, of, e: cast('byte *', cast('uintptr_t', e)), lambda to, of: of == 64),
}
CONVERSIONS['ptrtoaddr'] = CONVERSIONS['ptrtoint']


def convert(i, e):
    function, known = CONVERSIONS[i.op]
    of = i.operands[0][0]
    if not known(i.type, of):
        i.line.fail(f'{i.op} from {of} to {i.type}')
    return function(i.type, of, e)


# ------------------------------------------------------------------------------------------------------------- the others

def select(i, condition, first, second):
    if i.type == 1 and second.text == 'false':
        return Expression(f'{condition} && {first}', BINARY, [condition, first])
    if i.type == 1 and first.text == 'true':
        return Expression(f'{condition} || {second}', BINARY, [condition, second])
    found = Expression(f'{condition} ? {first} : {second}', CHOICE, [condition, first, second])
    return cast(TYPES[i.type], found) if first.literal and second.literal and i.type != 1 else found


def address(i, base, index=None):
    if index is None:
        return plus(base, i.offset, i.inbounds)
    anywhere = call('at', base.anywhere, index)
    if not i.inbounds or base.text == 'NULL':
        return anywhere
    return Expression(f'inside({base.text}, {index.text})', ATOM, [base, index], anywhere=anywhere)


def access(i, of, alignment):
    """The end of the name of a function that reads or writes this type."""
    names = {40: ('40u', 1), 48: ('48u', 1), 56: ('56u', 1), 'ptr': ('ptr', 8), 'double': ('double', 8), 128: ('128', 8),
             Vector(16, 8): ('bytes16', 1), Vector(64, 8): ('bytes64', 1)}
    if of not in names and of not in WIDTHS:
        i.line.fail(f'an access to memory of type {of}')
    name, wanted = names.get(of) or (str(of), of // 8)
    return name if alignment >= wanted else name + 'u'


def load(i, pointer):
    return call(f'load{access(i, i.type, i.alignment)}', pointer, reads=True)


def freeze(i, e):
    """One value, also of memory that was never written: C could have another one at each use."""
    if isinstance(i.operands[0][1], (Number, Zero, Real)):
        return e
    if isinstance(i.type, Struct):
        return call(f'{c_type(i.type)}_of', *[frozen(i, of, Expression(f'{e}.f{k}', ATOM, [e])) for k, of in enumerate(i.type.fields)])
    return frozen(i, i.type, e)


def frozen(i, of, e):
    if of not in (1, *WIDTHS, *ODD_WIDTHS, 128, 'ptr', 'double'):
        i.line.fail(f'freeze of {of}')
    return call(f'frozen{64 if of in ODD_WIDTHS else of}', e)


def extractvalue(i, e):
    return Expression(f'{e}.f{i.index}', ATOM, [e])


PURE = dict.fromkeys(SIGNS, binary)
PURE.update(dict.fromkeys(CONVERSIONS, convert))
PURE.update(icmp=compare, fcmp=compare_doubles, select=select, getelementptr=address, load=load, extractvalue=extractvalue,
            freeze=freeze)
PURE['shufflevector'] = lambda i, e: call('bytes64_part', e, Expression(str(i.part)))


# Intrinsics: for which types, and of how many of their operands. The last one of some says only what is not asked of them.
INTRINSICS = {'umin': (WIDTHS, 2), 'umax': (WIDTHS, 2), 'smax': (WIDTHS, 2), 'usub.sat': ((*WIDTHS, 128), 2), 'uadd.sat': (WIDTHS, 2),
              'cttz': ((64,), 1), 'ctlz': ((64,), 1), 'bswap': ((64,), 1), 'abs': ((64,), 1), 'fshl': ((32,), 3)}


def intrinsic(i, *operands):
    """The expression of a call of an intrinsic that changes nothing, or None."""
    name = getattr(i.callee, 'name', '')
    kind, _, suffix = name.removeprefix('llvm.').rpartition('.')
    if not name.startswith('llvm.'):
        return None
    if kind == 'arithmetic.fence' and i.type == 'double':
        return operands[0]                              # `rounded` has done it
    if name == 'llvm.umul.with.overflow.i64':
        return call('umul_with_overflow64', *operands)
    types, count = INTRINSICS.get(kind, ((), 0))
    if i.type not in types or suffix != f'i{i.type}':
        return None
    return call('u128_sub_sat' if i.type == 128 else f'{kind.replace(".", "_")}{i.type}', *operands[:count])
