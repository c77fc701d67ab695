"""The statements of a function.

Each block comes in the braces of its immediate dominator. One that a single jump comes to stands where that jump is. One that
several come to has a label, and follows; a jump that stands just before it is left out. A loop is `for (;;)`; blocks that it
leaves for stand behind it. A block that only returns stands wherever a jump comes to it.

A value that is used once is written where it is used, if that is in its block. One that reads memory is written before memory
may change. Each other one gets a variable, which nothing sets again but for those of phis. A jump sets these, as if at once."""
# SPDX-License-Identifier: MIT OR Apache-2.0
import re
from collections import namedtuple

from translator import expressions
from translator.expressions import PURE, Expression, access, c_type, call, cast, intrinsic, literal, number, plus, variable
from translator.instructions import names_in
from translator.lines import AddressOf, Global, Local, Number, Offset, Parts, Real, Struct, Zero
from translator.statements import Statement, branch

# Where control goes from the end of a list of statements, and where `continue` and `break` go.
Context = namedtuple('Context', 'after again leave')
LONGEST = 110                                           # characters of an expression that waits for its use

TRAP = Expression('TRAP()')


def is_trap(i):
    return i.op == 'call' and i.callee == Global('llvm.trap')


def is_optional(i):
    """Whether nothing is lost without it if nothing uses its value. An atomic load also orders what follows it."""
    return i.op in PURE and not (i.op == 'load' and (i.order or i.volatile)) or i.op in ('phi', 'alloca', 'insertvalue', 'ignored')


class Writer:
    def __init__(self, function, names, constants, words=(), any_value=()):
        """`any_value`: of functions of the module, the places of arguments that may be any value, poison too."""
        self.any_value = dict(any_value)
        self.words = words if len(words) == len(function.parameters) else ()
        self.function, self.flow, self.names, self.constants = function, function.flow, names, constants
        self.values = {}                                # the expression of each value
        self.waiting = {}                               # those of this block that are written where they are used
        self.phis = {}
        self.types = {}                                 # of the variables
        self.memory = []                                # of the stack: name, size and alignment
        self.moved = set()                              # blocks that stand behind a loop that they are no part of
        self.parameters = []
        self.uses = self.count_uses()

    def body(self):
        for k, parameter in enumerate(self.function.parameters):
            e = variable(self.words[k]) if self.words else self.new(parameter.of)
            self.values[parameter.name] = e
            self.parameters.append(e.text)
        if self.flow.entry in self.flow.loops:
            self.function.line.fail('the first block is in a loop')
        return self.tree(self.flow.entry, Context(None, None, None))

    # ---- values

    def count_uses(self):
        """The blocks that use each value, once for each use. What a phi uses is used by the jump to it."""
        found = [(label, i) for label in self.flow.order for i in self.function.blocks[label]]
        definitions = {i.name: (label, i) for label, i in found}
        found = [(label, i) for label, i in found if not is_optional(i)]
        uses = {}
        while found:
            label, i = found.pop()
            incoming = [(before, value.name) for before, value in getattr(i, 'incoming', {}).items() if isinstance(value, Local)]
            for where, name in incoming or [(label, name) for name in i.uses()]:
                if where in self.flow.at:
                    if name not in uses and name in definitions and is_optional(definitions[name][1]):
                        found.append(definitions[name])
                    uses.setdefault(name, []).append(where)
        return uses

    def new(self, of):
        """A new variable. Its letter says what it is."""
        letter = {'ptr': 'p', 1: 'b', 'double': 'd'}.get(of, 's' if isinstance(of, Struct) else 'n')
        name = f'{letter}{len(self.types) + 1}'
        self.types[name] = of
        return variable(name)

    def phi(self, i):
        if i.name not in self.phis:
            self.phis[i.name] = self.values[i.name] = self.new(i.type)
        return self.phis[i.name]

    def value(self, of, value):
        """The expression of an operand. One that waited does so no longer."""
        if isinstance(value, Local):
            self.waiting.pop(value.name, None)
            return self.values[value.name]
        if isinstance(value, Number):
            return literal(number(value.number, of))
        if isinstance(value, Real):
            return Expression(f'double_of({number(value.bits, 64)})')
        if isinstance(value, Zero):
            return self.zero(of)
        if isinstance(value, Global):
            # A struct's address needs an operator, that of an array or a function none.
            sign = '&' if value.name in self.constants and isinstance(self.constants[value.name].of, Struct) else ''
            middle = '' if value.name in self.constants else '(uintptr_t)'
            found = Expression(f'(byte *){middle}{sign}{self.names[value.name]}', expressions.UNARY)
            found.room = getattr(getattr(self.constants.get(value.name), 'of', None), 'length', -1)
            return found
        if isinstance(value, Offset):
            return plus(self.value('ptr', value.base), value.offset)
        if isinstance(value, AddressOf):
            return cast('uint64_t', cast('uintptr_t', self.value('ptr', value.base)))
        if isinstance(value, Parts) and isinstance(of, Struct):
            return call(f'{c_type(of)}_of', *[self.value(of, part) for of, part in value.values])
        return self.function.line.fail(f'the value {value}')

    def zero(self, of):
        if isinstance(of, Struct):
            return call(f'{c_type(of)}_of', *[self.zero(field) for field in of.fields])
        if isinstance(of, int):
            return literal(number(0, of))
        known = {'ptr': 'NULL', 'double': '0.0', expressions.Vector(16, 8): 'bytes16_zero()'}
        if of not in known:
            self.function.line.fail(f'a zero of type {of}')
        return Expression(known[of])

    def settle(self, i, e, out):
        """Keeps the expression of a value for its use, or gives it a variable."""
        uses = self.uses.get(i.name, [])
        if re.fullmatch(r'\w+(\.f\d)?' if i.op != 'getelementptr' else r'\w+( [+-] \d+)?', e.text):
            self.values[i.name] = e
        elif len(uses) == 1 and uses[0] == self.label and len(e.text) <= LONGEST:
            self.values[i.name] = e
            self.waiting[i.name] = i
        elif uses:
            self.let(i, e, out)

    def let(self, i, e, out):
        self.values[i.name] = self.new(i.type)
        out.append(Statement('set', e if self.is_accessed(i) else e.anywhere, self.values[i.name].text))

    def operand(self, i, place):
        """The expression of an operand. An address that C adds up has to be inside its object, so it is if the module says so."""
        e = self.value(*i.operands[place])
        return e if self.is_access(i, place) else e.anywhere

    def is_access(self, i, place):
        """Whether the module is wrong if this operand is the address of no object: it is read or written there."""
        if i.op == 'call' and isinstance(i.callee, Global):
            if i.callee.name.startswith('llvm.mem'):
                return place < 2 and getattr(i.operands[2][1], 'number', 0) > 0
            return place not in self.any_value.get(i.callee.name, ())
        return place == 0 and i.op in ('load', 'store', 'atomicrmw', 'getelementptr') or i.op == 'ret' and self.function.noundef

    def is_accessed(self, i):
        """Whether the block goes on to read or write at this address, or at one that is added up from it."""
        block = self.function.blocks[self.label]
        names = {i.name}
        for other in block[block.index(i) + 1:]:
            if any(self.is_access(other, place) for place, (_, value) in enumerate(other.operands) if names.intersection(names_in(value))):
                if other.op != 'getelementptr':
                    return True
                names.add(other.name)
            if other.op == 'call' and not getattr(other.callee, 'name', '').startswith('llvm.'):
                return False                            # it may not return
        return False

    def before_a_change(self, out):
        """What waits, and reads memory, is written now."""
        for name, i in list(self.waiting.items()):
            if self.values[name].reads:
                del self.waiting[name]
                self.let(i, self.values[name], out)

    # ---- instructions

    def straight(self, label):
        """The statements of a block, but for its last instruction."""
        out = []
        self.label = label
        for i in self.function.blocks[label][:-1]:
            if i.op == 'phi' and i.name in self.uses:
                self.phi(i)
            elif i.name in self.uses or not is_optional(i):
                self.instruction(i, [self.operand(i, place) for place in range(len(i.operands))], out)
        return out

    def instruction(self, i, operands, out):
        changes = i.op not in PURE or i.op == 'load' and (i.order or i.volatile)
        e = intrinsic(i, *operands) if i.op == 'call' else None if changes else PURE[i.op](i, *operands)
        if e is not None:
            self.settle(i, e, out)
        elif i.op == 'insertvalue':
            self.settle(i, self.insertvalue(i, *operands), out)
        elif i.op == 'alloca':
            self.alloca(i)
        else:
            if i.op not in EFFECTS:
                i.line.fail(f'nothing is known of {i.op} here')
            self.before_a_change(out)
            e = EFFECTS[i.op](self, i, *operands)
            if i.type == 'void':
                out.append(Statement('do', e))
            elif i.name in self.uses:
                self.let(i, e, out)
            else:
                out.append(Statement('do', cast('void', e)))

    def alloca(self, i):
        if self.label != self.flow.entry:
            i.line.fail('an alloca that is not in the first block')
        name = self.new('ptr').text
        self.memory.append((name, max(i.size, 1), i.alignment))
        self.values[i.name] = variable(name)
        self.values[i.name].room = i.size

    def insertvalue(self, i, whole, part):
        of = i.type
        if isinstance(i.operands[0][1], Zero):
            fields = [self.zero(field) for field in of.fields]
        else:
            fields = [Expression(f'{whole}.f{k}', expressions.ATOM, [whole]) for k in range(len(of.fields))]
        fields[i.index] = part
        return call(f'{c_type(of)}_of', *fields)

    def store(self, i, pointer, e):
        of = i.operands[1][0]
        if i.order:
            return call(self.atomic(i, 'store', of), pointer, e, Expression(f'ORDER_{i.order}'))
        if isinstance(of, expressions.Vector):
            i.line.fail('a store of a vector')
        return call(f'store{access(i, of, i.alignment)}', pointer, e)

    def load(self, i, pointer):
        if i.order:
            return call(self.atomic(i, 'load', i.type), pointer, Expression(f'ORDER_{i.order}'))
        if i.type != 8:
            i.line.fail('a volatile load of more than a byte')
        return call('load8_volatile', pointer)

    def atomicrmw(self, i, pointer, e):
        return call(self.atomic(i, 'exchange', i.type), pointer, e, Expression(f'ORDER_{i.order}'))

    @staticmethod
    def atomic(i, what, of):
        if of not in (8, 64) or i.alignment * 8 < of:
            i.line.fail(f'an atomic of type {of}, aligned to {i.alignment}')
        return f'atomic_{what}{of}'

    def barrier(self, *_):
        return Expression('BARRIER()')

    def call(self, i, *operands):
        if isinstance(i.callee, Local):
            *operands, pointer = operands
            types = ', '.join(c_type(of) for of, _ in i.operands[:-1]) or 'void'
            function = f'(({c_type(i.type)} (*)({types}))(uintptr_t){pointer})'
            return Expression(f'{function}({", ".join(e.text for e in operands)})', expressions.ATOM, [pointer, *operands])
        name = i.callee.name
        if is_trap(i):
            return TRAP
        moves = re.fullmatch(r'llvm\.(memset|memcpy|memmove)\.(p0\.)+i64', name)
        if moves and i.operands[3][1] == Number(0):     # not volatile
            size = operands[2] if isinstance(i.operands[2][1], Number) else cast('size_t', operands[2])
            return call(moves.group(1), *operands[:2], size)
        if name.startswith('llvm.'):
            i.line.fail(f'unknown intrinsic {name}')
        return call(self.names[name], *operands)

    # ---- blocks

    def tree(self, label, context):
        """The statements of a block and of all that it dominates."""
        waiting, self.waiting = self.waiting, {}
        behind = self.behind(label)
        self.moved.update(behind)
        inner = context
        if label in self.flow.loops:
            inner = Context(label, label, behind[0] if behind else context.after)
        out = self.straight(label)
        following = [c for c in self.flow.below[label] if not self.stands_alone(label, c)]
        following.sort(key=self.flow.at.get)
        out += self.ending(label, inner._replace(after=following[0] if following else inner.after))
        if out:
            out[0].begins = [label]
        out += self.sequence(following, inner)
        if label in self.flow.loops:
            out = [Statement('loop', name=label, bodies=(out,)), *self.sequence(behind, context)]
        self.waiting = waiting
        return out

    def sequence(self, labels, context):
        return [Statement('block', name=label, bodies=(self.tree(label, context._replace(after=after)),))
                for label, after in zip(labels, [*labels[1:], context.after])]

    def behind(self, header):
        """The blocks that stand behind a loop: those that its blocks dominate, and that are no part of it."""
        loop = self.flow.loops.get(header, ())
        found = [c for label in loop for c in self.flow.below[label]
                 if c not in loop and c not in self.moved and not self.is_end(c) and not (label != header and self.is_small(c))]
        return sorted(found, key=self.flow.at.get)

    def stands_alone(self, label, target):
        """Whether a block does not stand behind that which dominates it."""
        return target in self.moved or self.is_end(target) or self.stands_in(label, target)

    def stands_in(self, label, target):
        """Whether a block stands where the jump to it is."""
        return self.flow.before[target] == [label] and target not in self.flow.loops and target not in self.moved

    def is_small(self, label):
        return len(self.flow.before[label]) == 1 and not self.flow.below[label] and len(self.function.blocks[label]) <= 6

    def is_end(self, label):
        *others, last = self.function.blocks[label]
        return last.op == 'ret' and all(i.op in ('phi', 'ignored') for i in others) \
            or last.op == 'unreachable' and all(map(is_trap, others))

    def jump(self, label, target, context):
        if self.is_end(target):
            return self.end(label, target)
        copies = self.copies(label, target)
        if self.stands_in(label, target):
            return copies + self.tree(target, context)
        if target == context.after:
            return copies
        kind = 'continue' if target == context.again else 'break' if target == context.leave else 'goto'
        return [*copies, Statement(kind, name=target)]

    def end(self, label, target):
        *others, last = self.function.blocks[target]
        if last.op == 'unreachable':
            return [Statement('do', TRAP)] * len(others) + [Statement('unreachable')]
        if not last.operands:
            return [Statement('return')]
        of, value = last.operands[0]
        for i in others:
            if value == Local(i.name):
                value = i.incoming[label]
        e = self.value(of, value)
        return [Statement('return', e if self.function.noundef else e.anywhere)]

    def copies(self, label, target):
        """What a jump sets. One that another one reads is set after it."""
        phis = [i for i in self.function.blocks[target] if i.op == 'phi' and i.name in self.uses]
        left = [(self.phi(i).text, self.value(i.type, i.incoming[label]).anywhere) for i in phis]
        left = [(name, e) for name, e in left if name != e.text]
        out = []
        while left:
            free = [(name, e) for name, e in left if not any(name in other.variables for to, other in left if to != name)]
            if not free:                                # each is read by another
                kept = [self.new(self.types[name]) for name, _ in left]
                out += [Statement('set', e, temporary.text) for temporary, (_, e) in zip(kept, left)]
                return out + [Statement('set', temporary, name) for temporary, (name, _) in zip(kept, left)]
            out.append(Statement('set', free[0][1], free[0][0]))
            left.remove(free[0])
        return out

    def ending(self, label, context):
        last = self.function.blocks[label][-1]
        operands = [self.operand(last, place) for place in range(len(last.operands))]
        if last.op == 'ret':
            return [Statement('return', *operands)]
        if last.op == 'unreachable':
            return [Statement('unreachable')]
        if last.op == 'switch':
            return self.switch(label, last, operands[0], context)
        if last.op != 'br':
            last.line.fail('an unknown end of a block')
        arms = [self.jump(label, target, context) for target in dict.fromkeys(last.to)]
        return branch(operands[0], *arms) if len(arms) == 2 else arms[0]

    def switch(self, label, last, e, context):
        """One of two numbers is a branch, if there is no third one."""
        cases = {target: [number(n, last.operands[0][0]) for n, to in last.cases.items() if to == target] for target in last.to}
        if self.is_unreachable(last.default) and [len(found) for found in cases.values()] == [1, 1, 0]:
            first, second, _ = last.to
            condition = Expression(f'{e} == {cases[first][0]}', expressions.BINARY, [e], opposite=f'{e} != {cases[first][0]}')
            return branch(condition, self.jump(label, first, context), self.jump(label, second, context))
        cases[last.default] = []
        if e.literal:
            e = cast(c_type(last.operands[0][0]), e)
        if last.operands[0][0] == 8 and '0' in next(iter(cases.values())):
            # An enum, whose first variant is the usual one: compilers are told, so that they ask for it first.
            e = e.call('MOSTLY_0')
        inner = context._replace(leave=None)
        return [Statement('switch', e, bodies=[self.jump(label, target, inner) for target in cases], cases=list(cases.values()))]

    def is_unreachable(self, label):
        return self.function.blocks[label][0].op == 'unreachable'


EFFECTS = {op: getattr(Writer, op) for op in ('store', 'load', 'atomicrmw', 'barrier', 'call')}
