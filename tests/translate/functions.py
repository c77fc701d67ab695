"""Random functions for the translator, as text of LLVM: loops, switches, jumps out of both, memory, calls, numbers of all widths.

Many have twins: beside a loop, an arm or a case stands a copy of it, in which one width, sign, order, constant or operand is
another. Nothing in them is undefined: counts and addresses are masked, no divisor is 0, and all loops share some fuel."""
# SPDX-License-Identifier: MIT OR Apache-2.0
import random

from printer import ODD_WIDTHS, WIDTHS, Node, Own, Printer

CONSTANTS = (0, 1, 2, 3, 5, 7, 8, 63, 127, 128, 255, 256, 32767, 65535, 1 << 31, (1 << 31) - 1, 1 << 32, 1 << 40, (1 << 63) - 1, 1 << 63, -1, -2, -8)
BINARY = ('add', 'sub', 'mul', 'and', 'or', 'xor', 'shl', 'lshr', 'udiv', 'urem')
COMPARED = ('eq', 'ne', 'ult', 'ule', 'ugt', 'uge', 'slt', 'sle', 'sgt', 'sge')
INTRINSICS = ('umin', 'umax', 'usub.sat', 'uadd.sat')
ORDERED = ('olt', 'ole', 'ogt', 'oge', 'oeq', 'ult', 'ule', 'ugt', 'uge', 'une')
OTHERS = {'binary': BINARY, 'compare': COMPARED, 'least': INTRINSICS, 'double': ORDERED}

HEAD = f'''target datalayout = "e-m:e-i64:64-i128:128-n8:16:32:64-S128"
declare void @llvm.memset.p0.i64(ptr, i8, i64, i1)
declare void @llvm.memmove.p0.p0.i64(ptr, ptr, i64, i1)
declare {{ i64, i1 }} @llvm.umul.with.overflow.i64(i64, i64)
declare i64 @llvm.cttz.i64(i64, i1)
declare i64 @llvm.bswap.i64(i64)
declare i64 @outside(i64)
declare i64 @seen(ptr)
''' + ''.join(f'declare i{w} @llvm.{name}.i{w}(i{w}, i{w})\n' for name in INTRINSICS for w in WIDTHS)


class Maker:
    """Makes bodies of statements. `variables` and `labels` are those in scope; a loop's is second to say so."""

    def __init__(self, chance):
        self.chance, self.variables, self.labels = chance, [], []

    def pick(self, *weighted):
        """One of the pairs of a weight and a value."""
        return self.chance.choices([value for _, value in weighted], [weight for weight, _ in weighted])[0]

    def constant(self):
        return Node('constant', number=self.chance.choice(CONSTANTS))

    def leaf(self):
        return self.pick((3, lambda: Node('variable', own=self.chance.choice(self.variables[-5:]))), (1, self.constant))()

    def expression(self, depth=2):
        if depth == 0:
            return self.leaf()
        kind = self.pick((6, 'leaf'), (9, 'binary'), (3, 'load'), (2, 'choice'), (2, 'odd'), (1, 'wide'), (2, 'least'), (1, 'one'),
                         (1, 'freeze'), (1, 'product'), (1, 'double'), (1, 'bit'), (1, 'call'), (1, 'seen'))
        if kind == 'leaf':
            return self.leaf()
        counts = {'load': 1, 'choice': 2, 'odd': 1, 'one': 1, 'freeze': 1, 'bit': 0, 'call': 1, 'seen': 0}
        parts = [self.expression(depth - 1) for _ in range(counts.get(kind, 2))]
        if kind in ('choice', 'bit'):
            parts.insert(0, self.condition())
        words = {**OTHERS, 'wide': ('add', 'sub', 'mul', 'and', 'or', 'xor', 'shl', 'lshr'), 'one': ('cttz', 'bswap')}
        return Node(kind, *parts, word=self.chance.choice(words.get(kind, (None,))), number=self.number_of(kind))

    def number_of(self, kind):
        """Of a load and a store the width, of an odd number too; else what only some look at."""
        return self.chance.choice({'load': (*WIDTHS, *ODD_WIDTHS, 128), 'store': (*WIDTHS, *ODD_WIDTHS, 128), 'odd': ODD_WIDTHS}.get(kind, (0, 1)))

    def condition(self):
        return Node('compare', self.expression(1), self.leaf(), word=self.chance.choice(COMPARED))

    def body(self, depth, size=None):
        """Statements. What they declare is known in it alone."""
        known = len(self.variables)
        found = [self.statement(depth) for _ in range(size or self.chance.choice((1, 2, 2, 3, 4)))]
        if self.chance.random() < 0.15:
            found.append(self.jump())
        del self.variables[known:]
        return Node('body', *found)

    def jump(self):
        label, is_loop = self.chance.choice(self.labels)
        kind = self.pick((6, 'leave'), (3 * is_loop, 'again'), (1, 'give'))
        return Node(kind, self.leaf(), own=label)

    def statement(self, depth):
        kind = self.pick((2, 'local'), (3, 'read'), (5, 'set'), (1, 'swap'), (4, 'store'), (1, 'move'), (1, 'fill'), (1, 'atomic'), (1, 'maybe'),
                         (2, 'exit'), *((2, kind) for kind in ('branch', 'loop', 'scope', 'switch', 'twins', 'twins') if depth))
        if kind in ('local', 'read'):
            e = self.expression() if kind == 'local' else Node('load', self.leaf(), number=self.number_of('load'))
            made = Node('local', e, own=Own(self.chance.choice(WIDTHS)))
            self.variables.append(made.own)
            return made
        if kind == 'exit':
            return Node('branch', self.condition(), Node('body', *([self.statement(0)] if self.chance.random() < 0.3 else []), self.jump()))
        if kind in ('branch', 'loop', 'scope', 'switch', 'twins'):
            return getattr(self, kind)(depth - 1)
        if kind == 'swap':
            return Node(kind, *(Node('variable', own=self.chance.choice(self.variables)) for _ in range(2)))
        own = self.chance.choice(self.variables) if kind == 'set' else None
        return Node(kind, *(self.expression() for _ in range(2)), own=own, number=self.number_of(kind))

    def loop(self, depth, kind='loop'):
        label = Own()
        self.labels.append((label, kind == 'loop'))
        inner = self.body(depth)
        self.labels.pop()
        return Node(kind, inner, own=label)

    def branch(self, depth):
        return Node('branch', self.condition(), *(self.body(depth) for _ in range(self.chance.choice((1, 2)))))

    def scope(self, depth):
        return self.loop(depth, 'scope')

    def switch(self, depth):
        first = self.body(depth)
        bodies = [first, *(self.twin(first) if self.chance.random() < 0.4 else self.body(depth) for _ in range(self.chance.choice((1, 2, 3))))]
        numbers = self.chance.sample((0, 1, 2, 3, 4, 7, -1, 255), len(bodies) - 1)
        return Node('switch', self.leaf(), *bodies, word=numbers, number=self.chance.choice((1, 3, 7, -1)))

    def twins(self, depth):
        one = self.pick((2, self.body), (1, lambda depth: Node('body', self.loop(depth))))(depth)
        return Node('branch', self.condition(), one, self.twin(one))

    def twin(self, body):
        """A copy, seldom an exact one."""
        found = body.copy()
        if self.chance.random() < 0.85:
            change = None
            while not change:
                change = self.changes(self.chance.choice(list(found.within())))
            self.chance.choice(change)()
        return found

    def changes(self, node):
        """What can be another in a node."""
        def put(name, choices):
            others = [other for other in choices if other != getattr(node, name)]
            return [lambda: setattr(node, name, self.chance.choice(others))] if others else []
        if node.kind == 'local':
            return [lambda: setattr(node.own, 'width', self.chance.choice([w for w in WIDTHS if w != node.own.width]))]
        if node.kind == 'body' and len(node.parts) > 1 and node.parts[-1].kind not in ('leave', 'again', 'give'):
            return [lambda: node.parts.reverse()] if not any(part.kind == 'local' for part in node.parts) else []
        if node.kind in OTHERS:
            return put('word', OTHERS[node.kind]) + [lambda: node.parts.reverse()] * (node.kind == 'binary')
        if node.kind in ('load', 'store', 'odd'):
            return put('number', (*WIDTHS, *ODD_WIDTHS) if node.kind != 'odd' else ODD_WIDTHS)
        if node.kind in ('variable', 'set'):
            return put('own', self.variables)
        if node.kind == 'switch':
            return [lambda: node.word.__setitem__(0, 9)] if 9 not in node.word else []
        return put('number', CONSTANTS) if node.kind == 'constant' else []

    def function(self, name):
        self.variables = [Own(64), Own(64), Own(8), Own(32), Own(16)]
        first = list(self.variables)
        end = Own()
        self.labels = [(end, False)]
        body = Node('scope', self.body(self.chance.choice((1, 2, 3)), self.chance.choice((2, 3, 5))), own=end)
        return Printer(first).function(name, Node('body', body))


def module(seed, count):
    chance = random.Random(seed)
    return HEAD + ''.join(Maker(chance).function(f'f{number}') for number in range(count))
