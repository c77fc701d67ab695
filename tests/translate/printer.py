"""Writes a function of functions.py as text of LLVM."""
# SPDX-License-Identifier: MIT OR Apache-2.0
WIDTHS = (8, 16, 32, 64)
ODD_WIDTHS = (40, 48, 56)
ROOM = 128                                              # bytes that a function reads and writes


class Own:
    """A variable with its width, or the label of a loop or of a scope."""

    def __init__(self, width=None):
        self.width = width


class Node:
    """A statement or an expression: `parts` are those in it. `own` is what it declares or names, `word` and `number` say more."""

    def __init__(self, kind, *parts, own=None, word=None, number=0):
        self.kind, self.parts, self.own, self.word, self.number = kind, list(parts), own, word, number

    def within(self):
        yield self
        for part in self.parts:
            yield from part.within()

    def copy(self):
        """The same with variables and labels of its own, but for those that stand outside of it."""
        fresh = {node.own: Own(node.own.width) for node in self.within() if node.kind in ('local', 'loop', 'scope')}

        def copied(node):
            return Node(node.kind, *map(copied, node.parts), own=fresh.get(node.own, node.own), word=node.word, number=node.number)
        return copied(self)


class Printer:
    """Writes a function. Variables are on the stack: passes make values and phis of them."""

    def __init__(self, first):
        self.first, self.lines, self.stack, self.zeros, self.names, self.count, self.open = first, [], [], [], {}, 0, True

    def put(self, text):
        """An instruction with a value, whose name it returns."""
        self.count += 1
        self.lines.append(f'  %v{self.count} = {text}')
        return f'%v{self.count}'

    def do(self, text):
        self.lines.append(f'  {text}')

    def name(self, own):
        if own not in self.names:
            self.names[own] = f'x{len(self.names)}'
            if own.width:
                self.stack.append(f'  %{self.names[own]} = alloca i{own.width}, align 8')
                # No value is undefined, whichever way is taken to a use.
                self.zeros.append(f'  store i{own.width} 0, ptr %{self.names[own]}, align 8')
        return self.names[own]

    def label(self):
        self.count += 1
        return f'l{self.count}'

    def jump(self, label):
        if self.open:
            self.do(f'br label %{label}')
        self.open = False

    def place(self, label):
        self.jump(label)
        self.lines.append(f'{label}:')
        self.open = True

    # ---- expressions: each returns its text and its width

    def convert(self, found, width):
        text, of = found
        if of == width:
            return text
        return self.put(f'{"zext" if width > of else "trunc"} i{of} {text} to i{width}')

    def value(self, node, width=None):
        """The value, of the width if there is one. A constant has that, or is of 64 bits."""
        if node.kind == 'constant':
            width = width or 64
            number = node.number & ((1 << width) - 1)
            return (('false', 'true')[number] if width == 1 else str(number - (number >> width - 1 << width))), width
        found = getattr(self, node.kind)(node, *node.parts)
        return (self.convert(found, width), width) if width else found

    def both(self, left, right):
        """Two operands of one width: that of the first that is no constant."""
        of = next((self.value(node) for node in (left, right) if node.kind != 'constant'), (None, 64))
        values = []
        for node in (left, right):
            values.append(of[0] if of[0] and of[0] not in values and node.kind != 'constant' else self.value(node, of[1])[0])
        return values, of[1]

    def variable(self, node):
        return self.put(f'load i{node.own.width}, ptr %{self.name(node.own)}, align 8'), node.own.width

    def binary(self, node, left, right, word=None):
        (a, b), of = self.both(left, right)
        if of == 1:
            return self.put(f'{("and", "or", "xor")[node.number + (node.word < "m")]} i1 {a}, {b}'), 1
        if node.word in ('shl', 'lshr'):
            b = self.put(f'and i{of} {b}, {of - 1}') if right.kind != 'constant' else str(right.number % of)
        if node.word in ('udiv', 'urem'):
            b = self.put(f'or i{of} {b}, 1')
        return self.put(f'{node.word} i{of} {a}, {b}'), of

    def compare(self, node, left, right):
        (a, b), of = self.both(left, right)
        return self.put(f'icmp {node.word if of > 1 else ("eq", "ne")[node.word > "sl"]} i{of} {a}, {b}'), 1

    def least(self, node, left, right):
        (a, b), of = self.both(left, right)
        if of == 1:
            return a, 1
        return self.put(f'call i{of} @llvm.{node.word}.i{of}(i{of} {a}, i{of} {b})'), of

    def choice(self, node, condition, left, right):
        c = self.value(condition, 1)[0]
        (a, b), of = self.both(left, right)
        return self.put(f'select i1 {c}, i{of} {a}, i{of} {b}'), of

    def bit(self, node, condition):
        return self.put(f'{("zext", "sext")[node.number]} i1 {self.value(condition, 1)[0]} to i32'), 32

    def freeze(self, node, part):
        text, of = self.value(part)
        return self.put(f'freeze i{of} {text}'), of

    def odd(self, node, part):
        text = self.put(f'trunc i64 {self.value(part, 64)[0]} to i{node.number}')
        return self.put(f'zext i{node.number} {text} to i64'), 64

    def wide(self, node, left, right):
        a, b = (self.put(f'zext i64 {self.value(part, 64)[0]} to i128') for part in (left, right))
        a = self.put(f'shl i128 {a}, 31')
        b = self.put(f'and i128 {b}, 127') if node.word in ('shl', 'lshr') else b
        whole = self.put(f'{node.word} i128 {a}, {b}')
        return self.put(f'trunc i128 {self.put(f"lshr i128 {whole}, 29")} to i64'), 64

    def one(self, node, part):
        more = ', i1 false' if node.word == 'cttz' else ''
        return self.put(f'call i64 @llvm.{node.word}.i64(i64 {self.value(part, 64)[0]}{more})'), 64

    def product(self, node, left, right):
        read = self.put('load i64, ptr %m, align 1')    # passes know nothing of it: they make no constant of the pair
        a, b = (self.put(f'or i64 {self.value(part, 64)[0]}, {other}') for part, other in ((left, '2'), (right, read)))
        pair = self.put(f'call {{ i64, i1 }} @llvm.umul.with.overflow.i64(i64 {a}, i64 {b})')
        return self.put(f'extractvalue {{ i64, i1 }} {pair}, {node.number}'), (64, 1)[node.number]

    def double(self, node, left, right):
        a, b = (self.put(f'uitofp i32 {self.value(part, 32)[0]} to double') for part in (left, right))
        a = self.put(f'fmul double {a}, 3.000000e-01')
        return self.put(f'fcmp {node.word} double {a}, {b}'), 1

    def call(self, node, part):
        return self.put(f'call i64 @outside(i64 {self.value(part, 64)[0]})'), 64

    def seen(self, node):
        return self.put('call i64 @seen(ptr %m)'), 64

    def address(self, node):
        """A place in the room, with 16 bytes behind it."""
        place = self.put(f'and i64 {self.value(node, 64)[0]}, 63')
        near = self.put(f'getelementptr {"inbounds " * (node.number & 1)}i8, ptr %m, i64 {place}')
        return self.put(f'getelementptr inbounds i8, ptr {near}, i64 {(0, 8, 1, 40)[node.number & 3]}')

    def load(self, node, part):
        text = self.put(f'load i{node.number}, ptr {self.address(part)}, align 1')
        return (text, node.number) if node.number in WIDTHS else (self.convert((text, node.number), 64), 64)

    # ---- statements

    def body(self, _, *parts):
        for part in parts:
            if self.open:
                getattr(self, part.kind)(part, *part.parts)

    def set(self, node, part, *_):
        text = self.value(part, node.own.width)[0]
        self.do(f'store i{node.own.width} {text}, ptr %{self.name(node.own)}, align 8')

    local = set

    def swap(self, _, one, other):
        values = [self.value(node) for node in (one, other)]
        for node, found in zip((other, one), values):
            self.do(f'store i{node.own.width} {self.convert(found, node.own.width)}, ptr %{self.name(node.own)}, align 8')

    def store(self, node, place, part):
        width = node.number
        text = self.value(part, width if width not in ODD_WIDTHS else 64)[0]
        text = self.convert((text, 64), width) if width in ODD_WIDTHS else text
        self.do(f'store i{width} {text}, ptr {self.address(place)}, align 1')

    def move(self, node, one, other):
        size = self.put(f'and i64 {self.value(other, 64)[0]}, 15')
        self.do(f'call void @llvm.memmove.p0.p0.i64(ptr {self.address(one)}, ptr {self.address(other)}, i64 {size}, i1 false)')

    def fill(self, node, one, other):
        self.do(f'call void @llvm.memset.p0.i64(ptr {self.address(one)}, i8 {self.value(other, 8)[0]}, i64 {(16, 3)[node.number]}, i1 false)')

    def atomic(self, node, place, part):
        """An exchange, whose old value is stored beside, between a store and a load that are atomic."""
        text = self.value(part, 64)[0]
        offset = self.put(f'and i64 {self.value(place, 64)[0]}, 56')
        address = self.put(f'getelementptr inbounds i8, ptr %m, i64 {offset}')
        old = self.put(f'atomicrmw xchg ptr {address}, i64 {text} seq_cst, align 8')
        loaded = self.put(f'load atomic i64, ptr {address} acquire, align 8')
        self.do(f'store atomic i64 {self.put(f"add i64 {old}, {loaded}")}, ptr {address} release, align 8')

    def maybe(self, node, one, other):
        """An address behind one that may be null, which is asked for before it is read twice."""
        null = self.put(f'icmp ult i64 {self.value(one, 64)[0]}, 9')
        pointer = self.put(f'select i1 {null}, ptr null, ptr %m')
        place = self.put(f'and i64 {self.value(other, 64)[0]}, 63')
        field = self.put(f'getelementptr inbounds i8, ptr {pointer}, i64 8')
        far = self.put(f'getelementptr inbounds i8, ptr {field}, i64 {place}')
        then, out = self.label(), self.label()
        self.do(f'br i1 {self.put(f"icmp eq ptr {pointer}, null")}, label %{out}, label %{then}')
        self.lines.append(f'{then}:')
        old = self.put(f'load i64, ptr {far}, align 1')
        self.do(f'store i64 {self.put(f"add i64 {old}, 1")}, ptr {far}, align 1')
        self.place(out)

    def branch(self, _, condition, *bodies):
        c, labels, end = self.value(condition, 1)[0], [self.label() for _ in bodies], self.label()
        self.do(f'br i1 {c}, label %{labels[0]}, label %{(labels + [end])[1]}')
        self.open = False
        for label, body in zip(labels, bodies):
            self.lines.append(f'{label}:')
            self.open = True
            self.body(body, *body.parts)
            self.jump(end)
        self.place(end)

    def switch(self, node, part, default, *bodies):
        text, of = self.value(part)
        if of == 1:
            text, of = self.convert((text, 1), 8), 8
        text = self.put(f'and i{of} {text}, {node.number}') if node.number > 0 else text
        labels, end = [self.label() for _ in (default, *bodies)], self.label()
        numbers = dict(zip((self.value(Node('constant', number=n), of)[0] for n in node.word), labels[1:]))
        self.do(f'switch i{of} {text}, label %{labels[0]} [\n' + ''.join(f'    i{of} {n}, label %{to}\n' for n, to in numbers.items()) + '  ]')
        for label, body in zip(labels, (default, *bodies)):
            self.open = False
            self.place(label)
            self.body(body, *body.parts)
            self.jump(end)
        self.place(end)

    def loop(self, node, body):
        head, go, end = f'{self.name(node.own)}.again', self.label(), f'{self.name(node.own)}.leave'
        self.place(head)
        fuel = self.put('load i64, ptr %fuel, align 8')
        self.do(f'br i1 {self.put(f"icmp eq i64 {fuel}, 0")}, label %{end}, label %{go}')
        self.lines.append(f'{go}:')
        self.do(f'store i64 {self.put(f"sub i64 {fuel}, 1")}, ptr %fuel, align 8')
        self.body(body, *body.parts)
        self.jump(head)
        self.place(end)

    def scope(self, node, body):
        self.body(body, *body.parts)
        self.place(f'{self.name(node.own)}.leave')

    def leave(self, node, _):
        self.jump(f'{self.name(node.own)}.leave')

    def again(self, node, _):
        self.jump(f'{self.name(node.own)}.again')

    def give(self, _, part):
        self.do(f'ret i64 {self.value(part, 64)[0]}')
        self.open = False

    def function(self, name, body):
        for number, own in enumerate(self.first):
            text = ('%a', '%b', '%c')[number] if number < 3 else self.convert(('%b', 64), own.width)
            self.do(f'store i{own.width} {text}, ptr %{self.name(own)}, align 8')
        self.body(body, *body.parts)
        if self.open:
            hashes = [self.value(Node('variable', own=own), 64)[0] for own in self.first]
            total = hashes[0]
            for one in hashes[1:]:
                total = self.put(f'add i64 {self.put(f"mul i64 {total}, 31")}, {one}')
            self.do(f'ret i64 {self.put(f"xor i64 {total}, {self.seen(None)[0]}")}')
        return '\n'.join([f'define i64 @{name}(i64 %a, i64 %b, i8 %c) {{', f'  %m = alloca [{ROOM} x i8], align 16',
                          '  %fuel = alloca i64, align 8', *self.stack, *self.zeros, '  store i64 40, ptr %fuel, align 8',
                          f'  call void @llvm.memset.p0.i64(ptr %m, i8 3, i64 {ROOM}, i1 false)', *self.lines, '}', ''])
