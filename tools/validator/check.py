"""Whether a function of C, run along each way of the module's, does what the module does there, one by one."""
# SPDX-License-Identifier: MIT OR Apache-2.0
import copy

import z3

from validator.ir import Undecided, bytes_of, fail, places
from validator.machine import DIVISIONS, Effect, Source, Way, choices, effect_of, evaluated, is_aligned, pure, width
from validator.terms import FALSE, constant, leaf, make, number, piece, replaced, resized

LONGEST, DEEPEST = 20000, 8                             # instructions along a way, and conditions that it is split by


class Split(Exception):
    """A condition of which both cases have to be looked at, each alone."""


class Frame:
    """A call of a function of C: what its names are, and what its variables hold. `&v` is the address of a variable."""

    def __init__(self, function, values, depth=0):
        self.function, self.depth, self.values = function, depth, dict(values)
        for i in function.blocks[function.entry]:
            if i.op == 'alloca':
                address = f'&{i.name} {depth}'
                self.values.update({i.name: leaf(address, 64), address: leaf(f'unset {address}', 8 * bytes_of(i.of))})

    def value(self, of, value):
        return evaluated(of, value, lambda name: self.values[name] if name in self.values else fail(f'no %{name}'), {})

    def variable(self, address):
        """What holds the value of a variable, and how many bytes behind its beginning an address is, or None."""
        is_sum = z3.is_app_of(address, z3.Z3_OP_BADD) and address.num_args() == 2
        offset, base = address.children() if is_sum else (constant(0, 64), address)
        name, offset = base.decl().name(), number(offset)
        return (name, offset) if name[:1] == '&' and name in self.values and offset is not None else None

    def read(self, name, offset, bits):
        found = piece(self.values[name], 8 * offset, bits)
        part_of = found.arg(0) if z3.is_app_of(found, z3.Z3_OP_EXTRACT) else found
        return found if part_of.decl().name()[:5] != 'unset' else fail('a variable that is not set')

    def write(self, name, offset, term):
        self.values[name] = replaced(self.values[name], 8 * offset, term)

    def enter(self, label, target):
        """Sets the phis of a block. Gives it, and the place behind them."""
        phis = [i for i in self.function.blocks[target] if i.op == 'phi']
        self.values.update([(i.name, self.value(i.type, i.incoming[label])) for i in phis])
        return target, len(phis)


class Run:
    """The C's function, run along a way of the module's, up to the instruction `target`."""

    def __init__(self, check, way, target):
        self.check, self.way, self.facts, self.target = check, way, way.facts, target
        self.done, self.steps, self.choices = 0, 0, 0   # effects, instructions, and the choices that it is in

    def run(self, frame, label, place, stop=None):
        """Runs to the block `stop`, to the end, 'ret', or to the target, 'cut'. Gives which, and what is returned."""
        while label != stop:
            i = frame.function.blocks[label][place]
            # The module may have come to what is not defined: then all that it did before is done.
            ended = self.way.end[0] == 'unreachable' and self.done == len(self.way.effects)
            if frame.function is self.check.c and (ended or i is self.target and self.steps > 0):
                return 'cut', None
            self.steps = self.steps + 1 if self.steps < LONGEST else fail('the C runs too long')
            if i.op == 'ret':
                return 'ret', frame.value(*i.operands[0]) if i.operands else None
            if i.to:
                label, place = self.branch(frame, label, i)
            else:
                self.step(frame, i)
                place += 1
        return 'stop', None

    def branch(self, frame, label, i):
        """Follows the branch that is taken, or both where the way does not decide."""
        found = choices(i, [frame.value(*operand) for operand in i.operands])
        found = [(self.facts.put(condition), target) for condition, target in found]
        found = [both for both in found if not z3.is_false(both[0])] or fail('no branch is taken')
        # z3 answers for the function itself, whose sides may be long. What a helper chooses, the module chooses, too.
        for follow in (self.both, self.taken) if frame.depth else (self.taken, self.both):
            try:
                return follow(frame, label, found)
            except (Undecided, Split):
                pass
        raise Split(found[0][0])

    def taken(self, frame, label, found):
        target = next((target for condition, target in found if self.facts.holds(condition)), None)
        return frame.enter(label, target or fail('a branch that is open'))

    def both(self, frame, label, found):
        """Both sides of a branch, up to where they meet. They do nothing but set variables."""
        facts, sides = self.facts, [copy.copy(frame) for _ in found]
        meet = len(found) == 2 and frame.function.meet(label) or fail('no two ways that meet')
        self.choices += 1
        try:
            for side, (condition, target) in zip(sides, found):
                self.facts, side.values = facts.under(condition), dict(frame.values)
                if self.run(side, *side.enter(label, target), meet)[0] != 'stop':
                    fail('a way that ends in a choice')
        finally:
            self.choices, self.facts = self.choices - 1, facts
        one, other = (side.values for side in sides)
        frame.values = {name: x if x is other[name] else make('ite', found[0][0], x, other[name])
                        for name, x in one.items() if name in other}
        return meet, sum(i.op == 'phi' for i in frame.function.blocks[meet])

    def step(self, frame, i):
        operands = [frame.value(*operand) for operand in i.operands]
        helper = self.check.helpers.get(i.callee)
        if i.op == 'assume':
            self.must(make('eq', operands[0], constant(1, 1)), 'what the module does not say')
            self.aligned(operands[1:], i.aligns)
        elif helper:
            called = Frame(helper, zip([name for _, name in helper.parameters], operands), frame.depth + 1)
            frame.values[i.name] = self.run(called, helper.entry, 0)[1]
        elif i.op not in ('alloca', 'nothing'):
            frame.values[i.name] = self.found(frame, i, operands)

    def found(self, frame, i, operands):
        """The value of an instruction, once it has done what it does to variables or to memory."""
        to = frame.variable(operands[0]) if i.op in ('load', 'store', 'memcpy') else None
        source = frame.variable(operands[1]) if i.op == 'memcpy' else None
        if to and i.op == 'load':
            return resized('trunc', frame.read(*to, 8 * bytes_of(i.type)), width(i.type))
        if to and i.op == 'store':
            return frame.write(*to, resized('zext', operands[1], 8 * bytes_of(i.operands[1][0])))
        effect = effect_of(i, operands, self.check.c_names)
        if to or source:
            bits = 8 * (number(operands[2]) or fail('a copy of variables'))
            copied = frame.read(*source, bits) if source else self.load(operands[1], i.aligns[1], bits)
            if to:
                return frame.write(*to, copied)
            effect = Effect(('store', '', 0), [operands[0], copied], i.aligns[:1])
        if effect or i.op != 'load':
            return self.effect(i, effect) if effect else self.pure(i, operands)
        return self.load(operands[0], *i.aligns, width(i.type))

    # ---- what has to be as in the module, or defined in C

    def aligned(self, addresses, aligns):
        for address, align in zip(addresses, aligns):
            self.must(is_aligned(address, align), f'an alignment of {align} that the module does not say')

    def load(self, address, align, bits):
        """What the module reads there, too."""
        self.aligned([address], [align])
        loads = [(other, term) for done, other, term in self.way.loads if done == self.done and term.size() == bits]
        found = [term for other, term in loads if self.facts.same(address, other)] or \
            [term for other, term in loads if self.facts.holds(make('eq', address, other))]
        return found[0] if found else fail('the C reads what the module does not')

    def pure(self, i, operands):
        """The value of an instruction that C has to define."""
        if i.op in ('shl', 'lshr', 'ashr'):
            self.must(make('ult', operands[1], constant(i.type, i.type)), 'a shift by the width or more')
        if i.op in DIVISIONS:
            self.must(make('ne', operands[1], constant(0, i.type)), 'a division by 0')
        if i.op in ('sdiv', 'srem'):
            self.must(make('sge', operands[0], constant(0, i.type)), 'a division of what may be negative')
        if i.has_signs:
            exact = make(i.op, *[resized('sext', operand, 2 * i.type) for operand in operands])
            self.must(make('eq', exact, resized('sext', make(i.op, *operands), 2 * i.type)), 'ints that may overflow')
        return pure(i, *operands)

    def must(self, condition, what):
        """What has to be true in C. The module has relied on some of it before."""
        relied = [*self.check.arrays, *[known for done, known in self.way.relied if done <= self.done]]
        if not any(condition.eq(known) for known in relied):
            self.facts.holds(make('implies', make('all', *relied), condition)) or fail(what)

    def equal(self, a, b, what):
        """Fails unless they are the same: the module's comes first."""
        if a.size() != b.size():
            fail(f'{what}: {b.size()} bits in place of {a.size()}')
        values = None if self.facts.same(a, b) else self.facts.counterexample(make('eq', a, b))
        if values is not None:
            raise Undecided(f'differs: {what}, with {values}' if values else f'not decided: {what}: z3 does not know')

    def equal_as(self, of, a, b, what):
        """The same, as a type of the module. What is between the fields of a struct may be anything."""
        if not isinstance(of, tuple):
            return self.equal(resized('zext', a, b.size()) if a.size() < b.size() else a, b, what)
        for place, field in zip(places(of), of[1:]):
            self.equal(piece(a, 8 * place, width(field)), piece(b, 8 * place, width(field)), what)

    def effect(self, i, effect):
        if self.choices or self.done >= len(self.way.effects):
            fail(f'{effect.what} in C (line {i.line}), which the module does not do there')
        wanted = self.way.effects[self.done]
        what = f'effect {self.done + 1}, {wanted.what} (line {i.line})'
        if wanted.what != effect.what or len(wanted.operands) != len(effect.operands):
            fail(f'{what}: {effect.what} in C')
        self.aligned(effect.operands, effect.aligns)
        for a, b in zip(wanted.operands, effect.operands):
            self.equal(a, b, what)
        self.done += 1
        return wanted.result


class Check:
    """`at`: pairs of a block and the line that starts with what it does. `held`: pairs of a variable and a value."""

    def __init__(self, function, c, names, helpers, at, held):
        self.a, self.c, self.helpers, self.places = function, c, helpers, {}
        self.c_names = {name: name for name in names.values()}
        before = [target for block in function.blocks.values() for target in dict.fromkeys(block[-1].to)]
        for label, line in at:
            place = self.place(line + c.first_line)
            if place and before.count(label) > 1:       # where ways meet
                self.places.setdefault(label, place)
        self.source = Source(function, names, self.places)
        where, allocas = self.source.where, {i.name: i for i in c.blocks[c.entry] if i.op == 'alloca'}
        held = [(allocas.get(variable if value in where else f'{variable}.addr'), value) for variable, value in held]
        held = [(variable, value) for variable, value in held if variable and value in self.source.types]
        arrays = [(variable, where[value][1]) for variable, value in held if value in where]
        arrays = [(variable, i) for variable, i in arrays if i.op == 'alloca']
        for variable, other in arrays:
            is_alone = [i for _, i in arrays].count(other) == 1
            if bytes_of(other.of) > bytes_of(variable.of) or other.aligns > variable.aligns or not is_alone:
                fail(f'{variable.name} is another array')
        self.own = {variable.name: self.source.at_cut(other.name) for variable, other in arrays}
        self.arrays = [is_aligned(self.own[variable.name], *variable.aligns) for variable, _ in arrays]
        self.held = [(variable, value) for variable, value in held if variable.name not in self.own]

    def place(self, line):
        """The first instruction of a line. A jump to a line that is a loop has the line, too, and comes before."""
        found = [(i.op == 'br' and len(i.to) == 1, label, k) for label, block in self.c.blocks.items()
                 for k, i in enumerate(block) if i.line == line]
        return min(found, key=lambda place: place[0])[1:] if found else None

    def holding(self, cut):
        """Variables and what they hold at a cut if the hints are right: values that each way to it computes."""
        for variable, value in self.held:
            label, i = self.source.where.get(value, (None, None))
            if i is None or cut not in self.a.reached(self.a.entry, label) and (label != cut or i.op == 'phi'):
                yield variable, value

    def begin(self, cut):
        """The frame of C at a cut, or at the beginning, and where it goes on."""
        frame = Frame(self.c, {})
        frame.values.update(self.own)
        if cut is None:
            parameters = zip(self.c.parameters, self.a.parameters)
            frame.values.update((name, self.source.at_cut(value)) for (_, name), (_, value) in parameters)
            return frame, self.c.entry, 0
        # The first hint of a variable counts. What the others say is the same, as each way to the cut shows.
        for variable, value in reversed([*self.holding(cut)]):
            frame.write(f'&{variable.name} 0', 0, resized('zext', self.source.at_cut(value), 8 * bytes_of(variable.of)))
        return frame, *self.places[cut]

    def all(self):
        widths, in_c = ([width(f.type), *[width(of) for of, _ in f.parameters]] for f in (self.a, self.c))
        if widths != in_c:
            fail('the parameters, or the result')
        for cut in [None, *self.places]:
            ways = []
            self.source.walk(cut or self.a.entry, Way(self.source, cut), ways)
            for way in ways:
                self.way(way, 0)

    def way(self, way, depth):
        """Looks at a way, and at each case of it apart where the C has a branch that it has not."""
        try:
            self.case(way)
        except Split as split:
            if depth == DEEPEST:
                fail('too many cases')
            for condition in (split.args[0], make('not', split.args[0])):
                self.way(way.under(condition), depth + 1)
        except Undecided:
            if way.facts.counterexample(FALSE) is not None:       # what never happens may differ
                raise

    def case(self, way):
        kind, *what = way.end
        label, k = self.places[what[0]] if kind == 'cut' else (None, None)
        run = Run(self, way, self.c.blocks[label][k] if label else None)
        frame, *place = self.begin(way.cut)
        end, value = run.run(frame, *place)
        if run.done < len(way.effects):
            fail(f'effect {run.done + 1}, {way.effects[run.done].what}, is not in C')
        if kind != 'unreachable' and end != kind:
            fail(f'{kind} in the module, {end} in C')
        if kind == 'ret' and what:
            run.equal_as(self.a.type, what[0], value, 'the result')
        for variable, value in self.holding(what[0]) if kind == 'cut' else ():
            held = frame.read(f'&{variable.name} 0', 0, 8 * bytes_of(variable.of))
            run.equal_as(self.source.types[value], way.local(value), held, f'{variable.name}, %{value} at {what[0]}')


def verdict(function, module_of_c, names, hints):
    """What is found of a function of the module, of how many blocks it is, and at how many places both are compared.

    `names` are those in C of all that it names, `hints` what Check takes."""
    numbers = 0, 0
    helpers = {name: other for name, other in module_of_c.functions.items() if name not in names.values()}
    try:
        c = module_of_c.functions.get(names.get(function.name)) or fail('it is not in the C')
        check = Check(function, c, names, helpers, *hints)
        numbers = len(function.blocks), 1 + len(check.places)
        check.all()
        return 'same', *numbers
    except Undecided as error:
        return str(error), *numbers
    except z3.Z3Exception:                              # it refuses terms of two widths, for instance
        return 'not decided: z3 refuses a term', *numbers
