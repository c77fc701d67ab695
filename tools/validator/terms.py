"""Terms: what values are, over what is not known of them. They are z3's, and z3 simplifies them."""
# SPDX-License-Identifier: MIT OR Apache-2.0
import operator

import z3

STEPS = 4000000                                         # of z3, some 4 s: it answers the same each time
TRUE, FALSE = z3.BoolVal(True), z3.BoolVal(False)
constant, leaf = z3.BitVecVal, z3.BitVec


def counted(name):
    """Of numbers other than 0 it is below 128, and that is all that is known."""
    return lambda x, _: z3.If(x == 0, constant(x.size(), x.size()), resized('zext', opaque(name, 7, x), x.size()))


# A shift by the width or more is undefined, and so may be any: that the C shifts by less is looked at apart.
OPERATIONS = {
    'add': operator.add, 'sub': operator.sub, 'mul': operator.mul, 'and': operator.and_, 'or': operator.or_,
    'xor': operator.xor, 'udiv': z3.UDiv, 'urem': z3.URem, 'sdiv': operator.truediv, 'srem': z3.SRem,
    'shl': lambda x, y: x << z3.URem(y, x.size()), 'lshr': lambda x, y: z3.LShR(x, z3.URem(y, x.size())),
    'ashr': lambda x, y: x >> z3.URem(y, x.size()),
    'eq': operator.eq, 'ne': operator.ne, 'ult': z3.ULT, 'ule': z3.ULE, 'ugt': z3.UGT, 'uge': z3.UGE,
    'slt': operator.lt, 'sle': operator.le, 'sgt': operator.gt, 'sge': operator.ge,
    'not': z3.Not, 'any': z3.Or, 'all': z3.And, 'implies': z3.Implies, 'concat': z3.Concat, 'ite': z3.If,
    'select': lambda bit, x, y: z3.If(bit == 1, x, y),
    'umin': lambda x, y: z3.If(z3.ULT(x, y), x, y), 'umax': lambda x, y: z3.If(z3.UGT(x, y), x, y),
    'smax': lambda x, y: z3.If(x > y, x, y),
    'usub.sat': lambda x, y: z3.If(z3.ULT(y, x), x - y, constant(0, x.size())),
    'uadd.sat': lambda x, y: z3.If(z3.ULT(x + y, x), constant(-1, x.size()), x + y),
    'cttz': counted('cttz'), 'ctlz': counted('ctlz'),
    'bswap': lambda x: z3.Concat([piece(x, place, 8) for place in range(0, x.size(), 8)])}


def simplified(term):
    return z3.simplify(term, bv_extract_prop=True)


def make(op, *of):
    return simplified(OPERATIONS[op](*of))


def opaque(name, width, *of):
    """Of what memory holds and of some operations only this is known, that they are functions."""
    return z3.Function(name, *[x.sort() for x in of], z3.BitVecSort(width))(*of)


def number(term):
    return term.as_long() if z3.is_bv_value(term) else None


def resized(op, term, width):
    """zext, sext or trunc."""
    if width <= term.size():
        return piece(term, 0, width)
    return simplified((z3.SignExt if op == 'sext' else z3.ZeroExt)(width - term.size(), term))


def piece(term, place, width):
    """A part of it, from a bit on."""
    return simplified(z3.Extract(place + width - 1, place, term)) if width < term.size() else term


def replaced(term, place, by):
    """The term with another part, from a bit on."""
    end = place + by.size()
    parts = [piece(term, end, term.size() - end)] if end != term.size() else []
    parts += [by, piece(term, 0, place)] if place else [by]
    return make('concat', *parts) if parts[1:] else by


class Facts:
    """What is true on a way: the conditions, and what they make known of terms."""

    def __init__(self, conditions=(), known=()):
        self.all, self.known = list(conditions), list(known)

    def under(self, condition):
        """These facts, and one more."""
        found, goal = Facts([*self.all, condition], self.known), z3.Goal()
        goal.add(condition)                             # takes it to pieces
        for part in goal:
            if z3.is_eq(part) and any(map(z3.is_bv_value, part.children())):
                found.known.append(tuple(sorted(part.children(), key=z3.is_bv_value)))
            elif not z3.is_false(part):
                found.known.append((part.arg(0), FALSE) if z3.is_not(part) else (part, TRUE))
        return found

    def put(self, term):
        """The term with what is known put in."""
        return simplified(z3.substitute(term, *self.known)) if self.known else term

    def same(self, a, b):
        return a.eq(b) or self.put(a).eq(self.put(b))

    def counterexample(self, condition):
        """Values with which it does not hold, though the facts do: None if there are none, and '' if z3 can't tell."""
        solver = z3.Solver()
        solver.set('rlimit', STEPS)
        solver.add(*self.all, z3.Not(condition))
        found = solver.check()
        return ' '.join(str(solver.model()).split())[:300] if found == z3.sat else None if found == z3.unsat else ''

    def holds(self, condition):
        found = self.put(condition)
        return z3.is_true(found) or not z3.is_false(found) and self.counterexample(condition) is None
