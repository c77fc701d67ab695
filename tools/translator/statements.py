"""Statements of C, as lists of these. Where control leaves a list at its end, what comes next is known to who wrote it."""
# SPDX-License-Identifier: MIT OR Apache-2.0
import re

from translator.expressions import opposite


class Statement:
    """`kind`: set, do, if, switch, loop, block, unreachable, or a jump: goto, continue, break, return. `e` is its expression,
    `name` the variable that is set or the label. `bodies` are the lists of statements in it: those of an `if` are two, those
    of a `switch` have their numbers in `cases`; the default has none."""

    def __init__(self, kind, e=None, name=None, bodies=(), cases=()):
        self.kind, self.e, self.name, self.bodies, self.cases = kind, e, name, bodies, cases
        self.begins = []                                # blocks of the module whose first statement it is


def ends(body):
    """Whether control never comes to the end of the list."""
    if not body:
        return False
    if body[-1].kind in ('if', 'block'):
        return all(ends(inner) for inner in body[-1].bodies)
    return body[-1].kind in ('goto', 'continue', 'break', 'return', 'unreachable')


def branch(e, then, other):
    """An `if`. What follows an arm that never comes to its end needs no braces."""
    if not then and not other:
        return []
    if not then:
        return [Statement('if', opposite(e), bodies=(other, []))]
    if other and ends(then) and (not ends(other) or len(then) <= len(other)):
        return [Statement('if', e, bodies=(then, [])), *other]
    if other and ends(other):
        return [Statement('if', opposite(e), bodies=(other, [])), *then]
    return [Statement('if', e, bodies=(then, other))]


def labels_wanted(body):
    """The labels that a goto names."""
    found = {s.name for s in body if s.kind == 'goto'}
    return found.union(*[labels_wanted(inner) for s in body for inner in s.bodies])


def splice(body, wanted):
    """Puts what is in blocks that no goto names in their place."""
    place = 0
    while place < len(body):
        s = body[place]
        if s.kind == 'block' and s.name not in wanted:
            body[place:place + 1] = s.bodies[0]
        else:
            for inner in s.bodies:
                splice(inner, wanted)
            place += 1


def within(body):
    """All statements of a list, and those that are in them."""
    for s in body:
        yield s
        for inner in s.bodies:
            yield from within(inner)


class Likeness:
    """Whether two lists of statements are the same but for the names of what is in each alone: `own` has the variables. Those
    that stand for each other have the same type: texts don't say in how many bits they are computed."""

    def __init__(self, lists, own, types):
        labels = [{s.name for s in within(body) if s.kind in ('block', 'loop')} for body in lists]
        self.own, self.types, self.pairs = {True: own, False: labels}, types, {True: ({}, {}), False: ({}, {})}
        self.found = self.lists(*lists)

    def names(self, one, other, variables):
        own = [name in names for name, names in zip((one, other), self.own[variables])]
        if not any(own):
            return one == other
        left, right = self.pairs[variables]
        alike = not variables or self.types[one] == self.types[other]
        return all(own) and alike and left.setdefault(one, other) == other and right.setdefault(other, one) == one

    def texts(self, one, other):
        words = [re.split(r'\b([a-z]\d+)\b', e.text if e else '') for e in (one, other)]
        return len(words[0]) == len(words[1]) and all(self.names(*pair, True) for pair in zip(*words))

    def lists(self, one, other):
        return len(one) == len(other) and all(
            a.kind == b.kind and a.cases == b.cases and len(a.bodies) == len(b.bodies) and self.names(a.name, b.name, a.kind == 'set')
            and self.texts(a.e, b.e) and all(map(self.lists, a.bodies, b.bodies)) for a, b in zip(one, other))
