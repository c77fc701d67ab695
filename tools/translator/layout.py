"""The text of a function. Each variable is declared where it is set first, or else at the beginning of the innermost braces
that hold all its uses. No goto jumps over a declaration that sets something, so that it is C++, too."""
# SPDX-License-Identifier: MIT OR Apache-2.0
import re

from translator.expressions import declared, opposite
from translator.hints import Hints
from translator.statements import Likeness, ends, labels_wanted, splice, within

EFFECT = re.compile(r'\b(?!load)\w+\(')            # a call of anything but what reads memory


class Layout:
    def __init__(self, writer, body):
        self.types, self.lines, self.hints = writer.types, [], Hints(writer)
        self.of = writer.function.type
        self.labels = {label: None for label in labels_wanted(body)}
        splice(body, self.labels)
        self.fixed = {*writer.parameters, *[name for name, _, _ in writer.memory]}
        self.note_all(body)
        while self.join(body) or self.drop(body):
            self.note_all(body)
        for name, size, alignment in writer.memory:
            self.lines.append(f'\tALIGN({alignment}) byte {name}[{size}];')
        self.here = {}
        for name in sorted(self.scopes, key=lambda name: int(name[1:])):
            self.here.setdefault(id(self.scopes[name][-1]), []).append(name)
        self.body(body, '\t')

    def join(self, body):
        """Puts one arm of an `if` in its place, where both do the same. Whether there was one."""
        for place, s in enumerate(body):
            if s.kind == 'if' and all(s.bodies):
                own = [{name for name, path in self.scopes.items() if any(arm is one for one in path)} for arm in s.bodies]
                likeness = Likeness(s.bodies, own, self.types)
                if likeness.found:
                    self.hints.merged(s, likeness.pairs[True][1])
                    body[place:place + 1] = s.bodies[0]
                    return True
            if any(map(self.join, s.bodies)):
                return True
        return False

    def drop(self, body):
        """Drops what reads a variable that nothing asks for: one that chose between two arms that are one now. Whether there was one."""
        wanted = {name for s in within(body) if s.e for name in s.e.variables} | self.fixed
        for one in [body, *[inner for s in within(body) for inner in s.bodies]]:
            for place, s in enumerate(one[:-1]):
                if s.kind == 'set' and s.name not in wanted and not EFFECT.search(s.e.text):
                    one[place + 1].begins += s.begins
                    del one[place]
                    return True
        return False

    def note_all(self, body):
        self.scopes = {}                                # of each variable: the bodies that hold all of it, outermost first
        self.firsts = {}                                # what names it first
        self.note_scopes(body, (body,))
        self.scopes = {name: path for name, path in self.scopes.items() if name not in self.fixed}

    def note_scopes(self, body, path):
        for s in body:
            named = sorted(s.e.variables) if s.e else []
            for name in [*named, s.name] if s.kind == 'set' else named:
                found = self.scopes.setdefault(name, path)
                self.scopes[name] = tuple(one for one, other in zip(found, path) if one is other)
                self.firsts.setdefault(name, s)
            for inner in s.bodies:
                self.note_scopes(inner, (*path, inner))

    def body(self, body, indent):
        """A list of statements, after the declarations of its variables that are not declared where they are set."""
        reached = self.reached(body)
        places = {id(s): place for place, s in enumerate(body)}
        plain, setting = {}, set()
        for name in self.here.get(id(body), ()):
            s = self.firsts[name]
            place = places.get(id(s))
            if s.kind == 'set' and s.name == name and name not in s.e.variables and place is not None \
                    and not any(first < place < last for first, last in reached):
                setting.add(id(s))
            else:
                plain.setdefault(declared(self.types[name], ''), []).append(name)
        for start, names in plain.items():
            star = '*' if start.endswith('*') else ''
            self.lines.append(f'{indent}{start.rstrip(" *")} {", ".join(star + name for name in names)};')
        for s in body:
            self.statement(s, indent, id(s) in setting)

    def reached(self, body):
        """Pairs of places in a list: a goto in the first one leads to the second."""
        found = []
        for place, s in enumerate(body):
            if s.kind == 'block':
                found += [(first, place) for first, other in enumerate(body[:place]) if s.name in labels_wanted([other])]
        return found

    def statement(self, s, indent, declares=False):
        write = {'loop': self.labelled, 'block': self.labelled, 'if': self.branch, 'switch': self.switch}.get(s.kind)
        if write:
            write(s, indent)
        else:
            self.hints.line(s, len(self.lines))
            self.lines.append(f'{indent}{self.simple(s, declares)};')

    def simple(self, s, declares):
        if s.kind == 'set':
            return f'{declared(self.types[s.name], s.name) if declares else s.name} = {s.e.text}'
        if s.kind == 'do':
            return s.e.text
        if s.kind == 'goto':
            return f'goto {self.label(s.name)}'
        if s.kind == 'unreachable':
            return 'UNREACHABLE()'
        return f'{s.kind} {s.e.text}' if s.e else s.kind

    def label(self, label):
        if not self.labels[label]:
            self.labels[label] = f'L{sum(map(bool, self.labels.values())) + 1}'
        return self.labels[label]

    def labelled(self, s, indent):
        """A loop, or a block that a goto comes to. A label may be that of both."""
        body = s.bodies[0]
        if s.name in self.labels and not (body and body[0].kind == 'loop' and body[0].name == s.name):
            self.lines.append(f'{self.label(s.name)}:' if body else f'{self.label(s.name)}: ;')
        if s.kind == 'block':
            if body:
                self.braces('{', body, indent)
        elif body and body[0].kind == 'if' and [[inner.kind for inner in arm] for arm in body[0].bodies] == [['break'], []]:
            self.hints.line(body[0], len(self.lines))
            self.braces(f'while ({opposite(body.pop(0).e).text}) {{', body, indent)
        else:
            self.braces('for (;;) {', body, indent)

    def braces(self, head, body, indent):
        self.lines.append(indent + head)
        self.body(body, indent + '\t')
        self.lines.append(indent + '}')

    def branch(self, s, indent, word='if'):
        then, other = s.bodies
        self.hints.line(s, len(self.lines))
        if word == 'if' and not other and len(then) == 1 and not then[0].bodies and id(then) not in self.here:
            self.lines.append(f'{indent}if (RARE({s.e.text}))' if self.is_refusal(then[0]) else f'{indent}if ({s.e.text})')
            self.statement(then[0], indent + '\t')
            return
        self.lines.append(f'{indent}{word} ({s.e.text}) {{')
        self.body(then, indent + '\t')
        if not other:
            self.lines.append(indent + '}')
        elif len(other) == 1 and other[0].kind == 'if' and id(other) not in self.here:
            self.branch(other[0], indent, '} else if')
        else:
            self.braces('} else {', other, indent)

    def is_refusal(self, s):
        """Whether it returns a status other than 0: a call is seldom refused. It only tells a compiler which way is the short one."""
        return self.of == 32 and s.kind == 'return' and re.fullmatch(r'[1-9]\d*', s.e.text)

    def switch(self, s, indent):
        self.hints.line(s, len(self.lines))
        self.lines.append(f'{indent}switch ({s.e.text}) {{')
        for numbers, body in zip(s.cases, s.bodies):
            self.lines += [f'{indent}case {number}:' for number in numbers] or [f'{indent}default:']
            self.lines[-1] += ' {'
            self.body(body, indent + '\t')
            if not ends(body):
                self.lines.append(f'{indent}\tbreak;')
            self.lines.append(indent + '}')
        self.lines.append(indent + '}')
