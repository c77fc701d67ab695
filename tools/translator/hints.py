"""What of the C stands for what of the module: for tools/validate, which shows with it that both do the same, and trusts none of it.

A line is `name NAME SYMBOL` for each function and constant, and then, for each function,

    function NAME
    at LINE BLOCK               a line of the function, counted from its head, that starts with what the block does first
    is VARIABLE VALUE           a variable holds a value of the module, wherever that is one"""
# SPDX-License-Identifier: MIT OR Apache-2.0
from translator.statements import within


class Hints:
    def __init__(self, writer):
        self.writer, self.lines, self.stands_for = writer, [], {}

    def line(self, statement, number):
        self.lines += [(number, label) for label in statement.begins]

    def merged(self, branch, names):
        """Its first arm stands for both, and for itself: `names` has those of the second one."""
        kept, removed = branch.bodies
        for one, other in zip(within(kept), within(removed)):
            one.begins += other.begins
        kept[0].begins += branch.begins
        self.stands_for.update(names)

    def variable(self, name):
        while name in self.stands_for:
            name = self.stands_for[name]
        return name

    def text(self, name, first):
        """`first`: where the first line stands, behind that of the head."""
        variables = {*self.writer.types, *self.writer.parameters}
        held = [(self.variable(e.text), value) for value, e in self.writer.values.items() if e.text in variables]
        return [f'function {name}', *[f'at {first + number} {label}' for number, label in self.lines],
                *[f'is {variable} {value}' for variable, value in held]]


def write(path, made):
    with open(path, 'w', encoding='utf-8') as file:
        file.write('\n'.join([*[f'name {name} {symbol}' for symbol, name in made.names.items() if not symbol.startswith('llvm.')], *made.hints]) + '\n')
