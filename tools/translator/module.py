"""A module: its functions with their blocks, and its globals."""
# SPDX-License-Identifier: MIT OR Apache-2.0
import re
from collections import namedtuple

from translator.flow import Flow
from translator.instructions import instruction, names_in
from translator.lines import Global, Line, Struct

# `unnamed`: whether nothing depends on its address, so that another with the same bytes may stand for it.
Constant = namedtuple('Constant', 'name of value alignment constant unnamed line')
Parameter = namedtuple('Parameter', 'name of noundef')
# Attributes that promise something, or are about how code is made, and those that Function looks at. The others are refused.
ATTRIBUTES = set('''alwaysinline cold hot inlinehint minsize mustprogress nobuiltin nocallback nocreateundeforpoison nofree
    noinline norecurse noreturn nosync nounwind optsize memory speculatable uwtable willreturn allockind allocsize alloc-family
    frame-pointer min-legal-vector-width no-trapping-math probe-stack rattle-sig stack-probe-size stack-protector-buffer-size target-cpu
    target-features tune-cpu'''.split())
LABEL = re.compile(r'("[^"]*"|[-\w.$]+):')


class Function:
    """`blocks`: the instructions of each, by the label, in the module's order. `flow`: which comes to which."""

    def __init__(self, line, groups):
        self.line = line
        line.want('define')
        self.internal = line.eat('internal')
        self.noundef = 'noundef' in line.attributes()
        self.type = line.type()
        self.name = line.name('globl')
        line.want('(')
        self.parameters = line.listed(')', self.parameter)
        line.attributes()
        self.attributes = groups[line.next()] if line.kind() == 'group' else []
        line.want('{')
        self.blocks = {}

    def parameter(self):
        of = self.line.type()
        noundef = 'noundef' in self.line.attributes()
        return Parameter(self.line.name('local'), of, noundef)

    def read(self, lines):
        label = None
        for line_number, text in lines:
            if text == '}':
                break
            found = LABEL.match(text)
            if found:
                label = found.group(1).strip('"')
            elif text.strip():
                if text.lstrip().startswith('switch '):         # the only one of more lines
                    while not text.rstrip().endswith(']') and not re.search(r'\](, !.*)?$', text):
                        text += ' ' + next(lines)[1].strip()
                if label is None:                               # the first block's, which is not written
                    label = str(sum(parameter.name.isdigit() for parameter in self.parameters))
                self.blocks.setdefault(label, []).append(instruction(Line(text, line_number)))
        self.flow = Flow(self)
        instructions = [i for block in self.blocks.values() for i in block]
        operands = [operand for i in instructions for operand in [*i.operands, (i.type, getattr(i, 'callee', None))]]
        operands += [(i.type, value) for i in instructions for value in getattr(i, 'incoming', {}).values()]
        self.globals = [name for _, value in operands for name in names_in(value, Global)]
        self.structs = {of for of, _ in [*operands, *[(i.type, None) for i in instructions]] if isinstance(of, Struct)}


def group(line):
    """The name and the words of a group of attributes. Each has to be known: some change what a function does."""
    line.want('attributes')
    name, words = line.next(), []
    line.want('=')
    line.want('{')
    while not line.eat('}'):
        words.append(line.next().strip('"'))
        if words[-1] not in ATTRIBUTES:
            line.fail(f'unknown attribute "{words[-1]}"')
        if line.eat('='):
            line.next()
        elif line.peek() == '(':
            line.skip_parentheses()
    line.ended()
    return name, words


def read_layout(line):
    """Little-endian, with pointers of 64 bits, and one space of addresses for code, constants and the stack."""
    parts = line.text.split('"')[1].split('-')
    if parts[0] != 'e' or any(re.match(r'[AGP]|p0?:(?!64:64)', part) for part in parts):
        line.fail('an unknown layout of data')


class Module:
    def __init__(self, text):
        self.functions, self.constants, self.declared, self.structs = [], {}, set(), set()
        groups = dict(group(Line(text, number)) for number, text in enumerate(text.split('\n'), 1) if text.startswith('attributes '))
        lines = enumerate(text.split('\n'), 1)
        for number, text in lines:
            if not text.strip() or text.startswith((';', 'source_filename', 'attributes ', '!', 'target triple')):
                continue
            line = Line(text, number)
            if text.startswith('target datalayout = '):
                read_layout(line)
            elif text.startswith('@'):
                self.read_constant(line)
            elif text.startswith('declare '):
                line.next()
                line.attributes()
                line.type()
                self.declared.add(line.name('globl'))
            elif text.startswith('define '):
                function = Function(line, groups)
                function.read(lines)
                self.functions.append(function)
                self.structs |= function.structs
            else:
                line.fail('unknown')

    def read_constant(self, line):
        name = line.name('globl')
        line.want('=')
        if not (line.eat('private') or line.eat('internal')):
            line.fail('a global that others see')
        unnamed = line.peek() in ('unnamed_addr', 'local_unnamed_addr')
        line.attributes()
        constant = line.peek() == 'constant'
        if line.next() not in ('constant', 'global'):
            line.fail('an unknown global')
        of, value = line.typed()
        alignment = line.alignment()
        line.ended()
        self.constants[name] = Constant(name, of, value, alignment, constant, unnamed, line)

