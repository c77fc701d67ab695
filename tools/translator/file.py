"""A whole file of C: what is by hand (tools/portable), and the module's structs, constants and functions."""
# SPDX-License-Identifier: MIT OR Apache-2.0
import re
from collections import namedtuple

from translator.apart import apart
from translator.blocks import Writer
from translator.expressions import WIDTHS, declared, struct_name
from translator.fields import Fields
from translator.layout import Layout
from translator.lines import Array, Bytes, Global, Offset, Parts, Struct, Unknown, Zero
from translator.names import TOP, Names, Source, path_of, read

# What the files are: the prefix of the module's names and of those that it declares, the crates that it is made from, the
# functions that stand in the second place, those that a macro leaves out, in how many pieces it can be compiled, whose code is
# in them, and what stands where.
Kind = namedtuple('Kind', 'prefix outside crates second smooth pieces title licence parts')
STRUCTS, PLACES, FUNCTIONS, SECOND = 'structs', '/* Where fields lie in the types of the crates: facts/layout.toml. */', 'functions', 'second functions'
NOWHERE = '$.'
PIECE = '#if !defined PIECE || PIECE == {}'     # OWN is `static`, or what a piece shares with the others (tools/portable/program_os.h)
LICENCE_TAG = 'SPDX-License' + '-Identifier'   # in two parts: what reads licences doesn't take it for this file's
LICENCE = '(MIT OR Apache-2.0) AND MIT AND BSD-3-Clause AND LicenseRef-Rattle-libraries'
# Before the headers of C: what they show of POSIX then is all of it, and offsets in files have 64 bits.
SHOWN = """#ifndef _GNU_SOURCE
#define _GNU_SOURCE 1           /* realpath, pread and others are hidden under -std=c99 */
#endif
#ifndef _FILE_OFFSET_BITS
#define _FILE_OFFSET_BITS 64    /* and offsets in files may have the bits of pointers */
#endif"""
# The calls of a smooth wheel, out of line. With TIMERS_NO_SMOOTH none is made (tools/portable/headers.h).
SMOOTH = [f'timer_wheels::tiered::smooth_calls::{call}_smooth' for call in ('start', 'stop', 'restart', 'tick', 'quiet')] \
    + [f'timer_wheels::smooth::SmoothWheelWheel::{call}' for call in ('reserve', 'advance', 'clear', 'next_deadline')]
KINDS = {
    'timers': Kind('tm_', '', ('timer_c', 'timer_desk_c'), 'timers_(desk|line)_', SMOOTH, 1,
                   'The library: the functions of timers.h and timers_desk.h.', LICENCE,
                   ('prelude.h', 'headers.h', STRUCTS, PLACES, 'operations.h', 'heap.h', FUNCTIONS, 'timers_api.h',
                    '#ifndef TIMERS_NO_DESK', 'atomics.h', SECOND, 'desk_api.h', '#endif')),
    'program': Kind('tp_', 'os_', ('timer_program',), NOWHERE, [], 16, 'The program `timers`.', LICENCE + ' AND Unicode-3.0',
                    (SHOWN, 'prelude.h', STRUCTS, 'operations.h', 'wide.h', 'atomics.h', 'program_os.h', 'heap.h', FUNCTIONS,
                     PIECE.format(0), 'program_main.h', '#endif')),
    'test': Kind('c_', '', (), NOWHERE, [], 1, 'A test.', 'MIT OR Apache-2.0',
                 ('prelude.h', STRUCTS, 'operations.h', 'wide.h', 'atomics.h', FUNCTIONS)),
}


class File:
    def __init__(self, kind, module):
        self.kind, self.module = KINDS[kind], module
        self.names = Names(self.kind.prefix, [*module.constants, *[f.name for f in module.functions]])
        for name in module.declared:
            self.names[name] = name if name.startswith('rattle_') else self.kind.outside + name
        self.order, self.hints, self.exported = Order(module), [], {}
        self.any_value = {f.name: {place for place, p in enumerate(f.parameters) if not p.noundef} for f in module.functions}
        self.own = 'OWN' if self.kind.pieces > 1 else 'static'
        self.smooth = [name for path in self.kind.smooth for name in self.out_of_line(path)]

    def out_of_line(self, path):
        """The function's names in the module: one, or two if the library and the desk pass it other arguments. Its code isn't
        copied to where it is called."""
        found = [f for f in self.module.functions if '::'.join(path_of(f.name)) == path]
        if not found or not all('noinline' in f.attributes for f in found):
            raise Unknown(f'{len(found)} functions {path}, and one is wanted that is out of line')
        return [f.name for f in found]

    def text(self):
        first, second = self.order.parted(self.kind.second)
        self.inlined = self.order.inlined(first) if self.kind.second != NOWHERE else ()
        made = {STRUCTS: self.structs(), PLACES: PLACES, FUNCTIONS: self.constants() + '\n' + self.functions(first), SECOND: self.functions(second)}
        parts = [made[part] if part in made else part if part.startswith('#') else by_hand(part) for part in self.kind.parts]
        head = f'/* {self.kind.title} Made by tools/generate: do not edit. NOTICE has whose code is in it.\n * {LICENCE_TAG}: {self.kind.licence} */'
        text = '\n'.join([head, *without_unused(parts)]) + '\n'
        return self.with_names(text) if PLACES in self.kind.parts else text

    def with_names(self, text):
        """The text with names of fields in place of offsets. The hints have the same variables."""
        fields = Fields(self.kind.prefix, text, self.exported)
        text, self.hints = apart(*fields.written(self.hints))
        return text.replace(PLACES, '\n'.join([PLACES, 'enum {', ',\n'.join(map(wrapped, fields.constants())), '};']))

    def functions(self, names):
        """The functions, the called ones before those that call them. Those that call each other are declared before, and all are
        if they stand in pieces."""
        made = [self.function(self.order.functions[name]) for name in names]
        texts = [text for _, text in made]
        heads = [f'{head};' for name, (head, _) in zip(names, made) if self.kind.pieces > 1 or name in self.order.recursive]
        return '\n'.join(heads + (texts if self.kind.pieces == 1 else in_pieces(texts, self.kind.pieces)))

    def function(self, function):
        """The head and the text of a function. A call of the API is `static inline`: one function by hand calls it."""
        source = Source(function.name, self.kind.crates)
        if source.types is not None:
            self.exported[self.names[function.name]] = source.types
        writer = Writer(function, self.names, self.module.constants, source.words, self.any_value)
        try:
            layout = Layout(writer, writer.body())
            lines = layout.lines
            parameters = ', '.join(declared(p.of, name) for p, name in zip(function.parameters, writer.parameters)) or 'void'
        except KeyError as error:
            function.line.fail(f'nothing is known of {error}')
        kind = 'COLD ' if 'cold' in function.attributes else 'NOINLINE ' if 'noinline' in function.attributes else ''
        if function.name in self.smooth:
            kind, lines = 'SMOOTH ', ['\tNO_CALL();', *lines]
        if not kind:
            is_api = not function.internal and self.kind.pieces == 1
            kind = 'inline ' if is_api else 'ALWAYS_INLINE ' if function.name in self.inlined else ''
        self.hints += layout.hints.text(self.names[function.name], 2 + len(lines) - len(layout.lines))
        head = f'{self.own} {kind}{declared(function.type, self.names[function.name])}({parameters})'
        return head, '\n'.join(['', *comment(source.contract), f'/* {source.text} */', head, '{', *lines, '}'])

    def structs(self):
        """What functions return two values in."""
        found = {struct_name(of): of for of in self.module.structs}
        lines = []
        for name, of in sorted(found.items()):
            fields = [declared(field, f'f{k}') for k, field in enumerate(of.fields)]
            sets = ' '.join(f'v.f{k} = f{k};' for k in range(len(fields)))
            lines += [f'typedef struct {{ {" ".join(field + ";" for field in fields)} }} {name};',
                      f'INLINE {name} {name}_of({", ".join(fields)}) {{ {name} v; {sets} return v; }}']
        return '\n'.join(lines)

    def constants(self):
        return '\n'.join(self.constant(constant) for constant in self.module.constants.values())

    def constant(self, constant):
        """An array of numbers, or a struct of arrays of bytes and pointers to others. Each piece has a constant for itself, if its
        address says nothing; another stands in one of them, and so does what changes."""
        shared = self.kind.pieces > 1 and not (constant.constant and constant.unnamed)
        words = f'{self.own if shared or not constant.constant else "static"} {"const " * constant.constant}ALIGN({constant.alignment}) '
        name = self.names[constant.name]
        if isinstance(constant.of, Array):
            head = f'{words}byte {name}[{max(constant.of.length, 1)}]'
            return self.placed(head, self.initial(constant, constant.of, constant.value), shared)
        if not isinstance(constant.of, Struct) or not isinstance(constant.value, Parts):
            constant.line.fail(f'a constant of type {constant.of}')
        fields, values, place = [], [], 0
        for k, (of, value) in enumerate(constant.value.values):
            if of != 'ptr' and not isinstance(of, Array) or of == 'ptr' and place % 8:
                constant.line.fail('a field that is no array, or a pointer that is not aligned')
            place += 8 if of == 'ptr' else of.length
            fields.append(f'POINTER f{k};' if of == 'ptr' else f'byte f{k}[{of.length}];')
            values.append(self.pointed(constant, value) if of == 'ptr' else self.initial(constant, of, value))
        of, lines = f'struct {{ {" ".join(fields)} }}', ',\n'.join('\t' + value for value in values)
        if not shared:
            return self.placed(f'{words}{of} {name}', f'{{\n{lines}\n}}', False)
        return of.replace('struct', f'struct of_{name}', 1) + ';\n' + self.placed(f'{words}struct of_{name} {name}', f'{{\n{lines}\n}}', True)

    @staticmethod
    def placed(head, value, shared):
        return f'{PIECE.format(0)}\n{head} = {value};\n#else\nextern {head};\n#endif' if shared else f'{head} = {value};'

    def pointed(self, constant, value):
        """A pointer, which takes 8 bytes in memory."""
        offset = value.offset if isinstance(value, Offset) else 0
        base = value.base if isinstance(value, Offset) else value
        if not isinstance(base, Global) or base.name not in self.module.constants:
            constant.line.fail('a pointer to what is no constant')
        return f'AT((const byte *)&{self.names[base.name]} + {offset})'

    @staticmethod
    def initial(constant, of, value):
        """The bytes of an array."""
        if of.element != 8 or not isinstance(value, (Bytes, Zero)):
            constant.line.fail('a constant that is no array of bytes')
        return wrapped(f'{{ {", ".join(map(str, value.numbers)) if isinstance(value, Bytes) else 0} }}')


def comment(lines):
    """The lines as a comment."""
    return [f'{" *" if place else "/*"} {line}'.rstrip() + ' */' * (place == len(lines) - 1) for place, line in enumerate(lines)]


class Order:
    """The functions of a module, the called ones first, and those that are called before they stand: some call each other."""

    def __init__(self, module):
        self.functions = {function.name: function for function in module.functions}
        self.calls = {name: list(dict.fromkeys(n for n in function.globals if n in self.functions))
                      for name, function in self.functions.items()}
        self.names, self.recursive, self.open = [], set(), set()
        for name in self.functions:
            self.visit(name)

    def visit(self, name):
        if name in self.open and name not in self.names:
            self.recursive.add(name)
        if name not in self.open:
            self.open.add(name)
            for other in self.calls[name]:
                self.visit(other)
            self.names.append(name)

    def parted(self, second):
        """The names, and apart from them what only functions need that have names as `second`."""
        first = set()
        found = [name for name, function in self.functions.items() if not function.internal and not re.match(second, name)]
        while found:
            name = found.pop()
            if name not in first:
                first.add(name)
                found += self.calls[name]
        return [name for name in self.names if name in first], [name for name in self.names if name not in first]

    def inlined(self, names):
        """Those without a loop that only calls of the API call: most of a call's time is in them."""
        callers = {name: [other for other, called in self.calls.items() if name in called] for name in names}
        return {name for name, found in callers.items() if found and not self.functions[name].flow.loops
                and not any(self.functions[other].internal for other in found)}


def in_pieces(texts, count):
    """The texts as lines that are compiled apart: none has more lines than need be."""
    sizes = [text.count('\n') + 1 for text in texts]
    most = max(sizes, default=0)
    while len(filled(sizes, most)) > count:
        most += 1
    lines = []
    for number, piece in enumerate(filled(sizes, most)):
        lines += ['\n' + PIECE.format(number), *[texts[place] for place in piece], '#endif']
    return lines


def filled(sizes, most):
    """The places of the sizes in parts one after another, each filled up to the most that it may have."""
    parts, left = [], 0
    for place, size in enumerate(sizes):
        if size > left:
            parts.append([])
            left = most
        parts[-1].append(place)
        left -= size
    return parts


def wrapped(text):
    """A long line, broken after commas."""
    lines = []
    while len(text) > 120 and ', ' in text[:120]:
        at = text.rindex(', ', 0, 120) + 1
        lines.append(text[:at])
        text = '\t' + text[at + 1:]
    return '\n'.join([*lines, text])


# ------------------------------------------------------------------------------------------------------ what is by hand

INLINE = re.compile(r'^INLINE [^\n(]*?\b(\w+)\([^\n]*\)(?: \{[^\n]*\}\n|\n\{\n.*?\n\}\n)', re.M | re.S)


def by_hand(name):
    """A file of tools/portable. A function of uintN_t is written for each width of which there is no other."""
    text = read(f'{TOP}/tools/portable/{name}')
    names = {function.group(1) for function in INLINE.finditer(text)}

    def written(function):
        if 'uintN_t' not in function.group():
            return function.group()
        for_widths = [re.sub(r'N(?=\b|_|u\b)', str(bits), function.group()) for bits in WIDTHS]
        return ''.join(found for found in for_widths if INLINE.match(found).group(1) not in names)
    return INLINE.sub(written, text)


def without_unused(parts):
    """The parts without the inline functions that nothing calls."""
    functions = {}
    for part in parts:
        for function in INLINE.finditer(part):
            functions.setdefault(function.group(1), []).append(function.group())
    rest = [INLINE.sub('', part) for part in parts]
    used, found = set(), set(re.findall(r'\w+', ' '.join(rest)))
    while found:
        used |= found
        found = set(re.findall(r'\w+', ' '.join(text for name in found for text in functions.get(name, ())))) - used
    texts = [INLINE.sub(lambda function: function.group() if function.group(1) in used else '', part) for part in parts]
    return [re.sub(r'\n{3,}', '\n\n', text.rstrip('\n')) for text in texts]
