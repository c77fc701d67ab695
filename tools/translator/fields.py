"""Names for what is at an offset, where facts/layout.toml and the exports of the crates say it.

A pointer that a call of the API gets has a type. From there a pointer has one that is loaded from a typed one, that is the address
of a part or of a row of one, or that each call passes as an argument. A variable that is set to pointers of two types has none, and
an offset with no field stays a number: a name is given where all ways agree. The code is the same, since names are constants."""
# SPDX-License-Identifier: MIT OR Apache-2.0
import functools
import re
import tomllib

from translator.lines import Unknown
from translator.names import TOP, read

# A function: the path in its crate, its name, its parameters and its lines.
FUNCTION = re.compile(r'^/\* (\S+?)(?:: \S+)? \*/\nstatic [^\n;]*?\b(\w+)\(([^\n]*)\)\n\{\n(.*?)^\}$', re.M | re.S)
CALL = re.compile(r'(\w*)\(([^()]*)\)')                 # an innermost one: while a line is read, @0@ stands for what was read first
SET = re.compile(r'(\t+(?:\w+ \*?)?)(\w+) = (.*);')
ANY, NONE = 'any', None                                 # a pointer's type is not known yet, or never
with open(f'{TOP}/facts/layout.toml', 'rb') as opened:
    TYPES = tomllib.load(opened)


@functools.cache
def fields(of):
    """Of each field of a type its place, its name and what is there; and the size."""
    (name, _, parameter), found, place = of.partition(' '), [], 0
    for text in TYPES[name].split(', '):
        field, _, what = text.strip().partition(' ')
        bits, _, count = what.partition('x')
        what = re.sub(r'\bN$', parameter, what).strip()
        part = int(bits) // 8 if bits.isdigit() else 8
        place = -(-place // part) * part
        found.append((place, field, what))
        place += fields(what)[1] if what[:1].isalpha() else part * int(count or 1)
    return found, -(-place // 8) * 8


@functools.cache
def chain(of, place):
    """The types that a place is in, from the outermost in, with where it is in each. A part that begins there comes with its name."""
    found = [(of, place)]
    for start, _, what in fields(of)[0]:
        if what[:1].isalpha() and 0 <= place - start < fields(what)[1]:
            found += chain(what, place - start)
    return found


def field_at(of, place):
    """The name and what is there, if a field begins there that has one."""
    return next(((field, what) for start, field, what in fields(of)[0] if start == place and field != '-'), (None, ''))


def meet(one, other):
    """What two pointers both are. Of a type with two parameters it is the type without one."""
    if ANY in (one, other):
        return other if one == ANY else one
    left, right = (chain(*pointer) if pointer else [] for pointer in (one, other))
    bare = {(of.split()[0], place) for of, place in right}
    return next((found for found in left if found in right), None) \
        or next(((of.split()[0], place) for of, place in left if (of.split()[0], place) in bare), NONE)


class Fields:
    """`exported`: of the functions of the API the types of their parameters, by name."""

    def __init__(self, prefix, text, exported):
        self.text, self.statuses, self.types, self.used = text, statuses(prefix, text), {}, {}
        self.functions = {found[2]: found for found in FUNCTION.finditer(text)}
        self.parameters = {name: re.findall(r'(\w+)(?:,|$)', found[3]) for name, found in self.functions.items()}
        for name, words in self.parameters.items():
            of = exported.get(name, {})
            self.types[name] = {word: ANY if name not in exported else (of[word], 0) if of.get(word) in TYPES else NONE for word in words}
            self.types[name].update(dict.fromkeys(re.findall(r'byte (p\d+)\[', self.functions[name][4]), NONE))
        before = None
        while before != self.types:
            before = {name: dict(types) for name, types in self.types.items()}
            for name in self.functions:
                self.body(name)
        self.used.clear()

    def body(self, name):
        """The lines of a function with names of fields. What it sets, and passes to others, is noted."""
        self.name, self.reads = name, {}
        self.numbers = dict(re.findall(r'\b(n\d+) = (.*);', self.functions[name][4]))
        return '\n'.join(map(self.line, self.functions[name][4].split('\n')))

    def line(self, text):
        self.made = []                                  # of each call its text, the pointer that it is, and the field that it reads
        while found := CALL.search(text):
            self.made.append(self.call(found[1], found[2].split(', ')))
            text = f'{text[:found.start()]}@{len(self.made) - 1}@{text[found.end():]}'
        found = SET.fullmatch(text)
        if found:
            made, pointer = self.operand(found[3])
            if found[2][0] == 'p' or found[2] in self.parameters[self.name]:
                self.put(self.name, found[2], pointer)
            read = re.fullmatch(r'(?:@\d+@)?@(\d+)@', found[3])
            self.reads.setdefault(found[2], []).append(read and self.made[int(read[1])][2])
            text = f'{found[1]}{found[2]} = {made};'
        while '@' in text:
            text = re.sub(r'@(\d+)@', lambda place: self.made[int(place[1])][0], text)
        return text

    def call(self, name, arguments):
        accesses = re.match('load|store', name)
        texts, pointers = zip(*[self.operand(text, accesses and not k) for k, text in enumerate(arguments)])
        for word, pointer in zip(self.parameters.get(name, ()), pointers):
            self.put(name, word, pointer)
        if name == 'at' and arguments[1].isdigit():
            text, pointer = self.operand(' + '.join(arguments))
            return f'at({text.replace(" + ", ", ")})', pointer, ''
        pointer, field = pointers[0], ''
        if pointer not in (ANY, NONE) and accesses:
            field, what = field_at(*chain(*pointer)[-1])
            pointer = (what[1:], 0) if name.startswith('loadptr') and what[1:] in TYPES or ' ' in what[1:] else NONE
        elif name in ('at', 'inside') and pointer not in (ANY, NONE):
            # Behind a row by whole rows there is another one.
            rows = re.fullmatch(r'.* (?:<< (\d+)|\* (\d+))', self.numbers.get(arguments[1], arguments[1]))
            size = rows and (1 << int(rows[1]) if rows[1] else int(rows[2]))
            pointer = pointer if pointer[1] == 0 and size == fields(pointer[0])[1] else NONE
        elif not name.startswith('loadptr') and name not in ('', 'at', 'inside'):
            pointer = NONE
        return f'{name}({", ".join(texts)})', pointer, name[:4] == 'load' and ' + ' in texts[0] and field

    def operand(self, text, accessed=False):
        """The text with a name, and what it is if it is a pointer."""
        found = re.fullmatch(r'(\w+|@\d+@)(?: \+ (\d+))?', text)
        if not found:
            return text, NONE
        word, moved = found.groups()
        pointer = self.made[int(word[1:-1])][1] if word[0] == '@' else \
            self.types[self.name].get(word, ANY if re.fullmatch(r'p\d+|NULL', word) else NONE)
        if pointer in (ANY, NONE) or not moved and not accessed:
            return text, pointer
        place = pointer[1] + int(moved or 0)
        name = self.constant(pointer[0], place, not accessed) if pointer[1] == 0 else None
        return f'{word} + {name or moved}' if name or moved else text, (pointer[0], place)

    def constant(self, of, place, whole=False):
        """The name of a place: of the field that is read there, or of the whole part that begins there. None if there is none."""
        found = chain(of, place)
        outer, start = next((one for one, inner in zip(found, found[1:]) if whole and inner[1] == 0), found[-1])
        field, _ = field_at(outer, start)
        if field:
            apart = outer != of and any(field == other for _, other, _ in fields(of)[0])
            field = f'{of.split()[0]}_{outer.split()[0] + "_" if apart else ""}{field}'
            if self.used.setdefault(field, place) != place:
                raise Unknown(f'two places are {field}')
        return field

    def put(self, name, variable, pointer):
        """A variable is set. What a function of one kind of wheel is passed is such a wheel."""
        if pointer not in (ANY, NONE):
            found = chain(*pointer)
            pointer = next((one for one in found if one[1] == 0), found[-1])
            kind = re.search('LazyWheel|SmoothWheel', self.functions[name][1])
            if kind and pointer[0].split()[0] == 'Wheel' and variable in self.parameters[name]:
                pointer = pointer[0].replace('Wheel', kind[0]), pointer[1]
        self.types[name][variable] = meet(self.types[name].get(variable, ANY), pointer)

    def variables(self, name):
        """Names of pointers that have a type, and of what is read once from a field. Their numbers keep them apart."""
        names = {variable: field + variable[1:] for variable, (field, *more) in self.reads.items()
                 if field and not more and re.fullmatch(r'n\d+', variable)}
        for variable, pointer in self.types[name].items():
            if re.fullmatch(r'p\d+', variable) and pointer not in (ANY, NONE):
                word = re.findall('[A-Z][a-z]*', pointer[0].split()[0])[-1].lower()
                field, _ = (f'{word}', '') if pointer[1] == 0 else field_at(*chain(*pointer)[-1])
                names[variable] = field + ('_at' if pointer[1] else '') + variable[1:] if field else variable
        return names

    def written(self, hints):
        """The text and the hints with names."""
        made, renamed = {}, {}
        for name, found in self.functions.items():
            body, names = self.body(name), self.variables(name)
            for number, status in self.statuses.get(name, {}).items():
                body = re.sub(rf'\breturn {number};', f'return {status};', body)
            renamed[name] = names
            text = found[0][:found.start(4) - found.start()] + body + '}'
            made[name] = re.sub(r'\b[np]\d+\b', lambda word: names.get(word[0], word[0]), text)
        lines, name = [], None
        for line in hints:
            word, first, *rest = line.split(' ')
            name = first if word == 'function' else name
            lines.append(' '.join([word, renamed.get(name, {}).get(first, first), *rest]))
        return FUNCTION.sub(lambda found: made[found[2]], self.text), lines

    def constants(self):
        """The names of fields with their places, a line for each type."""
        of = {}
        for name, place in sorted(self.used.items(), key=lambda one: one[1]):
            of.setdefault(name.split('_')[0], []).append(f'{name} = {place}')
        return ['\t' + ', '.join(of[name]) for name in sorted(of)]


def statuses(prefix, text):
    """Of the functions that return a status of a header, and that no other one calls: its enumerators by number."""
    found = {}
    with open(f'{TOP}/facts/statuses.toml', 'rb') as file:
        facts = tomllib.load(file)
    for header in ('timers', 'timers_desk'):
        names = {fact['number']: f'{header.upper()}_{name}' for name, fact in facts[header].items()}
        for name in re.findall(rf'^enum {header}_status (\w+)\(', read(f'{TOP}/include/{header}.h'), re.M):
            if len(re.findall(rf'\b{prefix}{name}\(', text)) == 2:
                found[prefix + name] = names
    return found


if __name__ == '__main__':                              # all places, and sizes, for tests/c/layout.c
    for name in TYPES:
        of = f'{name} UnownedEntry'
        for place, field, _ in [*fields(of)[0], (fields(of)[1], 'size', '')]:
            print(f'#define {name}_{field} {place}' if field != '-' else '')
