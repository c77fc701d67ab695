"""Modules of LLVM as text: functions of blocks of instructions."""
# SPDX-License-Identifier: MIT OR Apache-2.0
import functools
import re


class Undecided(Exception):
    """Why a function is not shown to be the same."""


def fail(reason):
    raise Undecided(f'not decided: {reason}')


NAME = r'(?:"[^"]*"|[-\w.$]+)'
INSIDE = r'(?:"[^"]*"|[^()"])*'
BRACKETS = rf'\({INSIDE}(?:\({INSIDE}\){INSIDE})*\)'
# What the module leaves open is 0: it may be any value, and the C has that one.
CONSTANTS = {'true': 1, 'false': 0, 'null': 0, 'zeroinitializer': 0, 'undef': 0, 'poison': 0}
# These only make more of the module undefined. Any other word has to stand in the C, too.
NO_MATTER = '''nuw nsw exact disjoint nneg samesign inbounds nusw noundef nonnull readonly writeonly readnone zeroext
    signext immarg returned unnamed_addr local_unnamed_addr dso_local fastcc nofree dead_on_unwind writable noalias
    noreturn nounwind hidden internal nocapture range captures dereferenceable dereferenceable_or_null initializes sret
    memory to'''.split()
TOKEN = re.compile('|'.join((
    rf'(?P<value>[%@]{NAME}|(?:getelementptr|ptrtoint|ptrtoaddr|inttoptr)[a-z ]*{BRACKETS}|'
    rf'\b(?:{"|".join(CONSTANTS)})\b|-?\d+)', r'(?P<type>(?:i\d+|ptr|void|label)\b|\{[^{}]*\}|\[\d+ x [^][]*\])',
    r'align (?P<align>\d+)', rf'(?P<word>[a-z_]\w*)(?:{BRACKETS})?', r'[][, ]', r'(?P<unknown>.)')))
ONLY_FOR_PASSES = ('lifetime', 'experimental.noalias', 'dbg')
# The types of results, where no type stands alone for it.
RESULTS = {'icmp': 1, 'alloca': 'ptr', 'getelementptr': 'ptr', 'store': 'void'}


def matched(pattern, text):
    return re.fullmatch(pattern, text, re.S) or fail(f'unknown: {text.strip()[:100]}')


@functools.cache
def type_of(text):
    """A number of bits, a word, or ('struct' or 'array', ..)."""
    if text[0] == '[':
        length, of = matched(r'\[(\d+) x (.*)\]', text).groups()
        return 'array', int(length), type_of(of)
    if text[0] == '{':
        return 'struct', *map(type_of, text[2:-2].split(', '))
    return int(text[1:]) if text[0] == 'i' else text


def value_of(text):
    """Its kind and what it is."""
    if text[0] in '%@':
        return {'%': 'local', '@': 'global'}[text[0]], text[1:].strip('"')
    if text.startswith('getelementptr'):                # of bytes
        base, offset = matched(r'getelementptr[a-z ]* \(i8, ptr (.*), i64 (-?\d+)\)', text).groups()
        return 'offset', value_of(base), int(offset)
    inner = re.fullmatch(r'\w+ \(\w+ (.*) to \w+\)', text)
    return value_of(inner[1]) if inner else ('number', CONSTANTS[text] if text in CONSTANTS else int(text))


def parsed(text, op='define'):
    """The operands with their types, how each is aligned, the type that stands alone, and the words that matter."""
    operands, aligns, words, of, alone, align, is_new = [], [], [], None, None, None, False
    for found in TOKEN.finditer(text):
        kind, token = found.lastgroup, found[found.lastgroup or 0]
        if kind == 'type':
            of, alone, is_new = type_of(token), of if is_new else alone, True
        elif kind == 'value':
            operands, aligns = [*operands, (of, value_of(token))], [*aligns, align or 1]
            align, is_new = None, False
        elif kind == 'align':
            align = int(token)
        elif kind == 'word' and token not in NO_MATTER:
            words.append(found[0])
        elif kind == 'unknown':
            fail(f'instruction {op}: {text[:100]}')
    return operands, [align] if align else aligns, of if is_new else alone, ' '.join(words)


def bytes_of(of):
    """How many bytes a value takes in memory."""
    if isinstance(of, tuple):
        return of[1] * bytes_of(of[2]) if of[0] == 'array' else places(of)[-1]
    return (of + 7) // 8 if isinstance(of, int) else 8


def places(of):
    """Where the fields of a struct of numbers are, and its size."""
    found = [0]
    for field, after in zip(of[1:], [*of[2:], max(of[1:], key=bytes_of)]):
        found.append(-(-(found[-1] + bytes_of(field)) // bytes_of(after)) * bytes_of(after))
    return found if not any(isinstance(field, tuple) for field in of[1:]) else fail(f'a struct of {of}')


class Instruction:
    """`how`: its words that matter. `line`: the source's, 0 if it has none. `to`: the blocks that it may go on to."""

    def __init__(self, text, lines):
        self.line, self.callee = lines.get(re.search(r'!dbg (!\d+)|$', text)[1], 0), None
        text = re.sub(r'(?:,? ![\w.]+ !\w+| #\d+)*$', '', text)
        name, self.op, rest = matched(rf'\s*(?:(%{NAME}) = )?(?:tail )?(\w+) ?(.*)', text).groups()
        self.name, self.has_signs = name and value_of(name)[1], 'nsw ' in rest
        operands, self.aligns, self.of, self.how = parsed(self.called(rest) if self.op == 'call' else rest, self.op)
        self.to = [value[1] for of, value in operands if of == 'label']
        self.operands = [operand for operand in operands if operand[0] != 'label']
        last = self.operands[-1][0] if self.operands else 'void'
        self.type = RESULTS.get(self.op) or self.of or last
        if self.op == 'phi':
            self.incoming = {label: value for (_, value), (_, (_, label)) in zip(operands[::2], operands[1::2])}
        elif self.op in ('extractvalue', 'insertvalue'):
            self.of, field = self.operands[0][0], self.operands.pop()[1][1]
            self.type, self.place = self.of if self.op == 'insertvalue' else self.of[1 + field], places(self.of)[field]
        elif self.op == 'br' and self.operands:         # a switch: to the second label if it is 0
            self.operands.append((1, ('number', 0)))
        elif self.op == 'store':                        # the address first, as in the others
            self.operands.reverse()

    def called(self, rest):
        """Keeps what is called. Gives what else there is to read. An address that is called is the last operand."""
        of, callee, operands, bundle = matched(
            rf'(.*?)(asm [^(]*|[%@]{NAME})\((.*?)\)(?: \[ (.*) \])?', rest).groups()
        if callee.startswith('asm'):
            effect, words = matched('asm (sideeffect )?"", "([^"]*)"', callee).groups()
            self.op = 'barrier' if effect else 'freeze'
            is_known = words.startswith('~{memory}' if effect else '=r,0')
            return f'{of} {operands}' if is_known else fail(f'unknown: {callee}')
        self.callee = callee[1:].strip('"') if callee[0] == '@' else None
        intrinsic = re.fullmatch(r'@llvm\.([a-z.]*?)(?:\.[ip]\d+)*', callee)
        if intrinsic and intrinsic[1].startswith(ONLY_FOR_PASSES):
            self.op, operands = 'nothing', ''
        elif intrinsic:                                 # an instruction of this name
            self.op = intrinsic[1]
        if bundle:                                      # of an assume: an address, and how it is aligned
            operands += matched(r'"align"\((.*), i64 (\d+)\)', bundle).expand(r', \1, align \2')
        return f'{of} {operands}' if self.callee else f'{of} {operands} ptr {callee}'


class Function:
    """Its blocks are read when they are asked for."""

    def __init__(self, head, body, lines):
        of, name, parameters = re.search(rf'^(.*) @({NAME})\((.*)\)', head).groups()
        self.name, self.type, self.body, self.lines = name.strip('"'), parsed(of)[2], body, lines
        self.parameters = [(of, name) for of, (_, name) in parsed(parameters)[0]]
        self.first_line = lines.get(re.search(r'!dbg (!\d+)|$', head)[1], 0)

    @functools.cached_property
    def blocks(self):
        blocks, label = {}, str(sum(name.isdigit() for _, name in self.parameters))
        body = re.sub(r'\[\n(.*?)\]', lambda cases: cases[0].replace('\n', ' '), self.body, flags=re.S)
        for text in body.split('\n'):
            found = re.match(rf'({NAME}):', text)
            if found:
                label = found[1].strip('"')
            elif text.strip() and not text.lstrip().startswith('#dbg'):
                blocks.setdefault(label, []).append(Instruction(text, self.lines))
        self.entry = next(iter(blocks))
        return blocks

    @functools.cache
    def reached(self, first, without=None):
        """The blocks that control comes to from a block, nearer ones first, if another is taken away."""
        found = {first: None} if first != without else {}
        for label in (queue := list(found)):
            new = [target for target in self.blocks[label][-1].to if target not in found and target != without]
            found.update(dict.fromkeys(new))
            queue += dict.fromkeys(new)
        return found

    @functools.cache
    def meet(self, label):
        """The nearest block that all ways from a block to an end come through, or None."""
        ends = [other for other in self.reached(label) if not self.blocks[other][-1].to]
        return next((other for other in self.reached(label) if other != label and
                     not any(end in self.reached(label, other) for end in ends)), None)


class Module:
    """Names of structs are replaced by what they are."""

    def __init__(self, path):
        with open(path, encoding='utf-8') as file:
            text = file.read()
        for name, of in re.findall(r'^(%\S+) = type (\{ [^<\n]*)$', text, re.M):
            text = re.sub(rf'{re.escape(name)}(?![-\w.$])', of, text)
        with_line = r'^(!\d+) = (?:distinct )?!DI(?:Location|Subprogram)\([^\n]*?line: (\d+)'
        lines = {name: int(line) for name, line in re.findall(with_line, text, re.M)}
        functions = re.findall(r'^define ([^\n]*)\{\n(.*?)^\}', text, re.M | re.S)
        self.functions = {found.name: found for found in (Function(*parts, lines) for parts in functions)}
