"""A line of a module: its tokens, and types, constants and attributes as they are read from them."""
# SPDX-License-Identifier: MIT OR Apache-2.0
import re
import struct
from collections import namedtuple


class Unknown(Exception):
    """Something in a module that is not known here."""


# Types: i1 to i128 are their numbers of bits; 'ptr', 'double' and 'void' are words.
Array = namedtuple('Array', 'length element')
Vector = namedtuple('Vector', 'length element')
Struct = namedtuple('Struct', 'fields')

# Values. What is undefined, or poison, is zero.
Local = namedtuple('Local', 'name')
Global = namedtuple('Global', 'name')
Number = namedtuple('Number', 'number')
Real = namedtuple('Real', 'bits')
Zero = namedtuple('Zero', '')
Bytes = namedtuple('Bytes', 'numbers')
Parts = namedtuple('Parts', 'values')                   # of a constant array, struct or vector: pairs of type and value
Offset = namedtuple('Offset', 'base offset')            # getelementptr of a constant
AddressOf = namedtuple('AddressOf', 'base')             # ptrtoaddr of a constant

TOKEN = re.compile(r'''\s*(?:
    (?P<comment>;.*)
  | (?P<local>%(?:"[^"]*"|[-\w.$]+))
  | (?P<globl>@(?:"[^"]*"|[-\w.$]+))
  | (?P<bytes>c"[^"]*")
  | (?P<string>"[^"]*")
  | (?P<group>\#\d+)
  | (?P<metadata>![\w.]*)
  | (?P<real>-?\d+\.\d+e[-+]\d+|0x[0-9A-F]{16}\b)
  | (?P<number>-?\d+(?![\w.]))
  | (?P<word>[A-Za-z_][\w.]*)
  | (?P<mark>\.\.\.|[(){}\[\]<>,=*:])
)''', re.X)

# What promises something, or is about linking, or about how a call is made: read and dropped.
DROPPED = set('''noundef nonnull readonly writeonly readnone zeroext signext immarg returned unnamed_addr local_unnamed_addr
    dso_local fastcc nofree dead_on_unwind writable noalias noreturn nounwind hidden'''.split())
DROPPED_WITH_MORE = {'align', 'captures', 'range', 'dereferenceable', 'dereferenceable_or_null', 'initializes'}
INTEGERS = {'i1', 'i8', 'i16', 'i32', 'i40', 'i48', 'i56', 'i64', 'i128'}
FLAGS = {'nuw', 'nsw', 'exact', 'disjoint', 'nneg', 'samesign', 'inbounds', 'nusw'}


def plain(token):
    """A name without its sign and quotes."""
    return token[1:].strip('"')


def unescaped(text):
    """The bytes of a string of the module."""
    found = re.findall(r'\\([0-9A-F]{2})|(\\\\)|(.)', text, re.S)
    return [int(code, 16) if code else 0x5c if backslash else ord(char) for code, backslash, char in found]


class Line:
    def __init__(self, text, number):
        self.text, self.number, self.tokens, self.at = text.strip(), number, [], 0
        place = 0
        while place < len(self.text):
            token = TOKEN.match(self.text, place)
            if not token:
                self.fail(f'unknown from "{self.text[place:place + 30]}" on')
            if token.lastgroup != 'comment':
                self.tokens.append((token.lastgroup, token.group(token.lastgroup)))
            place = token.end()

    def fail(self, what):
        raise Unknown(f'line {self.number}: {what}: {self.text[:200]}')

    def peek(self, ahead=0):
        return self.tokens[self.at + ahead][1] if self.at + ahead < len(self.tokens) else None

    def kind(self, ahead=0):
        return self.tokens[self.at + ahead][0] if self.at + ahead < len(self.tokens) else None

    def next(self):
        if self.at >= len(self.tokens):
            self.fail('it ends too early')
        self.at += 1
        return self.tokens[self.at - 1][1]

    def eat(self, word):
        found = self.peek() == word
        self.at += found
        return found

    def want(self, word):
        if not self.eat(word):
            self.fail(f'"{word}" is missing before "{self.peek()}"')

    def name(self, kind):
        if self.kind() != kind:
            self.fail(f'a name is missing before "{self.peek()}"')
        return plain(self.next())

    def integer(self):
        if self.kind() != 'number':
            self.fail(f'a number is missing before "{self.peek()}"')
        return int(self.next())

    def ended(self):
        """Metadata and the number of a group of attributes may stand at the end, and nothing else."""
        while self.eat(','):
            if self.kind() != 'metadata' or self.kind(1) != 'metadata':
                self.fail(f'unknown from "{self.peek()}" on')
            self.at += 2
        if self.kind() == 'group':
            self.next()
        if self.peek() is not None:
            self.fail(f'unknown from "{self.peek()}" on')

    def alignment(self):
        """The alignment in bytes that stands at the end of an access."""
        self.want(',')
        self.want('align')
        return self.integer()

    def flags(self):
        found = set()
        while self.peek() in FLAGS:
            found.add(self.next())
        return found

    def attributes(self):
        """Reads those that stand before a value, or with the result or the end of a function's head."""
        found = set()
        while self.peek() in DROPPED or self.peek() in DROPPED_WITH_MORE:
            found.add(self.next())
            if self.tokens[self.at - 1][1] == 'align':
                self.integer()
            elif self.peek() == '(':
                self.skip_parentheses()
        return found

    def skip_parentheses(self):
        self.want('(')
        depth = 1
        while depth:
            depth += {'(': 1, ')': -1}.get(self.next(), 0)

    def type(self):
        word = self.next()
        if word in INTEGERS:
            return int(word[1:])
        if word in ('ptr', 'void', 'double'):
            return word
        if word == '[' or word == '<' and self.kind() == 'number':
            length = self.integer()
            self.want('x')
            element = self.type()
            self.want({'[': ']', '<': '>'}[word])
            return (Array if word == '[' else Vector)(length, element)
        packed = word == '<'
        if packed:
            word = self.next()
        if word != '{':
            self.fail(f'unknown type "{word}"')
        found = Struct(tuple(self.listed('}', self.type)))
        if packed:
            self.want('>')
        return found

    def listed(self, close, read):
        """What `read` finds up to the bracket, with commas between."""
        found = []
        while not self.eat(close):
            if found:
                self.want(',')
            found.append(read())
        return found

    def want_type(self, wanted):
        found = self.type()
        if found != wanted:
            self.fail(f'the type is {found}, not {wanted}')

    def typed(self):
        of = self.type()
        return of, self.value(of)

    def label(self):
        self.want('label')
        return self.name('local')

    def value(self, of):
        kind, word = self.kind(), self.next()
        if kind == 'local':
            return Local(plain(word))
        if kind == 'globl':
            return Global(plain(word))
        if kind == 'number':
            return Number(int(word))
        if kind == 'real' and of == 'double':
            return Real(int(word, 16) if word.startswith('0x') else struct.unpack('>Q', struct.pack('>d', float(word)))[0])
        if kind == 'bytes':
            return Bytes(unescaped(word[2:-1]))
        if word in ('true', 'false'):
            return Number(int(word == 'true'))
        if word in ('null', 'undef', 'poison', 'zeroinitializer'):
            return Zero()
        if word == 'getelementptr':
            return self.offset()
        if word == 'ptrtoaddr':
            return self.address()
        if word in ('{', '['):
            return Parts(self.listed({'{': '}', '[': ']'}[word], self.typed))
        if word == '<':
            packed = self.eat('{')
            parts = self.listed('}' if packed else '>', self.typed)
            if packed:
                self.want('>')
            return Parts(parts)
        return self.fail(f'unknown value "{word}"')

    def offset(self):
        self.flags()
        self.want('(')
        self.want_type(8)
        self.want(',')
        self.want_type('ptr')
        base = self.value('ptr')
        self.want(',')
        self.want_type(64)
        found = Offset(base, self.integer())
        self.want(')')
        return found

    def address(self):
        self.want('(')
        self.want_type('ptr')
        found = AddressOf(self.value('ptr'))
        self.want('to')
        self.want_type(64)
        self.want(')')
        return found
