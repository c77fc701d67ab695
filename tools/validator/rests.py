"""The rest of a call, put back where the call is: what is compared is one function, as in the module.

That both texts mean the same has to be trusted. So a rest is only put back if each of its names is a variable of its own, an argument
with the name and the type of its parameter, or none of the function's. Neither text may have what a compiler reads otherwise in
another place. files.py asks clang whether each way through the rest returns, and whether each argument has a value."""
# SPDX-License-Identifier: MIT OR Apache-2.0
import re

# Whose rest it is, its parameters and its lines.
REST = re.compile(r'^/\* The rest of (\w+)\. \*/\nstatic NOINLINE uint32_t \1_rest\(([\w *,]*)\)\n\{\n(.*?)\n\}\n\n', re.M | re.S)
DECLARED = re.compile(r'(?:(?<=[\t(])|(?<=, ))(u?int\d+_t |bool |double |byte \*|of_\w+ )(\w+(?:, \*?\w+)*)(?= = |[;,)])')
# Macros, texts, comments, numbers of lines, other types, and addresses of variables.
STRANGE = re.compile(r'''[#"'\\]|/[*/]|\b__|\b(?:typedef|enum|struct|union|static|extern|const|unsigned)\b|&\(*[A-Za-z_]''')


def declared(text):
    """The names that are declared there, each with its type, as often as it is."""
    return [(name.strip('* '), of) for of, names in DECLARED.findall(text) for name in names.split(',')]


def words(text):
    return re.findall(r'\w+', text)


class Rest:
    """A rest, and the function whose it is: its text, and the statement in whose place the rest stands then."""

    def __init__(self, found, text):
        self.name, parameters, self.body = found.groups()
        self.passed, self.own = declared(f'({parameters})'), {name for name, _ in declared(self.body)}
        function = re.search(rf'^static inline uint32_t {self.name}\([^\n]*\)\n\{{\n.*?^\}}', text[found.end():], re.M | re.S)
        self.function, self.between = (function[0], text[found.end():][:function.start()]) if function else ('', '')
        self.call = f'return {self.name}_rest({", ".join(name for name, _ in self.passed)});'

    def belongs(self, text):
        """Whether it means the same where it is put back."""
        known, names = declared(self.function), {name for name, _ in self.passed}
        one_of_each = all([one for one in known if one[0] == name] == [(name, of)] for name, of in self.passed)
        others = {name for name, _ in known}.intersection(words(self.body)) - names - self.own
        is_called_once = self.function.count(self.call) == 1 and len(re.findall(rf'\b{self.name}_rest\b', text)) == 2
        is_plain = not STRANGE.search(self.body + self.function[len('static'):]) and re.fullmatch(r'(/\*((?!\*/).)*\*/\n)*', self.between, re.S)
        return bool(self.passed) and one_of_each and not others and is_called_once and is_plain

    def joined(self):
        """The function with the rest. What the rest begins with, up to an empty line, gets no line. Where it returns the call that a
        block behind it returns, with arguments that all of the function has, it jumps there."""
        begins, _, lines = self.body.rpartition('\n\n')
        before, _, behind = self.function.partition(self.call)
        of_all = {name for name, _ in declared('\n'.join(re.findall(r'^(?:static|\t\w).*', before, re.M)))} & {name for name, _ in self.passed}
        for number, returned in enumerate(re.findall(r'^\t+return (\w+\([\w, ]*\));$', lines, re.M)):
            block = re.search(rf'^\t+\{{(?=\n\t+uint32_t (\w+) = {re.escape(returned)};\n\t+return \1;\n\t+\}}$)', behind, re.M)
            if block and (of_all - self.own).issuperset(words(returned)[1:]):
                behind = f'{behind[:block.start()]}rest_{number}: {{{behind[block.end():]}'
                lines = lines.replace(f'\treturn {returned};', f'\tgoto rest_{number};')
        return f'{before}{{ {" ".join(begins.split())} {lines.lstrip()} }}{behind}'


def whole(text):
    """The C with each rest put back that belongs there. Another one stays a call, which the module does not make."""
    rests = [(found[0], Rest(found, text)) for found in REST.finditer(text)]
    for lines, rest in rests:
        if rest.belongs(text):
            text = text.replace(lines, '').replace(rest.function, rest.joined())
    return text
