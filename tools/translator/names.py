"""Names of C, and where in crates/ the code of a function is."""
# SPDX-License-Identifier: MIT OR Apache-2.0
import glob
import os
import re

TOP = os.path.dirname(os.path.dirname(os.path.dirname(os.path.abspath(__file__))))


def path_of(symbol):
    """The modules and the name of a symbol as "timer_links::ring::grow<..>.7", whose end the toolchain and the linker add."""
    symbol = re.sub(r'\.\d+$', '', symbol)
    while '<' in symbol:
        shorter = re.sub(r'<[^<>]*>', '', symbol)
        if shorter == symbol:
            break
        symbol = shorter
    parts = [re.sub(r'\W+', '_', part).strip('_') for part in symbol.split('::')]
    return [part for part in parts if part]


class Names(dict):
    """Of each symbol the name in C: its last two parts, or as many as no other one has, or else with a number."""

    def __init__(self, prefix, symbols):
        super().__init__()
        taken = set()
        for symbol in symbols:
            self[symbol] = self.free(prefix, path_of(symbol), taken)
            taken.add(self[symbol])

    @staticmethod
    def free(prefix, path, taken):
        for count in range(min(2, len(path)), len(path) + 1):
            name = prefix + '_'.join(path[-count:])
            if name not in taken:
                return name
        number = 2
        while f'{name}_{number}' in taken:
            number += 1
        return f'{name}_{number}'


# Signs of contracts, and what stands for them in C: some compilers read ASCII alone.
SIGNS = str.maketrans({'≡': '=', '≢': '!=', '≤': '<=', '→': '->', '↔': '<->', '×': 'and', '⊎': 'or'})


class Source:
    """The function of the crates that a symbol is: `text` names it and its file, if that is one of ours. If C calls it, `words` are
    those of its parameters, `types` the crate's of what these point to, and `contract` has the lines of what is said of it, and proved."""

    def __init__(self, symbol, crates):
        path = path_of(symbol)
        self.text, self.words, self.types, self.contract = '::'.join(path), [], None, []
        if len(path) == 1:
            for name in sorted(name for crate in crates for name in glob.glob(f'{TOP}/crates/{crate}/src/*.rt')):
                self.find_export(symbol, name)
            return
        for count in range(len(path) - 1, 1, -1):
            name = f'crates/{path[0]}/src/{"/".join(path[1:count])}.rt'
            if os.path.exists(f'{TOP}/{name}'):
                self.text += f': {name}'
                return

    def find_export(self, symbol, name):
        found = re.search(rf'((?:^///.*\n)*)(?:^#.*\n)*^pub extern "C" fn {symbol}\(([^)]*)\).*\n((?:^(?: .*)?\n)*)^\{{', read(name), re.M)
        if found:
            said, parameters, clauses = found.groups()
            self.text, self.words = f'{symbol}: {os.path.relpath(name, TOP)}', words_of(parameters)
            # A ConstTimers is a CTimers that is only read.
            self.types = {word: re.sub('^Const', 'C', of) for word, of in re.findall(r'(\w+): &(?:mut )?\[?(\w+)', parameters)}
            self.contract = (said.replace('///', '').replace('\n ', '\n') + clauses).strip().translate(SIGNS).split('\n')


def words_of(parameters):
    """Names of parameters as C passes them: an allocator is nothing, a slice has a length, a struct is two numbers."""
    words = []
    for name, of in re.findall(r'(\w+): ([^,]+)', parameters):
        if '[' in of:
            words += [name, f'{name}_length']
        elif re.match(r'&|u\d+$|usize$|bool$', of.strip()):
            words.append(name)
        elif of.strip() != 'Global':
            words += [f'{name}_1', f'{name}_2']
    return words


def read(name):
    with open(name, encoding='utf-8') as file:
        return file.read()
