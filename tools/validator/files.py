"""What is compared: a module, the C, and the hints of tools/translate."""
# SPDX-License-Identifier: MIT OR Apache-2.0
import glob
import os
import subprocess
import tempfile

from validator.check import verdict
from validator.ir import Module
from validator.rests import whole

TOP = os.path.dirname(os.path.dirname(os.path.dirname(os.path.abspath(__file__))))
# No pass, and names and lines stay. What clang computes while it reads the C leaves no trace, and so has to be defined.
OPTIONS = '''--target=x86_64-unknown-linux-gnu --no-default-config -S -emit-llvm -O0 -Xclang -disable-llvm-passes
    -gline-tables-only -fno-discard-value-names -femit-all-decls -Wno-everything -Werror=integer-overflow -nostdlibinc
    -Werror=shift-count-overflow -Werror=shift-count-negative -Werror=division-by-zero'''.split()
# Of the C as it stands, with rests apart: a way that doesn't return, another variable of a name, and one without a value.
ALONE = '''-fsyntax-only -Werror=return-type -Werror=shadow -Werror=uninitialized -Werror=sometimes-uninitialized
    -Werror=conditional-uninitialized'''.split()
HEADERS = '/usr/lib/llvm-*/lib/clang/*/include', '/usr/lib/gcc/x86_64-linux-gnu/*/include'


def compiled(path, to):
    """The toolchain's clang has no headers of its own. What it compiles stands beside the module, with rests put back."""
    page = subprocess.run(['rt', 'doc'], capture_output=True, text=True, check=True).stdout.strip()
    headers = sorted(folder for pattern in HEADERS for folder in glob.glob(pattern))[-1:]
    folders = *headers, '/usr/include/x86_64-linux-gnu', '/usr/include', f'{TOP}/include'
    clang = [f'{os.path.dirname(page)}/toolchain/bin/clang', *OPTIONS, *[f'-isystem{folder}' for folder in folders]]
    with open(path, encoding='utf-8') as file:
        apart = file.read()
    text = whole(apart)
    if text != apart and subprocess.run([*clang, *ALONE, path], capture_output=True).returncode:
        text = apart
    with open(f'{to}.c', 'w', encoding='utf-8') as file:
        file.write(text)
    subprocess.run([*clang, f'{to}.c', '-o', to], check=True)


def read_hints(path):
    """The names in C, and for each function the lines of blocks and the values of variables."""
    names, functions = {}, {}
    with open(path, encoding='utf-8') as file:
        for word, first, *rest in (line.rstrip('\n').split(' ', 2) for line in file):
            if word == 'name':
                names[rest[0]] = first
            elif word == 'function':
                lines, held = functions[first] = [], []
            elif word == 'at':
                lines.append((rest[0], int(first)))
            else:
                held.append((first, rest[0]))
    return names, functions


def verdicts(module_path, c_path, hints_path):
    """For each function of the module its name in C, and what `verdict` gives."""
    names, hints = read_hints(hints_path)
    with tempfile.TemporaryDirectory() as folder:
        compiled(c_path, f'{folder}/c.ll')
        module, c = Module(module_path), Module(f'{folder}/c.ll')
    for symbol, function in module.functions.items():
        name = names.get(symbol, symbol)
        yield name, *verdict(function, c, names, hints.get(name, ([], [])))
