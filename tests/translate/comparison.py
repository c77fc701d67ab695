"""Compiles the module of cases.py as it is, and translated by gcc or clang, and compares the results of all calls."""
# SPDX-License-Identifier: MIT OR Apache-2.0
import json
import os
import random
import subprocess
import sys

import cases

TOP = os.path.dirname(os.path.dirname(os.path.dirname(os.path.abspath(__file__))))
TYPES = {1: 'bool', 8: 'uint8_t', 16: 'uint16_t', 32: 'uint32_t', 64: 'uint64_t'}


def toolchain_clang():
    page = subprocess.run(['rt', 'doc'], capture_output=True, text=True, check=True).stdout.strip()
    return f'{os.path.dirname(page)}/toolchain/bin/clang'


def write(path, text):
    with open(path, 'w', encoding='utf-8') as file:
        file.write(text)


def edges(width):
    """Values of a width at its ends and around, and some others."""
    top = 1 << width
    numbers = {0, 1, 2, 3, 5, 7, 8, 9, 12, 35, width - 1, width, top // 2 - 1, top // 2, top // 2 + 1, top - 2, top - 1}
    others = random.Random(width)
    return sorted(numbers | {others.getrandbits(width) for _ in range(3)} | {1 << width // 2, (1 << width // 2) - 1})


def attempt(name, result, parameters, guard):
    """A function in C that makes all calls of one function, as it is and translated."""
    letters = 'abc'[:len(parameters)]
    loops = ' '.join(f'for (int {x}_ = 0; {x}_ < (int)(sizeof edges{w} / sizeof *edges{w}); {x}_++)' for x, w in zip(letters, parameters))
    sets = ' '.join(f'const {TYPES[w]} {x} = edges{w}[{x}_];' for x, w in zip(letters, parameters))
    types, arguments = ', '.join(TYPES[w] for w in parameters), ', '.join(letters)
    return f'''REFERENCE {TYPES[result]} {name}({types});
static void try_{name}(void)
{{
	int differ = 0;
	{loops} {{
		{sets}
		if ({guard}) {{
			tried++;
			differ += {name}({arguments}) != c_{name}({arguments});
		}}
	}}
	if (differ != 0)
		printf("{name} differs in %d calls\\n", differ);
	wrong += differ != 0;
}}
'''


def program(translated):
    """The translated functions, and a main that calls them all."""
    tables = ''.join(f'static const {TYPES[w]} edges{w}[] = {{ {", ".join(f"UINT64_C({n})" for n in edges(w))} }};\n' for w in cases.WIDTHS)
    attempts = ''.join(attempt(*case[:4]) for case in cases.FUNCTIONS)
    calls = ''.join(f'\ttry_{name}();\n' for name, *_ in cases.FUNCTIONS)
    return f'''#include <stdint.h>
#include <stdio.h>
#ifdef PLAIN_C                                          /* as a compiler that has nothing but C11 */
#include <stdatomic.h>
#include <stdlib.h>
#include <string.h>
#undef __GNUC__
#undef __SIZEOF_INT128__
#endif
#ifdef __cplusplus
#define REFERENCE extern "C"
#else
#define REFERENCE
#endif
REFERENCE uint64_t outside(uint64_t n) {{ return n ^ 6; }}
{translated}
static int tried, wrong;
{tables}{attempts}
int main(void)
{{
{calls}	printf("%d calls of {len(cases.FUNCTIONS)} functions\\n", tried);
	return wrong != 0;
}}
'''


def compile_module(clang, folder):
    write(f'{folder}/module.ll', cases.module())
    subprocess.run([clang, '-w', '-O0', '-fPIC', '-c', '-x', 'ir', f'{folder}/module.ll', '-o', f'{folder}/module.o',
                    '--target=x86_64-unknown-linux-gnu', '--no-default-config'], check=True)


def translate(tools, module, kind='test'):
    return subprocess.run([sys.executable, f'{tools}/translate', kind, module], capture_output=True, text=True)


def compare(tools, folder, *compiler):
    """Whether all results are the same, and what was said."""
    done = translate(tools, f'{folder}/module.ll')
    if done.returncode:
        return False, done.stderr
    write(f'{folder}/main.c', program(done.stdout))
    done = subprocess.run([*compiler, '-w', f'{folder}/main.c', '-x', 'none', f'{folder}/module.o', '-o', f'{folder}/main'],
                          capture_output=True, text=True)
    if done.returncode:
        return False, done.stderr
    # A mistake may be a loop without an end: 3 seconds of a processor are far more than the calls need.
    done = subprocess.run(['sh', '-c', f'ulimit -t 3; exec {folder}/main'], capture_output=True, text=True)
    return done.returncode == 0, done.stdout + done.stderr


def translated(tools, folder, text, kind='test'):
    write(f'{folder}/text.ll', text)
    return translate(tools, f'{folder}/text.ll', kind)


# Runs tools/translate over each file named, and prints what each printed and the error with which it ended. It has read the
# translator once, which keeps nothing of a module.
EACH = '''import contextlib, io, json, runpy, sys, traceback
tools, *paths = sys.argv[1:]
sys.path.insert(0, tools)
ends = []
for path in paths:
    with open(path) as file:
        text = file.read()
        kind = "program" if "@timers_program_main" in text else "timers" if "@timers_" in text else "test"
    sys.argv, error = [tools + "/translate", kind, path], None
    with contextlib.redirect_stdout(io.StringIO()) as output:
        try:
            runpy.run_path(sys.argv[0], run_name="__main__")
        except SystemExit as exit:
            error = str(exit.code)
        except Exception:
            error = traceback.format_exc()
    ends.append([output.getvalue(), error])
print(json.dumps(ends))
'''


def translations(tools, folder, texts):
    """What is written of each text, and the error that ends it, or None."""
    paths = [f'{folder}/text{number}.ll' for number in range(len(texts))]
    for path, text in zip(paths, texts):
        write(path, text)
    done = subprocess.run([sys.executable, '-c', EACH, tools, *paths], capture_output=True, text=True)
    return json.loads(done.stdout) if done.returncode == 0 else [['', done.stderr]] * len(texts)


def texts_seen(tools, folder):
    """Of each text of cases.py what is wanted, whether the translation has it or is refused at its line, and what was said."""
    cases_of_text = cases.EXPECTED + cases.REFUSED
    for (text, *wanted), (output, error) in zip(cases_of_text, translations(tools, folder, [text for text, *_ in cases_of_text])):
        if isinstance(wanted[0], int):
            refused = error is not None and f' line {wanted[0]}: ' in error and 'Traceback' not in error
            yield f'refused: {text.splitlines()[wanted[0] - 1].strip()}', refused, error or ''
        else:
            yield f'written: {wanted[0]}', error is None and all(word in output for word in wanted), error or ''
