"""Modules of random functions: compiled as they are, passed, translated and compared."""
# SPDX-License-Identifier: MIT OR Apache-2.0
import os
import random
import re
import shutil
import subprocess
import tempfile

import counts
import functions
from comparison import TOP, toolchain_clang, translate, write
from printer import ROOM

SEED, MODULES = 'twins', 20                             # what the gate runs: a minute
FUNCTIONS = 12                                          # of a module
SANITIZED = ('gcc', '-O0', '-fsanitize=undefined', '-fno-sanitize-recover=all')
# One pass makes values and phis of variables. The others jump further, as those of tools/generate do, and make no new widths.
PASSES = ('sroa', 'sroa,early-cse<memssa>,simplifycfg,jump-threading,correlated-propagation,dse,adce')
COMPILERS = (('gcc', '-O2'), ('clang', '-O2'))
EDGES = (0, 1, 2, 3, 7, 8, 9, 63, 64, 127, 128, 255, 256, (1 << 31) - 1, 1 << 31, (1 << 32) - 1, 1 << 32, 1 << 63, (1 << 64) - 1)
MAIN = '''
typedef uint64_t function(uint64_t, uint64_t, uint8_t);
REFERENCES
static function *const as_is[] = { AS_IS }, *const translated[] = { TRANSLATED };
static const uint64_t values[] = { VALUES };

static uint64_t called(function *f, uint64_t a, uint64_t b, uint8_t c)
{
	history = 0;
	a = f(a, b, c);
	return a * 31 + history;
}

int main(void)
{
	int wrong = 0;
	unsigned k, i, j, n = sizeof values / sizeof *values;

	for (k = 0; k < sizeof as_is / sizeof *as_is; k++) {
		int differ = 0;
		for (i = 0; i < n; i++)
			for (j = 0; j < n; j++) {
				const uint8_t c = (uint8_t)values[(7 * i + j) % n];
				differ += called(as_is[k], values[i], values[j], c) != called(translated[k], values[i], values[j], c);
			}
		if (differ != 0)
			printf("f%u differs in %d calls\\n", k, differ);
		wrong += differ != 0;
	}
	return wrong != 0;
}
'''
# What they call: the order of the calls is part of what is compared, and so is memory at each of them.
AROUND = '''#include <stdint.h>
#include <stdio.h>
static uint64_t history;
uint64_t outside(uint64_t n) { return history = history * 1099511628211u ^ n; }
uint64_t seen(const unsigned char *p)
{
	int k;
	for (k = 0; k < ROOM; k++)
		outside(p[k]);
	return history;
}
'''.replace('ROOM', str(ROOM))


def run(*words):
    """What a command says if it ends otherwise than by 0, or None."""
    done = subprocess.run(words, capture_output=True, text=True)
    return None if done.returncode == 0 else f'{" ".join(words[:3])}: status {done.returncode}: {done.stdout}{done.stderr}'


def prepare(folder, seed, number):
    """Leaves the module's object, and the module after its passes as text. What a command says that fails, or None."""
    write(f'{folder}/plain.ll', functions.module(f'{seed} {number}', FUNCTIONS))
    clang = toolchain_clang()
    plainly = (clang, '--target=x86_64-unknown-linux-gnu', '--no-default-config', '-w', '-Xclang', '-disable-llvm-passes', '-x', 'ir')
    return run(*plainly, '-O0', '-fPIC', '-c', f'{folder}/plain.ll', '-o', f'{folder}/plain.o') \
        or run(*plainly, '-c', '-emit-llvm', f'{folder}/plain.ll', '-o', f'{folder}/plain.bc') \
        or run(clang.replace('/clang', '/ld.lld'), '-shared', '--lto-emit-llvm', f'--lto-newpm-passes={PASSES[number % 2]}', '-mllvm',
               '-sink-common-insts=false', '-o', f'{folder}/passed.bc', f'{folder}/plain.bc') \
        or run(*plainly, '-S', '-emit-llvm', f'{folder}/passed.bc', '-o', f'{folder}/passed.ll')


def program(translation, seed):
    others = random.Random(seed)
    names = [f'f{k}' for k in range(FUNCTIONS)]
    words = {'REFERENCES': ' '.join(f'function {name};' for name in names), 'AS_IS': ', '.join(names),
             'TRANSLATED': ', '.join(f'c_{name}' for name in names),
             'VALUES': ', '.join(f'UINT64_C({n})' for n in (*EDGES, *(others.getrandbits(64) for _ in range(6))))}
    return AROUND + translation + re.sub('|'.join(words), lambda word: words[word.group()], MAIN)


def compare(tools, folder, seed, number, compilers):
    """Whether the translation of the module in the folder does the same by each compiler, and what was said."""
    done = translate(tools, f'{folder}/passed.ll')
    if done.returncode:
        return False, done.stderr
    write(f'{folder}/main.c', program(done.stdout, f'{seed} {number}'))
    for compiler in compilers:
        # A mistake may be a loop without an end: 20 seconds of a processor are far more than the calls need.
        told = run(*compiler, '-w', f'{folder}/main.c', '-x', 'none', f'{folder}/plain.o', '-o', f'{folder}/main') \
            or run('sh', '-c', f'ulimit -t 20; exec {folder}/main')
        if told:
            return False, f'{" ".join(compiler)}: {told}'
    return True, ''


def see(seed=SEED, modules=MODULES):
    """Tries as many modules, and keeps as build/random.ll what one was that differed."""
    if not all(map(shutil.which, ('rt', 'gcc', 'clang'))):
        counts.skip('random functions', 'no toolchain (rt), or no gcc or clang')
        return
    with tempfile.TemporaryDirectory() as folder:
        for number in range(int(modules)):
            told = prepare(folder, seed, number)
            same, told = (False, told) if told else compare(f'{TOP}/tools', folder, seed, number, (SANITIZED, COMPILERS[number // 2 % 2]))
            if not same:
                os.makedirs(f'{TOP}/build', exist_ok=True)
                shutil.copy(f'{folder}/passed.ll', f'{TOP}/build/random.ll')
            counts.see(same, f'random functions: seed {seed}, module {number}', told[-1000:])
