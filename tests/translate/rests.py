"""A call whose rest stands apart, and others that stay whole: cut, and put back by tools/validate, each does the same."""
# SPDX-License-Identifier: MIT OR Apache-2.0
import json
import subprocess
import sys

CALLS = '''
/* timer_c::ways::other: crates/timer_c/src/ways.rs */
static NOINLINE uint32_t tm_other(byte *p1, uint64_t n2, uint64_t n3, uint64_t n4)
{
	store64(p1, n2 * 3 + n3 * 5 + n4);
	return 4;
}

/* Says what it does. */
/* timers_call: crates/timer_c/src/start_exports.rs */
static inline uint32_t tm_timers_call(byte *t, uint64_t n1, uint64_t n2, uint64_t n3)
{
	if (n1 == 9)
		return 5;
	uint64_t n4 = load64(t + 8);
	byte *p5 = at(t, 16);
	uint64_t n6 = load64(p5 + 8);
	uint64_t n7 = load64(t + 16);
	if (n1 == 1) {
		uint64_t n8, n9;
		if (n2 == n4) {
			store64(t, n3);
			return TIMERS_OK;
		}
		if (n3 > n7)
			goto L1;
		n8 = n4 + n7;
		n9 = 0;
		for (;;) {
			if (n9 == n2)
				break;
			n8 = n8 + n9;
			n9 = n9 + 1;
		}
		switch (n8 & 3) {
		case 0: {
			goto L2;
		}
		case 1: {
			store64(t + 24, n8);
			goto L2;
		}
		default: {
			n8 = n6;
			break;
		}
		}
		store64(p5, n8);
L2:
		{
			store64(t + 8, n8 + n2);
			return (uint32_t)n8;
		}
	}
L1:
	{
		uint32_t n10 = tm_other(t, n1, n2, n3);
		return n10;
	}
}
'''
# Edits, and what is in the text then: of some calls all stays.
EDITS = [
    ('what returns 0 has not written', '\t\t\tstore64(t, n3);\n\t\t\treturn TIMERS_OK', '\t\t\tn3 = 0;\n\t\t\treturn TIMERS_OK', None),
    ('memory changes before the rest', '\tif (n1 == 1) {', '\tstore64(t + 16, n3);\n\tif (n1 == 1) {', None),
    ('a variable changes before the rest', '\tif (n1 == 1) {', '\tn7 = n3;\n\tif (n1 == 1) {', 'uint64_t n7)\n{'),
    ('a pointer changes before the rest', '\tif (n1 == 1) {', '\tp5 = at(t, 8);\n\tif (n1 == 1) {', 'byte *p5, uint64_t n6)\n{'),
    ('a variable may have no value', '\tuint64_t n7 = load64(t + 16);', '\tuint64_t n7;\n\tif (n1 == 2)\n\t\tn7 = n2;\n\telse\n\t\tn7 = n3;', None),
    ('the arm that returns may go on', '\t\t\tstore64(t, n3);\n\t\t\treturn TIMERS_OK;\n\t\t}\n',
     '\t\t\tif (n3 == 2)\n\t\t\t\tgoto L7;\n\t\t\tstore64(t, n3);\n\t\t\treturn TIMERS_OK;\n\t\t}\nL7: ;\n', None),
    ('something jumps into the rest', '\tif (n1 == 9)\n\t\treturn 5;', '\tif (n1 == 9)\n\t\tgoto L2;', None),
    ('the rest is short', CALLS[CALLS.index('\t\tn8 = n4'):CALLS.index('L1:')], '\t\treturn 7;\n\t}\n', None),
    ('a jump leads to more than a call', '\t\tuint32_t n10', '\t\tn1 = n3;\n\t\tuint32_t n10', 'goto L1;\n\t\treturn tm_timers_call_rest('),
]
# Edits after which the rest is not that of the function any more.
STRANGE = [
    ('a parameter has another type', 'uint64_t n3, uint64_t n4, ', 'uint32_t n3, uint64_t n4, '),
    ('arguments are exchanged', '_rest(t, n1, n2', '_rest(t, n2, n1'),
    ('two variables have a name', '\tif (n1 == 9)', '\tif (n1 == 8) {\n\t\tuint32_t n3 = 1;\n\t\treturn n3;\n\t}\n\tif (n1 == 9)'),
    ('it reads what is a variable in the function', 'n8 = n4 + n7;', 'n8 = n4 + n7 + n10;'),
    ('it is called twice', '\tif (n1 == 9)', '\tif (n1 == 7)\n\t\treturn tm_timers_call_rest(t, n1, n2, n3, n4, t);\n\tif (n1 == 9)'),
    ('a macro stands between', '/* Says what it does. */', '#define load64(p) 0'),
    ('a comment hides what it is passed', 'n1, uint64_t n2, ', 'n2 /*, uint64_t n1, */'),
]
PROGRAM = '''#include <stdint.h>
#include <stdio.h>
#include <string.h>
typedef unsigned char byte;
#define NOINLINE __attribute__((noinline))
#define TIMERS_OK 0
static uint64_t load64(const byte *p) { uint64_t v; memcpy(&v, p, 8); return v; }
static void store64(byte *p, uint64_t v) { memcpy(p, &v, 8); }
static byte *at(byte *p, uint64_t n) { return p + n; }
@CALLS@
int main(void)
{
	uint64_t sum = 0;
	for (int k = 0; k < 1024; k++) {
		uint64_t memory[4] = { 7, k & 3, k >> 2 & 3, 11 };
		sum = sum * 31 + tm_timers_call((byte *)memory, (uint64_t)"\\1\\1\\2\\t"[k >> 4 & 3], k >> 6 & 3, k >> 8 & 3);
		for (int n = 0; n < 4; n++)
			sum = sum * 31 + memory[n];
	}
	printf("%llu\\n", (unsigned long long)sum);
}
'''
HEAD = 'import json, sys\nsys.path.insert(0, sys.argv[1])\nfrom validator.rests import whole\n'
WHOLE = HEAD + 'print(json.dumps([*map(whole, json.load(sys.stdin))]))'
CUT = HEAD + '''from translator.apart import apart
print(json.dumps([(made, whole(made)) for made, _ in (apart(text, []) for text in json.load(sys.stdin))]))'''


def is_alike(folder, *texts):
    """Whether the programs of these calls print the same number."""
    found = {printed(folder, text).strip() for text in texts}
    return len(found) == 1 and all(map(str.isdigit, found))


def printed(folder, calls):
    """What the program prints, whose warnings are errors."""
    with open(f'{folder}/rests.c', 'w', encoding='ascii') as file:
        file.write(PROGRAM.replace('@CALLS@', calls))
    built = subprocess.run(['gcc', '-O1', '-Wall', '-Wextra', '-Werror', '-Wno-shadow', f'{folder}/rests.c', '-o', f'{folder}/rests'],
                           capture_output=True, text=True)
    return subprocess.run([f'{folder}/rests'], capture_output=True, text=True).stdout if built.returncode == 0 else built.stderr


def seen(tools, folder):
    """Of each call what is wanted, whether it is so, and what was said."""
    texts = [CALLS, *[CALLS.replace(old, new) for _, old, new, _ in EDITS]]
    (cut, back), *others = run(CUT, tools, texts)
    yield 'cut: a call, and put back', 'tm_timers_call_rest(' in cut and '_rest(' not in back and is_alike(folder, CALLS, cut, back), cut + back
    for (name, old, _, has), text, (made, _) in zip(EDITS, texts[1:], others):
        yield f'cut: {name}', old in CALLS and (made == text if not has else has in made and is_alike(folder, made, text)), made
    strange = [cut.replace(old, new) for _, old, new in STRANGE]
    for (name, *_), text, made in zip(STRANGE, strange, run(WHOLE, tools, strange)):
        yield f'not put back: {name}', made == text != cut, made
    # The rest has another variable of that name, so it can't jump to where the function returns the call.
    made = cut.replace('tm_other(t, n1, n2, n3)', 'tm_other(t, n1, n2, n7)')
    made = made.replace('\tbyte *p5 = at(t, 16);', '\tbyte *p5 = at(t, 16);\n\tuint64_t n7 = 5;')
    [back] = run(WHOLE, tools, [made])
    yield 'put back: a call with a variable of the rest', '_rest(' not in back and is_alike(folder, made, back), back


def run(program, tools, texts):
    done = subprocess.run([sys.executable, '-Bc', program, tools], input=json.dumps(texts), capture_output=True, text=True)
    return json.loads(done.stdout) if done.returncode == 0 else [(done.stderr, done.stderr)] * len(texts)
