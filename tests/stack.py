#!/usr/bin/env python3
"""tests/stack.py FILE.ci   prints for each function of timers.h the bytes of stack that it and what it calls take at most

FILE.ci is what gcc writes with -fcallgraph-info=su. The functions of the allocator, of C and of the compiler's own library
are not in it, and so not counted. A function that calls itself, or takes an amount that is known only when it runs, is an error."""
# SPDX-License-Identifier: MIT OR Apache-2.0
import re
import sys

NODE = re.compile(r'node: \{ title: "([^"]*)" label: "([^"]*)"')
EDGE = re.compile(r'edge: \{ sourcename: "([^"]*)" targetname: "([^"]*)"')


def main(path):
    with open(path, encoding='utf-8') as file:
        text = file.read()
    own, calls = {}, {}
    for title, label in NODE.findall(text):
        found = re.search(r'(\d+) bytes \((.*)\)', label)
        if found and found.group(2) != 'static':
            sys.exit(f'{title}: {found.group(2)}')
        own[title] = int(found.group(1)) if found else 0
    for caller, called in EDGE.findall(text):
        calls.setdefault(caller, set()).add(called)

    def deepest(title, above):
        if title in above:
            sys.exit(f'{title} calls itself')
        return own[title] + max((deepest(called, above | {title}) for called in calls.get(title, ())), default=0)

    for title in sorted(own):
        if re.fullmatch('timers_[a-z_]+', title):
            print(title, deepest(title, frozenset()))


if len(sys.argv) != 2:
    sys.exit(__doc__)
main(sys.argv[1])
