"""The rest of a call, in a function of its own.

A compiler may save registers at the start of a function, whichever way it goes. So where a call of the API has done what it does
mostly, and returns 0, what follows stands apart. A function is cut in two, as text: in place of the rest its call is returned,
and the parameters have the names of what they get. tools/validate puts the rest back and compares the whole, whose lines the
hints count."""
# SPDX-License-Identifier: MIT OR Apache-2.0
import re

# Of a call of the API: the comments before it, its type, its name, its parameters and its lines.
CALL = re.compile(r'((?:^/\*[^\n]*\n(?:^ \*[^\n]*\n)*)?^/\* \S+: crates/\S+ \*/\n)static inline (uint32_t )(\w+)\(([^\n]*)\)\n\{\n(.*?)\n\}$',
                  re.M | re.S)
DECLARED = re.compile(r'\t+(uint\d+_t |bool |byte \*)(\w+(?:, \*?\w+)*)( = .*)?;')
READ = re.compile(r'\t+\w+ \w+ = load\d+u?\(\w+ \+ \w+\);')
EFFECT = re.compile(r'\b(store\w*|mem\w+|atomic\w+|tm_\w+)\(')
SHORTEST, MOST = 20, 6                                  # lines of a rest, and parameters that processors pass in registers


def depth(line):
    return len(line) - len(line.lstrip('\t'))


def is_label(line):
    return re.fullmatch(r'\w+:( ;)?', line)


def words(lines):
    return set(re.findall(r'(?<![\w.])[A-Za-z_]\w*', '\n'.join(lines)))


class Cut:
    """A function, and its rest, if there is one: from the line `begin` to `end`."""

    def __init__(self, found):
        self.comments, self.of, self.name, self.head, body = found.groups()
        self.lines = body.split('\n')
        labels = {line.split(':')[0]: k for k, line in enumerate(self.lines) if is_label(line)}
        self.jumps = {k: labels[to[1]] for k, line in enumerate(self.lines) if (to := re.search(r'\bgoto (\w+);', line))}
        self.gone = []
        self.made = self.place() and self.cut()

    def place(self):
        """Finds the rest: behind the first arm that returns 0, having written last, up to the end of the list of statements, and
        behind what jumps out of it to more than a call. Whether there is one that is long enough, and that nothing jumps into."""
        lines = self.lines
        arm = next((k for k, line in enumerate(lines) if line.strip() == '}' and lines[k - 1].strip() == 'return TIMERS_OK;'), None)
        if arm is None or lines[arm - 2].strip()[:5] != 'store':
            return False
        deep = depth(lines[arm])
        self.arm = max(k for k in range(arm) if depth(lines[k]) == deep), arm
        self.end = next(k for k, line in enumerate([*lines, '}']) if k > arm and depth(line) < deep and not is_label(line))
        last = max([k for k, to in self.jumps.items() if arm < k < self.end <= to and not self.returned(k)], default=arm)
        self.begin = next((k for k in range(last + 1, self.end) if depth(lines[k]) == deep and lines[k].strip() != '}'), self.end)
        enters = any(self.begin <= to < self.end and not self.begin <= k < self.end for k, to in self.jumps.items())
        goes_on = any(self.arm[0] < k < self.arm[1] <= to for k, to in self.jumps.items())
        return not enters and not goes_on and self.end - self.begin >= SHORTEST

    def returned(self, k):
        """The line with what it returns, if its jump leads to a call whose value is returned."""
        to = self.jumps[k]
        found = re.fullmatch(r'\{\w+ (\w+) = (tm_\w+\(.*\));return \1;\}', ''.join(map(str.strip, self.lines[to + 1:to + 5])))
        return found and re.sub(r'goto \w+', f'return {found[2]}', self.lines[k])

    def declarations(self):
        """Of each variable its type and the line that declares it, or -1 for a parameter."""
        found = {name: (of, -1) for of, name in re.findall(r'(\w+ \*?)(\w+)(?:, |$)', self.head)}
        for k, line in enumerate(self.lines):
            one = DECLARED.fullmatch(line)
            found.update({name.strip('* '): (one[1], k) for name in one[2].split(',')} if one else {})
        return found

    def is_read_again(self, k):
        """Whether this line reads a variable, and nothing between it and the rest, but for the arm that returns, changes memory or a
        variable of the line."""
        between = self.lines[k + 1:self.arm[0] + 1] + self.lines[self.arm[1]:self.begin]
        changes = [line for line in between if EFFECT.search(line) or any(f'\t{name} = ' in line for name in words([self.lines[k]]))]
        return READ.fullmatch(self.lines[k]) and k < self.arm[0] and not changes

    def cut(self):
        """The lines of both functions, or None if the rest needs more than can be passed to it, or what may have no value."""
        leaving = {k: to for k, to in self.jumps.items() if self.begin <= k < self.end <= to}
        moved = [self.returned(k) if k in leaving else self.lines[k] for k in range(self.begin, self.end)]
        kept = dict(enumerate(self.lines[:self.begin])) | {k: self.lines[k] for k in range(self.end, len(self.lines))}
        found = {name: at for name, at in self.declarations().items() if name in words(moved) and not self.begin <= at[1] < self.end}
        own = {name for name, (_, k) in found.items() if k >= 0 and (' = ' not in self.lines[k] or self.is_read_again(k))
               and name not in words(line for at, line in kept.items() if at != k)}
        declared = sorted({found[name][1] for name in own})
        # In the order of another call that the function makes: there they are in their registers already.
        calls = [call.split(', ') for call in re.findall(r'\btm_\w+\(([\w, ]+)\)', '\n'.join(kept.values()))]
        passed = [name for name in dict.fromkeys([*max(calls, key=len, default=[]), *found]) if name in found and name not in own]
        again = [name for name in reversed(passed) if self.is_read_again(found[name][1])][:max(0, len(passed) - MOST)]
        without = [name for name in passed if found[name][1] >= 0 and ' = ' not in self.lines[found[name][1]]]
        if without or len(passed) - len(again) > MOST or any(not own >= words([DECLARED.fullmatch(self.lines[k])[2]]) for k in declared):
            return None
        begins = ['\t' + self.lines[k].lstrip('\t') for k in [*declared, *[found[name][1] for name in again]]]
        passed = [name for name in passed if name not in again]
        deep = depth(moved[0]) - 1
        kept[self.begin] = '\t' * (deep + 1) + f'return {self.name}_rest({", ".join(passed)});'
        self.gone = [*declared, *{to for to in leaving.values() if all(k in leaving for k, other in self.jumps.items() if other == to)}]
        head = f'static NOINLINE {self.of}{self.name}_rest({", ".join(found[name][0] + name for name in passed)})'
        return [f'/* The rest of {self.name}. */', head, '{', *begins, *[''][:len(begins)],
                *[line if is_label(line) else line[deep:] for line in moved], '}', '',
                f'{self.comments}static inline {self.of}{self.name}({self.head})', '{', *[kept[k] for k in sorted(kept) if k not in self.gone], '}']


def apart(text, hints):
    """The text with functions that are cut, and the hints: a line is gone whose variables are the rest's, or that nothing jumps to."""
    gone = {}

    def written(found):
        cut = Cut(found)
        gone[cut.name] = cut.gone
        return '\n'.join(cut.made) if cut.made else found[0]
    text, lines, name = CALL.sub(written, text), [], None
    for line in hints:
        word, first, *others = line.split(' ')
        name = first if word == 'function' else name
        if word == 'at':
            first = str(int(first) - sum(2 + k < int(first) for k in gone.get(name, ())))
        lines.append(' '.join([word, first, *others]))
    return text, lines
