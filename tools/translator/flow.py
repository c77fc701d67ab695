"""Which blocks of a function come to which: predecessors, the tree of dominators, the loops."""
# SPDX-License-Identifier: MIT OR Apache-2.0


class Flow:
    """Of the blocks that the entry comes to. `order` is the reverse of a postorder, `at` the place in it. `above` is the
    immediate dominator, `below` those that have the block as theirs. `loops`: the blocks of a loop, by its header."""

    def __init__(self, function):
        blocks = function.blocks
        self.entry = next(iter(blocks))
        self.to = {label: list(dict.fromkeys(blocks[label][-1].to)) for label in blocks}
        self.order = self.reverse_postorder()
        self.at = {label: place for place, label in enumerate(self.order)}
        self.before = {label: [] for label in self.order}
        for label in self.order:
            for target in self.to[label]:
                self.before[target].append(label)
        self.above = self.dominators()
        self.below = {label: [] for label in self.order}
        for label in self.order[1:]:
            self.below[self.above[label]].append(label)
        self.loops = {}
        for label in self.order:
            for target in self.to[label]:
                if self.at[target] <= self.at[label]:
                    if not self.dominates(target, label):
                        function.line.fail('a loop with two entries')
                    self.add_loop(target, label)

    def reverse_postorder(self):
        order, seen, stack = [], {self.entry}, [(self.entry, iter(self.to[self.entry]))]
        while stack:
            label, targets = stack[-1]
            target = next((t for t in targets if t not in seen), None)
            if target is None:
                order.append(label)
                stack.pop()
            else:
                seen.add(target)
                stack.append((target, iter(self.to[target])))
        return order[::-1]

    def dominators(self):
        """As Cooper, Harvey and Kennedy find them ("A Simple, Fast Dominance Algorithm")."""
        above = {self.entry: self.entry}
        changed = True
        while changed:
            changed = False
            for label in self.order[1:]:
                known = [b for b in self.before[label] if b in above]
                found = known[0]
                for other in known[1:]:
                    found = self.common(found, other, above)
                changed = changed or above.get(label) != found
                above[label] = found
        return above

    def common(self, one, other, above):
        while one != other:
            if self.at[one] > self.at[other]:
                one = above[one]
            else:
                other = above[other]
        return one

    def dominates(self, one, other):
        while self.at[other] > self.at[one]:
            other = self.above[other]
        return one == other

    def add_loop(self, header, last):
        body = self.loops.setdefault(header, {header})
        found = [last]
        while found:
            label = found.pop()
            if label not in body:
                body.add(label)
                found.extend(self.before[label])
