"""A slow, obvious reading of request 8's test of paper 02, apart from the product: by what is left of a pattern after each byte, not by its leaves.

extension(r, order) -> None if no string that the written-out pattern r matches extends to a longer one that it matches, else the two strings of a case where one does. `order` has
the bytes that strings are made of; one of each group is enough."""


class Rests:
    """Patterns by number, equal ones by one. A rest of a pattern after a byte is a pattern: the byte and then what the rest matches is matched by the whole, and the rests together
    miss nothing. Fields and lazy signs say nothing about what is matched and are left out."""

    def __init__(self):
        self.numbers, self.forms, self.found, self.empty = {}, [], {}, {}

    def numbered(self, *form):
        if form not in self.numbers:
            self.numbers[form] = len(self.forms)
            self.forms.append(form)
        return self.numbers[form]

    def taken_in(self, r):
        if r[0] == 'field':
            return self.taken_in(r[1])
        if r[0] == 'leaf':
            return self.numbered('leaf', frozenset(r[1]))
        return self.numbered('star' if r[0] == 'lazy' else r[0], *map(self.taken_in, r[1:]))

    def then(self, x, y):
        return y if self.forms[x] == ('empty',) else self.numbered('seq', x, y)

    def matches_empty(self, x):
        if x not in self.empty:
            kind, *parts = self.forms[x]
            self.empty[x] = {'empty': lambda: True, 'leaf': lambda: False, 'star': lambda: True, 'seq': lambda: all(map(self.matches_empty, parts)),
                             'alt': lambda: any(map(self.matches_empty, parts))}[kind]()
        return self.empty[x]

    def after(self, x, b):
        """The rests of the pattern x after the byte b."""
        if (x, b) not in self.found:
            self.found[x, b] = sorted(self.rests(x, b))
        return self.found[x, b]

    def rests(self, x, b):
        kind, *parts = self.forms[x]
        if kind == 'empty':
            return set()
        if kind == 'leaf':
            return {self.numbered('empty')} if b in parts[0] else set()
        if kind == 'alt':
            return {*self.after(parts[0], b), *self.after(parts[1], b)}
        if kind == 'star':
            return {self.then(y, x) for y in self.after(parts[0], b)}
        first = {self.then(y, parts[1]) for y in self.after(parts[0], b)}
        return first.union(self.after(parts[1], b)) if self.matches_empty(parts[0]) else first

    def shortest(self, x, order):
        """A shortest string of one byte or more that the pattern x matches, or None."""
        seen, now = set(), [(x, b'')]
        while now:
            later = []
            for y, line in now:
                for b in order:
                    for z in self.after(y, b):
                        if self.matches_empty(z):
                            return line + bytes([b])
                        if z not in seen:
                            seen.add(z)
                            later.append((z, line + bytes([b])))
            now = later
        return None


def extension(r, order):
    known = Rests()
    whole = known.taken_in(r)
    more = {}
    # Two rests after one string: if the first matches the empty string, and the second some other, then the string is matched and extends.
    lines = {(whole, whole): b''}
    for x, y in (queue := list(lines)):
        line = lines[x, y]
        if known.matches_empty(x):
            if y not in more:
                more[y] = known.shortest(y, order)
            if more[y] is not None:
                return line, line + more[y]
        for b in order:
            pairs = {(p, q) for p in known.after(x, b) for q in known.after(y, b)}
            for pair in sorted(pairs.difference(lines)):
                lines[pair] = line + bytes([b])
                queue.append(pair)
    return None
