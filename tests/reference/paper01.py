"""A slow, obvious reading of paper 01, apart from the product. It makes the expected results of the case files.

read(p) -> ('refused', number, place) or ('accepted', written-out pattern). A written-out pattern is ('empty',), ('leaf', set of bytes),
('seq', x, y), ('alt', x, y), ('star', x), ('lazy', x) or ('field', x, number): the first eight brackets are fields (request 2 of paper 02), a lazy star is r*? (request 5).
openings(p) -> the places of an accepted pattern's opening brackets.
lengths(r) -> the least and the greatest length of a written-out pattern (request 6), in words."""

SPECIAL = b'\\|()[]{}*+?.^$'
INNER = b'\\][^-'
NAMES = {
    b'alpha': {b for b in range(128) if chr(b).isalpha()},
    b'digit': {b for b in range(128) if chr(b).isdigit()},
    b'alnum': {b for b in range(128) if chr(b).isalnum()},
    b'upper': {b for b in range(128) if chr(b).isupper()},
    b'lower': {b for b in range(128) if chr(b).islower()},
    b'xdigit': set(b'0123456789abcdefABCDEF'),
    b'space': set(b' \t\n\v\f\r'),
    b'punct': {b for b in range(33, 127) if not chr(b).isalnum()},
}


class Refused(Exception):
    pass


class Reader:
    def __init__(self, p):
        self.p, self.i, self.depth, self.heaviest, self.opened = p, 0, 0, 0, []

    def peek(self):
        return self.p[self.i] if self.i < len(self.p) else None

    def refuse(self, number, place):
        raise Refused(number, place)

    def whole(self):
        tree, weight = self.alternation()
        if self.peek() is not None:
            self.refuse(2, self.i)
        if self.heaviest > 64:
            self.refuse(8, len(self.p))
        return tree

    def weighed(self, tree, weight):
        self.heaviest = max(self.heaviest, weight)
        return tree, weight

    def alternation(self):
        tree, weight = self.sequence()
        if self.peek() == ord('|'):
            self.i += 1
            right, more = self.alternation()
            return self.weighed(('alt', tree, right), weight + more)
        return self.weighed(tree, weight)

    def sequence(self):
        parts, weight = [], 0
        while self.peek() is not None and self.peek() not in b'|)':
            tree, w = self.atom()
            tree, w = self.weighed(*self.repeat(*self.weighed(tree, w)))
            parts.append(tree)
            weight += w
        return self.weighed(chain(parts), max(weight, 1))

    def atom(self):
        at, c = self.i, self.peek()
        if c == ord('('):
            if self.depth == 16:
                self.refuse(7, at)
            self.depth += 1
            self.i += 1
            self.opened.append(at)
            field = len(self.opened)
            tree, weight = self.alternation()
            if self.peek() is None:
                self.refuse(6, len(self.p))
            self.i += 1
            self.depth -= 1
            return (('field', tree, field) if field <= 8 else tree), weight
        if c == ord('['):
            return ('leaf', self.klass(at)), 1
        if c == ord('.'):
            self.i += 1
            return ('leaf', set(range(256)) - {10}), 1
        if c == ord('\\'):
            if at + 1 == len(self.p) or self.p[at + 1] not in SPECIAL:
                self.refuse(3, at)
            self.i += 2
            return ('leaf', {self.p[at + 1]}), 1
        if c in SPECIAL:
            self.refuse(2, at)
        self.i += 1
        return ('leaf', {c}), 1

    def repeat(self, x, w):
        c = self.peek()
        if c == ord('{'):
            return self.count(x, w)
        if c is None or c not in b'*+?':
            return x, w
        self.i += 1
        lazy = self.lazy()
        if c == ord('*'):
            return star(x, lazy), w
        if c == ord('+'):
            return chain([x, star(x, lazy)]), 2 * w
        return optional(1, x, lazy)[0], w

    def lazy(self):
        """Whether a `?` follows a repeat (request 5 of paper 02)."""
        if self.peek() != ord('?'):
            return False
        self.i += 1
        return True

    def count(self, x, w):
        at = self.i
        close = self.p.find(b'}', at)
        text = self.p[at + 1:close] if close >= 0 else b'?'
        fields = text.split(b',')
        if close < 0 or len(fields) > 2 or not number(fields[0]) or (len(fields) == 2 and fields[1] and not number(fields[1])):
            self.refuse(5, at)
        m = int(fields[0])
        n = m if len(fields) == 1 else None if not fields[1] else int(fields[1])
        if m > 63 or (n is not None and (n > 63 or n < m)):
            self.refuse(5, at)
        self.i = close + 1
        lazy = self.lazy()
        if n is None:
            return chain([x] * m + [star(x, lazy)]), w * (m + 1)
        return chain([x] * m + optional(n - m, x, lazy)), w * n if n else 1

    def klass(self, at):
        """The class whose [ is at the place `at`; any fault is 4 there."""
        self.i = at + 1
        negated = self.peek() == ord('^')
        if negated:
            self.i += 1
        held = self.item(at)
        while self.peek() != ord(']'):
            held = held | self.item(at)
        self.i += 1
        return set(range(256)) - held if negated else held

    def item(self, at):
        if self.peek() == ord('['):
            for name, held in NAMES.items():
                text = b'[:' + name + b':]'
                if self.p.startswith(text, self.i):
                    self.i += len(text)
                    return held
            self.refuse(4, at)
        low = self.inner(at)
        if self.peek() != ord('-'):
            return {low}
        self.i += 1
        high = self.inner(at)
        if low > high:
            self.refuse(4, at)
        return set(range(low, high + 1))

    def inner(self, at):
        c = self.peek()
        if c == ord('\\'):
            self.i += 1
            if self.peek() is None or self.peek() not in INNER:
                self.refuse(4, at)
            self.i += 1
            return self.p[self.i - 1]
        if c is None or c in INNER:
            self.refuse(4, at)
        self.i += 1
        return c


def number(digits):
    return 1 <= len(digits) <= 2 and all(d in b'0123456789' for d in digits)


def chain(parts):
    if not parts:
        return ('empty',)
    return parts[0] if len(parts) == 1 else ('seq', parts[0], chain(parts[1:]))


def star(x, lazy):
    return ('lazy' if lazy else 'star', x)


def optional(k, x, lazy):
    if not k:
        return []
    copies = chain([x] + optional(k - 1, x, lazy))
    return [('alt', ('empty',), copies) if lazy else ('alt', copies, ('empty',))]


def read(p):
    if len(p) > 255:
        return ('refused', 1, 255)
    try:
        return ('accepted', Reader(p).whole())
    except Refused as r:
        return ('refused', *r.args)


def openings(p):
    reader = Reader(p)
    reader.whole()
    return reader.opened


def below(r):
    """The parts that a part has."""
    return {'empty': r[1:], 'leaf': (), 'seq': r[1:], 'alt': r[1:], 'star': r[1:], 'lazy': r[1:], 'field': r[1:2]}[r[0]]


def leaves(r):
    return [r[1]] if r[0] == 'leaf' else [s for x in below(r) for s in leaves(x)]


def parts(r):
    return 1 + sum(parts(x) for x in below(r))


def match_lengths(r):
    """Every length up to 192 that a match could have, each leaf counted as 1 whatever its set, as the bits of a number."""
    if r[0] == 'empty':
        return 1
    if r[0] == 'leaf':
        return 2
    if r[0] == 'seq':
        return one_after_another(match_lengths(r[1]), match_lengths(r[2]))
    if r[0] == 'alt':
        return match_lengths(r[1]) | match_lengths(r[2])
    if r[0] == 'field':
        return match_lengths(r[1])
    each, all_turns = match_lengths(r[1]), 1
    while all_turns != all_turns | one_after_another(all_turns, each):
        all_turns |= one_after_another(all_turns, each)
    return all_turns


def one_after_another(x, y):
    both = 0
    for n in range(y.bit_length()):
        if y >> n & 1:
            both |= x << n
    return both & (1 << 193) - 1


def lengths(r):
    """The least and the greatest length (request 6 of paper 02). No weight is above 64, so that without a limit, and only then, some length is from 65 to 128."""
    every = match_lengths(r)
    least, greatest = (every & -every).bit_length() - 1, every.bit_length() - 1
    return 'least %d %s' % (least, 'no limit' if greatest > 64 else 'greatest %d' % greatest)


def shown(p):
    """What the program `read_patterns` prints for the pattern."""
    a = read(p)
    if a[0] == 'refused':
        return 'refused %d %d' % a[1:]
    return 'accepted %d %d %d %s' % (parts(a[1]), len(leaves(a[1])), sum(len(s) for s in leaves(a[1])), lengths(a[1]))
