"""A slow, obvious reading of request 9 of paper 02, a carrier's own named sets, apart from the product. Reader, standings, fields and looking are those of paper01.py,
standings.py, fields.py and looking.py, with other sets under the eight names.

fault(table) -> the place at which a table fails, or None. loaded(table) -> a context in which its sets are those of the names.
Run from the repository it writes tests/request-cases/09/tables.jsonl and tests/request-cases/09/own-sets.jsonl:
python3 tests/reference/sets.py"""
import contextlib
import json
import random
import paper01
from fields import told
from looking import looking
from paper01 import leaves, lengths, read
from standings import AREA, check, extended, numbered, spans, width

# From the highest bit on.
NAMES = [b'alpha', b'digit', b'alnum', b'upper', b'lower', b'xdigit', b'space', b'punct']
FIXED = {name: set(held) for name, held in paper01.NAMES.items()}


def sets_of(table):
    return {name: {b for b in range(len(table)) if table[b] >> (7 - k) & 1} for k, name in enumerate(NAMES)}


def table_of(sets):
    return bytes(sum((b in sets[name]) << (7 - k) for k, name in enumerate(NAMES)) for b in range(256))


def fault(table):
    """By the sets, not by the entries: the lowest byte that is in one and should not be, or is not and should."""
    if len(table) != 256:
        return 256
    s = sets_of(table)
    wrong = (s[b'alnum'] ^ (s[b'alpha'] | s[b'digit'])) | (s[b'upper'] - s[b'alpha']) | (s[b'lower'] - s[b'alpha']) | (s[b'digit'] - s[b'xdigit'])
    wrong |= (s[b'alpha'] & s[b'digit']) | (s[b'punct'] & s[b'alnum']) | (s[b'punct'] & s[b'space'])
    return min(wrong, default=None)


@contextlib.contextmanager
def loaded(table):
    paper01.NAMES.update(sets_of(table))
    # What is known of a pattern is known of it with other sets.
    extended.cache_clear()
    try:
        yield
    finally:
        paper01.NAMES.update(FIXED)
        extended.cache_clear()


def random_table(rng):
    """The fixed sets, or none, with some bytes moved, so that it passes."""
    s = {name: set(held) if rng.random() < 0.8 else set() for name, held in FIXED.items()}
    s[b'alnum'] = s[b'alpha'] | s[b'digit']
    s = sets_of(bytes(e if passes(e) else 0 for e in table_of(s)))
    table = bytearray(table_of(s))
    for b in rng.sample(range(256), rng.choice([1, 3, 8, 60])):
        table[b] = rng.choice(PASSING)
    return bytes(table)


def passes(e):
    return fault(bytes([e]) + bytes(255)) is None


PASSING = [e for e in range(256) if passes(e)]
POSIX = table_of(FIXED)
LATIN1 = bytes(POSIX[b] if b < 0xC0 else 1 if b in (0xD7, 0xF7) else 0xA0 | (0x10 if b < 0xDF else 0x08) for b in range(256))


def tables():
    """Each entry that there can be, at the ends and within; one bit of the fixed table another; two entries that fail; lengths."""
    rng = random.Random(20261117)
    for e in range(256):
        b = (0, 255, rng.randrange(1, 255))[e % 3]
        yield POSIX[:b] + bytes([e]) + POSIX[b + 1:]
    for b in range(0, 256, 3):
        yield POSIX[:b] + bytes([POSIX[b] ^ 1 << rng.randrange(8)]) + POSIX[b + 1:]
    for _ in range(100):
        table = bytearray(random_table(rng))
        for b in rng.sample(range(256), rng.choice([2, 2, 3, 9])):
            table[b] = rng.randrange(256)
        yield bytes(table)
    for n in (0, 1, 2, 128, 254, 255, 257, 258, 300, 511, 512, 1000):
        yield (4 * POSIX)[:n]
        yield bytes(rng.randrange(256) for _ in range(n))
    yield from (POSIX, LATIN1, bytes(256), b'\xff' * 256)


# Every name alone and not, in a class with others, and where the sets decide the verdict, the test, the spans, the fields and the groups.
PATTERNS = ['[[:%s:]]' % n.decode() for n in NAMES] + ['[^[:%s:]]+' % n.decode() for n in NAMES] + [
    '[[:alpha:]]|[[:alpha:]][[:digit:]]', '[[:upper:]]|[[:lower:]][[:digit:]]', '[[:punct:]]|[[:space:]]x', '([[:alpha:]]+)([[:digit:]]*)', '([[:alnum:]]*?)([[:punct:]])', '([[:upper:]][[:lower:]]*)+', '[[:alpha:]_][[:alnum:]_]*',
    '[^[:alpha:]]|.[[:space:]]', '[[:xdigit:]]{2}|[[:xdigit:]]', '[[:xdigit:]]{1,3}?[[:digit:]]', '([[:alpha:]]|[[:digit:]]|[[:punct:]])*[[:space:]]', '[[:alnum:][:punct:][:space:]]*', '[^[:alnum:][:punct:][:space:]]',
    '[[:upper:]]*[[:lower:]]*', '[[:alpha:]]*a', 'B[[:digit:]]{1,3}(-[[:digit:]]+)?', '(NO|NR)[[:space:]]?[[:digit:]]+', 'a|ab', '[a-z]|[[:digit:]-]', '', '(', '[[:alpha]]', '[[:Alpha:]]', '[[:digit:]-a]', 'a{64}', 'x' * 256, '(a)(b)(c)(d)(e)(f)(g)(h)([[:alpha:]])']
LINES = [b'', b'aB1-2', b'\xc4rger 12', b'B12-40 \xfcber', b'\x00\xff 9Z_', b'x1\xd7y2\xf7', b'NO 7;nr 12']


def own_sets():
    """Table, pattern, line, and how much is lent."""
    rng = random.Random(20261118)
    broken = [POSIX[:200], bytes([0x90]) + POSIX[1:], POSIX[:255] + b'\x03', b'']
    for p in PATTERNS:
        for table in [LATIN1, random_table(rng), random_table(rng), rng.choice([POSIX, bytes(256), random_table(rng)]), rng.choice(broken)]:
            yield table, p.encode(), rng.choice(LINES), rng.choice([600, 600, 300, 40, 0]), rng.choice([64, 64, 1, 0]), rng.choice([AREA, AREA, AREA + 5, AREA - 1, 0])


def due(table, pattern, line, t, w, a):
    """What each call gives, and the three buffers of the checker."""
    before = b'\xaa' * t, b'\xbb' * w, b'\xcc' * a
    place = fault(table)
    if place is not None:
        refused = 'refused 14 %d' % place
        return dict({k: refused for k in ('check', 'spans', 'lengths', 'record', 'leaves')}, fields=['refused', 14, place], table=before[0].hex(), witness=before[1].hex(), area_zeroed=False, looks=0, comparisons=0)
    with loaded(table):
        answer = read(pattern)
        result, *after = check(pattern, *before)
        looks, comparisons = looking(pattern, t, a)
        told_all = dict(check=result, fields=told(pattern, line), table=after[0].hex(), witness=after[1].hex(), area_zeroed=after[2] != before[2], looks=looks, comparisons=comparisons)
        if answer[0] == 'refused':
            refused = 'refused %d %d' % answer[1:]
            return dict(told_all, **{k: refused for k in ('spans', 'lengths', 'record', 'leaves')})
        cut = spans(numbered(answer[1])[0], line)
        return dict(told_all, spans='none' if cut is None else 'greedy %d %d posix %d %d' % (cut[0], cut[1], cut[0], cut[2]), lengths=lengths(answer[1]),
                    record='bytes %d' % width(len(leaves(answer[1]))), leaves=[bytes(sorted(s)).hex() for s in leaves(answer[1])])


if __name__ == '__main__':
    with open('tests/request-cases/09/tables.jsonl', 'w') as out:
        for table in dict.fromkeys(tables()):
            out.write(json.dumps({'sets': table.hex(), 'fault': fault(table)}) + '\n')
    with open('tests/request-cases/09/own-sets.jsonl', 'w') as out:
        for c in own_sets():
            table, pattern, line, t, w, a = c
            out.write(json.dumps(dict({'sets': table.hex(), 'pattern': pattern.hex(), 'line': line.hex(), 'table_len': t, 'witness_len': w, 'area_len': a}, **due(*c))) + '\n')
