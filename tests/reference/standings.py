"""A slow, obvious reading of paper 01's outcomes, spans, standings, records and refusals 10 and 11, with requests 1, 5, 7 and 8 of paper 02, apart from the product. The reader
is paper01.py's.

extended(pattern) -> None if an accepted pattern passes the test of request 8, else a string that it matches and a longer one that it matches, too.
check(pattern, table, witness, area) -> (line that the checker program prints, table afterwards, witness buffer afterwards, area afterwards)."""
import functools
from paper01 import below, leaves, read
from rests import extension


def numbered(r, n=0):
    """The written-out pattern with its leaves numbered from 0, left to right: a leaf becomes ('leaf', set, number)."""
    if r[0] == 'leaf':
        return ('leaf', r[1], n), n + 1
    parts = []
    for x in below(r):
        x, n = numbered(x, n)
        parts.append(x)
    return (r[0], *parts, *r[1 + len(parts):]), n


def outcomes(r, line):
    """The list of outcomes from each place, as a function of part and place. A later appearance of an outcome says nothing new, so it is left out."""
    known = {}

    def first_ones(items):
        return list(dict.fromkeys(items))

    def after(r, items):
        return [o for x in items for o in (of(r, x[1]) if x[0] == 'ends' else [x])]

    def of(r, i):
        key = (id(r), i)
        if key not in known:
            known[key] = first_ones(list_of(r, i))
        return known[key]

    def list_of(r, i):
        if r[0] == 'empty':
            return [('ends', i)]
        if r[0] == 'leaf':
            if i == len(line):
                return [('wants', r[2])]
            return [('ends', i + 1)] if line[i] in r[1] else []
        if r[0] == 'seq':
            return after(r[2], of(r[1], i))
        if r[0] == 'alt':
            return of(r[1], i) + of(r[2], i)
        if r[0] == 'field':
            return of(r[1], i)
        # A repeat. Request 1 of paper 02: an empty turn's end stays in its place, as the repeat's.
        turns = [o for x in of(r[1], i) for o in ([x] if x == ('ends', i) else after(r, [x]))]
        # Request 5: a lazy repeat has the leaving end first.
        return [('ends', i)] + turns if r[0] == 'lazy' else turns + [('ends', i)]

    return lambda i: of(r, i)


def spans(r, line):
    """(start, greedy end, POSIX end) at the leftmost start, or None."""
    of = outcomes(r, line)
    for i in range(len(line) + 1):
        ends = [x[1] for x in of(i) if x[0] == 'ends']
        if ends:
            return i, ends[0], max(ends)
    return None


def standing(r, line):
    """(a), (b), (c), (d)."""
    items = outcomes(r, line)(0)
    ends = [k for k, x in enumerate(items) if x[0] == 'ends']
    before = items[:ends[0]] if ends else items
    return (tuple(x[1] for x in before if x[0] == 'wants'), bool(ends) and items[ends[0]][1] == len(line),
            frozenset(x[1] for x in items if x[0] == 'wants'), any(items[k][1] == len(line) for k in ends))


def is_witness(s):
    return s[3] and not s[1]


def lowest_bytes(r):
    """The lowest byte of each group: a higher one leads to a standing that is known by then."""
    sets = leaves(r)
    seen = {}
    for b in range(256):
        seen.setdefault(tuple(b in s for s in sets), b)
    return sorted(seen.values())


def records(r, slots):
    """The records in order, each (line, standing, origin, byte), up to the first witness's; more than `slots` are not looked for."""
    whole, _ = numbered(r)
    found = [(b'', standing(whole, b''), 0, 0)]
    known = {found[0][1]}
    order = lowest_bytes(r)
    k = 0
    while k < len(found) and len(found) <= slots:
        for b in order:
            line = found[k][0] + bytes([b])
            s = standing(whole, line)
            if s not in known:
                known.add(s)
                found.append((line, s, k, b))
                if is_witness(s) or len(found) > slots:
                    return found
        k += 1
    return found


def width(n):
    """The bytes of a record, of a pattern with n leaves: request 7 of paper 02."""
    return 13 + (6 * n + 7) // 8


def slots_of(r, length):
    """The slots of a table for the records of the written-out pattern r."""
    return min(length // width(len(leaves(r))), 65535)


def record_bytes(record, n):
    _, (order, first, every, some), origin, byte = record
    bits = format(len(order), '07b') + '01'[first] + '01'[some] + '0' * 7 + ''.join('01'[p in every] for p in range(64)) + format(origin, '016b') + format(byte, '08b')
    bits += ''.join(format(p, '06b') for p in order) + '000000' * (n - len(order))
    return int(bits.ljust(8 * width(n), '0'), 2).to_bytes(width(n), 'big')


# The bytes of the area that the test of request 8 runs in.
AREA = 1024

# So many sets of wanted leaves are looked through. There can be as many as there are sets of 64 leaves, so that of a few patterns the rests alone decide.
MOST_SETS = 400


def matched(whole, line):
    return ('ends', len(line)) in outcomes(whole, line)(0)


def extends_by_sets(r):
    """Whether some matched string extends to a longer one, by (c) and (d) of all lines; None if that would take too many. (c) alone decides what (c) and (d) are a byte later."""
    whole, _ = numbered(r)
    lines = {standing(whole, b'')[2:]: b''}
    later = {}
    for s in (queue := list(lines)):
        later[s] = set()
        for b in lowest_bytes(r):
            line = lines[s] + bytes([b])
            after = standing(whole, line)[2:]
            later[s].add(after)
            if after not in lines:
                lines[after] = line
                queue.append(after)
        if len(lines) > MOST_SETS:
            return None

    def reached(s):
        seen = set()
        for x in (queue := [s]):
            queue.extend(later[x] - seen)
            seen |= later[x]
        return seen

    return any(s[1] and any(x[1] for x in reached(s)) for s in lines)


@functools.cache
def extended(pattern):
    """By the rests of the pattern. The two strings are shown to be matched by the outcomes; where there are none, the sets of wanted leaves say so too, if they are not too many."""
    r = read(pattern)[1]
    told = extension(r, lowest_bytes(r))
    if told:
        whole, _ = numbered(r)
        assert len(told[0]) < len(told[1]) and told[1].startswith(told[0]) and matched(whole, told[0]) and matched(whole, told[1]), (pattern, told)
    else:
        assert not extends_by_sets(r), pattern
    return told


def check(pattern, table, witness, area):
    answer = read(pattern)
    if answer[0] == 'refused':
        return 'refused %d %d' % answer[1:], table, witness, area
    if len(area) < AREA:
        return 'refused 13 0', table, witness, area
    area = bytes(AREA) + area[AREA:]
    if not extended(pattern):
        return 'alike 0', table, witness, area
    slots = slots_of(answer[1], len(table))
    found = records(answer[1], slots)
    written = b''.join(record_bytes(x, len(leaves(answer[1]))) for x in found[:slots])
    table = written + table[len(written):]
    if len(found) > slots:
        return 'refused 10 0', table, witness, area
    line, last = found[-1][:2]
    if not is_witness(last):
        return 'alike %d' % len(found), table, witness, area
    if len(line) > len(witness):
        return 'refused 11 0', table, witness, area
    return 'unlike %d %s' % (len(found), line.hex()), table, line + witness[len(line):], area
