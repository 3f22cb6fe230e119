"""A slow, obvious reading of request 2 of paper 02, fields of the greedy span, apart from the product. The reader is paper01.py's.

fields(pattern, line) -> ('refused', number, place), ('none',) or ('span', start, end, [(start, end) or None for each field]).

Run from the repository, `python3 tests/reference/fields.py` writes the input and expected output of the program `ask`, and tests/request-cases/05/fields.jsonl: the cases of request 2,
whose results stay, and cases with lazy repeats (request 5)."""
import itertools
import json
import random
import sys
from paper01 import openings, read

sys.setrecursionlimit(100000)


def ways(r, line):
    """The ends of a part from a place in the order of preference, each with the marks (field, is it a closing, place) on its first way: a later way to an end says
    nothing new, since what comes after it is the same."""
    known = {}

    def after(r, k, marks):
        return [(end, marks + more) for end, more in of(r, k)]

    def of(r, i):
        key = (id(r), i)
        if key not in known:
            found = {}
            for end, marks in list_of(r, i):
                found.setdefault(end, marks)
            known[key] = list(found.items())
        return known[key]

    def list_of(r, i):
        if r[0] == 'empty':
            return [(i, ())]
        if r[0] == 'leaf':
            return [(i + 1, ())] if i < len(line) and line[i] in r[1] else []
        if r[0] == 'seq':
            return [x for k, marks in of(r[1], i) for x in after(r[2], k, marks)]
        if r[0] == 'alt':
            return of(r[1], i) + of(r[2], i)
        if r[0] == 'field':
            return [(k, ((r[2], False, i),) + marks + ((r[2], True, k),)) for k, marks in of(r[1], i)]
        turns = [x for k, marks in of(r[1], i) for x in ([(k, marks)] if k == i else after(r, k, marks))]
        return [(i, ())] + turns if r[0] == 'lazy' else turns + [(i, ())]

    return lambda i: of(r, i)


def fields(pattern, line):
    answer = read(pattern)
    if answer[0] == 'refused':
        return answer
    opened = openings(pattern)
    if len(opened) > 8:
        return ('refused', 12, opened[8])
    of = ways(answer[1], line)
    for i in range(len(line) + 1):
        if of(i):
            end, marks = of(i)[0]
            last = {(f, closing): place for f, closing, place in marks}
            return ('span', i, end, [(last[f, False], last[f, True]) if (f, False) in last else None for f in range(1, len(opened) + 1)])
    return ('none',)


def shown(pattern, line):
    """What the program `ask` prints for an order line."""
    if len(line) > 1024:
        return 'refused 9 0'
    told = fields(pattern, line)
    if told[0] != 'span':
        return ' '.join(map(str, told))
    return ' '.join(['greedy %d %d fields' % told[1:3]] + ['-' if f is None else '%d %d' % f for f in told[3]])


# Lazy repeats over brackets, inside brackets and around them, with a rest that needs more turns and without; copies, empty turns, and a sign without an effect.
LAZY = ['(a)*?', '(a)+?', '(a)??', '(a){1,2}?', '(a)*?b', '(a)+?b', '(a)??b', '(a){0,2}?b', '(a){1,}?b', '(a){2}?b', '(a*?)(a*)', '(a*)(a*?)', '(a??)(a?)', '(a*?)(b+?)', '(a|(b))*?c', '((a)*?b)*?c',
        '((a)|b)+?(b*?)', '(a(b)??)*', '(a(b)??)*?b', '(|a)*?b', '((|a)+?)b', '(a{1,2}?){2}', '((a)??){2,}?b', '(.)*?(b)', '([ab]*?)(b|bb)', '(a)(b)??(a)??b', '((((a)*?)*?)*?)b', '(()*?)*?a',
        '(a)*?(b)*?(a)*?b', '(a|b)*?(ab)', '(a??b??){2,3}?a', '(a)(a)(a)(a)(a)(a)(a)(a)??', '(a)(a)(a)(a)(a)(a)(a)(a)(a)??', '(a*??)']


def told(pattern, line):
    answer = fields(pattern, line)
    return [*answer[:3], [list(f) if f else None for f in answer[3]]] if answer[0] == 'span' else list(answer)


def lazy_cases():
    rng = random.Random(20261116)
    lines = [bytes(w) for n in range(5) for w in itertools.product(b'ab', repeat=n)]
    for p in LAZY:
        for line in sorted(rng.sample(lines, 12)) + [b'aab', b'aababbc']:
            yield {'pattern': p.encode().hex(), 'line': line.hex(), 'fields': told(p.encode(), line)}


if __name__ == '__main__':
    # Eight brackets: inside each other, left out by a later turn, with copies.
    PATTERN = b'((a|(b))*(c+)?((d)|e))+((f){2}|x)?y*'
    LINES = [b'', b'd', b'e', b'bad', b'abe', b'bacd', b'bcde', b'abbaccdeffy', b'effyyy', b'dff', b'df', b'ex', b'xde', b'ba', b'z' * 900 + b'bbccdaex', b'a' * 1023 + b'd', b'a' * 1024 + b'd', b'\x00d\xff\r',
             b'bd' * 400, b'cccc']
    with open('crates/ask/stdin', 'wb') as out:
        out.write(b'fields ' + PATTERN + b'\n' + b''.join(line + b'\n' for line in LINES))
    with open('crates/ask/stdout', 'w') as out:
        out.writelines(shown(PATTERN, line) + '\n' for line in LINES)
    print('ask', len(LINES), 'lines')
    with open('tests/request-cases/02/fields.jsonl') as before:
        cases = [json.loads(row) for row in before]
    for c in cases:
        assert told(bytes.fromhex(c['pattern']), bytes.fromhex(c['line'])) == c['fields'], c
    cases += lazy_cases()
    with open('tests/request-cases/05/fields.jsonl', 'w') as out:
        out.writelines(json.dumps(c) + '\n' for c in cases)
    print('05/fields.jsonl', len(cases), 'cases')
