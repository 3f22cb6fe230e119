"""Writes tests/request-cases/08/extends.jsonl: which patterns pass the test of request 8 of paper 02, and of those that fail a string that extends to a longer one.

Expected results are those of standings.py. Run from the repository: python3 tests/reference/extends.py"""
import itertools
import json
import random
import sys
from paper01 import leaves, read
from program_cases import CHECKED, NONE, encoded
from standings import extended, extends_by_sets, is_witness, records

sys.setrecursionlimit(100000)

# Byte 10 by itself, which no pattern of a program's input has: only a class that names it takes it, or one that is all others.
NEWLINES = encoded('\n', '.|\nb', '[^a]|\nb', 'a.|a\nb', 'a[^b]|a\nb', '\n*a', '\n*.', '.*\n', '.*\n?', '(.|\n)*x', '(.*\n){2}', '(.*\n)*', '[\n]|\n\n', '[[:space:]]|\nx', '[[:punct:]]|\nx', '\n??a', '[\t-\r]{2}|\n', '[^\n]*\n', '[^\n]*[^\n]')

# Two ways that meet after 841 bytes only, after 729, and never.
FAR = encoded('(a{29})*b|a(a{30})*bb', '(a{27})*b|a(a{28})*bb', '(a{28})*b|a(a{30})*bb')


def small_ones():
    """All patterns of at most four of some bytes, and of at most three of some more parts."""
    for tokens, most in (('ab|*?()', 4), (('a', '[ab]', '.', NONE, '|', '*', '(', ')'), 3)):
        for n in range(most + 1):
            for p in itertools.product(tokens, repeat=n):
                yield ''.join(p)


ATOMS = ['a', 'b', 'c', 'a', 'b', 'ab', 'ba', '.', '[ab]', '[bc]', '[^a]', '[^ab]', '()', NONE, '\x00', '\xff', '\n', '[\x80-\xff]', '[[:alpha:]]']
SIGNS = ['', '', '', '', '*', '+', '?', '{2}', '{1,3}', '{0,2}', '{2,}', '{0}', '*?', '+?', '??', '{1,3}?', '{2,}?']
ENDINGS = ['', '', 'x', 'x', '[xy]', '[^a-c]', 'xy?', 'x(y' + NONE + ')?', '\x00', '(x|yx)', '(x|xy)', '(x|yy|yx)']


def random_one(rng):
    def atom(d):
        if d and rng.random() < 0.4:
            return '(' + '|'.join(sequence(d - 1) for _ in range(rng.choice([1, 2, 2, 3]))) + ')'
        return rng.choice(ATOMS)

    def sequence(d):
        return ''.join(atom(d) + rng.choice(SIGNS) for _ in range(rng.choice([0, 1, 1, 2, 3])))

    return '|'.join(sequence(3) + rng.choice(ENDINGS) for _ in range(rng.choice([1, 1, 2, 2])))


def random_ones(each):
    """As many that pass as that fail; none that is as small as those above."""
    rng = random.Random(20261117)
    wanted = {True: each, False: each}
    made = set()
    while any(wanted.values()):
        p = random_one(rng).encode('latin-1')
        if p in made or read(p)[0] == 'refused' or len(leaves(read(p)[1])) < 4:
            continue
        made.add(p)
        passes = extended(p) is None
        if wanted[passes]:
            wanted[passes] -= 1
            yield p


def case(pattern):
    told = extended(pattern)
    if told is None:
        # Such a pattern is alike: none of the records that there would be is a witness's. Some are looked at.
        assert not any(is_witness(x[1]) for x in records(read(pattern)[1], 40)), pattern
        return {'pattern': pattern.hex(), 'passes': True}
    return {'pattern': pattern.hex(), 'passes': False, 'matched': told[0].hex(), 'longer': told[1].hex()}


if __name__ == '__main__':
    patterns = CHECKED + encoded(*('a{%d}' % n for n in range(64))) + NEWLINES + FAR + encoded(*small_ones()) + list(random_ones(150))
    cases = [case(p) for p in dict.fromkeys(patterns) if read(p)[0] == 'accepted']
    passing = [c for c in cases if c['passes']]
    with open('tests/request-cases/08/extends.jsonl', 'w') as out:
        out.writelines(json.dumps(c) + '\n' for c in cases)
    alone = [c for c in passing if extends_by_sets(read(bytes.fromhex(c['pattern']))[1]) is None]
    print('08/extends.jsonl', len(cases), 'cases,', len(passing), 'pass,', len(alone), 'of them with too many sets of wanted leaves')
