"""Writes tests/reader-cases.tsv (source, expected, pattern) and the input and expected output of the program `read_patterns`.

Expected results are those of paper01.py. Run from the repository: python3 tests/reference/reader_cases.py"""
import random
import sys
from paper01 import NAMES, SPECIAL, shown

sys.setrecursionlimit(10000)
cases = []


def add(source, *patterns):
    for p in patterns:
        cases.append((source, p if isinstance(p, bytes) else p.encode('latin-1')))


add('paper 01, reference lines', 'a|ab', '(a|ab)*', 'a*(b|abc)', 'ab|a', 'a*', 'b*', 'a', 'a{2,3}', '(|a)*', '()', 'a**', 'a{2,1}', 'a{63}b', 'a{63}bc',
    '(' * 17, 'a(')
add('paper 01, grammar: sequences and alternatives', '', '|', '||', 'a|', '|a', 'ab|cd|', '(|)', '((a))', '(a|(b|c)d)e')
add('paper 01, grammar: special bytes', *['\\' + chr(c) for c in SPECIAL], *[chr(c) for c in SPECIAL], '.', 'a.b', '\\.', ' ', '~', '\x00', '\x7f', '\xff', '-', ',', ':', '"')
add('paper 01, grammar: repeats', 'a+', 'a?', 'a{0}', 'a{1}', 'a{2}', 'a{0,}', 'a{3,}', 'a{0,0}', 'a{0,1}', 'a{1,1}', 'a{1,2}', 'a{07}', 'a{00}', 'a{03,05}', '(ab)+', '(ab){2}',
    '(a|b){2,4}', '(a*)*', '(a+)+', '(a?){3}', '((a{2}){2}){2}', 'a{0,63}', '.{63}', '[ab]{2,}', '\\*{2}', '(){5}', '()*', '()+', '()?', '(a|){3}')
add('paper 01, grammar: counts that are none', 'a{', 'a{}', 'a{,}', 'a{,3}', 'a{3', 'a{3,', 'a{3,4', 'a{x}', 'a{3x}', 'a{3,x}', 'a{3,4x}', 'a{100}', 'a{3,100}', 'a{64}', 'a{64,}', 'a{63,64}',
    'a{4,3}', 'a{ 3}', 'a{3 }', 'a{-1}', 'a{3;4}', 'a{3,4,5}', 'a{003}')
add('paper 01, grammar: classes', '[a]', '[abc]', '[a-c]', '[a-a]', '[^a]', '[^a-c]', '[a-cx-z]', '[\\]]', '[\\[]', '[\\^]', '[\\-]', '[\\\\]', '[\\^-a]', '[Z-\\]]', '[a\\-z]', '[.]', '[*]', '[$(){}|+?]', '[:]',
    '[:a:]', '[ -~]', '[\x00-\xff]', '[^\x00-\xff]', '[a-b-]', '[a-b-c]', '[-a]', '[a-]', '[^]', '[]', '[', '[a', '[^', '[a-', '[a-b', '[b-a]', '[\\a]', '[\\', '[a\\', '[[]', '[]a]', '[a[b]', '[a^]', '[^^]', '[a-\\]', '[a-[b]')
add('paper 01, grammar: named sets', *['[[:%s:]]' % n.decode() for n in NAMES], *['[^[:%s:]]' % n.decode() for n in NAMES], '[[:digit:]a]', '[a[:digit:]]', '[[:alpha:][:digit:]_]', '[a-[:digit:]]', '[[:digit:]-a]', '[:digit:]', '[[:digit]]',
    '[[:digi:]]', '[[:Digit:]]', '[[:digits:]]', '[[:cntrl:]]', '[[digit:]]', '[[:digit:', '[[:digit:]', '[[:', '[[::]]')
add('paper 01, refusals: 2', ')', 'a)', '(a))', ']', 'a]', '}', 'a}', '^', 'a^', '$', 'a$', '*', '+', '?', '{', '{2}', '(*a)', '(+)', '|*', 'a|?', 'a*+', 'a+*', 'a?+', 'a{2}*', 'a{2}{', 'a*{2}', '()*+', 'a\\*+*')
add('paper 02, request 5: lazy repeats', 'a*?', 'a+?', 'a??', 'a{2}?', 'a{0}?', 'a{0,0}?', 'a{2,}?', 'a{0,}?', 'a{1,3}?', 'a{0,3}?', 'a{3,3}?', '()*?', 'a\\*+?', '(ab)??', '(a|b){2,4}?', '((a??)*?)+?', '[ab]{2,}?', 'a??b??', '(a??|b{0,2}?){2,3}?',
    '(a{8}){8}?', '(a{8}){9}?', 'a{63}b??', 'a{62}b+?', 'a{63}b+?', '(a{63}bc){0}?', 'a{63}b{0,2}?', '|' * 63 + 'a??', 'a?\\?', 'a[?]?', 'a?|?', '(?)', 'a|*?')
add('paper 02, request 5: a sign too many', 'a*??', 'a+??', 'a???', 'a{2}??', 'a*?*', 'a*?+', 'a*?{2}', 'a*?{', 'a??{x}', 'a?+', 'a{1,2}?*', '(a*?)??', '(a*?)???', '??', '(??)', 'a|??', '{2}?')
add('paper 02, request 6: shortest and longest', 'abc|d', 'a|bcd', 'ab|cd|', '(a|bc)(d|efg)', 'a{2,3}', '(ab){2,3}', '(a|bc){2,4}', '(ab|c){0,3}', '(abc)?', '(ab)*', '(ab)+', '(ab){3,}', '(a|bcd){0,}', '((a*)b){0}c', '((a*)b){0,0}c', '(a*){0,3}',
    '(a*){0,1}', '(a*)?', '(a*){2}', '(a{2,})??', '(a{0})*', '(a{0,0})+', '((a*){0})*', '((a*){0}|){3,}', '(()*)*', '(()|())+', '(a{0}b{0})*c', '(|a)*', '[^%c-%c]' % (0, 255), '[^%c-%c]{2,3}' % (0, 255), '([^%c-%c]|a){0,2}' % (0, 255), '[^%c-%c]*' % (0, 255),
    '((a{2}){2,3}){4}', '(a{4}|b{8}){8}', '(a{32}){0,2}', '((a|b*){0}c+){0}', '(((a*){0,0}b){2}){3}c?', '(a{63}b){0}', '(a{63}bc){0}', '(a?){32}(b*){0}', 'x(a{0}|b{2}|c{1,3}){2}y')
add('paper 01, refusals: 3', '\\', 'a\\', '\\a', 'a\\n', '\\-', '\\:', '(\\b)', '\\\x00')
add('paper 01, refusals: the lowest place', 'a**[', '[a**', '(a{2,1}', '(*', '\\q(', 'a{(', '((((', 'a{x}**', '(a|b', '(a]', '[z-a](')
add('paper 01, limits: 255 bytes', 'a' * 64, 'a{0}' * 63 + 'abc', '[' + 'a' * 252 + ']', '[' + 'a' * 253 + ']', '[' + 'a' * 254 + ']', '(' * 255, '(' * 256, '[' * 256, ')' * 257, 'a' * 256, '[' + 'ab' * 500 + ']')
add('paper 01, limits: depth 16', '(' * 15 + ')' * 15, '(' * 16 + ')' * 16, '(' * 17 + ')' * 17, '(' * 16 + 'a' + ')' * 16 + '(b)', '(' * 16 + 'a' + ')' * 15, '((' * 8 + '))' * 8 + '(((((((((((((((((')
add('paper 01, limits: weight 64', 'a{63}', 'a{63}b', 'a{63}b|', 'a{63}|', 'a{63}||', '(a{63})b', 'a{62}b+', 'a{63}b+', 'a{62}b?c', 'a{61}b{2,}', 'a{62}b{2,}', '(a{32})+', '(a{33})+', '(a|b){32}', '(a|b){33}', '(ab){32}', '(ab){33}', '(|){32}', '(|){33}',
    '(a{8}){8}', '(a{8}){9}', 'a{0}{', '(a{63}b){0}', '(a{63}b+){0}', '(a{63}bc){0,0}', '((a{40}){2}){0}', 'a{63}(b{63}c{0}){0}', '()' * 64, '()' * 65, '(a+){16}', '(a+){32}', '(a+){33}', 'a{0,63}b', 'a{0,63}bc', '|' * 63, '|' * 64)
nest = lambda n, s: 'a?' + s if n == 0 else '(' + nest(n - 1, ')?' + s)
deep = lambda n, s: 'a{0,63}' + s if n == 0 else 'a{0,63}(' + deep(n - 1, '){0}' + s)
lazy_nest = lambda n, s: 'a??' + s if n == 0 else '(' + lazy_nest(n - 1, ')??' + s)
add('worst patterns: most parts, deep nests, counts under {0}', '(' + lazy_nest(15, '){0,63}?' + lazy_nest(12, '')), '(' * 16 + 'a??' + ')??' * 16, '(' + nest(15, '){0,63}' + nest(16, '')), deep(16, ''), '(.|a.{10})*', '.*a.{9}', '((((((((((((((((a?)?)?)?)?)?)?)?)?)?)?)?)?)?)?)?)?', '(' * 16 + 'a' + ')*' * 16,
    '(' * 16 + 'a{2}' + '){1}' * 16, '(' * 6 + 'a{2}' + '){2}' * 5 + ')', '[[:alpha:][:digit:][:punct:]]{63}')

ATOMS = ['a', 'b', 'z', '.', '\\.', '\\(', '[ab]', '[^a-c]', '[[:digit:]x]', '\xe9', '0']
SIGNS = ['', '', '', '', '*', '+', '?', '{2}', '{1,3}', '{0,2}', '{2,}', '{0}', '*?', '+?', '??', '{1,3}?', '{0,2}?', '{2,}?']


def pattern(rng, depth):
    def atom(d):
        if d and rng.random() < 0.4:
            return '(' + '|'.join(sequence(d - 1) for _ in range(rng.choice([1, 1, 2, 3]))) + ')'
        return rng.choice(ATOMS)

    def sequence(d):
        return ''.join(atom(d) + rng.choice(SIGNS) for _ in range(rng.choice([0, 1, 1, 2, 3])))

    return '|'.join(sequence(depth) for _ in range(rng.choice([1, 1, 2])))


rng = random.Random(20261115)
made = set()
while len(made) < 120:
    p = pattern(rng, 3)
    if rng.random() < 0.3 and p:
        i = rng.randrange(len(p))
        p = p[:i] + rng.choice('()[]{}*+?|\\^$') + p[i + rng.choice([0, 1]):]
    made.add(p)
add('generated with seed 20261115', *sorted(made))

rows = [(s, shown(p), ''.join(chr(b) if 33 <= b <= 126 and b != 37 else '%%%02X' % b for b in p)) for s, p in cases]
with open('tests/reader-cases.tsv', 'w') as out:
    out.write('# source\texpected\tpattern (bytes outside 33..126, and %, as %XX)\n')
    out.writelines('\t'.join(r) + '\n' for r in rows)
with open('crates/read_patterns/stdin', 'wb') as out:
    out.write(b''.join(p + b'\n' for _, p in cases))
with open('crates/read_patterns/stdout', 'w') as out:
    out.write(''.join(r[1] + '\n' for r in rows))
print(len(rows), 'cases')
