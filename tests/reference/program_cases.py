"""Writes the input and expected output of the programs `check_patterns`, `explain_patterns` and `library_calls`.

Expected results are those of standings.py, which takes some minutes for the longest witnesses. Run from the repository:
python3 tests/reference/program_cases.py"""
import sys
from groups import groups, readable
from paper01 import leaves, read
from standings import AREA, check, extended, numbered, spans, width

sys.setrecursionlimit(100000)


def nest(n, rest=''):
    return 'a?' + rest if n == 0 else '(' + nest(n - 1, ')?' + rest)


def lazy_nest(n, rest=''):
    return 'a??' + rest if n == 0 else '(' + lazy_nest(n - 1, ')??' + rest)


def deep(n, rest=''):
    return 'a{0,63}' + rest if n == 0 else 'a{0,63}(' + deep(n - 1, '){0}' + rest)


def lines_of(patterns):
    """One pattern a line; the last newline is left out."""
    return b'\n'.join(patterns)


def write(program, text, expected):
    with open('crates/%s/stdin' % program, 'wb') as out:
        out.write(text)
    with open('crates/%s/stdout' % program, 'w') as out:
        out.writelines(line + '\n' for line in expected)
    print(program, len(expected), 'lines')


def encoded(*patterns):
    return [p if isinstance(p, bytes) else p.encode('latin-1') for p in patterns]


# Paper 01, 'Reference lines', and the three of 'The programs'.
REFERENCE = encoded('a|ab', '(a|ab)*', 'a*(b|abc)', 'ab|a', 'a*', 'b*', 'a', 'a{2,3}', '(|a)*', '()', 'a**', 'a{2,1}', 'a{63}b', 'a{63}bc', '(' * 17, 'a(')

# Paper 02, request 1: an empty turn ends a repeat. By it the first five are unlike, the next two get another count or witness, the two after them other records, and the rest are as without it.
EMPTY_TURNS = encoded('(|a)+', '(|a){2,}', '((|a)*b?)*', '((|a)(|b))*', '(a*|b)*', '(|a*)*b', '(()|a){1,}|b', '(()|ab)*c', '((a|)*|ab)*',
                      '(a|)*b', '(a*)*', '(a*)+', '(b|a*)*', '(|a){0,3}', '(|a|aaa){0,2}(ab|bc)')

# Paper 02, request 5: lazy repeats. Every sign and count, over parts of any kind, with and without a rest that needs more turns; with request 1; signs without an effect; and a sign too many.
LAZY = encoded('a*?', 'a+?', 'a??', 'a{2,}?', 'a{0,}?', 'a{1,3}?', 'a{0,2}?', 'a{2}?', 'a{0}?', 'a{0,0}?', 'a{1}?b', '(a|ab)??', 'a{1,3}?b', 'a*?b', 'a+?b', 'a??b', 'a{2,4}?b', 'a{2,}?b', '(a|ab)*?c',
               '(a|ab)*?', '(a*?)*', '(a*)*?', '(a+?)+?b', '(|a)*?', '(|a)*?b', '(a|)+?', '(a??b?)*', '(a??b??)*?c', '((a??)+?b)*?', '(a{2,3}?b){2,}?', '(ab??){3}?c??', '.*?a', '[ab]*?b', 'a*?a*', 'a*a*?',
               'a??a', 'aa??', 'x*?', '(a*?)?', '()*?', '()??', '(()??)*?', 'a{0,3}?a{0,3}?', '(a{1,2}?|b)*?c', 'a*??', 'a???', 'a*?*', 'a*?{2}', 'a?+', 'a+?+', 'a{2}??', 'a{2}?{3}', '?', '(?a)', 'a|??', '*?')

# Patterns of the lists above whose ending is fixed, with an ending that is not: it takes the records to decide them.
OPENED = encoded('(|a*)*bz?', '(()|ab)*cz?', '(a|)*bz??', 'a{2}?z?', 'a{1}?bz?', 'a{1,3}?bz?', 'a*?bz?', 'a+?bz??', 'a??bz?', 'a{2,4}?bz??', 'a{2,}?bz?', '(a|ab)*?cz?', '(a+?)+?bz?', '(|a)*?bz?', '(a??b??)*?cz??',
                 '()*?z?', '(()??)*?z??', '(a{1,2}?|b)*?cz?', '(|a*)bz?')

# A class that holds no byte.
NONE = '[^\x00-\xff]'

# Paper 02, request 8: whether a matched string extends to a longer one. Of neighbours one often passes the test and one fails.
EXTENDING = encoded(
    # a class without a byte matches nothing, neither before an end nor on the way to one
    NONE, NONE + '*', NONE + '?', NONE + '|a', 'a|b' + NONE, 'a|ab' + NONE, 'a(b' + NONE + ')?', 'a(b' + NONE + '|c)?', 'a|' + NONE + 'b', 'a' + NONE + '*', 'a(b|' + NONE + ')?', '(a' + NONE + ')*', '(a' + NONE + '|b)*c',
    '(a' + NONE + '|b)*', 'a(b*' + NONE + ')?', 'a(b*c*' + NONE + '?)?', 'a|a(b(c' + NONE + '|d)' + NONE + ')*', 'a|a(b(c' + NONE + '|d)' + NONE + '?)*',
    # fixed endings, and endings that look so
    'ab', 'ab?', 'a*b', 'a*ba*', 'a*b|a*bb', '(a|b)*c', '(a|b)*b', '[^x]*x', '.*x', '[^x]+x', 'a{3}', '(a{3})+', 'a{2,3}b', 'a{2,3}b?', '(ab|a)b', '(ab|a)b?', '(ab|a)c', '(a|ab)(c|bcd)', '(a|ab)(c|bd)', '(a*b)*', '(a*b)*c', '(a*b){2}', '(a*b){2,}',
    '(a|b|ab)c', '(a|b|ab)b', 'abc|abd|acd', 'abc|abd|ab', '(x|y)*z(x|y)', '(x|z)*z(x|y)', '()|()', '(|)a', '(ab){0}c', '((ab)*){0}', 'a(b*){0}',
    # one string, two ways: by bytes that two sets share, or do not
    'a.c|abd', 'a.|abd', '(ab|ac)(d|de)', '(ab|ac)(d|ee)', 'x(a|aa)y', 'x(a|aa)', '[ab]|[bc]d', '[ab]|[cd]e', '[a-m]|[n-z]a', '[a-n]|[n-z]a', 'ab|a[^b]d', 'ab|a[^c]d', 'abcd|abce|abcdf', '(a|b)c|(b|d)ce', '(a|b)c|(d|e)cf',
    'abcdefgh|abcdefgxyz', 'abcdefgh|abcdefghxyz', 'abcdefghxyz|abcdefgh', '(a|b)(c|d)(e|f)|adf', '(a|b)(c|d)(e|f)|adeg', '(a|b)(c|d)(e|f)|agek',
    # the two ways meet after seven, 21 and 52 bytes, or never, since the lengths of the turns share a divisor
    'x(a{3})*ay|x(a{5})*aayz', 'x(a{4})*ay|x(a{7})*yz', 'x(a{4})*aay|x(a{6})*ayz', 'x(a{4})*aay|x(a{6})*yz', 'x(a{9})*a{7}y|x(a{11})*a{8}yz', 'x(a{9})*a{7}y|x(a{12})*a{8}yz', '(a{10})*a{3}b|(a{15})*a{9}bb', '(a{10})*a{3}b|(a{15})*a{8}bb',
    # more standings than the table has slots
    '(a|b)*a(a|b){20}x', '(a|b)*a(a|b){20}x?', '(a|b)*a(a|b){20}x*y', '[^x]*a[^x]{30}x', '(a|b)*a(a|b){10}(c|dd)', '(a|b)*a(a|b){10}(c|cd)', '.*a.{12}', '(.*a.{12}|b)', '((a|b)*a(a|b){9}c){2}', '(a{7})*(b{11})*(c{13})*x|(a{5})*(b{3})*y',
    # 64 leaves, the one that matters the first or the last, and many pairs
    'a{62}bc', 'a{62}bc?', 'a{61}(b|bc)', 'a{61}(bc|b)', 'a{61}(b|dc)', 'a{62}b' + NONE + '?', 'a{62}' + NONE + '?b', 'b|b?a{62}', 'a|[ab]a{62}', 'b|ca{62}', 'a{0,63}b', 'a{0,63}a', '(a?){63}b', '(a|b){32}', '(a|b){31}cd?', '(ab?){31}c', '(a?b?){31}c',
    '(a|b|c|d){16}', '(a|b|c|d){15}[ab]{0,3}x', '[^x]{0,63}x', '[^x]{1,62}xx?', '([^,]*,){31}', '([^,]*,){31}[^,]*', '(a|ab){20}c', '|'.join('abcdefgh'[k:] + 'abcdefgh'[:k] for k in range(8)), '|'.join(16 * ['aab?a']),
    # lazy repeats
    '[^b]*?b', '.*?b', '[^b]+?b', 'a??b??c', 'a??b??', '(a|ab)??c', '(a|b)*?c', 'a{2,4}?c', 'a{2,4}?', '(a*?b)*?c', 'a(b??c)??', '(a|aa)+?b', '()??a', '(a??)??',
    # fields
    '(north|south|east|west)', '(north|northeast)', 'B[0-9]{3}', 'B[0-9]{1,3}', '([a-z]+)=([0-9]+);', '([a-z]+)=([0-9]+);?', '((a)|(b))(c)', '((a)|(b))(c)?', '(a(b(c(d(e)))))', '((((((((a)*)*b)*)c)))d)', '[[:digit:]]+[[:space:]]', '[[:alnum:]]+[[:digit:]]',
    # the lowest and the highest byte, and 10, which . does not take
    b'\x00*\xff', b'\x00*\xff?', b'\xff|\xff\x00', b'\x00|\x00\xff', b'\x00|\xff\x00', b'[\x00-\x7f]*[\x80-\xff]', b'[\x00-\x80]*[\x80-\xff]', b'.|[^\x00-\x09\x0b-\xff]b', b'[^a]|[^\x00-\x09\x0b-\xff]b', b'.*[^\x00-\x09\x0b-\xff]', b'(.|[^\x00-\x09\x0b-\xff])*x')

CHECKED = REFERENCE + EMPTY_TURNS + LAZY + OPENED + EXTENDING + encoded(
    # the empty pattern, a blank line
    '',
    # refusal 1: one byte too many, a line that is not kept whole, a line longer than a chunk of the input
    'a' * 256, '(' * 1100, 'a' * 66000,
    # 2 to 8
    ')', 'a]', '}', '^a', '(|+)', 'a?+|', 'a{2}{3}', '\\', 'ab\\n', '[', '[]', '[z-a]', '[[:digit]]', 'a{', 'a{,3}', 'a{64}', '((a)', '(' * 16 + 'a' + ')' * 15 + '(', '(a{33}){2}', '(a{63}bc){0}', '(a|ab|b){21}(c|cd)?',
    # the limits: 255 bytes, depth 16, weight 64
    '[' + 'a' * 253 + ']', '[' + 'a' * 252 + ']?', '(' * 16 + 'a|ab' + ')' * 16, '(a|ab){21}c', '(a|ab){21}c?', 'a{63}b?', '(' * 16 + 'a' + ')*' * 16, deep(16), '(' + nest(15, '){0,63}' + nest(16)), '(' + lazy_nest(15, '){0,63}?' + lazy_nest(12)),
    # the same wanted leaves in another order are another standing
    '(a?a)*', '(|a*)b',
    # the POSIX set goes on after the first end; leftmost before longest
    '(|a)', 'a|ab|abc|abcd', '(a|b|bc)*d?', 'x*', '(|a|ab)(c|bcd)?', '(a*)(ab)*(b*)', '(a|ab)(bc|c)?', 'a{0,2}ab?',
    # 1,337 records, as many as there are slots for 47 leaves, and one too many for 48; with a fixed ending none is needed
    '((a{5})*|(a{7})*|(a{10})*|(a{19})*)b{5,6}', '((a{5})*|(a{7})*|(a{10})*|(a{19})*)b{6,7}', '((a{5})*|(a{7})*|(a{10})*|(a{19})*)b{6}', '((a{5})*|(a{7})*|(a{10})*|(a{19})*)b{7}',
    # 1,025 records, and more than any table of the programs has slots
    '(.|a.{9})*', '.*a.{9}', '(.|a.{10})*', '(.|a.{20})*',
    # long witnesses, of 506 and of 992 bytes
    'x((|(a{7})*a{1,6}|(a{8})*a{1,7}|(a{9})*a{1,8})y)?|xa*y', 'x((|(a{9})*a{1,8}|(a{10})*a{1,9}|(a{11})*a{1,10})y)?|xa*y',
    # any bytes: above 127, NUL, CR, tab
    b'\xe9|\xe9\xff', b'[\x80-\xff]|\xff\xff', b'\x00*', b'\x00|\x00\x00', b'[^\x00]?|\x01\x00', b'a\r', b'a\r?', b'\r|\r\r', b'\t|\tx', b'\x80{2,1}',
    # and the last newline left out
    'a(|b)')

EXPLAINED = REFERENCE + EMPTY_TURNS + LAZY + OPENED + encoded(
    # deep and heavy
    '(' * 16 + 'a|ab' + ')' * 16, '(' * 16 + '|a' + ')?' * 16, deep(16), '(' + nest(15, '){0,63}' + nest(16)), '(' + lazy_nest(15, '){0,63}?' + lazy_nest(12)), '(a|ab){20}(|a)(|b)',
    # both verdicts, any bytes, refusal 1
    '', 'b(|a)', 'x?(|y)', '(|a|ab)(c|bcd)?', 'a|ab|abc', '[ab](|[bc]+)', 'a{0,2}ab?', b'\xff(|\x00)', '(.|a.{10})*', 'a' * 256,
    # request 8: alike without records, and neighbours that need them, one of them more than there are slots
    NONE, 'a|b' + NONE, 'a(b' + NONE + '|c)?', 'a.c|abd', 'a.|abd', '(a|b)*a(a|b){20}x', '(a|b)*a(a|b){20}x?', 'x(a{3})*ay|x(a{5})*aayz', b'.|[^\x00-\x09\x0b-\xff]b', b'[^a]|[^\x00-\x09\x0b-\xff]b',
    # readable bytes: a digit, a letter, a byte below the digits, the space, and none
    '.(|.)', '[^0-9](|[^a])', '[^0-~](|x)', '[^!-~](|x)', b'[\x00-\x1f](|\x7f)', '(a|ab)(bc|c)?')


# For calls of the library: every kind of table and witness buffer.
LENGTHS = [(t, w) for t in (0, 1, 13, 14, 15, 16, 31, 32, 41, 42, 63, 64, 65, 80, 257) for w in (0, 1, 2, 3)]

# Every kind of result, with a table and a witness buffer.
RESULTS = [('a|ab', 64, 2), ('a|ab', 63, 2), ('a|ab', 64, 1), ('a*', 28, 0), ('a*', 27, 1), ('()', 0, 0), ('(a|b)*c', 45, 3), ('a(b' + NONE + ')?', 13, 1), ('a(', 64, 2), ('a{63}bc', 0, 0), ('a' * 256, 13, 1)]


def edges(p):
    """Lengths of table and witness buffer at which the result of a pattern that takes records changes: one slot, a byte too few for the records, enough; a byte too few for the
    witness, enough."""
    record = width(len(leaves(read(p)[1])))
    told = check(p, bytes(8192), bytes(1024), bytes(AREA))[0].split()
    n = int(told[1]) * record
    w = len(told[2]) // 2 if told[0] == 'unlike' else 1
    return [(record, 0), (n - 1, w), (n, w - 1), (n + 1, w)]


def own_calls():
    """Pattern, and lengths of table, witness buffer and area: every refusal, both verdicts, with every kind of buffer. The output stays below 1,048,576
    bytes, at which `rt try` ended a program; an area that is kept takes most."""
    for p in encoded('a|ab', '(a|ab)*', 'a*', '()', 'a('):
        for t, w in LENGTHS:
            yield p, t, w, AREA if p != b'a(' else 16
    for p in encoded('', 'a' * 256, 'a**', '\\', '[z-a]', 'a{2,1}', '((', '(' * 17, 'a{63}bc'):
        for t, w in ((0, 0), (1, 1), (64, 0), (130, 2)):
            yield p, t, w, AREA if p == b'' else t
    for p in encoded('a|ab', 'a{63}', 'a{63}b?', '(a?a)*', '[a-c]|b\xff', 'a(|bcdefg)', '(a|b)*a(a|b){20}x'):
        for t, w in ((159, 6), (160, 7), (161, 8), (610, 8), (8192, 1024)):
            yield p, t, w, AREA
    for p in encoded('(|a)*') + EMPTY_TURNS + LAZY + OPENED:
        for t, w in ((0, 0), (14, 1), (31, 2), (41, 1), (42, 0), (42, 1), (64, 3), (143, 3), (144, 2), (257, 8)):
            yield p, t, w, AREA if read(p)[0] == 'accepted' else 0
        if read(p)[0] == 'accepted' and extended(p):
            for t, w in edges(p):
                yield p, t, w, AREA
    for p in EXTENDING:
        yield p, 64, 2, AREA
    # Areas that are too short, just long enough, and longer.
    for p, t, w in RESULTS:
        for a in (0, 1, 8, 512, 1022, 1023, 1024, 1025, 1026, 1032, 1100, 2047, 2048):
            yield p.encode('latin-1'), t, w, a


def shown(pattern):
    return check(pattern, bytes(65536), bytes(5041), bytes(AREA))[0]


def explained(pattern):
    line = shown(pattern)
    if not line.startswith('unlike'):
        return line
    witness = bytes.fromhex(line.split()[2])
    start, short, long = spans(numbered(read(pattern)[1])[0], witness)
    return '%s greedy %d %d posix %d %d readable %s' % (line, start, short, start, long, readable(groups(pattern), witness).hex())


def called(pattern, t, w, a):
    line, table, witness, area = check(pattern, b'\xaa' * t, b'\xbb' * w, b'\xcc' * a)
    rest = area.lstrip(b'\0')
    return [line, table.hex(), witness.hex(), '%04x' % (len(area) - len(rest)), rest.hex(), 'kept']


def given():
    """The calls of the file, made before there was an area: with one that is long enough."""
    for row in open('tests/reference/library_calls.tsv'):
        if not row.startswith('#'):
            p, t, w = row.split()
            yield (b'' if p == '-' else bytes.fromhex(p)), int(t), int(w), AREA


if __name__ == '__main__':
    calls = list(dict.fromkeys([*given(), *own_calls()]))
    write('library_calls', b''.join(b'%s %d %d %d\n' % ((p.hex() or '-').encode(), t, w, a) for p, t, w, a in calls), [x for c in calls for x in called(*c)])
    write('explain_patterns', lines_of(EXPLAINED), [explained(p) for p in EXPLAINED])
    write('check_patterns', lines_of(CHECKED), [shown(p) for p in CHECKED])
