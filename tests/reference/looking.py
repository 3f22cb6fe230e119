"""A slow, obvious reading of request 4 of paper 02, how much looking a check takes, with requests 7 and 8, apart from the product. Reader and standings are those of paper01.py
and standings.py.

looking(pattern, table_length, area_length) -> (looks, comparisons). Run from the repository it writes tests/request-cases/08/looking.jsonl and, with how many bytes a record has,
tests/request-cases/07/records.jsonl:
python3 tests/reference/looking.py"""
import json
import random
from paper01 import leaves, read
from program_cases import CHECKED, EMPTY_TURNS, EXTENDING, OPENED, REFERENCE, encoded
from standings import AREA, check, extended, is_witness, lowest_bytes, numbered, slots_of, standing, width


def looking(pattern, table_length, area_length):
    answer = read(pattern)
    if answer[0] == 'refused' or area_length < AREA or not extended(pattern):
        return 0, 0
    slots = slots_of(answer[1], table_length)
    if slots == 0:
        return 0, 0
    whole, _ = numbered(answer[1])
    lines, standings = [b''], [standing(whole, b'')]
    looks = comparisons = 0
    k = 0
    while k < len(lines):
        for b in lowest_bytes(answer[1]):
            line = lines[k] + bytes([b])
            wanted = standing(whole, line)
            looks += 1
            found = False
            for other in standings:
                comparisons += 1
                if other == wanted:
                    found = True
                    break
            if found:
                continue
            if len(standings) == slots:
                return looks, comparisons
            lines.append(line)
            standings.append(wanted)
            if is_witness(wanted):
                return looks, comparisons
        k += 1
    return looks, comparisons


def random_pattern(rng, depth=3):
    kind = rng.randrange(6 if depth else 2)
    if kind < 2:
        return rng.choice(['a', 'b', 'c', '.', '[ab]', '[^a]', '[b-z]', '()', 'ab', '\\.'])
    if kind == 2:
        return random_pattern(rng, depth - 1) + random_pattern(rng, depth - 1)
    if kind == 3:
        return '(%s|%s)' % (random_pattern(rng, depth - 1), random_pattern(rng, depth - 1))
    return '(%s)%s' % (random_pattern(rng, depth - 1), rng.choice(['*', '+', '?', '{2}', '{0,2}', '{1,}', '{0}']))


SMALL = encoded('a|ab', '()', 'a*', '(|a)*', '(a|ab)*', '[^a](|.)', 'a(', 'a**', '')
LENGTHS = [0, 1, 12, 13, 14, 15, 16, 31, 32, 41, 42, 63, 64, 65, 128, 640]
LARGE = REFERENCE + EMPTY_TURNS + OPENED + EXTENDING + encoded('.', '.(|.)', '[ab](|[bc]+)', '(a|ab)(bc|c)?', 'B[0-9]{3}', 'B[0-9]{3}.?', 'B(1|12)(-[0-9]{1,3})?', '(north|south|east|west)', '(north|south|east|west)s?', 'x+y?z{2,5}', '.*a.{5}',
                                                               '(a|b)*a(a|b){5}', '(.*a.{2}){2}', 'a{63}b', 'a{63}b?', 'a' * 256) + [b'[^\x01-\xff]|\x00\x00', b'\xff(|\x00)']


def cases():
    """Pattern, and lengths of table, witness buffer and area."""
    rng = random.Random(20261116)
    for p in SMALL:
        for t in LENGTHS:
            yield p, t, rng.randrange(4), AREA
        for a in (0, 1, 1023, 1025, 4096):
            yield p, 640, 3, a
    for p in dict.fromkeys(LARGE):
        yield p, 65536, 5041, AREA
    for _ in range(300):
        yield random_pattern(rng).encode(), rng.choice([65536, 65536, rng.randrange(400)]), 5041, AREA


def case(pattern, t, w, a):
    looks, comparisons = looking(pattern, t, a)
    result = check(pattern, b'\xaa' * t, b'\xbb' * w, b'\xcc' * a)[0]
    return {'pattern': pattern.hex(), 'table_len': t, 'witness_len': w, 'area_len': a, 'result': result, 'looks': looks, 'comparisons': comparisons}


def record(pattern):
    answer = read(pattern)
    if answer[0] == 'refused':
        return {'pattern': pattern.hex(), 'result': 'refused %d %d' % answer[1:]}
    return {'pattern': pattern.hex(), 'bytes': width(len(leaves(answer[1])))}


if __name__ == '__main__':
    with open('tests/request-cases/07/records.jsonl', 'w') as out:
        for p in dict.fromkeys(CHECKED + encoded(*('a{%d}' % n for n in range(64)))):
            out.write(json.dumps(record(p)) + '\n')
    with open('tests/request-cases/08/looking.jsonl', 'w') as out:
        for c in cases():
            out.write(json.dumps(case(*c)) + '\n')
