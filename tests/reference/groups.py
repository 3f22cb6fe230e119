"""A slow, obvious reading of request 3 of paper 02, byte groups by their numbers, and of readable lines, apart from the product. The reader is paper01.py's.

groups(pattern) -> ('refused', number, place) or a list with the number of each byte's group.
readable(numbers, line) -> the line with each byte that is not printable replaced by a printable one of its group, where there is one."""
from paper01 import leaves, read

# From the digits on, with the letters; the space last.
PRINTABLE = [*range(48, 127), *range(33, 48), 32]


def groups(pattern):
    answer = read(pattern)
    if answer[0] == 'refused':
        return answer
    sets = leaves(answer[1])
    numbers = {}
    # A byte that no lower one shares a group with begins the next group.
    return [numbers.setdefault(tuple(b in s for s in sets), len(numbers)) for b in range(256)]


def readable(numbers, line):
    def of(b):
        if 32 <= b <= 126:
            return b
        return next((c for c in PRINTABLE if numbers[c] == numbers[b]), b)

    return bytes(map(of, line))
