#!/usr/bin/env python3
"""A second reader of model files and scripts, to compare the proved program with.

    tools/check_model.py MODEL            what the model holds: its simplexes and the Euler number of each part
    tools/check_model.py MODEL SCRIPT     what the program must print for this model and this script

It follows the rules of docs/FILE.md and docs/SCRIPT.md, shares no code with the program, and keeps its model the
plainest way: a dictionary from tuples of vertices to masks.
"""
import itertools
import sys

RANGE = 4096
LIMIT = 4000
READ = 65536
LINE = 64
SIZES = (4, 3, 2, 1)
PARTS = 8


class Refused(Exception):
    """A refusal's number, and for a file its section, entry and place."""


def faces(simplex):
    return [f for n in range(1, len(simplex) + 1) for f in itertools.combinations(simplex, n)]


def refuse_vertices(vertices):
    if any(a >= b for a, b in zip(vertices, vertices[1:])):
        raise Refused(2)
    if any(v >= RANGE for v in vertices):
        raise Refused(3)


def lay(model, vertices):
    refuse_vertices(vertices)
    if vertices in model:
        raise Refused(21)
    absent = [f for f in faces(vertices) if f not in model]
    if len(model) + len(absent) > LIMIT:
        raise Refused(22)
    model.update((f, 1) for f in absent)


def mark(model, part, vertices):
    refuse_vertices(vertices)
    if vertices not in model:
        raise Refused(23)
    for f in faces(vertices):
        model[f] |= 1 << part


def euler(model, part):
    if part >= PARTS:
        raise Refused(1)
    return sum(1 if len(s) in (1, 3) else -1 for s, mask in model.items() if mask >> part & 1)


def pieces(model, part):
    """How many classes of vertices the edges of a part join."""
    least = {s[0]: s[0] for s, mask in model.items() if len(s) == 1 and mask >> part & 1}

    def root(v):
        while least[v] != v:
            v = least[v]
        return v

    for s, mask in model.items():
        if len(s) == 2 and mask >> part & 1:
            a, b = sorted(map(root, s))
            least[b] = a
    return sum(v == w for v, w in least.items())


class Reader:
    def __init__(self, data):
        self.data = data
        self.place = 0

    def take(self, n):
        if len(self.data) - self.place < n:
            raise Refused(6)
        self.place += n
        return self.data[self.place - n:self.place]

    def numbers(self, n):
        taken = self.take(2 * n)
        return tuple(taken[i] * 256 + taken[i + 1] for i in range(0, 2 * n, 2))


def load(data):
    """The model of a file; Refused with number, section, entry and place otherwise."""
    model, reader, count = {}, Reader(data), 0
    for section in range(1, len(SIZES) + PARTS):
        start, entry = reader.place, 0
        try:
            count = reader.numbers(1)[0]
            for entry in range(count):
                start = reader.place
                if section <= len(SIZES):
                    lay(model, reader.numbers(SIZES[section - 1]))
                else:
                    n = reader.take(1)[0]
                    if not 1 <= n <= 4:
                        raise Refused(2)
                    mark(model, section - len(SIZES), reader.numbers(n))
        except Refused as refused:
            raise Refused(*refused.args, section, entry, start) from None
    if reader.place < len(data):
        raise Refused(7, section, count, reader.place)
    return model


def question(line):
    """The part that a line asks for."""
    letter, space, digits = line[:1], line[1:2], line[2:]
    readable = (len(line) <= LINE and letter == b'e' and space == b' ' and 1 <= len(digits) <= 5
                and all(48 <= d <= 57 for d in digits) and int(digits) <= 65535)
    if not readable:
        raise Refused(8)
    return int(digits)


def lines_of(script):
    lines = script.split(b'\n')
    return lines if lines[-1] else lines[:-1]


def words(word, numbers):
    return ' '.join([word] + [str(n) for n in numbers]) + '\n'


def answers(data, script):
    """What the program prints."""
    try:
        model = load(data[:READ])
    except Refused as refused:
        return words('no', refused.args)
    out = words('loaded', [len(model)])
    for line in lines_of(script[:READ]):
        try:
            out += words('ok', [euler(model, question(line))])
        except Refused as refused:
            out += words('no', refused.args)
    return out


def summary(data):
    try:
        model = load(data[:READ])
    except Refused as refused:
        return 'refused with number, section, entry, place: %s\n' % ' '.join(map(str, refused.args))
    out = '%d bytes, %d simplexes\n' % (len(data), len(model))
    for part in range(PARTS):
        sizes = [sum(len(s) == n and mask >> part & 1 for s, mask in model.items()) for n in (1, 2, 3, 4)]
        out += 'part %d: %d points, %d edges, %d triangles, %d tetrahedra; pieces %d, Euler number %d\n' % (
            part, *sizes, pieces(model, part), euler(model, part))
    return out


def read(path):
    with open(path, 'rb') as file:
        return file.read()


def main():
    if len(sys.argv) == 2:
        sys.stdout.write(summary(read(sys.argv[1])))
    elif len(sys.argv) == 3:
        sys.stdout.write(answers(read(sys.argv[1]), read(sys.argv[2])))
    else:
        sys.exit(__doc__.split('\n\n')[1])


if __name__ == '__main__':
    main()
