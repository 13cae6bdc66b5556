#!/usr/bin/env python3
"""Writes the model file of a handset.

    tools/handset.py [--width N] [--length N] [--wall N] [--strand N] [--foil N] FILE

The case is a plate of width by length cubes with a wall of the given height along its rim; a light pipe stands on
the plate. Each cube is cut into six tetrahedra, so that cubes that meet share the triangles between them. The other
pieces hang on the case: a strip of lone triangles along one edge, two strands of wire edges at one vertex each.
Two lone points stand for the places at which the tester's probes land. The same arguments give the same bytes.
"""
import argparse
import itertools
import struct

SEAL, ANTENNA, LIGHT_PIPE, SEAM_LINE, SEAM_PATCH, SHIELD_FOIL = range(1, 7)
PARTS = range(1, 8)
SHIPPED = dict(width=6, length=12, wall=1, strand=32, foil=14)


class Mesh:
    """Named points, the maximal simplexes on them, and those of each part."""

    def __init__(self):
        self.numbers = {}
        self.simplexes = []
        self.parts = {p: [] for p in PARTS}

    def number(self, points):
        """Numbers points in the order given; a tetrahedron of a cube then has its vertices in rising order."""
        for point in points:
            self.numbers.setdefault(point, len(self.numbers))

    def simplex(self, points):
        return tuple(sorted(self.numbers[point] for point in points))

    def lay(self, points, part=None):
        self.simplexes.append(self.simplex(points))
        if part:
            self.mark(part, points)

    def mark(self, part, points):
        self.parts[part].append(self.simplex(points))


def corners(cube):
    x, y, z = cube
    return [(x + i, y + j, z + k) for i, j, k in itertools.product((0, 1), repeat=3)]


def tetrahedra(cube):
    """One for each order of the axes: the way from the cube's lowest corner to its highest along them."""
    for axes in itertools.permutations(range(3)):
        corner = list(cube)
        way = [tuple(corner)]
        for axis in axes:
            corner[axis] += 1
            way.append(tuple(corner))
        yield way


def links(points):
    """The edges of a chain of points."""
    return zip(points, points[1:])


def handset(width, length, wall, strand, foil):
    top = 1 + wall
    plate = [(x, y, 0) for x in range(width) for y in range(length)]
    rim = [(x, y, z) for x, y, _ in plate for z in range(1, top)
           if x in (0, width - 1) or y in (0, length - 1)]
    pipe = [(width // 2, length // 4, z) for z in range(1, top + 1)]

    strands = [[(x, length, 0)] + [('strand', x, i) for i in range(strand)] for x in (0, width)]
    strip = [((1, 0, 0), (2, 0, 0))] + [(('foil', 0, i), ('foil', 1, i)) for i in range(foil)]
    probes = [('probe', i) for i in range(2)]

    mesh = Mesh()
    mesh.number(sorted({c for cube in plate + rim + pipe for c in corners(cube)}, key=lambda c: c[::-1]))
    mesh.number(point for chain in strands for point in chain)
    mesh.number(point for pair in strip for point in pair)
    mesh.number(probes)

    for cube in plate + [cube for cube in rim if cube not in pipe]:
        for way in tetrahedra(cube):
            mesh.lay(way)
    for cube in pipe:
        for way in tetrahedra(cube):
            mesh.lay(way, LIGHT_PIPE)
    for (a, b), (c, d) in links(strip):
        mesh.lay((a, b, c), SHIELD_FOIL)
        mesh.lay((b, c, d), SHIELD_FOIL)
    for chain in strands:
        for edge in links(chain):
            mesh.lay(edge, ANTENNA)
    for probe in probes:
        mesh.lay([probe])

    ring = ([(x, 0, top) for x in range(width)] + [(width, y, top) for y in range(length)]
            + [(x, length, top) for x in range(width, 0, -1)] + [(0, y, top) for y in range(length, 0, -1)])
    for edge in links(ring + ring[:1]):
        mesh.mark(SEAL, edge)
    for edge in links([(width, y, 1) for y in range(1, length)]):
        mesh.mark(SEAM_LINE, edge)
    for x, y in itertools.product(range(width - 1), range(length // 2, length - 1)):
        a, b, c, d = (x, y, 0), (x + 1, y, 0), (x, y + 1, 0), (x + 1, y + 1, 0)
        mesh.mark(SEAM_PATCH, (a, b, d))
        mesh.mark(SEAM_PATCH, (a, c, d))
    return mesh


def in_order(simplexes):
    """Fewer vertices first, then by the last vertices, then by those before them."""
    return sorted(simplexes, key=lambda s: (len(s), s[::-1]))


def model_file(mesh):
    def number(n):
        return struct.pack('>H', n)

    def vertices(simplex):
        return b''.join(number(v) for v in simplex)

    out = b''
    for size in (4, 3, 2, 1):
        entries = in_order(s for s in mesh.simplexes if len(s) == size)
        out += number(len(entries)) + b''.join(vertices(s) for s in entries)
    for part in PARTS:
        entries = in_order(mesh.parts[part])
        out += number(len(entries)) + b''.join(bytes([len(s)]) + vertices(s) for s in entries)
    return out


def main():
    words = argparse.ArgumentParser(description='Writes the model file of a handset.')
    for name, what in [('width', 'cubes across the plate, 2 or more'), ('length', 'cubes along the plate, 3 or more'),
                       ('wall', 'height of the wall in cubes'), ('strand', 'edges of each strand of the antenna'),
                       ('foil', 'pairs of triangles in the shield foil')]:
        words.add_argument('--' + name, type=int, default=SHIPPED[name], help=what)
    words.add_argument('file')
    given = words.parse_args()
    mesh = handset(given.width, given.length, given.wall, given.strand, given.foil)
    with open(given.file, 'wb') as out:
        out.write(model_file(mesh))


if __name__ == '__main__':
    main()
