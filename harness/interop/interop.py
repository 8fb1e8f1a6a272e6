#!/usr/bin/python3
"""Polygons and district files to and from shapely and GDAL, and point files from them.

    interop.py PROGRAM [--itself]

PROGRAM is the binary `interop`. Outlines that the library writes must be read by both as the same ring, valid, with the
very area, half of the tally's; polygons that they write, in either byte order, must be read by the library, and so must MultiPoints, in either
byte order and in mixtures of both. District files go both ways too, in either byte order and in mixtures of both.
What cannot be imported is skipped and counted. The last line is 'N passed, M failed'.
"""
import itertools
import random
import struct
import subprocess
import sys

OUTLINES = 200
DISTRICTS = 64
SEED = 7

passed = failed = skipped = 0


def expect(good, what):
    global passed, failed
    if good:
        passed += 1
    else:
        failed += 1
        print("differs:", what)


def run(*words, text=""):
    return subprocess.run(PROGRAM + list(words), input=text, capture_output=True, text=True, check=True).stdout.splitlines()


class Shapely:
    """What bytes hold, and the bytes of a polygon, of points and of a district, in both byte orders."""

    def __init__(self):
        from shapely import geometry, wkb

        self.geometry, self.wkb = geometry, wkb

    def polygon(self, shape):
        ring = [tuple(map(int, at)) for at in shape.exterior.coords]
        return ring, len(shape.interiors), shape.is_valid, shape.area, shape.exterior.is_ccw

    def holds(self, block):
        shape = self.wkb.loads(block)
        return shape.geom_type.upper(), [self.polygon(part) for part in getattr(shape, "geoms", [shape])]

    def both(self, shape):
        return [self.wkb.dumps(shape, big_endian=big) for big in (False, True)]

    def blocks(self, ring):
        return self.both(self.geometry.Polygon(ring))

    def files(self, points):
        return self.both(self.geometry.MultiPoint(points))

    def districts(self, rings):
        return self.both(self.geometry.MultiPolygon([(ring, []) for ring in rings]))

    def others(self):
        """Geometries that are no polygon of one ring on the grid, with the refusal each must get."""
        square = [(0, 0), (9, 0), (9, 9), (0, 9)]
        hole = [(2, 2), (2, 4), (4, 4)]
        geometry, dumps = self.geometry, self.wkb.dumps
        for big in (False, True):
            yield dumps(geometry.Polygon(square, [hole]), big_endian=big), (23, 5)
            yield dumps(geometry.Polygon([(x, y, 1) for x, y in square]), big_endian=big), (22, 1)
            yield dumps(geometry.MultiPolygon([(square, [])]), big_endian=big), (22, 1)
            yield dumps(geometry.LineString(square), big_endian=big), (22, 1)
            yield dumps(geometry.Point(1, 2), big_endian=big), (22, 1)
            yield dumps(geometry.Polygon([(0, 0), (9.5, 0), (9, 9)]), big_endian=big), (26, 29)
            yield dumps(geometry.Polygon([(0, 0), (9, -1), (9, 9)]), big_endian=big), (26, 37)
            yield dumps(geometry.Polygon([(0, 0), (16384, 0), (9, 9)]), big_endian=big), (26, 29)
            yield dumps(geometry.Polygon([(0, 0), (9, 0), (float("inf"), 9)]), big_endian=big), (25, 45)
            yield dumps(geometry.Polygon(square), big_endian=big) + b"\0", (28, 93)
            yield dumps(geometry.Polygon(square), big_endian=big)[:-1], (20, 85)

    def no_districts(self):
        """Geometries that are no district, with the refusal each must get."""
        geometry = self.geometry
        hole = [(2, 2), (2, 4), (4, 4)]
        polygons = [geometry.Polygon(ring) for ring in DISTRICT]
        for shape, refusal in [
            (geometry.MultiPolygon([(DISTRICT[0], []), (DISTRICT[1], [hole])]), (23, 91)),
            (geometry.MultiPolygon([([(x, y, 1) for x, y in ring], []) for ring in DISTRICT]), (22, 1)),
            (geometry.GeometryCollection(polygons), (22, 1)),
            (geometry.MultiLineString(DISTRICT), (22, 1)),
        ]:
            for file in self.both(shape):
                yield file, refusal
        yield self.wkb.dumps(geometry.MultiPolygon(polygons), srid=4326), (22, 1)


class Gdal:
    def __init__(self):
        from osgeo import ogr

        ogr.UseExceptions()
        self.ogr = ogr

    def polygon(self, shape):
        outer = shape.GetGeometryRef(0)
        ring = [tuple(map(int, outer.GetPoint_2D(i))) for i in range(outer.GetPointCount())]
        # GDAL's area has no sign; the turning direction is left to shapely.
        return ring, shape.GetGeometryCount() - 1, shape.IsValid(), shape.GetArea(), True

    def holds(self, block):
        shape = self.ogr.CreateGeometryFromWkb(block)
        kind = shape.GetGeometryName()
        parts = [shape] if kind == "POLYGON" else [shape.GetGeometryRef(i) for i in range(shape.GetGeometryCount())]
        return kind, [self.polygon(part) for part in parts]

    def both(self, shape):
        return [bytes(shape.ExportToWkb(order)) for order in (self.ogr.wkbNDR, self.ogr.wkbXDR)]

    def shape(self, ring):
        outer = self.ogr.Geometry(self.ogr.wkbLinearRing)
        for x, y in ring + ring[:1]:
            outer.AddPoint_2D(x, y)
        polygon = self.ogr.Geometry(self.ogr.wkbPolygon)
        polygon.AddGeometry(outer)
        return polygon

    def blocks(self, ring):
        return self.both(self.shape(ring))

    def districts(self, rings):
        shape = self.ogr.Geometry(self.ogr.wkbMultiPolygon)
        for ring in rings:
            shape.AddGeometry(self.shape(ring))
        return self.both(shape)

    def files(self, points):
        shape = self.ogr.Geometry(self.ogr.wkbMultiPoint)
        for x, y in points:
            point = self.ogr.Geometry(self.ogr.wkbPoint)
            point.AddPoint_2D(x, y)
            shape.AddGeometry(point)
        return self.both(shape)

    def others(self):
        make = self.ogr.CreateGeometryFromWkt
        for order in (self.ogr.wkbNDR, self.ogr.wkbXDR):
            yield bytes(make("POLYGON ((0 0,9 0,9 9,0 0),(1 0,2 1,2 0,1 0))").ExportToWkb(order)), (23, 5)
            yield bytes(make("POLYGON Z ((0 0 1,9 0 1,9 9 1,0 0 1))").ExportToWkb(order)), (22, 1)
            yield bytes(make("MULTIPOLYGON (((0 0,9 0,9 9,0 0)))").ExportToWkb(order)), (22, 1)
            yield bytes(make("POLYGON ((0 0,9 0.25,9 9,0 0))").ExportToWkb(order)), (26, 37)

    def no_districts(self):
        for text, refusal in [
            ("MULTIPOLYGON EMPTY", (35, 5)),
            ("MULTIPOLYGON (((0 0,4 0,0 3,0 0)),EMPTY)", (23, 91)),
            ("MULTIPOLYGON (((0 0,4 0,0 3,0 0)),((0 0,9 0,9 9,0 0),(1 0,2 1,2 0,1 0)))", (23, 91)),
            ("MULTIPOLYGON (((0 0,4 0,0 3,0 0)),((0 0,9 0,0 0)))", (24, 95)),
            ("MULTIPOLYGON Z (((0 0 1,4 0 1,0 3 1,0 0 1)))", (22, 1)),
            ("MULTIPOLYGON M (((0 0 1,4 0 1,0 3 1,0 0 1)))", (22, 1)),
            ("GEOMETRYCOLLECTION (POLYGON ((0 0,4 0,0 3,0 0)))", (22, 1)),
        ]:
            for file in self.both(self.ogr.CreateGeometryFromWkt(text)):
                yield file, refusal


def pairs(numbers):
    numbers = list(map(int, numbers))
    return list(zip(numbers[::2], numbers[1::2]))


def rings_of_any_shape():
    """Rings of both turning directions, with repeated points too: neither side judges them."""
    draw = random.Random(SEED)
    for size in list(range(3, 40)) + [200, 1023, 1024]:
        yield [(draw.randint(0, 16383), draw.randint(0, 16383)) for _ in range(size)]
    yield [(0, 0), (16383, 0), (16383, 16383), (0, 16383)]
    yield [(0, 16383), (16383, 16383), (16383, 0), (0, 0)]
    yield [(5, 5), (5, 5), (5, 5)]


DISTRICT = [[(0, 0), (4, 0), (0, 3)], [(10, 10), (19, 10), (19, 19), (10, 19)]]


def put_together(files, cuts, choose):
    """The same shapes, each piece between cuts taken from either file."""
    return b"".join(choose(i, files)[a:b] for i, (a, b) in enumerate(zip(cuts, cuts[1:])))


def mixed(files, draw):
    """The same points with a head and Points taken from either file at random."""
    cuts = [0, 9] + list(range(30, len(files[0]) + 1, 21))
    return put_together(files, cuts, lambda i, files: draw.choice(files))


def mixtures(files, rings, draw):
    """The same district in mixtures of byte orders: the head in one and all polygons in the other, polygons in turn, at random."""
    cuts = list(itertools.accumulate((29 + 16 * len(ring) for ring in rings), initial=9))
    for choose in (
        lambda i, files: files[i == 0],
        lambda i, files: files[i > 0],
        lambda i, files: files[i % 2],
        lambda i, files: draw.choice(files),
    ):
        yield put_together(files, [0] + cuts, choose)


def compare_points(name, peer):
    draw = random.Random(SEED)
    for points in rings_of_any_shape():
        files = peer.files(points)
        wanted = "points" + "".join(f" {x} {y}" for x, y in points)
        surveys.extend((name, f, wanted) for f in files + [mixed(files, draw) for _ in range(3)])
    for value in (0.5, -1.0, -0.0, 16384.0, 1e300):
        files = peer.files([(1, 2), (3, value), (5, 6)])
        wanted = f"refused 26 43 {struct.pack('>d', value).hex()}"
        surveys.extend((name, f, wanted) for f in files + [mixed(files, draw) for _ in range(3)])
    few, many = [(1, 2)] * 2, [(1, 2)] * 1025
    surveys.extend((name, f, "refused 24 5") for points in (few, many) for f in peer.files(points))
    surveys.extend((name, f, "refused 22 1") for f in peer.blocks([(0, 0), (9, 0), (9, 9)]))
    for file in peer.files([(1, 2), (3, 4), (5, 6)]):
        surveys.append((name, file[:30] + bytes([file[30]]) + file[10:14][::-1] + file[35:], "refused 33 31"))
        surveys.append((name, file + b"\0", "refused 28 72"))
        surveys.append((name, file[:-1], "refused 20 64"))


def listed(rings):
    return "rings" + "".join(f", {len(ring)}" + "".join(f" {x} {y}" for x, y in ring) for ring in rings)


def compare_districts(name, peer, districts):
    draw = random.Random(SEED)
    for line in districts:
        block, *parts = line.split(",")
        areas = [int(part.split()[0]) / 2 for part in parts]
        rings = [pairs(part.split()[2:]) for part in parts]
        wanted = "MULTIPOLYGON", [(ring + ring[:1], 0, True, area, True) for ring, area in zip(rings, areas)]
        files = peer.districts(rings)
        expect(files[0].hex() == block, f"{name} writes the same bytes as {line}")
        for file in [bytes.fromhex(block), files[1], *mixtures(files, rings, draw)]:
            expect(peer.holds(file) == wanted, f"{name} reads {file.hex()} as {line}")
            offered.append((name, file, listed(rings)))
    any_shape = list(rings_of_any_shape())
    for count in range(1, 33):
        rings = draw.choices(any_shape, k=count)
        files = peer.districts(rings)
        offered.extend((name, file, listed(rings)) for file in [*files, *mixtures(files, rings, draw)])
    largest = [max(any_shape, key=len)] * 32
    offered.extend((name, file, listed(largest)) for file in peer.districts(largest))
    offered.extend((name, file, "refused 35 5") for file in peer.districts([DISTRICT[0]] * 33))
    offered.extend((name, file, "refused 24 95") for file in peer.districts([DISTRICT[0], [(i, 2) for i in range(1025)]]))
    for value, number in ((0.5, 26), (-1.0, 26), (-0.0, 26), (16384.0, 26), (float("inf"), 25), (float("nan"), 25)):
        files = peer.districts([DISTRICT[0], [(1, 2), (3, value), (5, 6)]])
        offered.extend((name, file, f"refused {number} 123") for file in [*files, *mixtures(files, DISTRICT[:1] * 2, draw)])
    for file in peer.districts(DISTRICT):
        offered.append((name, file + b"\0", "refused 28 179"))
        offered.append((name, file[:-1], "refused 20 171"))
        offered.append((name, file[:86], "refused 20 86"))
    offered.extend((name, file, "refused 22 1") for file in peer.blocks(DISTRICT[0]) + peer.files(DISTRICT[0]))
    offered.extend((name, file, f"refused {number} {place}") for file, (number, place) in peer.no_districts())


def compare(name, peer, outlines):
    for line in outlines:
        block, area, *numbers = line.split()
        ring = pairs(numbers)
        wanted = "POLYGON", [(ring + ring[:1], 0, True, int(area) / 2, True)]
        expect(peer.holds(bytes.fromhex(block)) == wanted, f"{name} reads {line}")
        asked = peer.blocks(ring)
        expect(asked[0].hex() == block, f"{name} writes the same bytes as {line}")
        sent.extend((name, b, "ring" + "".join(f" {x} {y}" for x, y in ring)) for b in asked)
    for ring in rings_of_any_shape():
        sent.extend((name, b, "ring" + "".join(f" {x} {y}" for x, y in ring)) for b in peer.blocks(ring))
    sent.extend((name, b, f"refused {number} {place}") for b, (number, place) in peer.others())


PROGRAM = sys.argv[1:2]
ITSELF = sys.argv[2:]
sent = []
surveys = []
offered = []
outlines = run("write", str(OUTLINES), str(SEED), *ITSELF)
districts = run("districts", str(DISTRICTS), str(SEED), *ITSELF)
for name, make in (("shapely", Shapely), ("GDAL", Gdal)):
    try:
        peer = make()
    except ImportError as missing:
        skipped += 1
        print(f"skipped {name}: {missing}")
        continue
    compare(name, peer, outlines)
    compare_points(name, peer)
    compare_districts(name, peer, districts)
for word, asked in (("read", sent), ("points", surveys), ("rings", offered)):
    answers = run(word, *ITSELF, text="".join(block.hex() + "\n" for _, block, _ in asked))
    for (name, block, wanted), answer in zip(asked, answers, strict=True):
        expect(answer == wanted, f"of {name} {block.hex()[:200]}: {answer[:200]}, wanted {wanted[:200]}")
print(f"{skipped} of 2 skipped")
print(f"{passed} passed, {failed} failed")
sys.exit(failed > 0)
