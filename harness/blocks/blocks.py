#!/usr/bin/python3
"""Makes the blocks of crates/blocks: polygons and districts as other people's writers put them into bytes.

Run from the root of the repository, with Debian's python3-shapely and python3-gdal:
    /usr/bin/python3 harness/blocks/blocks.py stored > crates/blocks/src/stored.rt
    /usr/bin/python3 harness/blocks/blocks.py stdout > crates/blocks/stdout
The second is what a reader written here, apart from the library, makes of them.
"""
import math
import struct
import sys

from osgeo import gdal, ogr
from shapely import wkb
from shapely.geos import geos_version
from shapely.geometry import MultiPolygon, Point, Polygon

SQUARE = [(0, 0), (10, 0), (10, 10), (0, 10)]
AWAY = [(20, 0), (30, 0), (30, 10)]
OUTLINE = [(10, 0), (9, 10), (11, 10), (17, 3), (20, 10), (17, 17), (10, 20), (3, 17), (0, 10), (3, 3)]


def geos(shape, order=1, srid=None):
    return wkb.dumps(shape, big_endian=not order, srid=srid)


def ring_of(points, close):
    ring = ogr.Geometry(ogr.wkbLinearRing)
    for point in points:
        ring.AddPoint_2D(*point)
    if close:
        ring.CloseRings()
    polygon = ogr.Geometry(ogr.wkbPolygon)
    polygon.AddGeometry(ring)
    return polygon


def gdal_of(points, order=ogr.wkbNDR, close=True):
    return bytes(ring_of(points, close).ExportToWkb(order))


def gdal_many(rings, order):
    many = ogr.Geometry(ogr.wkbMultiPolygon)
    for points in rings:
        many.AddGeometry(ring_of(points, True))
    return bytes(many.ExportToWkb(order))


def gdal_iso(wkt):
    return bytes(ogr.CreateGeometryFromWkt(wkt).ExportToIsoWkb(ogr.wkbNDR))


def moved(block, place, value):
    """The block with another float at a place, in the block's byte order."""
    return block[:place] + struct.pack("<d" if block[0] else ">d", value) + block[place + 8:]


square = geos(Polygon(SQUARE))
BLOCKS = [
    ("SQUARE_GEOS_LITTLE", "GEOS, little-endian", "GEOS, little-endian", square),
    ("SQUARE_GEOS_BIG", "GEOS, big-endian", "GEOS, big-endian", geos(Polygon(SQUARE), 0)),
    ("SQUARE_GDAL_LITTLE", "GDAL, little-endian", "GDAL, little-endian", gdal_of(SQUARE)),
    ("SQUARE_GDAL_BIG", "GDAL, big-endian", "GDAL, big-endian", gdal_of(SQUARE, ogr.wkbXDR)),
    ("OUTLINE_GEOS", "an outline of ten", "GEOS, the second outline of document 01's case 4", geos(Polygon(OUTLINE))),
    ("CORNER_GEOS", "the largest coordinates", "GEOS, the largest coordinates", geos(Polygon([(0, 0), (16383, 0), (0, 16383)]))),
    ("SRID_GEOS", "SRID", "GEOS, extended with an SRID, as PostGIS writes it", geos(Polygon(SQUARE), srid=25832)),
    ("Z_GEOS", "z, extended", "GEOS, extended with z", geos(Polygon([(x, y, 7) for x, y in SQUARE]))),
    ("Z_GDAL", "z, ISO", "GDAL, ISO type 1003", gdal_iso("POLYGON Z ((0 0 7,10 0 7,10 10 7,0 10 7,0 0 7))")),
    ("HOLE_GEOS", "a hole", "GEOS, with a hole", geos(Polygon(SQUARE, [[(2, 2), (2, 4), (4, 4)]]))),
    ("EMPTY_GDAL", "empty", "GDAL, empty", gdal_iso("POLYGON EMPTY")),
    ("MANY_GEOS", "MultiPolygon", "GEOS, a MultiPolygon", geos(MultiPolygon([Polygon(SQUARE)]))),
    ("POINT_GEOS", "Point", "GEOS, a Point", geos(Point(3, 4))),
    ("OPEN_GDAL", "not closed", "GDAL, a ring that was not closed", gdal_of(SQUARE, close=False)),
    ("SHORT_GDAL", "three positions", "GDAL, a ring of three positions", gdal_of(SQUARE[:3], close=False)),
    ("LONG_GEOS", "a ring of seventeen", "GEOS, a ring of seventeen", geos(Polygon([(i * i, 50 * i) for i in range(17)]))),
    ("HALF_GEOS", "half a metre", "GEOS, half a metre in y", geos(Polygon([(0, 0), (10, 0.5), (10, 10)]))),
    ("BELOW_GEOS", "below zero, big-endian", "GEOS, big-endian, below zero in x", geos(Polygon([(0, 0), (-3, 5), (10, 10)]), 0)),
    ("ABOVE_GEOS", "16384", "GEOS, 16384 in x", geos(Polygon([(0, 0), (16384, 0), (0, 5)]))),
    ("MINUS_ZERO_GEOS", "-0", "GEOS, -0 in y", geos(Polygon([(0, -0.0), (10, 0), (10, 10)]))),
    ("NAN", "NaN", "GEOS's square with a NaN in the third x", moved(square, 13 + 32, float("nan"))),
    ("INFINITE_CUT", "infinite before a cut", "... with an infinite x, cut off after it", moved(square, 13 + 32, float("inf"))[:13 + 40]),
    ("CUT", "a byte less", "... without its last byte", square[:-1]),
    ("LEFT_OVER", "a byte more", "... with a byte more", square + b"\0"),
]


DISTRICTS = [
    ("DISTRICT_GEOS", "a district", "GEOS, a MultiPolygon of two", geos(MultiPolygon([Polygon(SQUARE), Polygon(AWAY)]))),
    ("DISTRICT_GDAL_BIG", "a district, big-endian", "GDAL, the same, big-endian", gdal_many([SQUARE, AWAY], ogr.wkbXDR)),
    ("DISTRICT_MIXED", "a district of mixed byte orders", "GDAL's big-endian head with a polygon of each order", gdal_many([SQUARE, AWAY], ogr.wkbXDR)[:9] + square + geos(Polygon(AWAY), 0)),
    ("DISTRICT_ONE_GEOS", "a district of one", "GEOS, a MultiPolygon of one", geos(MultiPolygon([Polygon(AWAY)]))),
    ("DISTRICT_EMPTY_GDAL", "an empty district", "GDAL, an empty MultiPolygon", gdal_iso("MULTIPOLYGON EMPTY")),
    ("DISTRICT_OPEN", "the second not closed", "GEOS's two with another last position in the second", moved(geos(MultiPolygon([Polygon(SQUARE), Polygon(AWAY)])), 9 + 93 + 13 + 48, 21.0)),
    ("DISTRICT_LONG_GEOS", "no room for the second", "GEOS, a square and a ring of thirteen", geos(MultiPolygon([Polygon(SQUARE), Polygon([(100 + i * i, 50 * i) for i in range(13)])]))),
    ("DISTRICT_LEFT_OVER", "a district and a byte more", "GEOS's two with a byte more", geos(MultiPolygon([Polygon(SQUARE), Polygon(AWAY)])) + b"\0"),
]


def number(block, order, place):
    return struct.unpack_from("<I" if order else ">I", block, place)[0]


def head(block, at, kind):
    """The byte order and the place after the type, or the number and the place of a fault."""
    if len(block) < at + 1:
        return 20, at
    if block[at] > 1:
        return 21, at
    if len(block) < at + 5:
        return 20, at + 1
    if number(block, block[at], at + 1) != kind:
        return 22, at + 1
    return None


def polygon(block, at, room):
    """The ring and the place after it, or the number and the place of the first fault."""
    fault = head(block, at, 3)
    if fault:
        return fault
    size, order = len(block), block[at]
    for place, number_of, fine in ((at + 5, 23, (1,)), (at + 9, 24, range(4, 1026))):
        if size < place + 4:
            return 20, place
        if number(block, order, place) not in fine:
            return number_of, place
    count = number(block, order, at + 9)
    if count - 1 > room:
        return 29, at + 9
    values = []
    for place in range(at + 13, at + 13 + 16 * count, 8):
        if size < place + 8:
            return 20, place
        value = struct.unpack_from("<d" if order else ">d", block, place)[0]
        if not math.isfinite(value):
            return 25, place
        if value != int(value) or not 0 <= value <= 16383 or math.copysign(1, value) < 0:
            return 26, place
        values.append(int(value))
    if values[:2] != values[-2:]:
        return 27, at + 13 + 16 * (count - 1)
    return [tuple(values[i:i + 2]) for i in range(0, len(values) - 2, 2)], at + 13 + 16 * count


def read(block, room=16):
    """The ring, or the number and the place of the first fault."""
    ring, end = polygon(block, 0, room)
    if not isinstance(ring, list):
        return ring, end
    return (28, end) if len(block) > end else ring


def read_district(block, room=16, places=8):
    """The rings, or the number and the place of the first fault."""
    fault = head(block, 0, 6)
    if fault:
        return fault
    if len(block) < 9:
        return 20, 5
    count = number(block, block[0], 5)
    if not 1 <= count <= 32:
        return 35, 5
    if count > places:
        return 29, 5
    rings, at = [], 9
    for _ in range(count):
        ring, at = polygon(block, at, room)
        if not isinstance(ring, list):
            return ring, at
        rings.append(ring)
        room -= len(ring)
    return (28, at) if len(block) > at else rings


def shown(ring):
    return "ring of %d:%s" % (len(ring), "".join(" %d,%d" % position for position in ring))


def line(block):
    answer = read(block)
    if isinstance(answer, list):
        return shown(answer)
    fault, place = answer
    said = "refused %d %d" % answer
    if fault == 25:
        said += ", not finite"
    if fault == 26:
        eight = block[place:place + 8]
        said += ", off the grid: " + (eight[::-1] if block[0] else eight).hex()
    return said


def district_line(block):
    answer = read_district(block)
    if isinstance(answer, list):
        return "district of %d:%s" % (len(answer), "".join(" " + shown(ring) for ring in answer))
    return "refused %d %d" % answer


if sys.argv[1:] == ["stdout"]:
    for _, label, _, block in BLOCKS:
        print("%s: %s" % (label, line(block)))
    print("no bytes: %s" % line(b""))
    for _, label, _, block in DISTRICTS:
        print("%s: %s" % (label, district_line(block)))
    print("a polygon for a district: %s" % district_line(square))
elif sys.argv[1:] == ["stored"]:
    print("// Blocks as GEOS %s and GDAL %s write them; harness/blocks/blocks.py made this file." % (".".join(map(str, geos_version)), gdal.__version__))
    for name, _, what, block in BLOCKS + DISTRICTS:
        print("\n// %s.\npub const %s: [u8; %d] = *b\"\\" % (what, name, len(block)))
        parts = [block[:13]] + [block[at:at + 16] for at in range(13, len(block), 16)]
        print("\\\n".join("    " + "".join("\\x%02x" % b for b in part) for part in parts) + "\";")
else:
    sys.exit(__doc__)
