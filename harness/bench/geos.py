#!/usr/bin/python3
"""Times GEOS's ConcaveHull: a line of coordinates for each office on standard input, the median in microseconds out."""
import ctypes
import sys
import time

RATIO = 0.25
REPETITIONS = 15

geos = ctypes.CDLL("libgeos_c.so.1")
for name in ("GEOSGeomFromWKT", "GEOSConcaveHull"):
    getattr(geos, name).restype = ctypes.c_void_p
geos.GEOSGeomFromWKT.argtypes = [ctypes.c_char_p]
geos.GEOSConcaveHull.argtypes = [ctypes.c_void_p, ctypes.c_double, ctypes.c_uint]
geos.GEOSGeom_destroy.argtypes = [ctypes.c_void_p]
geos.initGEOS(None, None)

times = []
for line in sys.stdin:
    words = line.split()
    points = ", ".join(f"{x} {y}" for x, y in zip(words[::2], words[1::2]))
    office = geos.GEOSGeomFromWKT(f"MULTIPOINT ({points})".encode())
    for _ in range(REPETITIONS):
        start = time.thread_time()
        hull = geos.GEOSConcaveHull(office, RATIO, 0)
        times.append(time.thread_time() - start)
        if not hull:
            sys.exit(1)
        geos.GEOSGeom_destroy(hull)
    geos.GEOSGeom_destroy(office)
print(sorted(times)[len(times) // 2] * 1e6)
