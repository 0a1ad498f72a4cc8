#!/usr/bin/env python3
"""Draws features as CSV with well-known text, on the grid of round_trip.sh: draw_features.py COUNT SEED > FILE.

Points, segments, triangles and quadrilaterals, with the ids 1 to COUNT; coordinates have at most 7 decimals."""
import random
import sys

count, seed = int(sys.argv[1]), int(sys.argv[2])
draw = random.Random(seed)


def degrees(origin, steps):
    whole, rest = divmod(origin * 10**7 + steps, 10**7)
    return f"{whole}.{rest:07}".rstrip("0").rstrip(".")


def text(points):
    return ",".join(f"{degrees(7, x)} {degrees(46, y)}" for x, y in points)


def turn(a, b, c):
    return (b[0] - a[0]) * (c[1] - a[1]) - (b[1] - a[1]) * (c[0] - a[0])


def shape():
    kind = draw.randrange(4)
    x, y = draw.randint(-9_000_000, 9_000_000), draw.randint(-9_000_000, 9_000_000)
    near = lambda: (x + draw.randint(-5_000, 5_000), y + draw.randint(-5_000, 5_000))
    if kind == 0:
        return f"POINT ({text([(x, y)])})"
    if kind == 1:
        end = near()
        return f"LINESTRING ({text([(x, y), end if end != (x, y) else (x + 1, y)])})"
    while True:
        ring = [near() for _ in range(kind + 1)]
        turns = [turn(ring[i - 2], ring[i - 1], ring[i]) for i in range(len(ring))]
        if all(t > 0 for t in turns) or all(t < 0 for t in turns):
            return f"POLYGON (({text(ring + ring[:1])}))"


print("WKT,id,class")
for at in range(1, count + 1):
    print(f'"{shape()}",{at},{draw.choice(["mast", "road", "parcel"])}')
