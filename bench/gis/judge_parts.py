#!/usr/bin/python3
"""Compares the parts of regions with the regions: judge_parts.py REGIONS PARTS.

Twice the areas have to add up exactly, in whole numbers. By GEOS the parts together have to be the region and must not overlap, up
to what GEOS rounds (it computes in doubles): a millionth of the region's area."""
import sys

from shapely.geometry import Polygon
from shapely.ops import unary_union


def rings_of(line):
    rings = []
    for text in line.split(";"):
        numbers = [int(word) for word in text.split()]
        rings.append(list(zip(numbers[::2], numbers[1::2])))
    return rings


def doubled_area(ring):
    after = ring[1:] + ring[:1]
    return sum(p[0] * q[1] - p[1] * q[0] for p, q in zip(ring, after))


def faults_of(rings, parts):
    wanted = abs(doubled_area(rings[0][:-1])) - sum(abs(doubled_area(hole[:-1])) for hole in rings[1:])
    if sum(doubled_area(part) for part in parts) != wanted:
        yield "area"
    if any(len(part) > 16 for part in parts):
        yield "corners"
    region = Polygon(rings[0], rings[1:])
    polygons = [Polygon(part) for part in parts]
    whole = unary_union(polygons)
    allowed = 1e-6 * region.area + 1e-9
    if whole.symmetric_difference(region).area > allowed:
        yield "cover"
    if abs(sum(polygon.area for polygon in polygons) - whole.area) > allowed:
        yield "overlap"


regions = bad = count = corners = 0
with open(sys.argv[1]) as given, open(sys.argv[2]) as told:
    for line, answer in zip(given, told):
        regions += 1
        rings = rings_of(line)
        if not answer.startswith("ok "):
            bad += 1
            print("refused:", answer.strip(), line.strip()[:300])
            continue
        parts = [rings_of(text)[0] for text in answer.strip().split(";")[1:]]
        count += len(parts)
        corners += sum(len(ring) - 1 for ring in rings)
        for fault in faults_of(rings, parts):
            bad += 1
            print(f"{fault}:", line.strip()[:300])
print(f"{regions} regions, {corners} corners, {count} parts, {bad} bad")
