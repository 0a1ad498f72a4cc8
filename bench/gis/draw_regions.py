#!/usr/bin/python3
"""Draws polygons with holes, one a line: `x y x y ..;hole..`."""
import random, sys, math
from shapely.geometry import Polygon
from shapely.ops import unary_union
rnd = random.Random(int(sys.argv[2]) if len(sys.argv) > 2 else 1)

def star(cx, cy, r, n, rough):
    angles = sorted(rnd.random() * 2 * math.pi for _ in range(n))
    pts = []
    for a in angles:
        d = r * (1 - rough * rnd.random())
        pts.append((round(cx + d * math.cos(a)), round(cy + d * math.sin(a))))
    return pts

def two_opt(n, size):
    pts = list({(rnd.randint(0, size), rnd.randint(0, size)) for _ in range(n)})
    rnd.shuffle(pts)
    def cross(a, b, c, d):
        def t(p, q, r): return (q[0]-p[0])*(r[1]-p[1]) - (q[1]-p[1])*(r[0]-p[0])
        def on(p, q, r): return t(p, q, r) == 0 and min(p[0], q[0]) <= r[0] <= max(p[0], q[0]) and min(p[1], q[1]) <= r[1] <= max(p[1], q[1])
        if (t(a,b,c) > 0) != (t(a,b,d) > 0) and (t(c,d,a) > 0) != (t(c,d,b) > 0) and t(a,b,c) and t(a,b,d) and t(c,d,a) and t(c,d,b): return True
        return on(a,b,c) or on(a,b,d) or on(c,d,a) or on(c,d,b)
    for _ in range(2000):
        done = True
        n = len(pts)
        for i in range(n):
            for j in range(i + 2, n):
                if i == 0 and j == n - 1: continue
                if cross(pts[i], pts[i+1], pts[j], pts[(j+1) % n]):
                    pts[i+1:j+1] = reversed(pts[i+1:j+1]); done = False
        if done: break
    return pts

def boxes(n, size):
    parts = []
    for _ in range(n):
        x, y = rnd.randint(0, size), rnd.randint(0, size)
        parts.append(Polygon([(x, y), (x + rnd.randint(1, size // 2 + 1), y), (x + rnd.randint(1, size//2+1), y + rnd.randint(1, size//2+1)), (x, y + rnd.randint(1, size//2+1))]).buffer(0))
    u = unary_union(parts)
    return u

def out(rings):
    print(";".join(" ".join(f"{x} {y}" for x, y in r) for r in rings))

made = 0
want = int(sys.argv[1])
while made < want:
    k = rnd.random()
    rings = None
    if k < 0.35:
        r = rnd.choice([20, 100, 1000, 100000, 9000000])
        o = star(0, 0, r, rnd.randint(3, 40), rnd.choice([0.1, 0.5, 0.9]))
        rings = [o]
        for _ in range(rnd.randint(0, 4)):
            a = rnd.random() * 6.28; d = rnd.random() * r * 0.5
            rings.append(star(d * math.cos(a), d * math.sin(a), r * 0.2 * rnd.random() + 2, rnd.randint(3, 12), 0.5))
    elif k < 0.75:
        rings = [two_opt(rnd.randint(3, 40), rnd.choice([6, 12, 40, 1000, 1000000]))]
    else:
        u = boxes(rnd.randint(2, 12), rnd.choice([10, 30, 1000]))
        if u.geom_type != "Polygon": continue
        rings = [list(u.exterior.coords)[:-1]] + [list(h.coords)[:-1] for h in u.interiors]
        rings = [[(round(x), round(y)) for x, y in r] for r in rings]
    try:
        rings = [r + [r[0]] for r in rings]
        if any(len(r) < 4 for r in rings): continue
        p = Polygon(rings[0], rings[1:])
    except Exception:
        continue
    if not p.is_valid or p.area == 0: continue
    # corners repeated across rings, or holes that touch, are refused by design
    allpts = [q for r in rings for q in r[:-1]]
    if len(set(allpts)) != len(allpts): continue
    if any(p.exterior.distance(Polygon(h).exterior) == 0 for h in p.interiors): continue
    ok = True
    for i in range(len(p.interiors)):
        for j in range(i):
            if p.interiors[i].distance(p.interiors[j]) == 0: ok = False
    if not ok: continue
    for r in rings:
        if rnd.random() < 0.5: r.reverse()
    out(rings); made += 1
