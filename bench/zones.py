"""Zones for policy documents that benches read."""

import math


def zone(number):
    """A polygon of eight corners; zones of different numbers below 64 lie apart."""
    x, y = 10_000 * (number % 8) + 20_000, 10_000 * (number // 8) + 20_000
    turns = [2 * math.pi * (k + 0.5) / 8 for k in range(8)]
    ring = [(x + round(3000 * math.cos(t)), y + round(3000 * math.sin(t))) for t in turns]
    corners = ", ".join(f"{a} {b}" for a, b in ring + ring[:1])
    return {"zone": f"z{number}", "shape": f"POLYGON (({corners}))"}
