"""Convex shapes in a plane, with exact numbers: whether two meet."""


def corners(geometry):
    """The corners of a GeoJSON geometry of landmap: a Point, a LineString of two, a Polygon of one convex ring."""
    kind, places = geometry['type'], geometry['coordinates']
    if kind == 'Point':
        return [tuple(places)]
    if kind == 'LineString':
        return [tuple(place) for place in places]
    return [tuple(place) for place in places[0][:-1]]


def touch(ours, theirs):
    """Whether two convex shapes, told by their corners, have a point in common: no line parts them."""
    def parted(ax, ay):
        mine, yours = [x * ax + y * ay for x, y in ours], [x * ax + y * ay for x, y in theirs]
        return max(mine) < min(yours) or max(yours) < min(mine)

    if parted(1, 0) or parted(0, 1):
        return False
    for shape in (ours, theirs):
        for n, (x, y) in enumerate(shape):
            dx, dy = shape[n - 1][0] - x, shape[n - 1][1] - y
            if parted(dx, dy) or parted(-dy, dx):
                return False
    return True


def meets(geometry, box):
    """Whether a shape and a box (west, south, east, north) have a point in common."""
    west, south, east, north = box
    return touch(corners(geometry), [(west, south), (east, south), (east, north), (west, north)])
