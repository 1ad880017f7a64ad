"""Where the sites of a network stand in its map: sites that fibres join stand at a like distance, so that a ring of
sites is a ring. The map is made by stress majorization: distances in the map come near to the fibres of a shortest
way, near ones before far ones.

One is the length of a fibre; x goes to the right, y down.
"""
import math

STEPS, GAP, NEAR = 300, 1.1, 1.15
WAYS = ('east', 'west', 'north', 'south', 'cw', 'ccw')


def site_of(node):
    """The site of a node: nodes whose names differ in a last word such as -east and -west stand at one."""
    stem, _, way = node.rpartition('-')
    return stem if stem and way in WAYS else node


def distances(sites, joins):
    """Of each site that of each other that it reaches: how many fibres a shortest way has."""
    near = {s: set() for s in sites}
    for a, b in joins:
        near[a].add(b)
        near[b].add(a)
    out = {}
    for s in sites:
        far, edge = {s: 0}, [s]
        while edge:
            edge = [q for p in edge for q in sorted(near[p]) if q not in far and not far.update({q: far[p] + 1})]
        out[s] = far
    return out


def axis(matrix, others):
    """The greatest eigenvector of a matrix, upright on the others, by its root."""
    n = len(matrix)
    v = [math.sin(1.0 + 2.4 * i) for i in range(n)]
    size = 0.0
    for _ in range(STEPS):
        for u in others:
            part = sum(a * b for a, b in zip(u, v)) / (sum(a * a for a in u) or 1.0)
            v = [a - part * b for a, b in zip(v, u)]
        v = [sum(a * b for a, b in zip(row, v)) for row in matrix]
        size = math.sqrt(sum(a * a for a in v))
        if size < 1e-9:
            return [0.01 * math.sin(3.7 * i) for i in range(n)]
        v = [a / size for a in v]
    return [a * math.sqrt(size) for a in v]


def scaled(far, part):
    """A first map by classical scaling."""
    square = [[far[a][b] ** 2 for b in part] for a in part]
    means, all_ = [sum(row) / len(part) for row in square], sum(map(sum, square)) / len(part) ** 2
    matrix = [[-(v - means[i] - means[j] + all_) / 2 for j, v in enumerate(row)] for i, row in enumerate(square)]
    x = axis(matrix, [])
    return dict(zip(part, zip(x, axis(matrix, [x]))))


def settle(place, far, fixed):
    """Moves sites, but for those that are fixed, to where the stress is least."""
    part = [s for s in place if s not in fixed]
    for _ in range(STEPS if len(place) < 60 else 60):
        for a in part:
            weight = x = y = 0.0
            for b, (bx, by) in place.items():
                d = far[a].get(b)
                if not d:
                    continue
                dx, dy = place[a][0] - bx, place[a][1] - by
                r, w = math.hypot(dx, dy) or 1e-6, 1.0 / d ** 4
                weight, x, y = weight + w, x + w * (bx + d * dx / r), y + w * (by + d * dy / r)
            if weight:
                place[a] = x / weight, y / weight
    return place


def turned(place):
    """About its middle: lying where it is long, else its first site at the top; sites clockwise in their order."""
    n = len(place)
    mx, my = (sum(p[i] for p in place.values()) / n for i in (0, 1))
    points = {s: (x - mx, y - my) for s, (x, y) in place.items()}
    xx, yy, xy = (sum(p[i] * p[j] for p in points.values()) for i, j in ((0, 0), (1, 1), (0, 1)))
    spread = math.hypot(xx - yy, 2 * xy)
    first = next(iter(points.values()))
    long = xx + yy + spread > NEAR ** 2 * (xx + yy - spread)
    turn = -math.atan2(2 * xy, xx - yy) / 2 if long else -math.pi / 2 - math.atan2(first[1], first[0])
    c, s = math.cos(turn), math.sin(turn)
    points = {site: (c * x - s * y, s * x + c * y) for site, (x, y) in points.items()}
    if long and next(iter(points.values()))[0] > 1e-6:
        points = {site: (-x, -y) for site, (x, y) in points.items()}
    ring = list(points.values())
    way = sum(a[0] * b[1] - a[1] * b[0] for a, b in zip(ring, ring[1:]))
    if way >= 0:
        return points
    return {site: (x, -y) if long else (-x, y) for site, (x, y) in points.items()}


def places(sites, joins, fixed=None):
    """A place for each site. `fixed` are those said by hand, in hundredths of a fibre's length."""
    fixed = {s: (x / 100, y / 100) for s, (x, y) in (fixed or {}).items()}
    far, out, left = distances(sites, joins), {}, 0.0
    for first in sites:
        if first in out:
            continue
        part = [s for s in sites if s in far[first]]
        place = scaled(far, part) if len(part) > 1 else {first: (0.0, 0.0)}
        held = {s: fixed[s] for s in part if s in fixed}
        if held:
            out.update(settle({**place, **held}, far, held))
            continue
        place = turned(settle(place, far, held))
        least = min(x for x, _ in place.values())
        out.update({s: (x - least + left, y) for s, (x, y) in place.items()})
        left = max(out[s][0] for s in part) + GAP
    return out
