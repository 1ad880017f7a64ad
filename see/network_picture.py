"""A picture of a network: nodes as boxes, a fibre as a band with a strand for each slot, each customer in one colour.

Nodes stand in columns, each to the right of those whose fibres it takes; parts of the network that no fibre joins stand
below one another. A fibre that passes over columns goes above its part. What does not meet is dashed, and in words.
"""
from drawing import BAD, DIM, INK, Drawing, count
from networks import end_words

COLOURS = ['#4878b0', '#e8892b', '#4f9d57', '#9a6fb0', '#3aa6a0', '#d9b12e', '#96705b', '#e27fae', '#5b6bc0', '#8aa03a',
           '#b5566b', '#3f8f8f']


def colour(x):
    return COLOURS[x.chain % len(COLOURS)]


def depths(net):
    """The column of each node: behind all whose fibres it takes; a way round ends where it began."""
    d = {n: 0 for n in net.plans}
    for _ in net.plans:
        for a, _, b, _ in net.fibres:
            if d[b] <= d[a] < len(net.plans) - 1 and not reaches(net, b, a):
                d[b] = d[a] + 1
    return d


def reaches(net, a, b):
    """Whether fibres lead from a to b."""
    seen, due = {a}, [a]
    while due:
        n = due.pop()
        for p, _, q, _ in net.fibres:
            if p == n and q not in seen:
                seen.add(q)
                due.append(q)
    return b in seen


def parts(net):
    """The nodes that fibres join, together."""
    part = {n: {n} for n in net.plans}
    for a, _, b, _ in net.fibres:
        if part[a] is not part[b]:
            part[a] |= part[b]
            for n in part[b]:
                part[n] = part[a]
    out = []
    for n in net.plans:
        if part[n] not in out:
            out.append(part[n])
    return [[n for n in net.plans if n in p] for p in out]


class Layout:
    """Where everything stands. `box` of a node: x, y, width, height; `place` of a line, client or signal of a node:
    y of its first strand, distance of two, how many; `arc` of a fibre: y of the band above its part."""

    def __init__(self, net):
        self.net = net
        many = len(net.plans) > 6
        self.strand, self.gap, self.box_width, self.space, self.port = (5, 22, 130, 224, 22) if many else \
            (9, 26, 250, 210, 24)
        self.depth, self.box, self.place, self.arc = depths(net), {}, {}, {}
        y = 90
        for part in parts(net):
            y = self.lay(part, self.arcs(part, y)) + 50
        self.bottom = y - 50
        self.width = max(x + w for x, _, w, _ in self.box.values()) + 150

    def step(self, s):
        return self.strand if s == 8 else self.strand // 2

    def arcs(self, part, top):
        """Places for the fibres that pass over columns; answers the y below them."""
        fibres = [f for f in self.net.fibres if f[0] in part and self.depth[f[2]] != self.depth[f[0]] + 1]
        levels = []                                   # of each: columns that are taken, and its height
        for f in sorted(fibres, key=lambda f: self.depth[f[2]] - self.depth[f[0]]):
            a, b = sorted((self.depth[f[0]], self.depth[f[2]]))
            s = self.net.slots(f[0], 'out', f[1])
            level = next((v for v in levels if all(b <= c or d <= a for c, d in v[0])), None)
            if level is None:
                level = [[], 0, []]
                levels.append(level)
            level[0].append((a, b))
            level[1] = max(level[1], s * self.step(s) + 34)
            level[2].append(f)
        y = top + 14
        for _, height, own in reversed(levels):
            for f in own:
                self.arc[f] = y + 14
            y += height
        return y + 6

    def lay(self, part, top):
        """The boxes of a part; answers the y below them."""
        bottom, columns = top, {}
        for n in part:
            columns.setdefault(self.depth[n], []).append(n)
        for d, nodes in columns.items():
            y = top
            for n in nodes:
                low = max(self.side(n, 'in', y + 44), self.side(n, 'out', y + 44))
                self.box[n] = (150 + d * (self.box_width + self.space), y, self.box_width, low - y + 8)
                y = low + 60
            bottom = max(bottom, y - 52)
        return bottom

    def side(self, node, side, y):
        """The lines, clients and signals of one side of a box; answers the y below them."""
        ends = [(x.name, x.source if side == 'in' else x.to) for x in self.net.all if x.node == node]
        for number in sorted({e['line'] for _, e in ends if 'line' in e}):
            s = self.net.slots(node, side, number)
            self.place[node, side, 'line', number] = (y, self.step(s), s)
            y += s * self.step(s) + self.gap
        for number in sorted({e['client'] for _, e in ends if 'client' in e}):
            self.place[node, side, 'client', number] = (y, self.port, 1)
            y += self.port
        for name in (name for name, e in ends if 'signal' in e):
            self.place[node, side, 'signal', name] = (y, self.port, 1)
            y += self.port
        return y

    def at(self, x, side, i):
        """Where strand i of a connection goes into a box, or out of it."""
        end = x.source if side == 'in' else x.to
        left, _, width, _ = self.box[x.node]
        px = left if side == 'in' else left + width
        if 'line' in end:
            y, step, _ = self.place[x.node, side, 'line', end['line']]
            return px, y + (end['slots'][min(i, len(end['slots']) - 1)] - 1) * step + step // 2
        key = ('client', end['client']) if 'client' in end else ('signal', x.name)
        y, step, _ = self.place[(x.node, side) + key]
        return px, y + step // 2


def curve(x1, y1, x2, y2):
    middle = (x1 + x2) // 2
    return f'M{x1} {y1}C{middle} {y1} {middle} {y2} {x2} {y2}'


def over(x1, y1, x2, y2, top):
    """From one place up to a height, along it, and down to another."""
    turn = 60 if x2 > x1 else 0
    return (f'M{x1} {y1}C{x1 + 50} {y1} {x1 + 20} {top} {x1 + turn + 10} {top}'
            f'H{x2 - turn - 10}C{x2 - 20} {top} {x2 - 50} {y2} {x2} {y2}')


def fibre(p, lay, f):
    """A fibre: each slot that is put or taken in its customer's colour, free ones thin."""
    net, (a, m, b, n) = lay.net, f
    one, two = lay.place.get((a, 'out', 'line', m)), lay.place.get((b, 'in', 'line', n))
    if not one or not two:
        return
    x1, x2 = lay.box[a][0] + lay.box[a][2], lay.box[b][0]
    puts = [x for x in net.all if x.node == a and x.to.get('line') == m]
    takes = [x for x in net.all if x.node == b and x.source.get('line') == n]
    top = lay.arc.get(f)
    for k in range(1, min(one[2], two[2]) + 1):
        y1, y2 = (place[0] + (k - 1) * place[1] + place[1] // 2 for place in (one, two))
        path = curve(x1, y1, x2, y2) if top is None else over(x1, y1, x2, y2, top + (k - 1) * one[1])
        own, ask = [x for x in puts if k in x.to['slots']], [x for x in takes if k in x.source['slots']]
        if not own and not ask:
            p.path(path, '#cfd6de', 1)
        for x in own or ask:
            meets = bool(own) and x.next is not None
            title = '; '.join([f'slot {k}: {x.name}', *x.trouble])
            more = {} if meets else {'stroke_dasharray': '5 4'}
            p.path(path, colour(x) if own else BAD, max(2, one[1] - 3), title, **more)
    taken = len({k for x in puts for k in x.to['slots']})
    words = f'line {m} → line {n}, {taken} of {one[2]} slots'
    p.text((x1 + x2) // 2, (min(one[0], two[0]) if top is None else top) - 8, words,
           11 if lay.strand > 5 else 9, DIM, anchor='middle')


def connection(p, lay, x):
    """What a connection is inside of its node, and its client or signal beside it."""
    many = max(len(x.source.get('slots', [1])), len(x.to.get('slots', [1])))
    when = '' if x.whole else f', turns {x.start} to {x.stop}'
    title = '\n'.join([f'{x.name}: {end_words(x.source)} to {end_words(x.to)}{when}', *x.trouble])
    wide = 4 if lay.strand > 5 else 2
    for i in range(many):
        p.path(curve(*lay.at(x, 'in', i), *lay.at(x, 'out', i)), colour(x), wide, title,
               stroke_opacity='.95' if x.whole else '.5')
    for side, end, sign in (('in', x.source, -1), ('out', x.to, 1)):
        if 'line' in end:
            continue
        px, py = lay.at(x, side, 0)
        anchor = 'end' if side == 'in' else 'start'
        p.path(f'M{px} {py}h{sign * 14}', colour(x), 4)
        p.put(f'<circle cx="{px + sign * 18}" cy="{py}" r="5" fill="white" stroke="{colour(x)}" stroke-width="3"/>')
        p.text(px + sign * 28, py - 1, x.name, 12 if wide > 2 else 10, INK, 'bold', anchor)
        p.text(px + sign * 28, py + 10, end_words(end) + when, 10 if wide > 2 else 8, DIM, anchor=anchor)


def open_lines(p, lay):
    """Lines that have no fibre, and the numbers of those that have one."""
    net = lay.net
    ends = {(a, 'out', m) for a, m, _, _ in net.fibres} | {(b, 'in', n) for _, _, b, n in net.fibres}
    for (node, side, what, number), (top, step, s) in lay.place.items():
        if what != 'line':
            continue
        x, _, w, _ = lay.box[node]
        sign, px, anchor = (-1, x, 'end') if side == 'in' else (1, x + w, 'start')
        if (node, side, number) in ends:
            p.text(px - sign * 8, top - 8, f'line {number}', 10, DIM, anchor='start' if side == 'in' else 'end')
            continue
        for c in (c for c in net.all if c.node == node):
            end = c.source if side == 'in' else c.to
            for k in end['slots'] if end.get('line') == number else ():
                p.path(f'M{px} {top + (k - 1) * step + step // 2}h{sign * 40}', colour(c), max(2, step - 3),
                       stroke_dasharray='8 3')
        p.text(px + sign * 46, top + s * step // 2 + 4, f'line {number} {side}', 11, DIM, anchor=anchor)


def picture(net):
    """The SVG of a network."""
    p, lay = Drawing(), Layout(net)
    trouble = [f'{x.node}: {x.name}: {t}' for x in net.all for t in x.trouble]
    trouble += [t for f in net.fibres for t in net.fibre_trouble(*f)]
    p.text(20, 36, count(len(net.plans), 'node'), 20, INK, 'bold')
    counts = (net.chains, 'customer'), (net.all, 'connection'), (net.fibres, 'fibre')
    p.text(20, 58, ', '.join(count(len(n), thing) for n, thing in counts)
           + (f', {len(trouble)} do not meet' if trouble else ''), 13, DIM)
    for f in net.fibres:
        fibre(p, lay, f)
    for n, (x, y, w, h) in lay.box.items():
        p.rect(x, y, w, h, 'white', rx=10, stroke=INK, stroke_width=2)
        p.text(x + w // 2, y + 22, n, 16 if lay.strand > 5 else 14, INK, 'bold', 'middle')
    for x in net.all:
        connection(p, lay, x)
    open_lines(p, lay)
    y = lay.bottom + 36
    for words in trouble[:12]:
        p.text(20, y, f'! {words}', 12, BAD)
        y += 18
    return p.svg(max(lay.width, 500), y)
