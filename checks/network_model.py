"""A model of what `otn_network` tells, read from docs/NETWORKS.md and docs/FORMATS.md: written on its own, not proved.

A network is a dictionary as tomllib reads network.toml, and its plans by the names of nodes. `told` gives the text, or
the rule and the place that are broken.
"""


def is_line(end):
    return 'line' in end


def end_words(end, edge=False):
    """An end as the text has it; of a way a line is its edge."""
    if 'client' in end:
        return f'client {end["client"]}'
    if 'signal' in end:
        return f'signal {end["signal"]}'
    return 'edge' if edge else f'line {end["line"]} port {end["port"]} slots {",".join(map(str, end["slots"]))}'


class Entry:
    """A connection of a node's plan."""

    def __init__(self, node, table, turns):
        self.node, self.name, self.kind = node, table['name'], table['kind']
        self.source, self.to = table['from'], table['to']
        self.start, self.stop = table.get('start', 1), table.get('stop', turns)

    def overlaps(self, other):
        return self.start <= other.stop and other.start <= self.stop


class Model:
    """A network whose file and plans break no rule."""

    def __init__(self, network, plans):
        self.nodes = [node['name'] for node in network['node']]
        self.plans = plans
        self.fibres = [(f['from']['node'], f['from']['line'], f['to']['node'], f['to']['line'])
                       for f in network.get('fibre', [])]
        self.entries = [Entry(name, table, plans[name]['turns']) for name in self.nodes
                        for table in plans[name].get('connection', [])]

    def slots(self, node, side, line):
        return 32 if line in self.plans[node].get(f'otu3-{side}', []) else 8

    def mask(self, node, side, line):
        return 'scrambled' if line in self.plans[node].get(f'scrambled-{side}', []) else 'plain'

    def putting(self, y):
        """The entries at the beginning of the fibre to the line that an entry comes from; None where there is none."""
        if not is_line(y.source):
            return None
        found = [f for f in self.fibres if f[2:] == (y.node, y.source['line'])]
        if not found:
            return None
        return [x for x in self.entries if x.node == found[0][0] and x.to.get('line') == found[0][1]]

    def before(self, y):
        """The entry that goes on in this one."""
        for x in self.putting(y) or []:
            if (x.to['port'], x.to['slots']) == (y.source['port'], y.source['slots']) and \
                    x.start <= y.start and y.stop <= x.stop:
                return x
        return None

    def why(self, y):
        here = self.putting(y)
        same = [x for x in here if x.to['slots'] == y.source['slots']]
        if any(x.to['port'] == y.source['port'] for x in same):
            return 'turns'
        if any(x.overlaps(y) for x in same):
            return 'port'
        if any(x.overlaps(y) and set(x.to['slots']) & set(y.source['slots']) for x in here):
            return 'slots'
        return 'none'

    def way_to(self, end):
        """The entries of the way that ends there; None where it has no beginning."""
        way = [end]
        while (x := self.before(way[0])) is not None:
            if x in way:
                return None
            way.insert(0, x)
        return way

    def text(self):
        former = {y: self.before(y) for y in self.entries}
        taken = set(former.values())
        yield f'network nodes {len(self.nodes)} fibres {len(self.fibres)} connections {len(self.entries)}'
        for number, (a, m, b, n) in enumerate(self.fibres, 1):
            used = {k for x in self.entries if x.node == a and x.to.get('line') == m for k in x.to['slots']}
            free = [k for k in range(1, self.slots(a, 'out', m) + 1) if k not in used]
            yield f'fibre {number} {a} {m} {b} {n} otu{2 if self.slots(a, "out", m) == 8 else 3} ' \
                  f'{self.mask(a, "out", m)} used {len(used)} free {",".join(map(str, free)) or "-"}'
        ways = [way for y in self.entries if y not in taken and (way := self.way_to(y))]
        for number, way in enumerate(ways, 1):
            yield from self.way_text(number, way)
        begin = {(a, m) for a, m, _, _ in self.fibres}
        trouble = [f'unmet {y.node} {y.name} {self.why(y)}' for y in self.entries
                   if self.putting(y) is not None and former[y] is None]
        trouble += [f'untaken {x.node} {x.name}' for x in self.entries
                    if is_line(x.to) and (x.node, x.to['line']) in begin and x not in taken]
        trouble += [f'round {x.node} {x.name}' for x in self.entries if self.way_to(x) is None]
        yield from trouble
        yield f'status {"unmet" if trouble else "met"}'

    @staticmethod
    def turns_of(way):
        """In how many turns what is sent comes in time."""
        return max(way[-1].stop - way[0].start - 3 * (len(way) - 1), 0)

    def way_text(self, number, way):
        first, last, n = way[0], way[-1], len(way)
        turns = self.turns_of(way) if 'client' in last.to else '-'
        step = 'in-step' if all(x.start == first.start for x in way) else 'out-of-step'
        yield f'way {number} {first.node} {end_words(first.source, True)} {last.node} {end_words(last.to, True)} ' \
              f'kind {first.kind} nodes {n} later {1 + 3 * (n - 1)} turns {turns} {step}'
        for at, x in enumerate(way, 1):
            yield f'leg {number} {at} {x.node} {x.name} {end_words(x.source)} {end_words(x.to)}'


def first(pairs):
    """The place of the first that is broken."""
    return next((place for place, broken in pairs if broken), None)


def refusal(network, plans, refused):
    """The rule of 7 to 12 that is broken first, with its place and, of 11, what is said of the plan; else None."""
    names = [node['name'] for node in network['node']]
    fibres = list(enumerate(network.get('fibre', []), 1))
    ends = [(f['to']['node'], f['to']['line']) for _, f in fibres]
    both = [(n, (f['from'], f['to'])) for n, f in fibres]
    rules = ((7, 'node', enumerate((name in names[:at] for at, name in enumerate(names)), 1)),
             (8, 'fibre', ((n, any(end['node'] not in names for end in it)) for n, it in both)),
             (9, 'fibre', ((n, any(not 0 <= end['line'] <= 3 for end in it)) for n, it in both)),
             (10, 'fibre', ((n, end in ends[:n - 1]) for n, end in enumerate(ends, 1))))
    for rule, where, pairs in rules:
        place = first(pairs)
        if place:
            return rule, f'{where} {place}', ''
    place = first((n, name in refused) for n, name in enumerate(names, 1))
    if place:
        return 11, f'node {place}', f'otn_network: plan {refused[names[place - 1]]} of {names[place - 1]}\n'
    model = Model(network, plans)
    place = first((n, other_forms(model, *ends)) for n, ends in enumerate(model.fibres, 1))
    return (12, f'fibre {place}', '') if place else None


def other_forms(model, a, m, b, n):
    """Whether both plans use their line of a fibre, and the lines are not alike."""
    out = any(x.node == a and x.to.get('line') == m for x in model.entries)
    into = any(y.node == b and y.source.get('line') == n for y in model.entries)
    return out and into and (model.slots(a, 'out', m), model.mask(a, 'out', m)) != \
        (model.slots(b, 'in', n), model.mask(b, 'in', n))


def told(network, plans, refused):
    """The exit status, standard output and standard error."""
    broken = refusal(network, plans, refused)
    if broken:
        rule, place, more = broken
        return 3, '', f'otn_network: network {rule} at {place}\n{more}'
    text = '\n'.join(Model(network, plans).text()) + '\n'
    return (0 if text.endswith('status met\n') else 1), text, ''
