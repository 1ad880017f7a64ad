"""Which way each demand takes, by the slots that its fibres have free."""
from . import demands
from .nodes import CLIENTS, CONNECTIONS, LINES, Fibre, Node, carry


class Planner:
    """The nodes of a network by name, its fibres, and the customers that were carried, with their ends."""

    def __init__(self, asked):
        self.asked, self.customers = asked, {}
        self.nodes = {site: Node(site) for site in asked.sites}
        self.fibres = []
        for a, b, wide in asked.joins:
            self.fibres += [Fibre(self.nodes[a], self.nodes[b], wide), Fibre(self.nodes[b], self.nodes[a], wide)]

    def carry_all(self):
        """Carries all demands, each both ways. Returns a sentence for each that has no room, with its line."""
        lacking = [f'{self.nodes[site].name}: {len(node.outs)} fibres leave it; a node has {LINES} lines'
                   for site, node in self.nodes.items() if len(node.outs) > LINES]
        for demand in [] if lacking else self.asked.demands:
            for name, a, b, via in ((demand.name, demand.a, demand.b, demand.via),
                                    (demand.name + '-back', demand.b, demand.a, demand.via[::-1])):
                lack = self.carry(demand, name, self.nodes[a], self.nodes[b], [self.nodes[site] for site in via])
                if lack:
                    lacking.append(f'{demand.line}: {lack}')
        return lacking

    def carry(self, demand, name, a, b, via):
        """Carries a demand one way, or says why it can't be."""
        many = demands.slots_of(demand.kind)
        lack = self.no_room_at(name, a, b)
        if lack:
            return lack
        stops = [a, *via, b]
        found = self.way(stops, lambda f: self.has_room(f, many, demand.slots))
        if found is None:
            return self.told(name, many, demand.slots, stops)
        full = [f.a.name for f in found if f.a.count >= CONNECTIONS]
        if full:
            return f'{name} passes {full[0]}, which has {CONNECTIONS} connections already'
        self.customers[name] = carry(name, demand.kind, demand.count, found, demand.slots)
        return ''

    def no_room_at(self, name, a, b):
        """Why the ends of a way can take no further client; the empty text where they can."""
        for node, taken, end in ((a, a.clients_in, 'begins'), (b, b.clients_out, 'ends')):
            if taken >= CLIENTS:
                return f'{name} {end} at {node.name}, which has {CLIENTS} clients already'
        return ''

    @staticmethod
    def has_room(fibre, many, slots):
        return set(slots) <= set(fibre.free) if slots else len(fibre.free) >= many

    def way(self, stops, fits):
        """The fibres of a shortest way that passes these stops in order, over fibres that fit; None where there is none.
        No node is passed twice. Of ways as short, one whose fullest fibre has most slots free."""
        ways = [(stops[0], 1, [], {stops[0]})]        # where it is, which stop is next, by which fibres, over which nodes
        while ways:
            ended = [fibres for node, stop, fibres, _ in ways if stop == len(stops)]
            if ended:
                return max(ended, key=lambda fibres: min(len(f.free) for f in fibres))
            ways = [(f.b, stop + (f.b is stops[stop]), fibres + [f], seen | {f.b})
                    for node, stop, fibres, seen in ways for f in node.outs
                    if f.b not in seen and (f.b is stops[stop] or f.b not in stops[stop:]) and fits(f)]
        return None

    def told(self, name, many, slots, stops):
        """What a demand wants, and what is free on its ways."""
        want = f'slot{"s" * (len(slots) > 1)} {",".join(map(str, slots))}' if slots else f'{many} slot{"s" * (many > 1)}'
        said, without = f'{name} wants {want} from {stops[0].name} to {stops[-1].name}', set()
        while (found := self.way(stops, lambda f: f not in without)) is not None:
            tight = next(f for f in found if not self.has_room(f, many, slots))
            free = ','.join(map(str, tight.free)) if slots else str(len(tight.free))
            said += f'; of the {tight.slots} from {tight.a.name} to {tight.b.name} {free or "none"} ' \
                    f'{"is" if len(tight.free) == 1 else "are"} free'
            without.add(tight)
        return said + ('' if without else '; there is no way')
