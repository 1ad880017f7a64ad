"""Nodes and fibres of a network that is planned: what they have free, what was put on them, and the files of all that."""
import json
import os
import random
import zlib

from . import demands

LINES, CLIENTS, CONNECTIONS, MOST_TURNS = 4, 16, 48, 16384      # of a node; of a plan
OTU2, OTU3 = 8, 32                                              # slots


class Fibre:
    """From an output line of one node to an input line of another; `free` are its slots. A wide one is an OTU3."""

    def __init__(self, a, b, wide):
        self.a, self.b, self.wide = a, b, wide
        self.slots = OTU3 if wide else OTU2
        self.free = list(range(1, self.slots + 1))
        self.out_line, self.in_line = len(a.outs), len(b.ins)
        a.outs.append(self)
        b.ins.append(self)

    def take(self, count, wanted=None):
        """The slots wanted, else the first free ones, as a plan names a line's end; its port is the first slot."""
        slots = wanted or self.free[:count]
        self.free = [k for k in self.free if k not in slots]
        return f'port = {slots[0]}, slots = {slots}'


class Node:
    """One otn: its fibres, its connections as text, and its clients' texts by number."""

    def __init__(self, name):
        self.name, self.ins, self.outs, self.connections, self.texts = name, [], [], [], {}
        self.clients_in = self.clients_out = self.count = 0

    def plan(self, turns):
        lists = [('otu3-in', [f.in_line for f in self.ins if f.wide]),
                 ('otu3-out', [f.out_line for f in self.outs if f.wide])]
        lists += [(key.replace('otu3', 'scrambled'), lines) for key, lines in lists]
        head = ['version = 2', f'turns = {turns}', *(f'{key} = {lines}' for key, lines in lists if lines)]
        return '\n'.join(head + self.connections) + '\n'

    def connect(self, name, kind, source, to, *more):
        self.count += 1
        self.connections += ['', '[[connection]]', f'name = "{name}"', f'kind = "{kind}"', f'from = {source}',
                             f'to = {to}', *more]


def packets(name, count):
    """Ethernet frames with their check sequence, one a line in hex: what they hold goes by the customer's name."""
    numbers = random.Random(name)
    lines = []
    for number in range(count):
        head = bytes([2, 0, 0, 0, 0, 2, 2, 0, 0, 0, 0, 1, 0x88, 0xB5]) + f'{name} {number} '.encode()
        frame = head + numbers.randbytes(numbers.randint(60, 1400) - len(head))
        lines.append((frame + zlib.crc32(frame).to_bytes(4, 'little')).hex())
    return '\n'.join(lines) + '\n'


def carry(name, kind, count, fibres, wanted=None):
    """Puts a customer into the plans of the nodes on its way; returns its two ends, as files."""
    many, kind = demands.slots_of(kind), kind[:4]
    first, last = fibres[0].a, fibres[-1].b
    source, more = f'{{ client = {first.clients_in} }}', [f'trace = "{name.upper()[:15]}"']
    ends = f'{first.name}/client-{first.clients_in:02}.in {last.name}/client-{last.clients_out:02}.out'
    first.texts[first.clients_in] = packets(name, count)
    for f in fibres:
        taken = f.take(many, wanted)
        f.a.connect(name, kind, source, f'{{ line = {f.out_line}, {taken} }}', *more)
        source, more = f'{{ line = {f.in_line}, {taken} }}', []
    last.connect(name, kind, source, f'{{ client = {last.clients_out} }}')
    first.clients_in += 1
    last.clients_out += 1
    return ends


def as_toml(nodes, fibres):
    """The text of network.toml: the nodes, each in the folder of its name, and the fibres."""
    rows = [f'[[node]]\nname = "{node.name}"\n' for node in nodes]
    rows += [f'[[fibre]]\nfrom = {{ node = "{f.a.name}", line = {f.out_line} }}\n'
             f'to = {{ node = "{f.b.name}", line = {f.in_line} }}\n' for f in fibres]
    return '\n'.join(rows)


def as_json(nodes, customers):
    """The same for programs, with the two files of each customer."""
    told = {'nodes': {n.name: {'in': {f.in_line: [f.a.name, f.out_line] for f in n.ins}, 'clients': sorted(n.texts)}
                      for n in nodes},
            'customers': {name: ends.split() for name, ends in customers.items()}}
    return json.dumps(told) + '\n'


def write(folder, turns, nodes, fibres, customers):
    """The folder of a network: one for each node, with its plan and its clients' texts; network.toml, network.json."""
    for node in nodes:
        place = os.path.join(folder, node.name)
        os.makedirs(place, exist_ok=True)
        put(f'{place}/plan.toml', node.plan(turns))
        for number, text in node.texts.items():
            put(f'{place}/client-{number:02}.in', text)
    put(f'{folder}/network.toml', as_toml(nodes, fibres))
    put(f'{folder}/network.json', as_json(nodes, customers))


def put(path, text):
    with open(path, 'w') as file:
        file.write(text)
