"""A network as otn_network tells it, which is proved: ways and their turns, fibres by slots, what does not meet, and why.

`lay_over` asks `otn_network --json`. Where it is not built, or refuses the network, the plans are left as networks.py
reads them, and a line on standard error says so.
"""
import json
import os
import pathlib
import shutil
import subprocess
import sys
import tempfile

from networks import Connection, Network

BUILT = pathlib.Path(__file__).resolve().parent.parent / 'crates/otn_network/out/otn_network'
SOURCES = ('otn_network, proved: ways, turns, slots, what does not meet, and why',)
NOT_BUILT = 'otn_network is not built'


def program():
    """otn_network: as OTN_NETWORK says, as it was built here, or as it stands on the path; None where there is none."""
    if 'OTN_NETWORK' in os.environ:
        return shutil.which(os.environ['OTN_NETWORK'])
    return str(BUILT) if BUILT.exists() else shutil.which('otn_network')


class Told(Network):
    """A network by the JSON of otn_network; `name` gives what a node of it is called here."""

    def __init__(self, told, name, of):
        self.folders, self.files, self.path, self.sources = of.folders, of.files, of.path, SOURCES
        self.name, self.places, self.wide = name, {}, {}
        self.plans = {name(node['name']): {'turns': node['turns']} for node in told['nodes']}
        for node in told['nodes']:
            self.places.update({(name(node['name']), it): k for k, it in enumerate(node['connections'])})
        self.fibres = [tuple(word for end in ('from', 'to') for word in (name(f[end]['node']), f[end]['line']))
                       for f in told['fibres']]
        for (a, m, b, n), f in zip(self.fibres, told['fibres']):
            self.wide[a, 'out', m] = self.wide[b, 'in', n] = f['slots']
        self.scrambled = {fibre[:2] for fibre, f in zip(self.fibres, told['fibres']) if f['scrambled']}
        self.found = {}
        ways = [[self.entry(leg) for leg in way['legs']] for way in told['ways']]
        rounds = [[self.entry(it['leg'])] for it in told['troubles'] if it['trouble'] == 'round']
        self.put_in_order(ways, rounds)
        for it in told['troubles']:
            x = self.entry(it['leg'])
            x.trouble.append({'unmet': self.unmet, 'untaken': self.untaken, 'round': self.leads_round}[it['trouble']](
                x, it.get('why')))

    def entry(self, leg):
        """The connection of a leg: one for each."""
        key = self.name(leg['node']), leg['connection']
        if key not in self.found:
            table = {'name': leg['connection'], **leg}
            self.found[key] = Connection(key[0], table, self.plans[key[0]]['turns'])
            for side in ('from', 'to'):
                if 'line' in leg[side]:
                    where = key[0], 'in' if side == 'from' else 'out', leg[side]['line']
                    self.wide[where] = 32 if leg[side]['kind'] == 'otu3' else 8
        return self.found[key]

    def put_in_order(self, ways, rounds):
        """All connections in the order of nodes and plans, and the chains by their first ones."""
        nodes = {node: k for k, node in enumerate(self.plans)}

        def place(x):
            return nodes[x.node], self.places[x.node, x.name]
        self.all = sorted(self.found.values(), key=place)
        numbered = [(chain, number) for number, chain in enumerate(ways, 1)] + [(chain, 0) for chain in rounds]
        numbered.sort(key=lambda it: place(it[0][0]))
        self.chains = [chain for chain, _ in numbered]
        self.numbers = {i: number for i, (_, number) in enumerate(numbered)}
        for i, chain in enumerate(self.chains):
            for x, y in zip(chain, chain[1:]):
                x.next, y.former = x.next or y, x
            for x in chain:
                x.chain = i if x.chain is None else x.chain

    def slots(self, node, side, line):
        return self.wide[node, side, line]

    def is_scrambled(self, node, line):
        return (node, line) in self.scrambled

    def fibre_trouble(self, a, m, b, n):
        return []                                     # a network with such a fibre is refused

    def unmet(self, y, why):
        """Why no connection goes on in this one, in words."""
        a = next(a for a, _, b, n in self.fibres if (b, n) == (y.node, y.source['line']))
        if why == 'turns':
            return f'{a} does not put it in all of turns {y.start} to {y.stop}'
        return f'{a} never puts port {y.source["port"]} on {y.source["slots"]}'

    def untaken(self, x, _):
        """What stands where this connection is not taken, in words."""
        ends = [(b, n) for a, m, b, n in self.fibres if (a, m) == (x.node, x.to['line'])]
        others = [y for y in self.all if (y.node, y.source.get('line')) in ends]
        for y in others:
            if all(y.source[k] == x.to[k] for k in ('port', 'slots')):
                return f'{y.node} takes it in turns {y.start} to {y.stop}'
        for y in others:
            if set(y.source['slots']) & set(x.to['slots']):
                return f'{y.node} takes it as port {y.source["port"]} on {y.source["slots"]}'
        return f'no connection of {ends[0][0]} takes it'

    def leads_round(self, *_):
        return 'its way leads round, and has no beginning'


def json_of(path):
    """What otn_network tells of the network of a file; or None, and its complaint."""
    run = subprocess.run([os.path.abspath(program()), '--json', os.path.abspath(path)], capture_output=True, text=True)
    if run.returncode > 1 or not run.stdout.startswith('{'):
        return None, run.stderr.strip().replace('\n', ', ') or f'otn_network: status {run.returncode}'
    return json.loads(run.stdout), ''


def told_of_words(net):
    """What otn_network tells of plans and fibres that words name, whatever the names of nodes and files are."""
    names = list(net.plans)
    with tempfile.TemporaryDirectory() as folder:
        text = ''
        for i, name in enumerate(names):
            os.mkdir(os.path.join(folder, f'n{i}'))
            os.symlink(net.files[name], os.path.join(folder, f'n{i}', 'plan.toml'))
            text += f'[[node]]\nname = "n{i}"\n'
        for a, m, b, n in net.fibres:
            text += (f'[[fibre]]\nfrom = {{ node = "n{names.index(a)}", line = {m} }}\n'
                     f'to = {{ node = "n{names.index(b)}", line = {n} }}\n')
        pathlib.Path(folder, 'network.toml').write_text(text)
        told, complaint = json_of(os.path.join(folder, 'network.toml'))
    return told, complaint, lambda node: names[int(node[1:])]


def lay_over(net):
    """The network as otn_network tells it, or as it was read where it tells nothing."""
    told, complaint, name = None, NOT_BUILT, str
    if program() is not None:
        if net.files:
            told, complaint, name = told_of_words(net)
        else:
            told, complaint = json_of(net.path)
    if told is not None:
        return Told(told, name, net)
    print(f'{complaint}: what is shown is not proved (see/README.md)', file=sys.stderr)
    net.sources = (f'this script, not proved: all, since {complaint}',)
    return net
