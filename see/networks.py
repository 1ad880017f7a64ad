"""Some nodes, their plans, and the fibres between them: which connections meet, and the chain of each customer.

A fibre is an output line of one node that is an input line of another: (node, line, node, line). A connection goes on
where the other node takes the same port and slots from the fibre while it lasts. Nothing of this is proved: told.py has
what otn_network tells of a network in its place.
"""
import os
import re
import sys
import tomllib


class Connection:
    """One connection of a node's plan. `next` takes what it puts, `former` puts what it takes."""

    def __init__(self, node, table, turns):
        self.node, self.name, self.kind = node, table['name'], table['kind']
        self.source, self.to = table['from'], table['to']
        self.start, self.stop = table.get('start', 1), table.get('stop', turns)
        self.whole = (self.start, self.stop) == (1, turns)
        self.next = self.former = self.chain = None
        self.trouble = []

    def overlaps(self, other):
        return other.start <= self.stop and self.start <= other.stop


def end_words(end):
    """Where a connection comes from, or goes to."""
    if 'client' in end:
        return f'client {end["client"]}'
    if 'signal' in end:
        return end['signal'].upper()
    many = 's' if len(end['slots']) > 1 else ''
    return f'line {end["line"]} port {end["port"]} slot{many} {",".join(map(str, end["slots"]))}'


class Network:
    """Plans by node, fibres, connections, and `chains`: the connections of each customer, in order. `folders` says where
    the files of a node are."""

    def __init__(self, plans, fibres, folders=None, path=''):
        self.plans, self.fibres, self.folders, self.path = plans, fibres, folders or {}, path
        self.files, self.numbers = {}, {}              # of words: the file of each plan; of a chain: the numbers of its ways
        self.sources = ('plans, read by this script, which is not proved',)
        self.all = [Connection(n, c, plan['turns']) for n, plan in plans.items() for c in plan.get('connection', [])]
        self.join()
        self.chains = []
        for head in (x for x in self.all if x.former is None):
            chain = []
            while head is not None and head.chain is None:
                head.chain = len(self.chains)
                chain.append(head)
                head = head.next
            self.chains.append(chain)

    def file(self, node, name):
        """Where a file of a node is."""
        return os.path.join(self.folders[node], name)

    def text(self, node):
        """The text of a node's plan."""
        with open(self.file(node, 'plan.toml'), 'rb') as file:
            return file.read()

    def join(self):
        ahead = {(a, m): (b, n) for a, m, b, n in self.fibres}
        behind = {(b, n): (a, m) for a, m, b, n in self.fibres}
        for x in self.all:
            if 'line' in x.to and (x.node, x.to['line']) in ahead:
                self.put(x, *ahead[x.node, x.to['line']])
        for y in self.all:
            if 'line' in y.source and (y.node, y.source['line']) in behind and y.former is None:
                a, _ = behind[y.node, y.source['line']]
                y.trouble.append(f'{a} never puts port {y.source["port"]} on {y.source["slots"]}')

    def put(self, x, node, line):
        """Who takes what x puts on a fibre to this line of that node."""
        others = [y for y in self.all if y.node == node and y.source.get('line') == line]
        same = [y for y in others if all(y.source[k] == x.to[k] for k in ('port', 'slots'))]
        for y in sorted(same, key=lambda y: not x.overlaps(y)):
            if x.next is None and y.former is None:
                x.next, y.former = y, x
        if not same:
            near = [y for y in others if set(y.source['slots']) & set(x.to['slots'])]
            x.trouble.append(f'{node} takes it as port {near[0].source["port"]} on {near[0].source["slots"]}' if near
                             else f'no connection of {node} takes it')

    def slots(self, node, side, line):
        """How many slots a line has: 32 where the plan says OTU3; side is in or out."""
        return 32 if line in self.plans[node].get(f'otu3-{side}', []) else 8

    def is_scrambled(self, node, line):
        """Whether an output line is scrambled."""
        return line in self.plans[node].get('scrambled-out', [])

    def fibre_trouble(self, a, m, b, n):
        """What the two ends of a fibre do not agree on."""
        out, kinds = [], (self.slots(a, 'out', m), self.slots(b, 'in', n))
        if kinds[0] != kinds[1]:
            out.append(f'{a} writes OTU{2 if kinds[0] == 8 else 3}, {b} reads OTU{2 if kinds[1] == 8 else 3}')
        if (m in self.plans[a].get('scrambled-out', [])) != (n in self.plans[b].get('scrambled-in', [])):
            out.append('one end is scrambled, the other is not')
        return out

    def delay(self, chain):
        """Turns from the first end to the last: one to a line from a client, three through each node behind."""
        return 3 * sum('line' in x.source for x in chain) + ('line' not in chain[0].source)


def read_plan(path):
    """A plan as its tables say; whether it is a plan of `otn` is for `otn check` to say."""
    try:
        with open(path, 'rb') as file:
            plan = tomllib.load(file)
        for table in [plan, *plan.get('connection', [])]:
            for key in ('turns',) if table is plan else ('name', 'kind', 'from', 'to'):
                table[key]
        return plan
    except OSError as fault:
        sys.exit(f'{path}: {fault.strerror}')
    except (tomllib.TOMLDecodeError, UnicodeDecodeError, KeyError, TypeError):
        sys.exit(f'{path}: no plan, see `otn check`')


def read_folder(path):
    """A network from the file network.toml or its folder; or one node, from the folder of its plan.toml.

    The file has a [[node]] for each node, with `name` and, where it is not the name, `folder`; and a [[fibre]] for each
    fibre, with `from` and `to`, each { node = NAME, line = N }.
    """
    file = path if os.path.isfile(path) else os.path.join(path, 'network.toml')
    if not os.path.exists(file) and os.path.exists(os.path.join(path, 'plan.toml')):
        name = os.path.basename(os.path.abspath(path))
        return Network({name: read_plan(os.path.join(path, 'plan.toml'))}, [], {name: path}, path)
    top = os.path.dirname(file)
    try:
        with open(file, 'rb') as opened:
            table = tomllib.load(opened)
        folders = {node['name']: os.path.join(top, node.get('folder', node['name'])) for node in table['node']}
        ends = [(f['from']['node'], f['from']['line'], f['to']['node'], f['to']['line']) for f in table.get('fibre', [])]
    except OSError as fault:
        sys.exit(f'{file}: {fault.strerror}')
    except (tomllib.TOMLDecodeError, UnicodeDecodeError, KeyError, TypeError, AttributeError):
        sys.exit(f'{file}: no network, see docs/NETWORKS.md')
    for a, _, b, _ in ends:
        for name in (a, b):
            if name not in folders:
                sys.exit(f'{file}: a fibre has an end at {name}, which is no node')
    return Network({name: read_plan(os.path.join(it, 'plan.toml')) for name, it in folders.items()}, ends, folders, file)


def read_words(plans, fibres):
    """A network from words: NAME=plan.toml, or a path whose folder is the name; A:0=B:0 for a fibre."""
    out, folders, files = {}, {}, {}
    for word in plans:
        name, _, path = word.rpartition('=')
        folder = os.path.dirname(os.path.abspath(path))
        name = name or os.path.basename(folder)
        folders[name], files[name], out[name] = folder, os.path.abspath(path), read_plan(path)
    ends = []
    for word in fibres:
        found = re.fullmatch(r'(.+):(\d)=(.+):(\d)', word)
        if not found or found[1] not in out or found[3] not in out:
            sys.exit(f'{word}: no fibre between two of the nodes, as A:0=B:0')
        ends.append((found[1], int(found[2]), found[3], int(found[4])))
    net = Network(out, ends, folders)
    net.files = files
    return net
