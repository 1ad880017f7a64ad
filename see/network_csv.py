"""The slots of each fibre as CSV: who has each, and on which way."""
import csv
import io

HEAD = ['fibre', 'from node', 'line out', 'to node', 'line in', 'slot', 'customer', 'way', 'nodes', 'from turn', 'to turn']


def safe(value):
    """A value that a table program would take as a formula gets a quotation mark in front."""
    text = str(value)
    return f"'{text}" if text[:1] in ('=', '+', '-', '@', '\t', '\r') else text


def ways_of(net, x):
    """The numbers of the ways of a connection, as otn_network has them, and the nodes of the first."""
    chains = [i for i, chain in enumerate(net.chains) if x in chain]
    numbers = ' '.join(str(net.numbers[i]) for i in chains if net.numbers.get(i))
    return numbers, ' '.join(it.node for it in net.chains[chains[0]])


def slots_csv(net):
    """A row for each slot of each fibre, and one more for each further connection that has it in other turns."""
    rows = [HEAD]
    for number, (a, m, b, n) in enumerate(net.fibres, 1):
        puts = [x for x in net.all if x.node == a and x.to.get('line') == m]
        for k in range(1, net.slots(a, 'out', m) + 1):
            head = [number, a, m, b, n, k]
            own = [[x.name, *ways_of(net, x), x.start, x.stop] for x in puts if k in x.to['slots']]
            rows += [head + row for row in own or [[''] * 5]]
    out = io.StringIO()
    csv.writer(out, lineterminator='\r\n').writerows([safe(value) for value in row] for row in rows)
    return out.getvalue()
