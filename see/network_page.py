"""The page of a network: its sites as a map, each fibre by slots, each customer's way, and what does not meet."""
from networks import end_words
from page import page
from site_map import places, site_of

STYLES = ['base.css', 'network.css']
SCRIPTS = ['base.js', 'network_model.js', 'map.js', 'fibres.js', 'ways.js', 'chosen.js', 'network.js']
BACK = '-back'


def base_of(name):
    """The name of a customer for both ways: that of its way back has -back behind."""
    return name[:-len(BACK)] if name.endswith(BACK) else name


def slot_row(net, fibre, k):
    """Who has a slot of a fibre: what is put on it, and what is taken from it that nobody puts."""
    a, m, b, n = fibre
    puts = [(x, 'put') for x in net.all if x.node == a and x.to.get('line') == m and k in x.to['slots']]
    takes = [(y, 'taken') for y in net.all if y.node == b and y.source.get('line') == n and k in y.source['slots']
             and y.former is None]
    return [{'customer': x.chain, 'name': x.name, 'how': how, 'start': x.start, 'stop': x.stop, 'whole': x.whole,
             'meets': how == 'put' and x.next is not None} for x, how in puts + takes]


def clashes(net, fibre, rows):
    """Slots that two connections have in one turn: `otn check` refuses such a plan."""
    out = []
    for k, row in enumerate(rows, 1):
        puts = [e for e in row if e['how'] == 'put']
        for i, e in enumerate(puts):
            out += [f'slot {k} has both {e["name"]} and {f["name"]} in one turn' for f in puts[i + 1:]
                    if e['start'] <= f['stop'] and f['start'] <= e['stop']]
    return out


def fibre_of(net, fibre):
    a, m, b, n = fibre
    slots = net.slots(a, 'out', m)
    rows = [slot_row(net, fibre, k) for k in range(1, slots + 1)]
    return {'a': a, 'out': m, 'b': b, 'in': n, 'slots': slots, 'rows': rows,
            'scrambled': net.is_scrambled(a, m),
            'trouble': net.fibre_trouble(a, m, b, n) + clashes(net, fibre, rows)}


def customer_of(net, chain):
    ends = {(a, m): i for i, (a, m, _, _) in enumerate(net.fibres)}
    hops = [{'node': x.node, 'name': x.name, 'from': end_words(x.source), 'to': end_words(x.to), 'start': x.start,
             'stop': x.stop, 'whole': x.whole, 'trouble': x.trouble, 'slots': x.to.get('slots', []),
             'fibre': ends.get((x.node, x.to.get('line')), -1)} for x in chain]
    return {'name': chain[0].name, 'base': base_of(chain[0].name), 'kind': chain[0].kind, 'delay': net.delay(chain),
            'names': list(dict.fromkeys(x.name for x in chain)), 'hops': hops}


def about(net, fixed):
    sites = list(dict.fromkeys(site_of(n) for n in net.plans))
    joins = {(site_of(a), site_of(b)) for a, _, b, _ in net.fibres if site_of(a) != site_of(b)}
    place = places(sites, sorted(joins), fixed)
    return {
        'sites': [{'name': s, 'x': round(place[s][0], 4), 'y': round(place[s][1], 4),
                   'nodes': [n for n in net.plans if site_of(n) == s]} for s in sites],
        'fibres': [fibre_of(net, f) for f in net.fibres],
        'customers': [customer_of(net, chain) for chain in net.chains],
        'sources': net.sources}


def network_page(net, fixed):
    return page('A network - otn', 'network.html', STYLES, SCRIPTS, about(net, fixed))
