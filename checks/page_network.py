"""What checks/pages does with pages of networks: that of examples/network, one that does not meet, a hostile one."""
import csv
import io
import pathlib
import re
import subprocess
import tomllib

import page_lines
import page_use
from page_use import beside, click, press, says, search, text

HERE = pathlib.Path(__file__).resolve().parent
SEE, EXAMPLE = HERE.parent / 'see', HERE.parent / 'examples/network'


def plans_and_fibres(folder):
    """The plans of the example as words, and its fibres."""
    subprocess.run([EXAMPLE / 'make-plans', EXAMPLE / 'demands.txt', 'net'], cwd=folder, check=True)
    rules = (folder / 'net/network.mk').read_text()
    nodes, fibres = (re.search(f'^{key} := (.*)$', rules, re.M)[1].split() for key in ('NODES', 'FIBRES'))
    return [f'{n}=net/{n}/plan.toml' for n in nodes], fibres


def shown(folder, name, words, *more):
    path = folder / f'{name}.html'
    with open(path, 'wb') as file:
        status = subprocess.run([SEE / 'otn-network', *words, '--page', *more], cwd=folder, stdout=file).returncode
    return path, status


def network(tell, folder, window):
    plans, fibres = plans_and_fibres(folder)
    path, status = shown(folder, 'network', plans + fibres)
    tell('a network that meets: the answer', status == 0)
    page = window.open(path)
    page.wait('Boolean(window.otn)')
    page_use.pictures('network', page)
    tables(tell, folder, plans, fibres, page)
    use(tell, page)
    map_of(tell, folder, window, plans + fibres, page)
    tell('the page of a network: nothing on the console', not page.faults and not page.dialogs)
    page.close()
    unmet(tell, folder, window, plans + fibres)
    hostile(tell, folder, window)


def tables(tell, folder, plans, fibres, page):
    """Each slot by the plans themselves, on the screen and as CSV."""
    plan = {word.split('=')[0]: tomllib.loads((folder / word.split('=')[1]).read_text()) for word in plans}
    want = {}
    for fibre in (f for f in fibres if f != '--fibre'):
        a, m, b, n = re.split('[:=]', fibre)
        slots = 32 if int(m) in plan[a].get('otu3-out', []) else 8
        row = {k: '' for k in range(1, slots + 1)}
        for c in plan[a]['connection']:
            if c['to'].get('line') == int(m):
                row.update({k: c['name'] for k in c['to']['slots']})
        want[a, m, b, n] = row
    rows = list(csv.DictReader(io.StringIO(page.run('otn.fibresCsv()'))))
    got = {}
    for r in rows:
        got.setdefault((r['from node'], r['line out'], r['to node'], r['line in']), {})[int(r['slot'])] = r['customer']
    tell(f'{len(want)} fibres as CSV', got == want)
    done = subprocess.run([SEE / 'otn-network', *plans, *fibres, '--csv'], cwd=folder, capture_output=True, text=True)
    got = {}
    for r in csv.DictReader(io.StringIO(done.stdout)):
        got.setdefault((r['from node'], r['line out'], r['to node'], r['line in']), {})[int(r['slot'])] = r['customer']
    tell(f'{len(want)} fibres as CSV with no browser', got == want and not done.stderr)
    tell('whose the facts are', says(page, '#sources', 'otn_network, proved: ways, turns, slots'))
    cells = page.run('''[...document.querySelectorAll("#fibres [data-place]")]
        .map(b => [...b.dataset.place.split('.').map(Number), b.textContent])''')
    rows = list(want.values())
    tell(f'{len(cells)} slots on the screen', all(name == (rows[x][k] or 'free') for x, k, name in cells))
    loads = page.run('[...document.querySelectorAll("#map .load")].map(t => t.textContent)')
    tell('the loads in the map', loads == [f'{sum(map(bool, row.values()))}/{len(row)}' for row in want.values()])
    ways = list(csv.DictReader(io.StringIO(page.run('otn.customersCsv()'))))
    sent = [c['name'] for p in plan.values() for c in p['connection'] if 'client' in c['from']]
    tell(f'{len(ways)} customers as CSV', sorted(w['customer'] for w in ways) == sorted(sent))
    count = page.run('document.querySelectorAll("#customers tbody tr").length')
    tell('customers on the screen', count == len(sent))


def use(tell, page):
    click(page, '#fibres [data-place="4.1"]')
    name = text(page, '#fibres [data-place="4.1"]')
    words = text(page, '#chosen')
    tell('a click on a slot', text(page, '#chosen h2').endswith('slot 1') and name in words and 'and no slot' in words)
    click(page, '#customers tbody tr:nth-child(1)')
    base = page.run('otn.chosen.base')
    tell('a click on a customer', text(page, '#chosen h2') == base)
    lit = page.run('document.querySelectorAll("#map .fibre.mine").length')
    own = page.run(f'otn.net.fibres.filter(f => otn.slotsOn(f, {base!r}).length).length')
    tell('its fibres in the map', lit == own > 0)
    press(page, 'Escape')
    tell('key Escape', page.run('otn.chosen.kind') is None)
    page.run('document.querySelector("#map .hit").focus()')
    press(page, 'Enter')
    kind = page.run('otn.chosen.kind')
    tell('a fibre in the map by keys', kind == 'fibre' and says(page, '#chosen', 'of 8 slots taken'))
    page.run('document.querySelector(\'[data-place="0.1"]\').focus()')
    press(page, 'ArrowRight')
    press(page, 'ArrowDown')
    tell('from slot to slot by keys', page.run('document.activeElement.dataset.place') == '1.2')
    said = search(page, 'campus')
    tell('search: a customer', said == '1 of 2: customer campus' and page.run('otn.chosen.base') == 'campus')
    said = search(page, 'w4-west')
    tell('search: a node', said == '1 of 1: site w4' and says(page, '#chosen', 'Nodes: w4-east, w4-west'))
    tell('search: nothing', search(page, 'nobody').startswith('nothing has'))
    for width in (1280, 900):
        page.size(width, 900)
        tell(f'network, {width} columns: nothing beside the page', not beside(page))
    page.size(1280, 900)


def map_of(tell, folder, window, words, page):
    """A ring is a ring: its sites are as far from its middle. A site stands where --at says."""
    places = page.run('Object.fromEntries(otn.net.sites.map(s => [s.name, [s.x, s.y]]))')
    for ring in 'wce':
        own = [places[ring + k] for k in '1234']
        middle = [sum(p[i] for p in own) / 4 for i in (0, 1)]
        far = [((p[0] - middle[0]) ** 2 + (p[1] - middle[1]) ** 2) ** .5 for p in own]
        tell(f'the ring {ring}', max(far) < 1.25 * min(far))
    path, _ = shown(folder, 'placed', words, '--at', 'w1=0,0', '--at', 'w2=300,-50.5')
    other = window.open(path)
    other.wait('Boolean(window.otn)')
    placed = other.run('otn.net.sites.filter(s => s.name === "w1" || s.name === "w2").map(s => [s.x, s.y])')
    tell('places by hand', placed == [[0, 0], [3, -.505]])
    other.close()
    refused = subprocess.run([SEE / 'otn-network', *words, '--page', '--at', 'w9=1,2'], cwd=folder,
                             capture_output=True, text=True)
    complaint = 'w9=1,2: no place of a site, as c1=100,200\n'
    tell('a place of no site', (refused.returncode, refused.stderr) == (1, complaint))


def unmet(tell, folder, window, words):
    """One node has a customer on another slot than the next one."""
    plan = folder / 'net/w2-east/plan.toml'
    was = plan.read_text()
    plan.write_text(was.replace('port = 1, slots = [1] }', 'port = 8, slots = [8] }', 1))
    path, status = shown(folder, 'unmet', words)
    plan.write_text(was)
    page = window.open(path, address='#kind=customer&base=bank')
    page.wait('Boolean(window.otn)')
    page_use.pictures('unmet', page)
    tell('a network that does not meet: the answer', status == 1)
    reasons = 'no connection of w3-east takes it', 'w2-east never puts port 1'
    tell('what does not meet, with the reason', says(page, '#trouble', *reasons))
    tell('the slots that do not meet', page.run('document.querySelectorAll("#fibres .unmet").length') == 2)
    tell('the customer that does not meet', 'no connection of w3-east takes it' in text(page, '#chosen'))
    tell('unmet: nothing on the console', not page.faults and not page.dialogs)
    page.close()


def hostile(tell, folder, window):
    """Names of nodes and customers that a browser would run, or a table program take as a formula."""
    customers = [page_lines.connection(name, f'{{ client = {k} }}', page_lines.place(k + 1, k + 1))
                 for k, name in enumerate((page_lines.EVIL, page_lines.END, '=1+1', '"><b id=evil>'))]
    (folder / 'hostile.toml').write_text('turns = 4\n' + ''.join(customers))
    node = '<img src=x onerror=hacked()>'
    path, _ = shown(folder, 'hostile', [f'{node}=hostile.toml', 'b-east=hostile.toml', '--fibre', f'{node}:0=b-east:0'])
    page = window.open(path)
    page.wait('Boolean(window.otn)')
    page.run('otn.choose({kind: "customer", base: otn.net.customers[0].base}); otn.choose({kind: "fibre", fibre: 0})')
    page_use.harmless(tell, 'hostile network', page)
    tell('hostile network: names as text', says(page, 'body', page_lines.EVIL, page_lines.END, node))
    tell('a formula in CSV', ",'=1+1," in page.run('otn.fibresCsv()'))
    tell('hostile network: nothing on the console', not page.faults and not page.dialogs)
    page.close()
