"""What checks/network_text does with the JSON of `otn_network`: whether it tells what the text tells.

    python3 checks/network_json.py [N]     the networks of networks/, and N random ones of network_random, 200

The JSON is written as text again, and this has to be the text of `otn_network`, byte for byte. What the text does not
say is held against the plans: names and turns of nodes, and what each entry carries, in which turns. A network that is
refused has no JSON, and the same complaint. Then `see/otn-network` has to show the same: its answer, and its CSV, slot
by slot.
"""
import csv
import importlib.machinery
import importlib.util
import io
import json
import os
import pathlib
import random
import subprocess
import sys
import tempfile
import tomllib

sys.dont_write_bytecode = True
import common                                                              # noqa: E402

PROGRAM = common.program('otn_network')
SHOWN = common.TOP / 'see' / 'otn-network'


def random_networks():
    """The module network_random, whose name has no ending."""
    loader = importlib.machinery.SourceFileLoader('network_random', str(common.TOP / 'checks' / 'network_random'))
    module = importlib.util.module_from_spec(importlib.util.spec_from_loader('network_random', loader))
    loader.exec_module(module)
    return module


# ---- the JSON as text

def numbers(it):
    return ','.join(map(str, it)) or '-'


def end_text(end):
    if 'client' in end:
        return f'client {end["client"]}'
    if 'signal' in end:
        return f'signal {end["signal"]}'
    return f'line {end["line"]} port {end["port"]} slots {numbers(end["slots"])}'


def edge_text(end):
    """An end of a way: a line is its edge."""
    return f'{end["node"]} ' + ('edge' if 'line' in end else end_text(end))


def fibre_text(number, f):
    ends = ' '.join(f'{f[end]["node"]} {f[end]["line"]}' for end in ('from', 'to'))
    mask = 'scrambled' if f['scrambled'] else 'plain'
    return f'fibre {number} {ends} {f["kind"]} {mask} used {f["used"]} free {numbers(f["free"])}'


def way_text(number, way):
    turns = '-' if way['turns'] is None else way['turns']
    step = 'in-step' if way['in_step'] else 'out-of-step'
    yield f'way {number} {edge_text(way["begin"])} {edge_text(way["end"])} kind {way["kind"]} nodes {way["nodes"]} ' \
          f'later {way["later"]} turns {turns} {step}'
    for at, leg in enumerate(way['legs'], 1):
        yield f'leg {number} {at} {leg["node"]} {leg["connection"]} {end_text(leg["from"])} {end_text(leg["to"])}'


def text_of(told):
    yield f'network nodes {len(told["nodes"])} fibres {len(told["fibres"])} connections {told["connections"]}'
    for number, f in enumerate(told['fibres'], 1):
        yield fibre_text(number, f)
    for number, way in enumerate(told['ways'], 1):
        yield from way_text(number, way)
    for it in told['troubles']:
        words = [it['trouble'], it['leg']['node'], it['leg']['connection'], it.get('why')]
        yield ' '.join(word for word in words if word)
    yield f'status {told["status"]}'


# ---- what the text does not say, by the plans

def plans_of(folder):
    """The plan of each node of a network's file, by its name."""
    table = tomllib.loads((folder / 'network.toml').read_text())
    return {node['name']: tomllib.loads((folder / node.get('folder', node['name']) / 'plan.toml').read_text())
            for node in table['node']}


def slots_of(plan, side, line):
    return 32 if line in plan.get(f'otu3-{side}', []) else 8


def leg_wrong(plans, leg):
    """What a leg says that its plan does not."""
    plan = plans[leg['node']]
    table = next(x for x in plan['connection'] if x['name'] == leg['connection'])
    want = {'kind': table['kind'], 'start': table.get('start', 1), 'stop': table.get('stop', plan['turns'])}
    for side, key in (('in', 'from'), ('out', 'to')):
        want[key] = dict(table[key])
        if 'line' in table[key]:
            want[key]['kind'] = 'otu3' if slots_of(plan, side, table[key]['line']) == 32 else 'otu2'
    return [f'{key}: {leg[key]}' for key in want if leg[key] != want[key]]


def beside(told, plans):
    """What is wrong of what the text does not say."""
    nodes = [{'connections': [x['name'] for x in plan.get('connection', [])], 'name': name, 'turns': plan['turns']}
             for name, plan in plans.items()]
    if told['nodes'] != nodes:
        yield f'nodes: {told["nodes"]}'
    for f in told['fibres']:
        if f['slots'] != slots_of(plans[f['from']['node']], 'out', f['from']['line']):
            yield f'slots: {f}'
    legs = [leg for way in told['ways'] for leg in way['legs']]
    for leg in legs + [it['leg'] for it in told['troubles']]:
        yield from leg_wrong(plans, leg)
    legs += [it['leg'] for it in told['troubles'] if it['trouble'] == 'round']
    found = {(leg['node'], leg['connection']) for leg in legs}
    if found != {(node['name'], name) for node in nodes for name in node['connections']}:
        yield f'connections on ways or round: {sorted(found)}'


# ---- what see/otn-network shows

def shown_wrong(path, told):
    """What the script shows that was not told: its answer, and the slots of each fibre as CSV."""
    env = {**os.environ, 'OTN_NETWORK': str(PROGRAM)}
    done = subprocess.run([SHOWN, path, '--csv'], capture_output=True, text=True, env=env)
    if done.stderr or done.returncode != (told['status'] == 'unmet'):
        yield f'see/otn-network: {done.returncode} {done.stderr}'
        return
    got = {number: set() for number in range(1, len(told['fibres']) + 1)}
    for row in csv.DictReader(io.StringIO(done.stdout)):
        got[int(row['fibre'])].add((int(row['slot']), row['customer'], row['way'].split(' ')[0]))
    for number, f in enumerate(told['fibres'], 1):
        want = {(k, '', '') for k in f['free']}
        legs = [(str(w), leg) for w, way in enumerate(told['ways'], 1) for leg in way['legs']]
        legs += [('', it['leg']) for it in told['troubles'] if it['trouble'] == 'round']
        seen = set()
        for way, leg in legs:
            key = leg['node'], leg['connection']
            if leg['node'] == f['from']['node'] and leg['to'].get('line') == f['from']['line'] and key not in seen:
                want |= {(k, leg['connection'], way) for k in leg['to']['slots']}
            seen.add(key)
        if got[number] != want or len({k for k, *_ in want}) != f['slots']:
            yield f'fibre {number} as CSV: {sorted(got[number] ^ want)}'


def wrong_of(folder):
    """What is wrong of the JSON of the network in a folder."""
    path = folder / 'network.toml'
    text, done = (subprocess.run([PROGRAM, *words, path], capture_output=True, text=True) for words in ((), ('--json',)))
    if (done.returncode, done.stderr) != (text.returncode, text.stderr):
        return [f'{done} beside {text}']
    if text.returncode > 1:
        return [f'{done}'] if done.stdout else []
    told = json.loads(done.stdout)
    again = ''.join(line + '\n' for line in text_of(told))
    wrong = [] if again == text.stdout else [f'{again} beside {text.stdout}']
    if done.stdout != json.dumps(told, separators=(',', ':'), sort_keys=True) + '\n':
        wrong.append('it is not one line with its members in order')
    return wrong + list(beside(told, plans_of(folder))) + list(shown_wrong(path, told))


def main():
    count = int(sys.argv[1]) if len(sys.argv) > 1 else 200
    found = {network.name: wrong_of(network) for network in sorted((common.TOP / 'checks/networks').iterdir())}
    if not common.path_of('otn').exists():           # network_random can't do without it
        common.left_out('random networks as JSON', 'otn')
        count = 0
    drawing = random_networks() if count else None
    for number in range(count):
        draw = random.Random(f'json {number}')
        drawn = drawing.Drawn(draw)
        network = drawn.network()
        if number % 2:
            for _ in range(draw.randint(1, 3)):
                drawing.spoil(draw, drawn, network)
        with tempfile.TemporaryDirectory() as room:
            folder = pathlib.Path(room)
            drawing.write(folder, drawn, network)
            found[f'network {number}'] = wrong_of(folder)
    for name, wrong in found.items():
        for it in wrong[:1]:
            print(f'{name}: {it[:2000]}')
    failed = sum(map(bool, found.values()))
    print(f'{len(found) - failed} networks as JSON, {failed} wrong')
    sys.exit(failed > 0)


if __name__ == '__main__':
    main()
