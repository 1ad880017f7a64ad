"""The spec of a campaign: TOML, as campaign/example.toml. What it does not say is filled in, and what is wrong is told."""
import tomllib

NUMBERS = {'seed': (0, 1 << 64), 'cases': (1, 1 << 40), 'chunk': (1, 1 << 20), 'turns': (12, 16_000)}
TOP = {'line': 'otu2', 'view': True}
TRIBUTARY = {'name': None, 'kind': None, 'slots': None, 'fcs': True}
DAMAGE = {'name': None, 'words': None, 'levels': None, 'plot': '', 'title': '', 'axis': ''}


def _filled(what, table, keys):
    """The table with all keys; None stands for a key that has to be there."""
    if unknown := sorted(table.keys() - keys.keys()):
        raise ValueError(f'{what}: no key {unknown[0]!r}; there are {", ".join(keys)}')
    if missing := [key for key, it in keys.items() if it is None and key not in table]:
        raise ValueError(f'{what}: {missing[0]} is missing')
    return {**keys, **table}


def checked(spec):
    """The spec with all that it leaves out; ValueError where it is none."""
    keys = {**dict.fromkeys(NUMBERS), **TOP, 'tributary': None, 'damage': None}
    spec = _filled('the top of the spec', spec, keys)
    for key, (least, most) in NUMBERS.items():
        if type(spec[key]) is not int or not least <= spec[key] < most:
            raise ValueError(f'{key} is a number from {least} to {most - 1}')
    if spec['line'] not in ('otu2', 'otu3'):
        raise ValueError('line is otu2 or otu3')
    spec['tributary'] = [_filled('a tributary', it, TRIBUTARY) for it in spec['tributary']]
    spec['damage'] = [_filled('a damage', it, DAMAGE) for it in spec['damage']]
    for what in ('tributary', 'damage'):
        names = [it['name'] for it in spec[what]]
        if not names or len(set(names)) < len(names):
            raise ValueError(f'a spec has one {what} or more, of different names')
    for it in spec['damage']:
        if not it['levels'] or it['plot'] not in ('', 'loss', 'heal'):
            raise ValueError(f'{it["name"]}: it has levels, and plot is loss, heal or nothing')
    return spec


def read(path, changes=()):
    """The spec in a file, with some of its numbers replaced: KEY=VALUE."""
    with open(path, 'rb') as file:
        spec = tomllib.load(file)
    for it in changes:
        key, _, value = it.partition('=')
        if key not in NUMBERS or not value.isdigit():
            raise ValueError(f'{it}: KEY=NUMBER, KEY being one of {", ".join(NUMBERS)}')
        spec[key] = int(value)
    return checked(spec)
