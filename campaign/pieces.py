"""A campaign as a folder: campaign.json, and chunks/ with a CSV file for each piece of work that is done.

A piece is the rows of some cases in a row. Its file is there whole or not at all, so any engine may do the pieces, on
any machines that see the folder, in any order, once or more often.
"""
import csv
import functools
import hashlib
import io
import json
import os
import pathlib
import socket
import threading

import otn_damage
import otn_lines

import draw
import judge
import kinds
import spec as specs
import viewed
import world as worlds


class Wrong(Exception):
    """What is wrong with a campaign, or with this machine for it."""


def made(folder, path, changes):
    """A new campaign in the folder, by the spec of this path."""
    folder = pathlib.Path(folder)
    if (folder / 'campaign.json').exists():
        raise Wrong(f'{folder} is a campaign already')
    try:
        spec = specs.read(path, changes)
        world = worlds.World(spec)
        for number in range(min(len(world.levels), spec['cases'])):
            kinds.damaged(world, number)
    except (OSError, ValueError, KeyError, TypeError) as why:
        raise Wrong(f'{path}: {why}') from why
    (folder / 'chunks').mkdir(parents=True, exist_ok=True)
    told = {'spec': spec, 'world': world.digest, 'code': code()}
    (folder / 'campaign.json').write_text(json.dumps(told, indent=1) + '\n')
    return Campaign(folder, world)


class Campaign:
    def __init__(self, folder, world=None):
        self.folder = pathlib.Path(folder)
        path = self.folder / 'campaign.json'
        if not path.exists():
            raise Wrong(f'{folder} is no campaign: otn-campaign new {folder} SPEC')
        self.told = json.loads(path.read_text())
        self.spec = self.told['spec']
        self.cases, self.chunk = self.spec['cases'], self.spec['chunk']
        self.pieces = -(-self.cases // self.chunk)
        self._world = world

    def path(self, k):
        return self.folder / 'chunks' / f'{k:07}.csv'

    def missing(self):
        """The numbers of the pieces that are not done."""
        done = set(os.listdir(self.folder / 'chunks'))
        return [k for k in range(self.pieces) if self.path(k).name not in done]

    def world(self):
        """The world of the spec, made here. It has to be the one that `new` made, whichever machine and library this is."""
        if self._world is None:
            self._world = world_of(self.told)
        return self._world

    def numbers(self, k):
        """The cases of a piece."""
        return range(k * self.chunk, min((k + 1) * self.chunk, self.cases))

    def text(self, k):
        """The file of a piece: a row for each case below the names of the columns."""
        return text_of(self.world(), self.numbers(k))

    def write(self, k, text):
        """Puts the file of a piece there, whole or not at all."""
        part = self.folder / 'chunks' / f'.{k:07}.{socket.gethostname()}.{os.getpid()}.{threading.get_ident()}'
        with open(part, 'w') as file:
            file.write(text)
            file.flush()
            os.fsync(file.fileno())
        os.replace(part, self.path(k))

    def do(self, k):
        """Does a piece, where it is not done."""
        if not 0 <= k < self.pieces:
            raise Wrong(f'there are pieces 0 to {self.pieces - 1}, and not {k}')
        if not self.path(k).exists():
            self.write(k, self.text(k))


def code():
    """A digest of the code on which a row hangs."""
    parts = [pathlib.Path(it.__file__).read_bytes() for it in (draw, judge, kinds, viewed, worlds, otn_damage, otn_lines)]
    return hashlib.sha256(b'\0'.join(parts)).hexdigest()


def world_of(told):
    """The world of what campaign.json tells, refused where this machine makes another one."""
    if told['code'] != code():
        raise Wrong(f'{socket.gethostname()} has another version of otn-campaign than the machine on which the campaign was made')
    world = worlds.World(told['spec'])
    if world.digest != told['world']:
        raise Wrong(f'{socket.gethostname()} makes another undamaged line of this spec, or another answer to it, than the '
                    'machine on which the campaign was made')
    return world


@functools.lru_cache(maxsize=1)
def kept(text):
    """The world of a campaign.json as text, kept for the next piece."""
    return world_of(json.loads(text))


def text_of(world, numbers):
    """The rows of these cases, below the names of the columns."""
    text = io.StringIO()
    out = csv.writer(text, lineterminator='\n')
    out.writerow(judge.columns(world))
    out.writerows(judge.case(world, number) for number in numbers)
    return text.getvalue()
