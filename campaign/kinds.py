"""How a case damages the line: by the words of otn-damage, which hang on the seed and the number of the case alone.

In the words of a spec stand, in braces, what differs from case to case:

    {level}      the level of the case
    {slot}       a slot of the line
    {customer}   a tributary's name
    {frame}      a frame, from the fifth turn to the middle of the line
    {last}       the last of as many frames as the level says, from {frame} on
"""
from dataclasses import dataclass

import numpy as np
import otn_damage

from draw import DAMAGE, Draw

FIRST_TURN = 4                               # turns before {frame}: all tributaries are up by then


@dataclass
class Damaged:
    data: bytes                              # the line, a little longer than what node B takes
    moved: bool                              # whether bytes have other places than before
    differ: np.ndarray                       # the places that have other bytes; of a line that moved none
    last: int                                # the last byte that was touched; -1 where none was


def words_of(world, damage, level, draw):
    """The words of a case."""
    said, values = damage['words'], {'level': level}
    if '{slot}' in said:
        values['slot'] = 1 + draw.one(world.slots)
    if '{customer}' in said:
        values['customer'] = world.names[draw.one(len(world.names))]
    if '{frame}' in said:
        count = int(level) if '{last}' in said else 1
        first = FIRST_TURN * world.slots
        room = world.frames // 2 - first - count
        if room < 1:
            raise ValueError(f'{damage["name"]}: {world.turns} turns have no room for {count} frames')
        values['frame'] = first + draw.one(room)
        values['last'] = values['frame'] + count - 1
    try:
        return said.format(**values)
    except (KeyError, IndexError, ValueError) as why:
        raise ValueError(f'{damage["name"]}: no such thing in braces: {why}') from why


def damaged(world, number):
    """The line of a case."""
    damage, level = world.levels[number % len(world.levels)]
    draw = Draw(world.seed, DAMAGE, number)
    words, seed = words_of(world, damage, level, draw), int(draw.words(1)[0])
    done = otn_damage.damage(world.given, words, seed=seed, plan=world.plan, of='in 0')
    if any(it.moves for it in done.changes):
        last = max(it.byte for it in done.changes)
        return Damaged(done.line, True, np.zeros(0, dtype=np.int64), min(last, len(world.line) - 1))
    line = np.frombuffer(done.line, dtype=np.uint8, count=len(world.line))
    differ = np.flatnonzero(line != world.line)
    return Damaged(done.line, False, differ, int(differ[-1]) if len(differ) else -1)
