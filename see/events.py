"""What happened on a line, in the order of turns, as maps and pages tell it."""
from typing import NamedTuple

from drawing import count

LETTERS = '123456789abcdefghijklmnopqrstuvw' + 32 * '#'                # of ports 1 to 64
COUNTS = (('fas', 'FAS'), ('mfas', 'MFAS'), ('sm', 'SM BIP-8'), ('pm', 'PM BIP-8'))


class Event(NamedTuple):
    turn: int
    who: str                          # line, a slot, a tributary
    what: str
    alarm: bool = True                # what one looks for; not that things are well again
    slot: int = 0                     # where there is one, from 1
    tributary: int = -1               # its index
    told: str = ''                    # what of it otn_view tells


def letter(byte):
    """The port that an MSI byte says, as a letter."""
    if byte is None:
        return '?'
    if byte == 0xC0:
        return '.'
    return LETTERS[byte - 0x80] if 0x80 <= byte < 0xC0 else '#'


def line_events(line):
    def event(what, told=None, alarm=True):
        return Event(turn.number, 'line', what, alarm, told=what if told is None else told)
    for turn in line.turns:
        if turn.alignment == 'hunt':
            yield event(f'no multiframe in {count(len(turn.used), "frame")}')
        elif turn.alignment == 'lost':
            yield event(f'lost multiframe, MFAS wrong in {turn.mfas}', 'lost multiframe')
        elif turn.alignment == 'end' and turn.used:
            yield event(f'ends after {len(turn.used) - turn.lead} of {line.s} frames')
        elif turn.mfas:
            yield event(f'MFAS wrong in {turn.mfas}', '')
        if turn.lead and turn.alignment not in ('hunt', 'end'):
            yield event(f'passed over {turn.lead} frames', alarm=False)
        for key, name in COUNTS:
            if key != 'mfas' and getattr(turn, key):
                yield event(f'{name} wrong in {getattr(turn, key)}')


def slot_events(line):
    msi = {}
    for turn in line.turns:
        for k, b in sorted(turn.msi.items()):
            if k in msi and msi[k] != b:
                what = f'MSI {letter(msi[k])} becomes {letter(b)}'
                yield Event(turn.number, f'slot {k}', what, slot=k, told=what)
            msi[k] = b


def tributary_events(line, number):
    """Of the tributary of this index."""
    t = line.tributaries[number]
    who, state, client = t.name or f'port {t.port}', 'waiting', ''

    def event(what, alarm=True, told=''):
        return Event(h.turn, who, what, alarm, t.slots[-1], number, told)
    for h in t.turns:
        if line.turns[h.turn - 1].alignment == 'end':
            break
        if h.message == 'damaged' and h.state == 'up':
            yield event('message damaged')
        if h.state != state:
            numbers = f', Cm {h.c} CnD {h.d}' if h.c is not None else ''
            why = f': {h.why}' if h.why else ''
            yield event(h.state + why + numbers, h.state == 'down', h.state + numbers)
        if h.client != client and h.client:
            yield event(f'client {h.client}', h.client != 'normal')
        if h.bad:
            yield event(f'{count(h.bad, "GFP frame")} bad')
        if h.breaks:
            yield event('client frames lost')
        state, client = h.state, h.client or client


def events(line):
    """All of a line, in the order of turns."""
    told = [*line_events(line), *slot_events(line)]
    for number in range(len(line.tributaries)):
        told += tributary_events(line, number)
    return sorted(told, key=lambda e: e.turn)
