"""The page of a line: what otnlines.py and otn_view tell of it, as numbers in columns that the page unpacks."""
import json
import os
from array import array
import sys

from drawing import ALIGN, RANK, SIGNAL, colour, look_of, slots_text
from events import events
from page import page

STATES = ['waiting', 'up', 'down']
CLIENTS = ['', 'normal', 'AIS', 'LCK', 'OCI']
MESSAGES = [None, 'heard', 'damaged', 'base lost']
HOWS = [None, 'outright', '=', '+1', '-1', '+2', '-2']
MOST_EVENTS = 20000

STYLES = ['base.css', 'line.css']
SCRIPTS = ['base.js', 'unpack.js', 'model.js', 'message.js', 'state.js', 'lanes.js', 'slots.js', 'pointer.js',
           'turn.js', 'frame.js', 'tabs.js', 'decode.js', 'packets.js', 'events.js', 'gmp.js', 'groups.js',
           'customers.js', 'turns.js', 'find.js', 'head.js', 'keys.js', 'line.js']


def column(kind, values):
    """Numbers as bytes, the least significant first."""
    out = array(kind, values)
    if sys.byteorder == 'big':
        out.byteswap()
    return out.tobytes()


def turn_parts(line):
    """Of each turn a row of nine; of each slot its MSI byte, with 256 more where it came in this turn."""
    order, rows, msi = list(ALIGN), [], []
    for t, before in zip(line.turns, line.msi_of()):
        first = -1 if t.first is None else t.first
        rows += [order.index(t.alignment), t.used.start, len(t.used), t.lead, t.fas, t.mfas, t.sm, t.pm, first]
        msi += [-1 if b is None else b + 256 * (k in t.msi) for k, b in enumerate(before, 1)]
    return {'turns': column('i', rows), 'msi': column('h', msi)}


def heard_parts(line):
    """Of each tributary and turn: codes, Cm, CnD, bytes emitted, packets, their bytes, refused GFP frames, and why a
    sink went down, as a place in the list that is answered too."""
    all_ = [h for t in line.tributaries for h in t.turns]
    whys = [None, *dict.fromkeys(h.why for h in all_ if h.why)]
    place = {why: i for i, why in enumerate(whys)}
    return {
        'code': column('H', (STATES.index(h.state) | RANK.index(look_of(h)) << 2 | CLIENTS.index(h.client) << 5
                             | MESSAGES.index(h.message) << 8 | HOWS.index(h.how) << 10 for h in all_)),
        'cm': column('h', (-1 if h.c is None else h.c for h in all_)),
        'cnd': column('h', (-1 if h.d is None else h.d for h in all_)),
        'emitted': column('i', (h.size for h in all_)),
        'packets': column('H', (min(h.packets, 65535) for h in all_)),
        'packetBytes': column('i', (h.packet_bytes for h in all_)),
        'bad': column('H', (min(h.bad, 65535) for h in all_)),
        'why': column('H', (place[h.why] for h in all_))}, whys


def frame_parts(line):
    """The overhead of frames, one place of all frames after the other, which compresses best; and their parity."""
    return {'heads': b''.join(line.heads[i::64] for i in range(64)), 'parity': line.parity}


def packet_parts(line, kept):
    number = {id(t): i for i, t in enumerate(line.tributaries)}
    packets = sorted(kept.packets, key=lambda p: (p.turn, number[id(p.tributary)], p.place))
    return {
        'packetTurn': column('i', (p.turn for p in packets)),
        'packetOf': column('i', (number[id(p.tributary)] for p in packets)),
        'packetLength': column('i', (p.length for p in packets)),
        'packetKept': column('H', (len(p.head) for p in packets)),
        'packetCheck': bytes(p.check for p in packets),
        'packetHeads': b''.join(p.head for p in packets)}


def tributaries(line):
    return [{'port': t.port, 'slots': list(t.slots), 'slotsText': slots_text(t.slots), 'name': t.name, 'trace': t.sapi,
             'start': t.start, 'stop': t.stop, 'colour': colour(t.port), 'turns': len(t.turns)}
            for t in line.tributaries]


def line_page(line, kept):
    told = events(line)
    shown = [list(e) for e in told[:MOST_EVENTS]]
    heard, whys = heard_parts(line)
    parts = {**turn_parts(line), **heard, **frame_parts(line), **packet_parts(line, kept),
             'events': json.dumps(shown).encode()}
    most, many, distance = kept.rule
    about = {
        'file': os.path.basename(line.path), 'kind': line.kind, 'slots': line.s, 'scrambled': line.scrambled,
        'frames': line.count, 'rest': line.rest, 'trace': line.sapi, 'turns': len(line.turns), 'told': line.told,
        'planned': line.planned, 'complaint': line.complaint, 'tributaries': tributaries(line), 'whys': whys,
        'codes': {'align': list(ALIGN), 'states': STATES, 'looks': RANK, 'clients': CLIENTS, 'messages': MESSAGES,
                  'hows': HOWS},
        'colours': {'align': ALIGN, 'signal': SIGNAL}, 'events': len(told),
        'kept': {'all': kept.all, 'budget': kept.budget, 'bytes': most, 'packets': many, 'turns': distance}}
    return page('A line - otn', 'line.html', STYLES, SCRIPTS, about, parts)
