"""A case: damage, a run of node B over the damaged line, and what came of each customer. A row of numbers."""
import zlib

import numpy as np

import otn

import kinds
import viewed
from draw import Draw, NOISE
from world import EVERYBODY, FRAME, LATE

OF_LINE = ['number', 'damage', 'level', 'moved', 'wrong_bits', 'wrong_bytes', 'frames', 'lead_in', 'lost', 'fas', 'sm', 'pm']
OF_EACH = ['touched', 'sent', 'came', 'changed', 'doubled', 'late', 'down', 'gap', 'heal', 'state']
OF_ALL = ['isolation_of', 'isolation_broken', 'alone', 'alone_broken', 'check']
PERIOD = 300_007                             # bytes of noise, which come again and again


def columns(world):
    """The names of the columns of a row. docs/CAMPAIGNS.md says what each is."""
    return OF_LINE + [f'{name}.{it}' for name in world.names for it in OF_EACH] + OF_ALL


def case(world, number, keep=None):
    """The row of a case. `keep`, a function, is handed the damaged line as bytes."""
    damage, level = world.levels[number % len(world.levels)]
    damaged = kinds.damaged(world, number)
    if keep:
        keep(damaged.data)
    report, texts, records = answer(world, damaged)
    it = records.line_in[0]
    moved = damaged.moved or it.lost > 0 or it.lead_in > 0
    flipped = np.frombuffer(damaged.data, np.uint8)[damaged.differ] ^ world.line[damaged.differ]
    row = [number, damage['name'], level, int(damaged.moved), int(np.count_nonzero(np.unpackbits(flipped))),
           len(damaged.differ), it.frames, it.lead_in, it.lost, it.fas, it.sm, it.pm]
    touched, down = owners_touched(world, damaged, moved), down_turns(world, damaged)
    last_turn = 1 + damaged.last // world.turn_bytes
    for n, name in enumerate(world.names):
        row += [int(n in touched), len(world.arrivals[n]), *came_of(world, n, texts[n], last_turn, down[n]),
                records.connections[name]]
    spared = [n for n in range(len(world.names)) if n not in touched]
    row += [len(spared), sum(texts[n] != world.texts[n] for n in spared)]
    row += alone(world, damaged, moved, number, texts) if damaged.last >= 0 else ['', 0]
    return row + [f'{check_of(world, report, texts):08x}']


def answer(world, damaged):
    """Node B's report, what each customer got, and the report as records."""
    result = otn.run(world.plan, lines={0: damaged.data})
    if result.status not in (otn.Status.DONE, otn.Status.UNFINISHED):
        raise RuntimeError(f'node B ended with {result.complaint}')
    return result.report, {n: result.texts.get(n, b'') for n in range(len(world.names))}, result.records


def owners_touched(world, damaged, moved):
    """The customers whose own places the damage touched; all, where it touched an MFAS byte or where frames moved."""
    owners = world.owners_of(damaged.differ)
    return set(range(len(world.names))) if moved or EVERYBODY in owners else {it - 1 for it in owners if it}


def down_turns(world, damaged):
    """By customer: turns in which its sink was down; '' where the spec does not ask."""
    if not world.spec['view']:
        return [''] * len(world.names)
    return viewed.down_turns(world.plan, damaged.data, world.names) if damaged.last >= 0 else world.down


def came_of(world, n, text, last_turn, down):
    """Of customer n: how many of the packets that an undamaged line brings came, how many came changed, once more, and
    behind a later one; turns down; the longest gap in turns; and turns until it healed.

    The gap is the time between the packets that came before and behind the longest row of missing ones. It healed when
    the first packet came behind the last missing one, counted from the turn in which the last damaged byte would have
    come out; '' where nothing was missing, '-' where nothing came any more.
    """
    arrivals = world.arrivals[n]
    if text == world.texts[n]:
        return [len(arrivals), 0, 0, 0, down, 0, '']
    index = world.index[n]
    found = [index.get(it, -1) for it in text.split(b'\n')[:-1]]
    known = np.array([it for it in found if it >= 0], dtype=np.int64)
    first = known[np.sort(np.unique(known, return_index=True)[1])]
    late = int(np.count_nonzero(first < np.maximum.accumulate(first))) if len(first) else 0
    came = np.zeros(len(arrivals), dtype=bool)
    came[first[first < len(arrivals)]] = True          # (a line that moved may bring packets that come too late else)
    return [int(np.count_nonzero(came)), len(found) - len(known), len(known) - len(first), late, down,
            *gap_and_heal(came, arrivals, world.turns, last_turn)]


def gap_and_heal(came, arrivals, turns, last_turn):
    at = np.flatnonzero(np.concatenate(([True], came, [True])))        # as if one came before all and behind all
    times = np.concatenate(([arrivals[0]], arrivals, [turns]))
    holes = np.flatnonzero(np.diff(at) > 1)
    if not len(holes):
        return [0, '']
    gap = int(max(times[at[k + 1]] - times[at[k]] for k in holes))
    behind = at[holes[-1] + 1]
    return [gap, '-' if behind == len(arrivals) + 1 else int(max(0, times[behind] - (last_turn + LATE)))]


def alone(world, damaged, moved, number, texts):
    """A customer, drawn, on a line on which all other places have noise, by a plan of its own: whether it gets other bytes."""
    draw = Draw(world.seed, NOISE, number)
    n = draw.one(len(world.names))
    line = np.frombuffer(damaged.data[:len(damaged.data) // FRAME * FRAME], np.uint8).copy()
    noise = np.resize(np.frombuffer(draw.bytes(PERIOD), np.uint8), line.size)
    np.copyto(line, noise, where=world.all_but(n, moved, line.size).reshape(-1))
    second = otn.run(world.plans[n], lines={0: line.tobytes()})
    return [world.names[n], int(second.texts.get(n, b'') != texts[n])]


def check_of(world, report, texts):
    """A sum of all that node B answered."""
    sums = [world.sums[n] if text == world.texts[n] else zlib.crc32(text) for n, text in texts.items()]
    return zlib.crc32(report + b''.join(it.to_bytes(4, 'big') for it in sums))
