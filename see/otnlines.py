"""What a line file carries, turn by turn: a reader of docs/FORMATS.md that is not proved. Pictures, maps and pages have
from it what otn_view does not tell (viewtext.py), and all numbers where otn_view is not built.

The rules are those of docs/FORMATS.md: alignment of a line, justification, a sink's turns, client frame, GFP.
Frames and bytes are counted from 0, turns, slots, ports, rows and columns from 1.

    line = otnlines.Line.read('line-0.out')
    line.turns[t - 1]        a Turn: alignment, counts, MSI bytes, messages
    line.tributaries         a list of Tributary, each with a list `turns` of Heard
    line.heads[64 * f:][:64] the overhead of frame f: columns 1 to 16 of row 1, of row 2, of row 3, of row 4
    line.parity[f]           the BIP-8 of frame f, as it is computed

Packets are handed over as they come: `Line.read(.., seen=call)` calls call(tributary, turn, packet, size) for each
GFP frame of a client, its packet or None where its checks are wrong, and the bytes of its area.
"""
import argparse
import signal

import viewtext
from clients import Client, ais
from frames import FAS, FRAME, HEAD, P, Frames, at, bip8, crc5, crc8, data_groups, hear, in_head, mask, sapi_of
from networks import read_plan

PSI, SM, PM = in_head(4, 15), in_head(1, 9), in_head(3, 11)
MESSAGE = [in_head(r, c) for c in (16, 15) for r in (1, 2, 3)]
# how a turn is aligned, in the words of docs/ALARMS.md
ALIGNED = {'ok': 'whole', 'lost': 'lost multiframe', 'hunt': 'no multiframe', 'end': 'end'}
SHORT = {'ok': 'whole', 'lost': 'lost', 'hunt': 'none', 'end': 'end'}


class Heard:
    """One turn of a tributary."""

    def __init__(self, turn):
        self.turn = turn
        self.state = 'waiting'        # waiting, up, down: of the sink, after the turn
        self.c = self.d = None        # Cm and CnD while up
        self.message = None           # heard, damaged, base lost; None without a multiframe
        self.how = None               # outright, =, +1, ..
        self.why = None               # why it went down
        self.marked = []              # slots whose last two MSI bytes were wrong
        self.size = 0                 # bytes emitted
        self.stats = []               # STAT of the client frames that ended
        self.packets = 0              # client packets delivered
        self.packet_bytes = 0
        self.bad = 0                  # GFP frames that fail their checks
        self.breaks = 0
        self.client = ''              # '', normal, LCK, OCI, AIS: said by three client frames in a row


class Tributary:
    """A port on some slots of a line, from turn `start` to turn `stop`, both included, with its sink. `seen` is called
    for each GFP frame."""

    def __init__(self, port, slots, start=1, stop=None, name=''):
        self.seen = None
        self.port, self.slots, self.m = port, tuple(slots), len(slots)
        self.start, self.stop, self.name = start, stop, name
        self.turns = []
        self.client = Client()
        self.sapi = ''
        self.came = {k: (False, False) for k in slots}
        self.up = self.began = False
        self.age = self.down = self.damaged = 0

    def take(self, turn, s):
        """The next turn of the line, which has s slots."""
        h = Heard(turn.number)
        self.turns.append(h)
        self.age += 1
        c = d = None
        if turn.frames is not None:
            self.see_msi(turn, h)
            h.message, c, d, h.how = hear(self.c if self.up else None, turn.messages[self.slots[-1] - 1], self.m)
        if not self.up:
            out = self.wait(h, c, d)
        else:
            self.damaged = self.damaged + 1 if h.message == 'damaged' else 0
            h.why = self.why_ended(h)
            if h.why:
                out, self.up, h.state, self.down = bytes(self.ext), False, 'down', 0
            else:
                out, h.state = self.extract(turn, s), 'up'
                if h.message == 'heard':
                    self.c, self.d = c, d
        if self.up:
            h.c, h.d = self.c, self.d
        self.hand_over(h, out)

    def see_msi(self, turn, h):
        for n, psi in enumerate(turn.psi):
            k = (turn.first + n) % 256 - 1
            if k in self.came:
                self.came[k] = self.came[k][1], psi != 127 + self.port
        h.marked = [k for k, two in self.came.items() if two == (True, True)]

    def wait(self, h, c, d):
        """A turn of a sink that was not up."""
        if h.message == 'heard' and not h.marked and h.how in ('outright', '='):
            self.up = self.began = True
            self.c, self.d, self.ext, self.x, self.e, self.due = c, d, bytearray(), 0, 0, None
            self.damaged = self.down = 0
            h.state = 'up'
        elif not self.began and self.age < 3:
            h.state = 'waiting'
        else:
            h.state = 'down'
            if self.began or self.age > 3:
                size = 15168 * self.m
                self.down += 1
                return ais((self.down - 1) * size, size)
        return b''

    def why_ended(self, h):
        """Why the stretch ends in this turn, or None."""
        if h.message is None:
            return 'no multiframe'
        if h.marked:
            return f'MSI of slot {h.marked[0]} wrong twice'
        if self.damaged == 3:
            return '3 messages damaged'
        return 'base lost' if h.message == 'base lost' else None

    def extract(self, turn, s):
        """A turn of a stretch, but for its first and its last: what it emits."""
        payload = turn.payload
        if self.m == s:
            groups = payload
        else:
            groups = bytearray(P * self.m)
            for x, k in enumerate(self.slots):
                groups[x::self.m] = payload[k - 1::s]
        self.ext += data_groups(bytes(groups), self.c, self.m)
        before, self.x = self.x, self.x + self.m * self.c
        due = 0 if self.due is None else before + self.due
        e = max(self.e, min(self.x, due))
        out = bytes(self.ext[:e - self.e])
        del self.ext[:e - self.e]
        self.e, self.due = e, self.d
        return out

    def hand_over(self, h, out):
        """What the client makes of the bytes that the sink emits."""
        h.size = len(out)
        h.stats, packets, h.breaks = self.client.take(out)
        for p, n in packets:
            if self.seen:
                self.seen(self, h.turn, p, n)
            if p is None:
                h.bad += 1
            else:
                h.packets += 1
                h.packet_bytes += len(p)
        if h.state != 'up':
            self.client.recent, self.client.shown = [], ''
        h.client = self.client.shown
        self.sapi = self.client.sapi or self.sapi


# --------------------------------------------------------------- a line

class Turn:
    """One turn of the line."""

    def __init__(self, number):
        self.number = number
        self.alignment = 'ok'         # ok, lost, hunt; end: the line ended in it, the last one
        self.first = None             # expected MFAS of the first frame
        self.frames = None            # which frames are its multiframe
        self.used = range(0)          # frames used in the turn, lead-in among them
        self.lead = 0
        self.fas = self.mfas = self.sm = self.pm = 0
        self.msi = {}                 # slot: MSI byte that came in this turn
        self.psi = b''                # the PSI byte of each frame of its multiframe
        self.messages = []            # JC1 to JC6 of each
        self.c = {}                   # slot: (message, Cm, CnD, how) as each slot's own listener hears it
        self.payload = None           # of its multiframe, in the order of the line, while sinks take it


class Line:
    """A line file: its form, its turns, its tributaries."""

    @classmethod
    def read(cls, path, s=None, scrambled=None, tributaries=None, seen=None):
        """Form and tributaries as given; what is None is taken from the bytes."""
        line = cls()
        line.path, line.file = path, Frames(path)
        line.count, line.rest = line.file.count, line.file.rest
        line.guess(line.file.data, s, scrambled)
        line.file.unmask(line.scrambled)
        line.heads, line.parity = line.file.heads()
        line.align(line.file.mfas())
        line.overhead()
        line.follow(tributaries, seen)
        return line

    def head(self, f):
        """The 64 overhead bytes of a frame."""
        return self.heads[HEAD * f:HEAD * (f + 1)]

    def guess(self, data, s, scrambled):
        """The form, and the MSI bytes that the slots first have, by the first 320 frames. Scrambled where more MFAS
        bytes go on as masked ones do; OTU3 where most PSI bytes for slots above 8 are MSI bytes."""
        places = [FRAME * i for i in range(min(self.count, 320))]
        mfas, psi = ([data[x + y] for x in places] for y in (6, at(4, 15)))
        up = sum((a + 1) % 256 == b for a, b in zip(mfas, mfas[1:]))
        down = sum((a - 1) % 256 == b for a, b in zip(mfas, mfas[1:]))
        self.scrambled = down > up if scrambled is None else scrambled
        if self.scrambled:
            x = mask() >> 8 * (FRAME - 1 - at(4, 15)) & 255
            mfas, psi = [a ^ 255 for a in mfas], [a ^ x for a in psi]
        wide, self.first = 0, {}
        for i, (a, b) in enumerate(zip(mfas, psi)):
            # whether its MFAS goes on from the one before, or to the next one: else it may be damaged
            near = [mfas[j] for j in (i - 1, i + 1) if 0 <= j < len(mfas) and mfas[j] == (a + j - i) % 256]
            if near and 2 <= a <= 33:
                wide += (1 if b >= 0x80 else -1) if a >= 10 else 0
                if b >= 0x80:
                    self.first.setdefault(a - 1, b)
        self.s = s or (32 if wide > 0 else 8)
        self.kind = 'OTU3' if self.s == 32 else 'OTU2'

    def align(self, mf):
        """Turns by the rules of "Alignment of a line", from the MFAS byte of each frame."""
        s, self.turns = self.s, []
        i, e = 0, None
        while True:
            turn = Turn(len(self.turns) + 1)
            n = 0
            if e is None:
                while n < s and not (i + n + 1 < len(mf) and mf[i + n] % s == 0 and mf[i + n + 1] == mf[i + n] + 1):
                    n += 1
                if n == s or i + n + 1 >= len(mf):
                    if i + s > len(mf):
                        turn.alignment, turn.used, turn.lead = 'end', range(i, len(mf)), len(mf) - i
                        self.turns.append(turn)
                        break
                    turn.alignment, turn.used, turn.lead = 'hunt', range(i, i + s), s
                    self.turns.append(turn)
                    i += s
                    continue
                e = mf[i + n]
            turn.lead, first = n, i + n
            turn.first = e
            turn.used = range(i, min(first + s, len(mf)))
            turn.mfas = sum(mf[f] != (e + f - first) % 256 for f in range(first, turn.used.stop))
            if first + s > len(mf):
                turn.alignment = 'end'
                self.turns.append(turn)
                break
            i = first + s
            if turn.mfas > s // 2:
                turn.alignment, e = 'lost', None
            else:
                turn.frames = range(first, i)
                e = (e + s) % 256
            self.turns.append(turn)

    def overhead(self):
        """FAS, parity, section trace, MSI bytes and messages of each turn."""
        letters, numbers = {}, {}
        self.sapi = ''
        for turn in self.turns:
            for f in turn.used:
                x = self.head(f)
                turn.fas += x[:6] != FAS
                if f >= 2:
                    turn.sm += x[SM] != self.parity[f - 2]
                    turn.pm += x[PM] != self.parity[f - 2]
                letters[x[6] % 64] = x[in_head(1, 8)]
            self.sapi = self.sapi or sapi_of(letters)
            if turn.frames is not None:
                self.multiframe(turn, numbers)

    def multiframe(self, turn, numbers):
        """MSI bytes and messages of a whole turn; `numbers` has Cm of each slot."""
        heads = [self.head(f) for f in turn.frames]
        turn.psi = bytes(x[PSI] for x in heads)
        for n, x in enumerate(heads):
            k = (turn.first + n) % 256 - 1
            if 1 <= k <= self.s:
                turn.msi[k] = x[PSI]
            six = bytes(x[i] for i in MESSAGE)
            turn.messages.append(six)
            message, c, d, how = hear(numbers.get(n + 1), six, 1 << 10)
            if c is not None:
                numbers[n + 1] = c
            elif message == 'base lost':
                numbers.pop(n + 1, None)
            turn.c[n + 1] = (message, c, d, how)

    def msi_of(self):
        """Per turn the MSI byte of each slot: the last that came, before the first one what `guess` saw, or None."""
        out, now = [], {}
        for turn in self.turns:
            now.update(turn.msi)
            out.append([now.get(k, self.first.get(k)) for k in range(1, self.s + 1)])
        return out

    def tributaries_by_msi(self):
        """The tributaries that the MSI bytes tell, each in its turns."""
        found, open_ = [], {}
        for turn, msi in zip(self.turns, self.msi_of()):
            ports = {}
            for k, b in enumerate(msi, 1):
                if b is not None and 0x80 <= b < 0xC0:
                    ports.setdefault(b - 127, []).append(k)
            for key in [x for x in open_ if ports.get(x[0]) != list(x[1])]:
                open_.pop(key).stop = turn.number - 1
            for port, slots in sorted(ports.items()):
                key = (port, tuple(slots))
                if key not in open_:
                    open_[key] = Tributary(port, slots, turn.number)
                    found.append(open_[key])
        return found

    def follow(self, tributaries, seen):
        """The tributaries, as given or as the MSI bytes say, each through its turns."""
        self.tributaries = self.tributaries_by_msi() if tributaries is None else tributaries
        begin = {}
        for t in self.tributaries:
            t.stop, t.seen = min(t.stop or len(self.turns), len(self.turns)), seen
            begin.setdefault(t.start, []).append(t)
        active = []
        for turn in self.turns:
            active = [t for t in active + begin.get(turn.number, []) if turn.number <= t.stop]
            if active and turn.frames is not None:
                turn.payload = b''.join(map(self.file.payload, turn.frames))
            for t in active:
                t.take(turn, self.s)
            turn.payload = None


def from_plan(path, side, number):
    """The tributaries that a plan has on its line: side 'in' or 'out'."""
    plan = read_plan(path)
    out = []
    for c in plan.get('connection', []):
        end = c['from' if side == 'in' else 'to']
        if end.get('line') == number:
            out.append(Tributary(end['port'], end['slots'], c.get('start', 1), c.get('stop', plan['turns']), c['name']))
    s = 32 if number in plan.get(f'otu3-{side}', []) else 8
    return s, number in plan.get(f'scrambled-{side}', []), out


def require_fas(path):
    """Ends where no frame of the first 32, nor what comes before the first is whole, begins with the FAS."""
    with open(path, 'rb') as file:
        data = file.read(32 * FRAME)
    if data and not any(data.startswith(FAS, x) for x in range(0, len(data), FRAME)):
        raise SystemExit(f'{path}: no FAS in its first frames: it is no line file, or does not begin at a frame')


def from_words(words, *switches, seen=None):
    """The line that the words of a command name, and which of the switches stand in them."""
    signal.signal(signal.SIGPIPE, signal.SIG_DFL)     # as where `head` has seen enough
    a = argparse.ArgumentParser(usage=words.split('\n')[2].strip(), description=words.split('\n')[0])
    a.add_argument('line')
    a.add_argument('--plan')
    a.add_argument('--in', dest='side_in', type=int)
    a.add_argument('--out', dest='side_out', type=int)
    for name in switches:
        a.add_argument(f'--{name}', action='store_true')
    a = a.parse_args()
    given, plan = (None, None, None), ()
    if a.plan:
        side, number = ('out', a.side_out or 0) if a.side_in is None else ('in', a.side_in)
        given = from_plan(a.plan, side, number)
        with open(a.plan) as file:
            plan = file.read(), side, number
    try:
        require_fas(a.line)
        line = Line.read(a.line, *given, seen)
    except OSError as fault:
        raise SystemExit(f'{a.line}: {fault.strerror}')
    viewtext.lay_over(line, *plan)
    return line, [getattr(a, name) for name in switches]
