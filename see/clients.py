"""What clients send in the bytes that a sink emits: client frames, their status and trace, and the GFP frames."""
import re
from functools import lru_cache

from frames import FAS, crc16, crc32, sapi_of

ODU = 15296
STAT = {1: 'normal', 5: 'LCK', 6: 'OCI', 7: 'AIS'}
IDLES = re.compile(rb'(?:\xb6\xab\x31\xe0)*')         # GFP idle frames: a header of length 0, as it is on the line


class Gfp:
    """GFP frames out of the payload of client frames."""

    def __init__(self):
        self.state, self.text, self.six, self.skip = 'hunt', b'', bytes(6), 0
        self.idle = 0

    @staticmethod
    def header(four, near):
        x = int.from_bytes(four, 'big') ^ 0xB6AB31E0
        right = lambda v: crc16((v >> 16).to_bytes(2, 'big')) == v & 0xFFFF
        if right(x):
            return x >> 16
        if near:
            for b in range(32):
                if right(x ^ 1 << b):
                    return (x ^ 1 << b) >> 16
        return None

    def take(self, data):
        """The frames that end: (packet or None, length of the area)."""
        out, t, i = [], self.text + data, 0
        while True:
            if self.state == 'hunt':
                while len(t) - i >= 4 and self.header(t[i:i + 4], False) is None:
                    i += 1
                if len(t) - i < 4:
                    break
                pli = self.header(t[i:i + 4], False)
                self.state, self.skip = 'presync', pli if pli >= 4 else 0
                i += 4
            if len(t) - i < self.skip:
                break
            if self.skip and self.state == 'sync':
                got = t[i:i + self.skip]
                x = int.from_bytes(self.six + got, 'big')
                area = (x ^ x >> 43).to_bytes(len(got) + 6, 'big')[6:]
                self.six = (self.six + got)[-6:]
                out.append((self.packet(area), len(area)))
            i, self.skip = i + self.skip, 0
            if len(t) - i < 4:
                break
            if self.state == 'sync':
                j = IDLES.match(t, i).end()
                self.idle, i = self.idle + (j - i) // 4, j
                if len(t) - i < 4:
                    break
            pli = self.header(t[i:i + 4], self.state == 'sync')
            if pli is None:
                self.state, i = 'hunt', i + 1
            else:
                self.state, self.skip, i = 'sync', pli if pli >= 4 else 0, i + 4
                self.idle += pli == 0
        self.text = t[i:]
        return out

    @staticmethod
    def packet(area):
        pti, pfi, exi = area[0] >> 5, area[0] >> 4 & 1, area[0] & 15
        if pti or exi or area[1] != 1 or crc16(area[:2]) != int.from_bytes(area[2:4], 'big'):
            return None
        rest = area[4:]
        if pfi:
            if len(rest) < 5 or crc32(rest[:-4]) != int.from_bytes(rest[-4:], 'big'):
                return None
            rest = rest[:-4]
        return rest or None


class Client:
    """Client frames out of the bytes that a sink emits."""

    def __init__(self):
        self.text, self.framed, self.misses, self.gfp = b'', False, 0, Gfp()
        self.fresh = True
        self.sapi, self.letters = '', {}
        self.recent, self.shown = [], ''

    def take(self, data):
        """STAT of each whole frame that ends, the GFP frames as `Gfp.take` has them, breaks by lost alignment."""
        stats, packets, breaks, t, i = [], [], 0, self.text + data, 0
        while True:
            if not self.framed:
                f = t.find(FAS, i)
                if f < 0:
                    i = max(i, len(t) - 5)
                    break
                i, self.framed, self.misses, self.fresh = f, True, 0, True
            if len(t) - i < 6:
                break
            if self.fresh:
                self.fresh = False
                self.misses = 0 if t[i:i + 6] == FAS else self.misses + 1
                if self.misses == 5:
                    self.framed, i, breaks, self.gfp = False, i + 6, breaks + 1, Gfp()
                    self.recent, self.shown = [], ''
                    continue
            if len(t) - i < ODU:
                break
            stat, frames = self.frame(t[i:i + ODU])
            i, self.fresh = i + ODU, True
            stats.append(stat)
            packets += frames
        self.text = t[i:]
        return stats, packets, breaks

    def frame(self, f):
        """STAT of one whole client frame, and the GFP frames that end in it."""
        stat = f[2 * 3824 + 11] & 7
        # three frames in a row, each with its FAS, that say the same
        self.recent = (self.recent + [stat if self.misses == 0 else None])[-3:]
        if len(set(self.recent)) == 1 and len(self.recent) == 3 and stat in STAT and self.misses == 0:
            self.shown = STAT[stat]
        if stat >= 5:
            self.gfp = Gfp()
            return stat, []
        self.letters[f[6] % 64] = f[2 * 3824 + 9]
        if f[6] % 64 == 15:
            self.sapi = sapi_of(self.letters) or self.sapi
        return stat, self.gfp.take(b''.join(f[3824 * r + 16:3824 * (r + 1)] for r in range(4)))


@lru_cache(maxsize=None)
def ais_frame(f):
    return FAS + bytes([f]) + bytes(7) + b'\xff' * (3824 + 13 - 14) + b'\0' + b'\xff' * (ODU - 3824 - 14)


def ais(begin, size):
    out, place = bytearray(), begin % (256 * ODU)
    while len(out) < size:
        f, x = divmod(place, ODU)
        part = ais_frame(f)[x:x + size - len(out)]
        out += part
        place = (place + len(part)) % (256 * ODU)
    return bytes(out)
