"""The frames of a line file: their places, checks and mask, their overhead and payload, and the message of a slot.

Frames and bytes are counted from 0, rows and columns from 1. What is read of a scrambled line comes without its mask.
"""
import binascii
import mmap
from functools import lru_cache

FRAME, ROW, P = 16320, 4080, 15232
HEAD = 64                                             # bytes of columns 1 to 16 of the four rows
FAS = bytes.fromhex('f6f6f6282828')


def at(row, column):
    return ROW * (row - 1) + column - 1


def in_head(row, column):
    """The place of an overhead byte in the 64 of its frame."""
    return 16 * (row - 1) + column - 1


# --------------------------------------------------------------- checks

def long_division(value, bits, generator, degree):
    rest = value << degree
    for i in range(bits + degree - 1, degree - 1, -1):
        if rest >> i & 1:
            rest ^= generator << (i - degree)
    return rest


@lru_cache(maxsize=None)
def crc8(jc1, jc2):
    return long_division(jc1 << 8 | jc2, 16, 0x10D, 8)


@lru_cache(maxsize=None)
def crc5(d):
    return long_division(d, 10, 0x23, 5)


def crc16(two):
    return binascii.crc_hqx(two, 0)


REVERSED = bytes(int(f'{b:08b}'[::-1], 2) for b in range(256))


def crc32(data):
    return int.from_bytes(binascii.crc32(data.translate(REVERSED)).to_bytes(4, 'little').translate(REVERSED), 'big')


def bip8(frame):
    """The XOR of columns 15 to 3824 of the four rows."""
    x = 0
    for r in range(4):
        x ^= int.from_bytes(frame[ROW * r + 14:ROW * r + 3824], 'big')
    for span in (16384, 8192, 4096, 2048, 1024, 512, 256, 128, 64, 32, 16, 8):
        x = (x >> span) ^ (x & (1 << span) - 1)
    return x


@lru_cache(maxsize=None)
def mask():
    bits = [1] * 16
    for i in range(16, (FRAME - 6) * 8):
        bits.append(bits[i - 1] ^ bits[i - 3] ^ bits[i - 12] ^ bits[i - 16])
    return int(''.join(map(str, bits)), 2)


def sapi_of(letters):
    """The text of bytes 1 to 15 of a trace, where all came."""
    if any(i not in letters for i in range(1, 16)):
        return ''
    return ''.join(chr(letters[i]) for i in range(1, 16) if 32 <= letters[i] < 127)


# --------------------------------------------------------------- messages

PATTERNS = {(2, 0x2AAA): 1, (1, 0x1555): -1, (2, 0x1999): 2, (1, 0x2666): -2}


def hear(former, six, m):
    """('damaged' | 'base lost' | 'heard', Cm, CnD, how it was said)."""
    jc1, jc2, jc3, jc4, jc5, jc6 = six
    d = (jc4 & 31) << 5 | jc5 & 31
    if crc8(jc1, jc2) != jc3 or crc5(d) != jc6 & 31 or d >= m:
        return 'damaged', None, None, None
    bits, flags = jc1 << 6 | jc2 >> 2, jc2 & 3
    if flags in (0, 3):
        number, how = bits, 'outright' if flags else '='
    else:
        step = None if former is None else PATTERNS.get((flags, former ^ bits))
        if step is None:
            return 'base lost', None, None, None
        number, how = former + step, f'{step:+d}'
    if not 0 <= number <= P:
        return 'damaged', None, None, None
    return 'heard', number, d, how


def data_groups(groups, c, m):
    if c == P:
        return groups
    if c * 2 > P:
        out, last, n = [], 0, P - c
        for s in range(n):
            j = s * P // n                       # groups before the s-th stuff group
            out.append(groups[m * last:m * j])
            last = j + 1
        out.append(groups[m * last:])
        return b''.join(out)
    return b''.join(groups[m * (j - 1):m * j] for j in (-(-d * P // c) for d in range(1, c + 1)))


# --------------------------------------------------------------- a file

class Frames:
    """The frames of a line file. It is looked into where a frame is asked for, so that a long line takes no memory."""

    def __init__(self, path):
        with open(path, 'rb') as file:
            try:
                self.data = mmap.mmap(file.fileno(), 0, access=mmap.ACCESS_READ)
            except (OSError, ValueError):             # an empty file, or no file: a pipe
                self.data = file.read()
        self.count, self.rest = divmod(len(self.data), FRAME)
        self.scrambled = False

    def unmask(self, scrambled):
        """Says whether the line is scrambled."""
        self.scrambled = scrambled
        own = bytes(6) + mask().to_bytes(FRAME - 6, 'big') if scrambled else bytes(FRAME)
        self.head_mask = int.from_bytes(self.head_of(own), 'big')
        self.payload_mask = int.from_bytes(self.payload_of(own), 'big')
        self.parity_mask = bip8(own)

    @staticmethod
    def head_of(frame):
        return b''.join(frame[ROW * r:ROW * r + 16] for r in range(4))

    @staticmethod
    def payload_of(frame):
        return b''.join(frame[ROW * r + 16:ROW * r + 3824] for r in range(4))

    def mfas(self):
        """The MFAS byte of each frame."""
        return [b ^ 255 * self.scrambled for b in self.data[6:FRAME * self.count:FRAME]]

    def heads(self):
        """The overhead of each frame, 64 bytes, and the BIP-8 of each."""
        heads, parity = bytearray(), bytearray()
        for i in range(self.count):
            f = self.data[FRAME * i:FRAME * (i + 1)]
            heads += (int.from_bytes(self.head_of(f), 'big') ^ self.head_mask).to_bytes(HEAD, 'big')
            parity.append(bip8(f) ^ self.parity_mask)
        return bytes(heads), bytes(parity)

    def payload(self, i):
        """The payload bytes of a frame, in the order of the line."""
        x = self.payload_of(self.data[FRAME * i:FRAME * (i + 1)])
        return (int.from_bytes(x, 'big') ^ self.payload_mask).to_bytes(P, 'big') if self.scrambled else x
