"""Numbers that hang on (seed, stream, number) alone, the same on every machine."""
import functools

import numpy as np

DAMAGE, PACKETS, NOISE = 0, 1, 2             # streams of a campaign: of a case's damage, of packets, of noise beside a customer


class Draw:
    """Philox, a generator whose words are promised to stay as they are; all else is made of them by integers."""

    def __init__(self, seed, stream, number):
        self.bits = np.random.Philox(key=np.array([seed, stream << 56 | number], dtype=np.uint64))

    def words(self, count):
        return self.bits.random_raw(count)

    def below(self, most, count):
        """So many numbers below `most`, which is below 2^32."""
        return (self.words(count) >> np.uint64(32)) * np.uint64(most) >> np.uint64(32)

    def one(self, most):
        return int(self.below(most, 1)[0])

    def bytes(self, count):
        return self.words(-(-count // 8)).astype('<u8').tobytes()[:count]

    def poisson(self, mean):
        """How many happen where `mean` are expected; above 1,000 exactly so many."""
        return round(mean) if mean > 1000 else int(np.searchsorted(_steps(mean), self.words(1)[0], side='right'))


@functools.lru_cache(maxsize=None)
def _steps(mean):
    """2^64 times the chance of at most k, for k = 0, 1, ..: by integers of 2,048 bits, so that no rounding is a machine's."""
    one = 1 << 2048
    ratio = round(mean * (1 << 64))
    part, parts, total, k = one, [one], one, 0
    while k < mean or part > total >> 80:
        k += 1
        part = part * ratio // (k << 64)
        parts.append(part)
        total += part
    steps, sum_of = [], 0
    for part in parts:
        sum_of += part
        steps.append(min(sum_of * (1 << 64) // total, (1 << 64) - 1))
    return np.array(steps, dtype=np.uint64)
