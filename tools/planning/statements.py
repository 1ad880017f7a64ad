"""What stands in the text of a network, a statement a line, with a sentence for each line that is wrong.

>>> asked = parsed(['turns 20', 'ring a b c  # a remark', 'wide c d', '', 'demand x a d flex-2 9 via b slots 3,4'])
>>> asked.turns, asked.sites, asked.joins
(20, ['a', 'b', 'c', 'd'], [('a', 'b', False), ('b', 'c', False), ('c', 'a', False), ('c', 'd', True)])
>>> asked.demands
[Demand(line=5, name='x', a='a', b='d', kind='flex-2', count=9, via=['b'], slots=[3, 4])]
>>> print(*parsed(['turns 0', 'ring a b', 'chain a b a', 'chain a b', 'demand x a c odu1 9', 'road a b',
...               'demand y a b odu0 1 slots 9', 'demand z a b odu0 1 over b']).wrong, sep='\\n')
1: turns 0: a plan has 1 to 16384 turns
2: a ring has three sites or more
3: a stands there twice
6: road is no statement; statements are turns, ring, chain, wide, demand
5: there is no site c; sites are a, b
5: the kind odu1 is neither odu0 nor flex and how many slots, 1 to 32, as flex-3
7: y: slots 9 are not 1 of 1 to 8, rising
8: over b: after the packets may stand via SITE,SITE and slots K,K

`python3 -m planning.statements`, in the folder tools/, tries these examples.
"""
import dataclasses
import re
import sys

from . import demands
from .nodes import MOST_TURNS, OTU2, OTU3

SITE = re.compile('[a-z0-9-]{1,32}')
STATEMENTS = 'turns, ring, chain, wide, demand'


@dataclasses.dataclass
class Demand:
    """What a customer asks for. `via` and `slots` are by hand, else empty."""

    line: int
    name: str
    a: str
    b: str
    kind: str
    count: int
    via: list = dataclasses.field(default_factory=list)
    slots: list = dataclasses.field(default_factory=list)


@dataclasses.dataclass
class Asked:
    """The text of a network: pairs of sites with a fibre each way, whether it is wide, and demands."""

    turns: int = 64
    sites: list = dataclasses.field(default_factory=list)
    joins: list = dataclasses.field(default_factory=list)
    demands: list = dataclasses.field(default_factory=list)
    wrong: list = dataclasses.field(default_factory=list)

    def take(self, number, words):
        """A statement but a demand."""
        what, *rest = words
        if what == 'turns':
            return self.take_turns(number, rest)
        if what not in ('ring', 'chain', 'wide'):
            return self.wrong.append(f'{number}: {what} is no statement; statements are {STATEMENTS}')
        least, many = {'ring': (3, 'three'), 'chain': (2, 'two'), 'wide': (2, 'two')}[what]
        odd = [site for site in rest if not SITE.fullmatch(site)]
        twice = [site for at, site in enumerate(rest) if site in rest[:at]]
        if odd:
            self.wrong.append(f'{number}: the site {odd[0]} is not 1 to 32 of a to z, 0 to 9 and -')
        elif twice:
            self.wrong.append(f'{number}: {twice[0]} stands there twice')
        elif len(rest) < least or what == 'wide' and len(rest) > 2:
            self.wrong.append(f'{number}: a {what} has {many} sites{"" if what == "wide" else " or more"}'
                              .replace('a wide has', 'wide has'))
        else:
            self.sites += [site for site in rest if site not in self.sites]
            pairs = [*zip(rest, rest[1:])] + [(rest[-1], rest[0])] * (what == 'ring')
            self.joins += [(a, b, what == 'wide') for a, b in pairs]

    def take_turns(self, number, rest):
        if len(rest) != 1 or not rest[0].isascii() or not rest[0].isdigit() or not 1 <= int(rest[0]) <= MOST_TURNS:
            self.wrong.append(f'{number}: turns {" ".join(rest)}: a plan has 1 to {MOST_TURNS} turns')
        else:
            self.turns = int(rest[0])

    def take_demand(self, number, words, names):
        """A demand: five words, and by hand via and slots with one word each."""
        five, more = words[:5], words[5:]
        faults = list(demands.faults_of(five, self.sites, names))
        by_hand = dict(zip(more[::2], more[1::2]))
        if len(more) % 2 or not set(by_hand) <= {'via', 'slots'}:
            faults.append(f'{" ".join(more)}: after the packets may stand via SITE,SITE and slots K,K')
        via = by_hand.get('via', '').split(',') if 'via' in by_hand else []
        faults += [f'there is no site {site}; sites are {", ".join(self.sites)}' for site in via if site not in self.sites]
        if faults:
            self.wrong += [f'{number}: {fault}' for fault in faults]
            return
        slots = by_hand.get('slots', '')
        found = [int(k) for k in slots.split(',')] if re.fullmatch(r'\d{1,2}(,\d{1,2})*', slots) else []
        many, most = demands.slots_of(five[3]), OTU3 if any(wide for *_, wide in self.joins) else OTU2
        if slots and (len(found) != many or found != sorted(set(found)) or not 1 <= found[0] <= found[-1] <= most):
            self.wrong.append(f'{number}: {five[0]}: slots {slots} are not {many} of 1 to {most}, rising')
            return
        names.add(five[0])
        self.demands.append(Demand(number, *five[:4], int(five[4]), via, found))


def parsed(lines):
    """The statements of these lines. Demands are read last, when all sites are known."""
    asked, later = Asked(), []
    for number, line in enumerate(lines, 1):
        words = line.partition('#')[0].split()
        if words[:1] == ['demand']:
            later.append((number, words[1:]))
        elif words:
            asked.take(number, words)
    names = set()
    for number, words in later:
        asked.take_demand(number, words, names)
    return asked


def read(path):
    """The statements of a file. Ends where a line is wrong."""
    try:
        with open(path, errors='surrogateescape') as file:
            asked = parsed(file)
    except OSError as fault:
        sys.exit(f'{path}: {fault.strerror}')
    if not asked.sites and not asked.wrong:
        asked.wrong.append('1: there is no site: no ring, chain or wide')
    if asked.wrong:
        sys.exit('\n'.join(f'{path}:{it}' for it in asked.wrong))
    return asked


if __name__ == '__main__':
    import doctest
    sys.exit(doctest.testmod()[0] > 0)
