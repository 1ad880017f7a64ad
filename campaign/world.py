"""The world of a campaign: its clients, the plans of two nodes, the undamaged line, and whose each byte of it is.

Node A puts each tributary of the spec on line 0, and node B takes it out again. All hangs on the spec and its seed
alone, so two machines make the same world, and `World.digest` says whether they did.
"""
import functools
import hashlib
import zlib

import numpy as np

import otn

import viewed
from draw import Draw, PACKETS

ROWS, ROW = 4, 4080
FRAME = ROWS * ROW
SLOTS = {'otu2': 8, 'otu3': 32}              # of a line, and frames of a multiframe
SLOT_BYTES = 15_232                          # of a slot in a turn
MORE = 6                                     # turns that node A sends more than node B takes
BEHIND = 4                                   # turns that the line goes on behind those: a hunt passes over frames
LATE = 2                                     # turns from a frame's to the one in which its bytes leave node B
NOBODY, EVERYBODY = 0, 255                   # owners of a byte that is no tributary's: not looked at, or MFAS
SIZES = (64, 64, 64, 64, 64, 64, 64, 576, 576, 576, 576, 1518)   # of packets, 7:4:1


def plan_text(spec, turns, tributaries, side):
    """The plan of node A (side 'in': clients to line) or B ('out'), of these (number, tributary) pairs."""
    text = [f'turns = {turns}']
    if spec['line'] == 'otu3':
        text = ['version = 2', *text, f'otu3-{"out" if side == "in" else "in"} = [0]']
    for client, it in tributaries:
        line = f'{{ line = 0, port = {it["slots"][0]}, slots = {it["slots"]} }}'
        ends = (f'{{ client = {client} }}', line) if side == 'in' else (line, f'{{ client = {client} }}')
        text += ['[[connection]]', f'name = "{it["name"]}"', f'kind = "{it["kind"]}"', f'from = {ends[0]}', f'to = {ends[1]}']
        if side == 'in' and not it['fcs']:
            text.append('fcs = false')
    return '\n'.join(text) + '\n'


class World:
    """What is the same in all cases of a campaign.

    `plan` is node B's, and `plans` those with one customer alone. `given` is the undamaged line that node B is handed,
    and `line` what it takes of it. `texts`, `report` and `down` are what node B answers to it. `arrivals` are, by
    customer, the turns in which the packets come.
    """

    def __init__(self, spec):
        self.spec, self.seed, self.turns = spec, spec['seed'], spec['turns']
        self.tributaries, self.slots = spec['tributary'], SLOTS[spec['line']]
        self.names = [it['name'] for it in self.tributaries]
        self.levels = [(it, level) for it in spec['damage'] for level in it['levels']]
        self.frames, self.turn_bytes = self.turns * self.slots, self.slots * FRAME
        pairs = list(enumerate(self.tributaries))
        self.plan = plan_text(spec, self.turns, pairs, 'out')
        self.plans = [plan_text(spec, self.turns, [it], 'out') for it in pairs]
        sent = {n: self.packets(n, it) for n, it in pairs}
        made = self.made(plan_text(spec, self.turns + MORE, pairs, 'in'), sent)
        self.given = made[:(self.turns + BEHIND) * self.turn_bytes]
        self.line = np.frombuffer(self.given, dtype=np.uint8, count=self.turns * self.turn_bytes)
        self.undamaged(sent)
        self.owner = self.owners()

    def packets(self, n, it):
        """So many packets as fill the tributary, no two alike: sizes by 7:4:1, a number first, then noise."""
        draw, found, left = Draw(self.seed, PACKETS, n), [], SLOT_BYTES * len(it['slots']) * (self.turns + MORE)
        while left > 0:
            size = SIZES[draw.one(len(SIZES))]
            found.append(len(found).to_bytes(4, 'big') + draw.bytes(size - 4))
            left -= size
        return found

    def made(self, plan, sent):
        result = otn.run(plan, clients=sent)
        if result.status not in (otn.Status.DONE, otn.Status.UNFINISHED):
            raise ValueError(f'the spec makes no plan: {result.complaint} {result.rule_name}')
        return result.lines[0]

    def undamaged(self, sent):
        """What node B answers to the undamaged line; each packet that comes is one that was sent, in order."""
        line, every = self.given, range(len(self.names))
        clean = otn.run(self.plan, lines={0: line})
        self.report, self.texts = clean.report, {n: clean.texts.get(n, b'') for n in every}
        self.down = viewed.down_turns(self.plan, line, self.names) if self.spec['view'] else []
        self.index = {}                      # by customer: which packet a line of text is
        for n in every:
            lines = otn.text(sent[n]).split(b'\n')[:-1]
            self.index[n] = {text: k for k, text in enumerate(lines)}
            front = lines[:self.texts[n].count(b'\n')]
            if not front or self.texts[n] != b'\n'.join(front) + b'\n':
                raise ValueError(f'{self.names[n]}: of an undamaged line other packets came than were sent')
        self.sums = {n: zlib.crc32(text) for n, text in self.texts.items()}
        self.arrivals = self.arrive(line)
        answers = [line, clean.report, *self.texts.values(), repr(self.down).encode()]
        self.digest = hashlib.sha256(b''.join(hashlib.sha256(it).digest() for it in answers)).hexdigest()

    def arrive(self, line):
        """In which turn each packet comes, by customer: by runs of 1, 2, .. turns over the undamaged line."""
        found = {n: np.zeros(text.count(b'\n'), dtype=np.int32) for n, text in self.texts.items()}
        for turns in range(self.turns, 0, -1):
            result = otn.run(self.plan.replace(f'turns = {self.turns}\n', f'turns = {turns}\n', 1), lines={0: line})
            for n in found:
                found[n][:result.texts.get(n, b'').count(b'\n')] = turns
        return found

    def owners(self):
        """Whose each byte of 256 frames is: 1 + the number of a customer, NOBODY, or EVERYBODY for MFAS bytes.

        A customer's own places are the payload columns of its slots, the justification bytes of its greatest slot,
        and the MSI bytes of its slots (docs/FORMATS.md, "Tributary slots").
        """
        table = np.zeros((256, ROWS, ROW), dtype=np.uint8)
        for n, it in enumerate(self.tributaries):
            for slot in it['slots']:
                table[:, :, 16 + slot - 1:3824:self.slots] = n + 1
                table[1 + slot, 3, 14] = n + 1
            table[it['slots'][-1] - 1::self.slots, :3, 14:16] = n + 1
        table[:, 0, 6] = EVERYBODY
        return table.reshape(-1)

    def owners_of(self, places):
        """The owners of these places of the line: customers by 1 + their numbers, and EVERYBODY."""
        return set(np.unique(self.owner[places % len(self.owner)]).tolist())

    @functools.lru_cache(maxsize=None)
    def all_but(self, n, moved, size):
        """A mask of the places of a line of so many bytes that are neither MFAS bytes nor customer n's own.

        Where frames moved, which frame of a multiframe one is hangs on the hunt: columns 15 and 16 of all are kept.
        """
        own = np.resize(self.owner, size).reshape(-1, ROWS, ROW)
        keep = (own == n + 1) | (own == EVERYBODY)
        if moved:
            keep[:, :, 14:16] = True
        return ~keep
