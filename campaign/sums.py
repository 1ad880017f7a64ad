"""What came of a campaign: cases.csv, each case once; summary.csv, by damage, level and customer; and a text."""
import csv
import math
from collections import defaultdict

from pieces import Wrong

OUT = ['damage', 'level', 'customer', 'cases', 'ber', 'sent', 'lost', 'loss', 'loss_low', 'loss_high', 'changed',
       'cases_with_loss', 'down_turns', 'down_at_end', 'gap_median', 'gap_most', 'heal_median', 'heal_p99', 'heal_most',
       'not_healed']


class Cell:
    """One damage at one level, for one customer."""

    def __init__(self):
        self.cases = self.sent = self.lost = self.changed = self.hit = self.down = self.down_at_end = self.never = 0
        self.heals, self.gaps, self.losses = [], [], []

    def add(self, row, name):
        sent = int(row[f'{name}.sent'])
        lost = sent - int(row[f'{name}.came'])
        self.cases += 1
        self.sent += sent
        self.lost += lost
        self.changed += int(row[f'{name}.changed'])
        self.hit += lost > 0
        self.down += int(row[f'{name}.down'] or 0)
        self.down_at_end += row[f'{name}.state'] == 'down'
        self.losses.append(lost / sent)
        heal = row[f'{name}.heal']
        self.never += heal == '-'
        if heal not in ('', '-'):
            self.heals.append(int(heal))
        if lost:
            self.gaps.append(int(row[f'{name}.gap']))

    @property
    def loss(self):
        return self.lost / self.sent

    def interval(self):
        """95 % about the loss. Losses of one case hang together, so the case is the sample and not the packet."""
        if self.cases < 2:
            return 0.0, 1.0
        spread = math.sqrt(sum((it - self.loss) ** 2 for it in self.losses) / (self.cases - 1) / self.cases)
        return max(self.loss - 1.96 * spread, 0.0), self.loss + 1.96 * spread

    def row(self):
        low, high = self.interval()
        return [self.sent, self.lost, f'{self.loss:.3e}', f'{low:.3e}', f'{high:.3e}', self.changed, self.hit, self.down,
                self.down_at_end, part_of(self.gaps, .5), max(self.gaps, default=''), part_of(self.heals, .5),
                part_of(self.heals, .99), max(self.heals, default=''), self.never]


def part_of(values, part):
    """The value below which this part of them is; '' of none."""
    ordered = sorted(values)
    return ordered[min(len(ordered) - 1, int(part * len(ordered)))] if ordered else ''


class Sums:
    """All cases of a campaign, summed: `cells` by damage, level and customer, `bits` wrong of all by damage and level."""

    def __init__(self, campaign):
        self.campaign, self.names = campaign, [it['name'] for it in campaign.spec['tributary']]
        self.cells, self.wrong, self.total = defaultdict(Cell), defaultdict(int), defaultdict(int)
        self.checked = [it['name'] for it in campaign.spec['tributary'] if it['fcs']]
        slots = 32 if campaign.spec['line'] == 'otu3' else 8
        self.bits = 8 * 16_320 * slots * campaign.spec['turns']            # of the line
        with open(campaign.folder / 'cases.csv', newline='') as file:
            for row in csv.DictReader(file):
                self.add(row)

    def add(self, row):
        key, total = (row['damage'], float(row['level'])), self.total
        for name in self.names:
            self.cells[key + (name,)].add(row, name)
        self.wrong[key] += int(row['wrong_bits'])
        total['cases'] += 1
        total['alone'] += row['alone'] != ''
        for name in ('isolation_of', 'isolation_broken', 'alone_broken'):
            total[name] += int(row[name])
        if row['moved'] == '0':
            total['disorder'] += sum(int(row[f'{name}.{it}']) for name in self.names for it in ('doubled', 'late'))
        total['changed'] += sum(int(row[f'{name}.changed']) for name in self.checked)

    def rate(self, damage, level):
        """The rate of wrong bits of the line."""
        return self.wrong[damage, level] / self.cells[damage, level, self.names[0]].cases / self.bits

    def rows(self):
        for (damage, level, name), it in self.cells.items():
            yield [damage, f'{level:g}', name, it.cases, f'{self.rate(damage, level):.3e}', *it.row()]

    def broken(self):
        """How often a promise did not hold."""
        return self.total['isolation_broken'] + self.total['alone_broken'] + self.total['disorder']

    def words(self):
        it = self.total
        return (f'cases: {it["cases"]:,}, of which {it["alone"]:,} had damage\n'
                f'isolation: {it["isolation_of"]:,} customers whose own places no damage touched; {it["isolation_broken"]:,} of them '
                'got other bytes\n'
                f'isolation: {it["alone"]:,} customers beside whom all else was made noise; {it["alone_broken"]:,} of them got other '
                'bytes\n'
                f'order: {it["disorder"]:,} packets came twice or out of order, where no byte had another place\n'
                f'frame check sequence: {it["changed"]:,} packets came changed in spite of one')


def sum_up(campaign):
    """Writes cases.csv and summary.csv, and says the summary; Wrong where a piece is missing or a promise does not hold."""
    if left := campaign.missing():
        raise Wrong(f'{len(left)} of {campaign.pieces} pieces are missing: otn-campaign run {campaign.folder}')
    part = campaign.folder / 'cases.part'
    with open(part, 'w') as out:
        out.writelines(rows_of(campaign))
    part.replace(campaign.folder / 'cases.csv')
    sums = Sums(campaign)
    with open(campaign.folder / 'summary.csv', 'w', newline='') as file:
        out = csv.writer(file, lineterminator='\n')
        out.writerow(OUT)
        out.writerows(sums.rows())
    print(sums.words())
    if sums.broken():
        raise Wrong('a promise does not hold')


def rows_of(campaign):
    """The text of each piece; each case has to be there once, and each row whole."""
    head = None
    for k in range(campaign.pieces):
        text = campaign.path(k).read_text()
        first, *rows = text.split('\n')
        head = head or first
        numbers = [row.partition(',')[0] for row in rows[:-1]]
        whole = rows[-1:] == [''] and all(row.count(',') == head.count(',') for row in rows[:-1])
        if first != head or not whole or numbers != [str(number) for number in campaign.numbers(k)]:
            raise Wrong(f'{campaign.path(k)} is not the whole piece {k}: take it away, and run the campaign again')
        yield text if k == 0 else text[len(first) + 1:]
