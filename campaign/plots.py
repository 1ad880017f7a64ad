"""Plots of a campaign, by matplotlib: loss against wrong bits, and turns until a customer healed."""
import math

import matplotlib

matplotlib.use('Agg')
matplotlib.rcParams.update({'svg.hashsalt': 'otn', 'axes.spines.top': False, 'axes.spines.right': False})
import matplotlib.pyplot as plt                                            # noqa: E402

from pieces import Wrong                                                   # noqa: E402
from sums import Sums, part_of                                             # noqa: E402
from world import SIZES                                                    # noqa: E402

COLOURS = ['#1f6fb4', '#d1495b', '#2e933c', '#7b4fa3', '#e08e0b', '#555555']
MARKS = 'os^Dv*'
GRID = '#e4e4e4'
TURN = {'otu2': '97.5 µs', 'otu3': '97.1 µs'}


def expected(rate, size, fcs=True):
    """Of independent wrong bits: the chance that a packet of this size is lost.

    Its GFP frame is lost by a wrong bit in its four type bytes, the packet or its FCS, or by one in the 43 bits before,
    which the descrambler copies into it. A single wrong bit of the core header is corrected.
    """
    return 1 - (1 - rate) ** (8 * (size + 4 + 4 * fcs) + 43)


def plot(campaign):
    """Writes what the spec asks for."""
    if not (campaign.folder / 'cases.csv').exists():
        raise Wrong(f'there is no cases.csv yet: otn-campaign sum {campaign.folder}')
    sums = Sums(campaign)
    for name, draw in (('loss', loss), ('heal', heal)):
        damages = [it for it in campaign.spec['damage'] if it['plot'] == name]
        if damages:
            save(draw(sums, damages), campaign.folder / name)


def loss(sums, damages):
    """Packets lost against wrong bits: a panel for each damage, a curve for each customer."""
    fig, axes = plt.subplots(1, len(damages), figsize=(5.2 * len(damages), 5), sharey=True, squeeze=False)
    for ax, damage in zip(axes[0], damages):
        if damage['words'] == 'ber {level}':
            reckoned(ax, damage['levels'])
        for n, name in enumerate(sums.names):
            curve(ax, sums, damage, n, name)
        ax.set(xscale='log', yscale='log', xlabel=damage['axis'] or 'rate of wrong bits of the line',
               title=damage['title'] or damage['name'])
        ax.grid(True, which='major', color=GRID)
        ax.set_axisbelow(True)
    axes[0][0].set_ylabel('packets that did not come as they were sent')
    axes[0][0].legend(frameon=False, loc='upper left', fontsize=9)
    it = sums.total
    fig.text(0.01, 0.01, f'{it["cases"]:,} cases, seed {sums.campaign.spec["seed"]}; isolation: '
             f'{it["isolation_of"] + it["alone"]:,} customers looked at, {it["isolation_broken"] + it["alone_broken"]:,} touched '
             'by others; bars: 95 %, by cases', fontsize=8, color='#555555')
    fig.tight_layout(rect=(0, 0.03, 1, 1))
    return fig


def reckoned(ax, levels):
    few, most = math.log10(min(levels)), math.log10(max(levels))
    rates = [10 ** (few + (most - few) * k / 60) for k in range(61)]
    mean = [sum(expected(rate, size) for size in SIZES) / len(SIZES) for rate in rates]
    ax.plot(rates, mean, color='black', lw=1, ls='--', zorder=5, label='reckoned: independent bits,\nno tributary down')


def curve(ax, sums, damage, n, name):
    points = []
    for level in map(float, damage['levels']):
        it, rate = sums.cells[damage['name'], level, name], sums.rate(damage['name'], level)
        if it.lost and (rate or damage['axis']):
            low, high = it.interval()
            points.append((level if damage['axis'] else rate, it.loss, it.loss - max(low, it.loss / 30), high - it.loss))
    if points:
        x, y, below, above = zip(*points)
        ax.errorbar(x, y, yerr=[below, above], color=COLOURS[n % 6], marker=MARKS[n % 6], ms=5, lw=1.4, capsize=2, label=name)


def heal(sums, damages):
    """Turns until the first whole packet: the median, and 99 of 100 cases."""
    fig, axes = plt.subplots(1, len(damages), figsize=(6.2 * len(damages) + 1, 4.4), sharey=True, squeeze=False)
    for ax, damage in zip(axes[0], damages):
        for n, name in enumerate(sums.names):
            its = [sums.cells[damage['name'], float(level), name] for level in damage['levels']]
            middle, most = ([part_of(it.heals, part) if it.heals else math.nan for it in its] for part in (.5, .99))
            at = [x + (n - (len(sums.names) - 1) / 2) * 0.16 for x in range(len(its))]
            ax.vlines(at, middle, most, color=COLOURS[n % 6], lw=2)
            ax.plot(at, middle, color=COLOURS[n % 6], marker=MARKS[n % 6], ls='', ms=6, label=name)
            ax.plot(at, most, color=COLOURS[n % 6], marker='_', ls='', ms=7)
        ax.set_xticks(range(len(damage['levels'])), [f'{level:g}' for level in damage['levels']])
        ax.set(xlabel=damage['axis'] or damage['title'] or damage['name'])
        ax.grid(True, axis='y', color=GRID)
        ax.set_axisbelow(True)
    turn = TURN[sums.campaign.spec['line']]
    axes[0][0].set_ylabel(f'turns ({turn}) until a whole packet came:\nmedian, and 99 of 100 cases')
    axes[0][0].set_ylim(bottom=-0.4)
    fig.legend(*axes[0][0].get_legend_handles_labels(), frameon=False, loc='center right', fontsize=9)
    fig.tight_layout(rect=(0, 0, 0.88, 1))
    return fig


def save(fig, path):
    fig.savefig(path.with_suffix('.svg'), metadata={'Date': None})
    fig.savefig(path.with_suffix('.png'), dpi=110)
    plt.close(fig)
    print(path.with_suffix('.svg'), path.with_suffix('.png'))
