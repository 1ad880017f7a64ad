"""The demands of a network: read from a file, with a sentence for each that can't be carried.

>>> list(lines_of(['bank  w2  e3  odu0  60', '# a remark', '', 'Bank w2 e3 odu1 x'], ['w2', 'e3'], wrong := []))
[('bank', 'w2', 'e3', 'odu0', 60)]
>>> print(*wrong, sep='\\n')
4: the name Bank is not 1 to 27 of a to z, 0 to 9 and -
4: the kind odu1 is neither odu0 nor flex and how many slots, 1 to 32, as flex-3
4: x is no number of packets

`python3 -m planning.demands`, in the folder tools/, tries these examples.
"""
import re
import sys

NAME = re.compile('[a-z0-9-]{1,27}')                  # 32, of which the way back takes five
KIND = re.compile('odu0|flex-([1-9]|[12][0-9]|3[0-2])')
COLUMNS = 'name, site, site, kind, packets'


def faults_of(words, sites, names):
    """What is wrong with the words of a line."""
    if len(words) != 5:
        yield f'it has {len(words)} word{"s" * (len(words) > 1)}, and not five: {COLUMNS}'
        return
    name, a, b, kind, count = words
    if not NAME.fullmatch(name):
        yield f'the name {name} is not 1 to 27 of a to z, 0 to 9 and -'
    if name in names or name.removesuffix('-back') in names or f'{name}-back' in names:
        yield f'the name {name}, or that of its way back, is there already'
    for site in (a, b):
        if site not in sites:
            yield f'there is no site {site}; sites are {", ".join(sites)}'
    if a == b:
        yield f'it goes from {a} to {b}, which are one site'
    if not KIND.fullmatch(kind):
        yield f'the kind {kind} is neither odu0 nor flex and how many slots, 1 to 32, as flex-3'
    if not count.isascii() or not count.isdigit():
        yield f'{count} is no number of packets'


def lines_of(lines, sites, wrong):
    """The demands of these lines. To `wrong` goes what is wrong, with the number of the line."""
    names = set()
    for number, line in enumerate(lines, 1):
        words = line.split()
        if not words or words[0].startswith('#'):
            continue
        faults = list(faults_of(words, sites, names))
        wrong += [f'{number}: {fault}' for fault in faults]
        names |= {words[0]}
        if not faults:
            yield (*words[:4], int(words[4]))


def read(path, sites):
    """The demands of a file, each a name, two sites, a kind and how many packets. Ends where a line is wrong."""
    wrong = []
    try:
        with open(path, errors='replace') as file:
            found = list(lines_of(file, sites, wrong))
    except OSError as error:
        sys.exit(f'{path}: {error.strerror}')
    if wrong:
        sys.exit('\n'.join(f'{path}:{it}' for it in wrong))
    return found


def slots_of(kind):
    """How many slots a demand of this kind takes."""
    return int(kind[5:]) if kind.startswith('flex-') else 1


def lacks(name, kind, a, b, fibres):
    """Why a demand from a site to another has no room on its way; the empty text where it has."""
    many = slots_of(kind)
    for f in fibres:
        if len(f.free) < many:
            free = len(f.free)
            return f'{name} wants {many} slot{"s" * (many > 1)} from {a} to {b}; of the {32 if f.wide else 8} from ' \
                   f'{f.a.name} to {f.b.name} {free} {"is" if free == 1 else "are"} free'
    for node, taken, end in ((fibres[0].a, fibres[0].a.clients_in, 'begins'), (fibres[-1].b, fibres[-1].b.clients_out, 'ends')):
        if taken > 15:
            return f'{name} {end} at {node.name}, which has 16 clients already'
    return ''


if __name__ == '__main__':
    import doctest
    sys.exit(doctest.testmod()[0] > 0)
