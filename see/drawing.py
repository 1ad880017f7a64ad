"""What the pictures share: colours, texts of slots and sizes, and a drawing (SVG) with whole-number coordinates."""
from xml.sax.saxutils import escape

# Eight colours and four shades of each: a port has the same colour in every picture; red is for damage alone.
PORTS = ['#4878b0', '#e8892b', '#4f9d57', '#9a6fb0', '#3aa6a0', '#d9b12e', '#96705b', '#e27fae']
SHADES = [(100, 0), (72, 0), (62, 38), (50, 20)]      # percent of the colour, percent of white
INK, DIM, PALE, GRID = '#1f2733', '#6b7684', '#eef1f5', '#d5dbe3'
GOOD, BAD, WARN = '#3c9a5f', '#d3322f', '#e0a100'
SIGNAL = {'AIS': '#e0672b', 'LCK': '#5d4a8a', 'OCI': '#2f7fbf'}
ALIGN = {'ok': GOOD, 'end': '#9aa4b1', 'hunt': WARN, 'lost': BAD}         # of a turn of a line, the worst last
RANK = ['down', 'AIS', 'LCK', 'OCI', 'waiting', 'empty', 'up']             # of a tributary, the worst first
FONT = 'DejaVu Sans, Segoe UI, Helvetica, Arial, sans-serif'


def colour(port):
    """The colour of a tributary port, from 1."""
    base = PORTS[(port - 1) % 8]
    own, white = SHADES[(port - 1) // 8 % 4]
    rgb = [int(base[i:i + 2], 16) for i in (1, 3, 5)]
    return '#' + ''.join(f'{min(255, (v * own + 255 * white) // 100):02x}' for v in rgb)


def look_of(h):
    """How a tributary is in a turn: a word of RANK."""
    if h.state != 'up':
        return h.state
    if h.client in SIGNAL:
        return h.client
    return 'up' if h.c else 'empty'


def slots_text(slots, to='–', comma=', '):
    """Slots in words: 1–3, 5."""
    out, i = [], 0
    while i < len(slots):
        j = i
        while j + 1 < len(slots) and slots[j + 1] == slots[j] + 1:
            j += 1
        if j > i + 1:
            out.append(f'{slots[i]}{to}{slots[j]}')
        else:
            out += [str(k) for k in slots[i:j + 1]]
        i = j + 1
    return comma.join(out)


def count(n, thing):
    """1 packet, 2 packets."""
    return f'{n} {thing}' if n == 1 else f'{n} {thing}s'


def kilo(n):
    """A number of bytes in words."""
    return f'{n} B' if n < 10000 else f'{n // 1000} kB' if n < 10000000 else f'{n // 1000000} MB'


def patterns():
    """The stripes and dots of the pictures of lines."""
    out = ['<style>.on{paint-order:stroke;stroke:white;stroke-opacity:.6;stroke-width:3px}</style>', '<defs>']

    def pattern(name, size, turned, *inside):
        turn = f' patternTransform="rotate({turned})"' if turned else ''
        out.append(f'<pattern id="{name}" width="{size}" height="{size}" patternUnits="userSpaceOnUse"{turn}>'
                   + ''.join(inside) + '</pattern>')
    pattern('down', 7, 45, '<rect width="7" height="7" fill="#fbe3e2"/>', f'<rect width="2" height="7" fill="{BAD}"/>')
    pattern('messages', 6, 0, '<rect width="6" height="6" fill="#e3e8ee"/>',
            f'<circle cx="3" cy="3" r="1" fill="{DIM}"/>')
    for (signal, fill), turned in zip(SIGNAL.items(), (45, 90, 135)):
        pattern(signal, 8, turned, f'<rect width="3" height="8" fill="{fill}" fill-opacity=".75"/>')
    return '\n'.join([*out, '</defs>'])


class Drawing:
    """A list of SVG elements. Coordinates are whole pixels, y downwards."""

    def __init__(self):
        self.out = []

    def put(self, element):
        self.out.append(element)

    def rect(self, x, y, w, h, fill, title=None, **more):
        extra = ''.join(f' {k.replace("_", "-")}="{v}"' for k, v in more.items())
        head = f'<rect x="{x}" y="{y}" width="{w}" height="{h}" fill="{fill}"{extra}'
        self.put(f'{head}><title>{escape(title)}</title></rect>' if title else f'{head}/>')

    def text(self, x, y, words, size=12, fill=INK, weight=None, anchor=None, **more):
        extra = f' font-weight="{weight}"' if weight else ''
        extra += f' text-anchor="{anchor}"' if anchor else ''
        extra += ''.join(f' {k.replace("_", "-")}="{v}"' for k, v in more.items())
        self.put(f'<text x="{x}" y="{y}" font-size="{size}" fill="{fill}"{extra}>{escape(words)}</text>')

    def path(self, d, stroke, width, title=None, fill='none', **more):
        extra = ''.join(f' {k.replace("_", "-")}="{v}"' for k, v in more.items())
        head = f'<path d="{d}" stroke="{stroke}" stroke-width="{width}" fill="{fill}"{extra}'
        self.put(f'{head}><title>{escape(title)}</title></path>' if title else f'{head}/>')

    def diamond(self, x, y, r, title=None):
        """The mark of a damaged message, about its middle."""
        head = f'<path d="M{x} {y - r} l{r} {r} l-{r} {r} l-{r} -{r} Z" fill="{BAD}" stroke="white"'
        self.put(f'{head}><title>{escape(title)}</title></path>' if title else f'{head}/>')

    def svg(self, width, height, first=''):
        """The whole picture; `first` stands before the elements (styles, patterns)."""
        head = (f'<svg xmlns="http://www.w3.org/2000/svg" width="{width}" height="{height}" '
                f'viewBox="0 0 {width} {height}" font-family="{FONT}">')
        white = f'<rect width="{width}" height="{height}" fill="white"/>'
        return '\n'.join([head, *([first] if first else []), white, *self.out, '</svg>']) + '\n'
