"""What came of a network that has run: each customer's packets, and each node's report. `compare.py FOLDER` says it."""
import json
import pathlib
import sys


class Network:
    """A folder of make-plans: `nodes` by name, with the fibres that they take, and the two files of each customer."""

    def __init__(self, folder):
        self.folder = pathlib.Path(folder)
        told = json.loads((self.folder / 'network.json').read_text())
        self.nodes, self.customers = told['nodes'], told['customers']

    def compared(self):
        """A line of text, and whether all packets came, each the one that was sent."""
        packets, bad = 0, []
        for name, ends in self.customers.items():
            sent, got = (self.folder / end for end in ends)
            text = got.read_bytes() if got.exists() else b''
            packets += text.count(b'\n')
            if text != sent.read_bytes():
                bad.append(name)
        for name in self.nodes:
            report = self.folder / name / 'report'
            if not report.exists() or 'status done' not in report.read_text():
                bad.append(name)
        return self.said(packets, bad), not bad

    def said(self, packets, bad):
        if bad:
            return f'{len(bad)} wrong: {", ".join(bad[:9])}'
        return f'{len(self.nodes)} nodes, {len(self.customers)} customers: {packets} packets came, each the one that was sent'


if __name__ == '__main__':
    words, fine = Network(sys.argv[1]).compared()
    print(words)
    sys.exit(not fine)
