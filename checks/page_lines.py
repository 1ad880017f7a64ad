"""The lines and plans that checks/pages opens pages of, beside those of checks/lines and checks/long-lines."""
import json
import pathlib
import re
import shutil
import subprocess

HERE = pathlib.Path(__file__).resolve().parent
FRAME, ROW = 16320, 4080
EVIL = '<img src=x onerror=hacked()>'
END = '</script><script>hacked()</script>'


def at(frame, row, column):
    return FRAME * frame + ROW * (row - 1) + column - 1


def make(otn, folder):
    """All lines, into a folder."""
    for script in ('lines', 'long-lines'):
        subprocess.run([HERE / script, otn, folder], check=True)
    signals(otn, folder)
    hostile(otn, folder)
    for name in ('turns-32', 'wide-32'):
        receiver(folder, name)


def place(port, slot):
    return f'{{ line = 0, port = {port}, slots = [{slot}] }}'


def connection(name, source, to, *keys):
    lines = ['[[connection]]', f'name = {json.dumps(name)}', 'kind = "odu0"', f'from = {source}', f'to = {to}']
    return '\n'.join([*lines, *keys, ''])


def run(otn, node):
    """A run of a node; some lines come harmed, so any status that is of a run."""
    done = subprocess.run([otn, 'run'], cwd=node, stdout=subprocess.DEVNULL, stderr=subprocess.DEVNULL)
    if done.returncode > 1:
        raise SystemExit(f'checks/pages: otn run in {node}: status {done.returncode}')


def signals(otn, folder):
    """`signals`: what a node sends on whose input is lost for a while, and LCK and OCI beside it. A sink that is down
    puts AIS into its client's place."""
    node = folder / 'node-signals'
    node.mkdir()
    customers = [connection('through', place(1, 1), place(3, 2)), connection('held', '{ signal = "lck" }', place(4, 3)),
                 connection('open', '{ signal = "oci" }', place(5, 4), 'start = 6')]
    (node / 'plan.toml').write_text('turns = 40\n' + ''.join(customers))
    data = bytearray((folder / 'turns-32').read_bytes()[:32 * 8 * FRAME])
    for frame in range(8 * 12, 8 * 20):
        data[at(frame, 1, 7)] = 255
    (node / 'line-0.in').write_bytes(data)
    run(otn, node)
    shutil.copy(node / 'line-0.out', folder / 'signals')


def hostile(otn, folder):
    """`evil.<b>x`: texts that a browser would take as its own, in the section trace, in a path trace and in packets.
    The plan that names its customers so is for the page alone: otn refuses it."""
    node = folder / 'node-evil'
    node.mkdir()
    packets = [EVIL.encode(), END.encode(), bytes(12) + b'\x08\x00' + EVIL.encode(), b'<script>hacked()</script>']
    (node / 'client-00.in').write_text('\n'.join(p.hex() for p in packets) + '\n')
    good = connection('good', '{ client = 0 }', place(1, 1), 'trace = "<b id=evil>"')
    (node / 'plan.toml').write_text('turns = 40\n' + good)
    run(otn, node)
    data = bytearray((node / 'line-0.out').read_bytes())
    for frame in range(len(data) // FRAME):
        mfas = data[at(frame, 1, 7)] % 64
        data[at(frame, 1, 8)] = b'\0<script>hacked('[mfas] if mfas < 16 else 0
    (folder / 'evil.<b>x').write_bytes(data)
    names = connection(EVIL, '{ client = 0 }', place(1, 1)) + connection(END, '{ client = 1 }', place(2, 2))
    (folder / 'evil.toml').write_text('turns = 16\n' + names)


def receiver(folder, name):
    """A node that takes all customers out of a line: the plan of its writer, the other way round."""
    text = (folder / f'node-{name}/plan.toml').read_text()
    head, *parts = text.split('[[connection]]')
    head = head.replace('-out', '-in')
    plan = head
    for number, part in enumerate(parts):
        to = re.search(r'^to = (.*)$', part, re.M)[1]
        keys = re.findall(r'^(?:name|kind|start|stop) = .*$', part, re.M)
        plan += '\n'.join(['[[connection]]', *keys, f'from = {to}', f'to = {{ client = {number} }}', ''])
    node = folder / f'receiver-{name}'
    node.mkdir()
    (node / 'plan.toml').write_text(plan)
    (node / 'line-0.in').symlink_to(folder / name)


def mask():
    """The bytes that change a scrambled frame, from its seventh on: 1 + x + x^3 + x^12 + x^16, all ones first."""
    bits = [1] * 16
    while len(bits) < 8 * (FRAME - 6):
        bits.append(bits[-1] ^ bits[-3] ^ bits[-12] ^ bits[-16])
    return bytes(6) + bytes(int(''.join(map(str, bits[i:i + 8])), 2) for i in range(0, len(bits), 8))


def overheads(path, scrambled):
    """Columns 1 to 16 of each row of each frame, from the file."""
    data, over = path.read_bytes(), mask() if scrambled else bytes(FRAME)
    out = []
    for frame in range(len(data) // FRAME):
        places = [at(0, row, column) for row in range(1, 5) for column in range(1, 17)]
        out.append([data[FRAME * frame + x] ^ over[x] for x in places])
    return out
