// The heads of a packet: Ethernet, VLAN, ARP, IPv4, IPv6, ICMP, TCP, UDP. Bytes that are not there end it.

const PROTOCOLS = {
  1: 'ICMP',
  6: 'TCP',
  17: 'UDP',
  58: 'ICMPv6'
};
const TYPES = {
  0x0800: 'IPv4',
  0x0806: 'ARP',
  0x86DD: 'IPv6',
  0x8847: 'MPLS',
  0x88B5: 'local',
  0x88CC: 'LLDP',
  0x8863: 'PPPoE',
  0x8864: 'PPPoE'
};
const FLAGS = ['FIN', 'SYN', 'RST', 'PSH', 'ACK', 'URG', 'ECE', 'CWR'];

const two = (bytes, i) => bytes[i] << 8 | bytes[i + 1];
const macOf = bytes => Array.from(bytes, b => hex(b).toLowerCase()).join(':');
const ipOf = bytes => bytes.join('.');
const ascii = bytes => Array.from(bytes, b => (b >= 32 && b < 127 ? String.fromCharCode(b) : '·')).join('');

// An address of IPv6, with its longest run of zeros left out.
function ip6Of(bytes) {
  const words = Array.from({length: 8}, (_, x) => two(bytes, 2 * x).toString(16)), text = words.join(':');
  const runs = text.match(/(?:^|:)0(?::0)+(?=:|$)/g);
  if (!runs) return text;
  return text.replace(runs.reduce((a, b) => (b.length > a.length ? b : a)), ':')
    .replace(/^:(?!:)/, '::')
    .replace(/:::+/, '::')
    .replace(/([^:]):$/, '$1::');
}

// A packet: where it comes from and goes to, its kind, what it says, and its heads, each a name and a text.
function decode(bytes) {
  const packet = {from: '', to: '', kind: 'data', info: ascii(bytes.subarray(0, 40)), heads: [], rest: bytes};
  if (bytes.length < 14) return packet;
  packet.from = macOf(bytes.subarray(6, 12));
  packet.to = macOf(bytes.subarray(0, 6));
  let type = two(bytes, 12), at = 14;
  packet.heads.push(
    ['Ethernet', `${packet.from} → ${packet.to}, type ${hex(type, 4)}${TYPES[type] ? ` ${TYPES[type]}` : ''}`]);
  while ((type === 0x8100 || type === 0x88A8) && bytes.length >= at + 4) {
    packet.heads.push(['VLAN', `id ${two(bytes, at) & 4095}, priority ${bytes[at] >> 5}`]);
    type = two(bytes, at + 2);
    at += 4;
  }
  packet.kind = TYPES[type] || hex(type, 4);
  packet.rest = bytes.subarray(at);
  packet.info = ascii(packet.rest.subarray(0, 40));
  if (type === 0x0806)
    decodeArp(packet, packet.rest);
  else if (type === 0x0800)
    decodeIp(packet, packet.rest);
  else if (type === 0x86DD)
    decodeIp6(packet, packet.rest);
  return packet;
}

function head(packet, name, text) {
  packet.kind = name;
  packet.info = text;
  packet.heads.push([name, text]);
}

function decodeArp(packet, b) {
  if (b.length < 28) return;
  const [sender, target] = [ipOf(b.subarray(14, 18)), ipOf(b.subarray(24, 28))], ask = two(b, 6);
  packet.from = sender;
  packet.to = target;
  if (ask === 1)
    head(packet, 'ARP', `who has ${target}? tell ${sender}`);
  else
    head(packet, 'ARP', `${sender} is at ${macOf(b.subarray(8, 14))}`);
}

function decodeIp(packet, b) {
  const size = (b[0] & 15) * 4;
  if (b.length < 20 || b[0] >> 4 !== 4 || size < 20) return;
  packet.from = ipOf(b.subarray(12, 16));
  packet.to = ipOf(b.subarray(16, 20));
  const part = two(b, 6) & 0x1FFF, more = part || two(b, 6) & 0x2000 ? `, fragment at ${8 * part}` : '';
  packet.heads.push([
    'IPv4',
    `${packet.from} → ${packet.to}, length ${two(b, 2)}, TTL ${b[8]}, protocol ${b[9]}, DSCP ${b[1] >> 2}${more}`
  ]);
  packet.kind = PROTOCOLS[b[9]] || `IP ${b[9]}`;
  packet.info = `length ${two(b, 2)}${more}`;
  if (!part) decodeAbove(packet, b[9], b.subarray(size));
}

function decodeIp6(packet, b) {
  if (b.length < 40 || b[0] >> 4 !== 6) return;
  packet.from = ip6Of(b.subarray(8, 24));
  packet.to = ip6Of(b.subarray(24, 40));
  packet.heads.push(
    ['IPv6', `${packet.from} → ${packet.to}, length ${two(b, 4)}, hop limit ${b[7]}, next header ${b[6]}`]);
  packet.kind = PROTOCOLS[b[6]] || 'IPv6';
  packet.info = `next header ${b[6]}`;
  decodeAbove(packet, b[6], b.subarray(40));
}

function decodeAbove(packet, protocol, b) {
  if (protocol === 17 && b.length >= 8) {
    head(packet, 'UDP', `${two(b, 0)} → ${two(b, 2)}, length ${two(b, 4)}`);
    if (two(b, 0) === 53 || two(b, 2) === 53) packet.kind = 'DNS';
  } else if (protocol === 6 && b.length >= 14) {
    const flags = FLAGS.filter((_, bit) => b[13] >> bit & 1).join(' ');
    head(packet, 'TCP', `${two(b, 0)} → ${two(b, 2)} ${flags}`);
  } else if (protocol === 1 && b.length >= 8) {
    const kind = {0: 'echo reply', 3: 'unreachable', 8: 'echo request', 11: 'time exceeded'}[b[0]] || `type ${b[0]}`;
    head(packet, 'ICMP', `${kind}, id ${hex(two(b, 4), 4)}, sequence ${two(b, 6)}`);
  } else if (protocol === 58 && b.length >= 4) {
    const kind = {128: 'echo request',
      129: 'echo reply',
      135: 'neighbour solicitation',
      136: 'neighbour advertisement'}[b[0]];
    head(packet, 'ICMPv6', kind || `type ${b[0]}`);
  }
}

// Bytes in rows of sixteen: their place, in hex, and as letters.
function dump(bytes) {
  const rows = [];
  for (let i = 0; i < bytes.length; i += 16) {
    const part = bytes.subarray(i, i + 16);
    rows.push(`${hex(i, 4)}  ${Array.from(part, b => hex(b).toLowerCase()).join(' ').padEnd(48)} ${ascii(part)}`);
  }
  return rows.join('\n');
}
