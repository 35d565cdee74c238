// Files of bytes: pcap and pcapng of an nlmon device, and what rtmon wrote. The numbers that are
// read here are those of these files, and of requests where they end; no other script reads a
// number of what a reader hands in.

const NETLINK = 253, COOKED = 16, ROUTE = 0; // LINKTYPE_NETLINK, the bytes in front of a datagram
const PCAP = { a1b2c3d4: false, d4c3b2a1: true, a1b23c4d: false, "4d3cb2a1": true };
const SECTION = "0a0d0d0a", SECTIONS = { "1a2b3c4d": false, "4d3c2b1a": true };
// Blocks, and what they begin with.
const INTERFACE = 1, PACKET = 2, SIMPLE = 3, STATISTICS = 5, ENHANCED = 6;
const FRONTS = { [INTERFACE]: 8, [PACKET]: 20, [SIMPLE]: 4, [ENHANCED]: 20 };
const FRAME = 12, BEGINNING = 16; // of a block, and of a section in it
// Options that say how many packets were dropped: before one, and by an interface and the system.
const DROPS = 4, DROPPED = [5, 7], UNCOUNTED = 0xffff; // the last of packets of the old form
const LEAST_STATISTICS = 12; // bytes in front of their options
const HEADER = 16, TIME = 15; // of a message, and the type of those of rtmon that are times
const REQUEST = 1; // NLM_F_REQUEST

// Bytes from the front to the end, and the place of the next one.
class Source {
  constructor(bytes) {
    Object.assign(this, { bytes, place: 0, isLittle: true, end: bytes.length });
    const view = new DataView(bytes.buffer, bytes.byteOffset, this.end);
    this.u16 = (at) => view.getUint16(at, this.isLittle);
    this.u32 = (at) => view.getUint32(at, this.isLittle);
    this.u64 = (at) => view.getBigUint64(at, this.isLittle);
    this.digits = (at) => Array.from(bytes.subarray(at, at + 4), hex).join("");
  }

  // So many bytes, which belong to what begins at a place.
  take(size, place, what) {
    if (size > this.end - this.place) refuse(`${place}: the capture ends within ${what}`);
    this.place += size;
    return this.bytes.slice(this.place - size, this.place);
  }

  // Takes one part after another: each is told where it begins.
  each(part) {
    while (this.place < this.end) part(this.place, `byte ${this.place}`);
  }
}

// Where the whole messages end that a datagram begins with, if all are requests; or else 0.
function endOfRequests(bytes, isLittle) {
  const source = Object.assign(new Source(bytes), { isLittle });
  let place = 0;
  while (place + HEADER <= bytes.length) {
    const length = source.u32(place);
    if (length < HEADER || length > bytes.length - place) break;
    if (!(source.u16(place + 6) & REQUEST)) return 0;
    place += (length + 3) & ~3;
  }
  return place;
}

// Adds a datagram that may have been sent. Some programs send all of a buffer, and the kernel
// passes over what stands behind the last request: zero bytes are left out there.
function addSent(found, bytes, from) {
  const isTail = (end) => end > 0 && end < bytes.length && !bytes.subarray(end).some(Boolean);
  const end = [true, false].map((isLittle) => endOfRequests(bytes, isLittle)).find(isTail);
  const cut = `, cut: ${bytes.length - end} zero bytes behind the last message`;
  if (end === undefined) found.add(bytes, from);
  else found.add(bytes.slice(0, end), from + cut);
}

// Takes the datagrams for rtnetlink out of packets, and counts all others.
class Packets {
  constructor(found) {
    Object.assign(this, { found, others: new Map() });
  }

  take(source, place, linkType, kept, size) {
    const packet = `a packet of ${kept} bytes`, rest = kept - COOKED;
    const leave = (sort, left) => {
      this.others.set(sort, (this.others.get(sort) ?? 0) + 1);
      source.take(left, place, packet);
    };
    if (linkType !== NETLINK) return leave(`link type ${linkType}`, kept);
    if (rest < 0 || kept > size) refuse(`${place}: ${kept} bytes of a netlink packet of ${size}`);
    const front = source.take(COOKED, place, packet), protocol = front[14] * 256 + front[15];
    if (protocol !== ROUTE) return leave(`netlink protocol ${protocol}`, rest);
    if (rest > LONGEST) refuse(`${place}: a datagram of ${rest} bytes, above ${LONGEST}`);
    const bytes = source.take(rest, place, packet);
    if (kept < size) this.found.cut(place, bytes, size - COOKED, place);
    else addSent(this.found, bytes, place);
  }

  end() {
    for (const [sort, count] of this.others) {
      this.found.note(`left out: ${count} packet${count > 1 ? "s" : ""} of ${sort}`);
    }
  }
}

function fromPcap(source, packets) {
  source.take(24, "byte 0", "its header");
  const version = source.u16(4), linkType = source.u32(20) & 0x03ffffff;
  if (version !== 2) refuse(`byte 4: version ${version}.${source.u16(6)} of pcap`);
  source.each((begin, place) => {
    source.take(16, place, "the header of a packet");
    packets.take(source, place, linkType, source.u32(begin + 8), source.u32(begin + 12));
  });
}

// Takes the front of a section, which says the order of its numbers, and has no interfaces yet.
function takeSection(source, begin, place) {
  source.take(BEGINNING, place, "the header of a section");
  source.isLittle = SECTIONS[source.digits(begin + 8)];
  if (source.isLittle === undefined) refuse(`${place}: a section in no byte order`);
  const [major, minor] = [source.u16(begin + 12), source.u16(begin + 14)];
  return major === 1 ? [] : refuse(`${place}: version ${major}.${minor} of pcapng`);
}

// Hands out the numbers of eight bytes among options, as far as these are whole.
function eachNumber(source, begin, end, take) {
  for (let at = begin, next; end - at >= 4; at = next) {
    const code = source.u16(at), size = source.u16(at + 2);
    next = at + 4 + ((size + 3) & ~3);
    if (code === 0 || next > end) return;
    if (size === 8) take(code, source.u64(at + 4));
  }
}

// How many packets a block says were dropped: before its packet, or in all.
function dropsIn(source, kind, begin, end) {
  let count = 0n;
  if (kind === PACKET) {
    const drops = source.u16(begin + 2);
    return drops === UNCOUNTED ? count : BigInt(drops);
  }
  const options = kind === STATISTICS ? begin + LEAST_STATISTICS
    : begin + FRONTS[ENHANCED] + ((source.u32(begin + 12) + 3) & ~3);
  eachNumber(source, options, end, (code, number) => {
    if (kind === ENHANCED && code === DROPS) count = number;
    if (kind === STATISTICS && DROPPED.includes(code)) count += number;
  });
  return count;
}

// Notes the packets that a block says were dropped, beyond what is known of its interface. Some of
// them may have been for rtnetlink.
function noteDrops(source, found, interfaces, place, kind, begin, end) {
  const isStatistics = kind === STATISTICS && end - begin >= LEAST_STATISTICS;
  if (kind !== PACKET && kind !== ENHANCED && !isStatistics) return;
  const from = interfaces[kind === PACKET ? source.u16(begin) : source.u32(begin)];
  if (from?.linkType !== NETLINK) return;
  const count = dropsIn(source, kind, begin, end) - (isStatistics ? from.drops : 0n);
  if (count <= 0n) return;
  from.drops += count;
  const many = `${count} packet${count > 1n ? "s" : ""}`;
  found.note(`${place}: the capture says that ${many} were dropped`);
}

// Takes the body of a block, of which an interface is kept, and a packet looked at.
function takeBody(source, packets, interfaces, place, kind, size) {
  const begin = source.place, front = FRONTS[kind] ?? 0, whole = size + FRAME;
  if (size < front) refuse(`${place}: a block of ${whole} bytes, too short`);
  source.take(front, place, "a block");
  if (kind === INTERFACE) {
    interfaces.push({ linkType: source.u16(begin), longest: source.u32(begin + 4), drops: 0n });
  } else if (front > 0) {
    const isSimple = kind === SIMPLE, numberAt = kind === PACKET ? source.u16 : source.u32;
    const number = isSimple ? 0 : numberAt(begin), unknown = `the unknown interface ${number}`;
    const { linkType, longest } = interfaces[number] ?? refuse(`${place}: a packet of ${unknown}`);
    const length = source.u32(isSimple ? begin : begin + 16);
    const kept = isSimple ? Math.min(length, longest || length) : source.u32(begin + 12);
    if (kept > size - front) refuse(`${place}: ${kept} bytes of a packet in a block of ${whole}`);
    packets.take(source, place, linkType, kept, length);
  }
  source.take(size - (source.place - begin), place, "a block");
}

// Each section has interfaces of its own. A block that is damaged gives nothing.
function fromPcapng(source, packets) {
  let interfaces = [];
  source.each((begin, place) => {
    const { datagrams } = packets.found, before = datagrams.length;
    source.take(8, place, "the header of a block");
    const isSection = source.digits(begin) === SECTION;
    if (isSection) interfaces = takeSection(source, begin, place);
    const length = source.u32(begin + 4), size = length - FRAME - (isSection ? BEGINNING : 0);
    if (size < 0 || length % 4) refuse(`${place}: a block of ${length} bytes`);
    const kind = source.u32(begin), body = source.place;
    try {
      takeBody(source, packets, interfaces, place, kind, size);
      source.take(4, place, "a block");
      const isSame = source.u32(source.place - 4) === length;
      if (!isSame) refuse(`${place}: the lengths of a block differ`);
    } catch (error) {
      datagrams.length = before;
      throw error;
    }
    noteDrops(source, packets.found, interfaces, place, kind, body, body + size);
  });
}

// Each message of rtmon is taken as a datagram, with the bytes that align it.
function fromRtmon(source, { found }) {
  let time = "";
  source.each((begin, place) => {
    source.take(HEADER, place, "the header of a message");
    const length = source.u32(begin), kind = source.u16(begin + 4);
    if (length < HEADER || length > LONGEST) refuse(`${place}: a message of ${length} bytes`);
    source.take(((length + 3) & ~3) - HEADER, place, `a message of ${length} bytes`);
    if (kind === TIME && length === HEADER + 8) {
      const moment = new Date(1000 * source.u32(begin + 16)).toISOString().slice(0, 19);
      time = `, time ${moment}.${String(source.u32(begin + 20)).padStart(6, "0")}Z`;
    } else found.add(source.bytes.slice(begin, source.place), place + time);
  });
}

// What a file of bytes gives, of which the first message of rtmon is a time. One of no known form
// is taken for one datagram.
function fromFile(bytes) {
  const source = new Source(bytes), magic = source.digits(0), isTime = (isLittle) => {
    Object.assign(source, { isLittle });
    return bytes.length >= HEADER && source.u32(0) === HEADER + 8 && source.u16(4) === TIME;
  };
  const order = PCAP[magic] ?? [true, false].find(isTime);
  const [form, read] = magic in PCAP ? ["a pcap file", fromPcap]
    : magic === SECTION ? ["a pcapng file", fromPcapng] : order !== undefined
      ? ["an rtmon file", fromRtmon]
      : ["a datagram", () => found.add(bytes, "the whole file")];
  const found = new Found(form), packets = new Packets(found);
  source.isLittle = order;
  found.go(() => read(source, packets));
  packets.end();
  return found;
}

// Whether the bytes of rows begin as a packet of nlmon does. A datagram that begins so says that
// it has more bytes than any that is read, or has no type and no sequence number.
function areCooked(bytes) {
  const isFront = bytes.length >= COOKED && /^00..0338$/.test(new Source(bytes).digits(0));
  return isFront && bytes.subarray(4, COOKED - 2).every((byte) => byte === 0);
}
