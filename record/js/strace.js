// What strace wrote of a program: each datagram that it received from a socket for rtnetlink, or
// sent to one, of the rows behind a call (-e read=all -e write=all), or of a buffer in quotes that
// is whole and in hexadecimal (-xx -s 65536). Calls that only peek or fail are left out.

const RECEIVES = /^(?:recvmsg|recvfrom|recv|read|readv|recvmmsg)$/;
const SENDS = /^(?:sendmsg|sendto|send|write|writev|sendmmsg)$/;
// Calls of any file, which is known for a socket only by the call that opened it.
const PLAIN = /^(?:read|write)v?$/;
const FILES = /^(?:socket|close)$/, isMove = (name) => RECEIVES.test(name) || SENDS.test(name);
const CALL = /^(?:([a-z0-9_]+)\(|<\.\.\. ([a-z0-9_]+) resumed> ?)/;
const SOCKET = /^socket\([AP]F_NETLINK, [^,]*, (?:NETLINK_ROUTE|0)\)/;
const DESCRIPTOR = /^[a-z0-9_]+\(([0-9]+)(?:<NETLINK:\[(\w+))?/;
const IN_VECTOR = /iov_base=("[^"]*"(?:\.\.\.)?|.)/g;
const IN_ARGUMENT = /^[a-z0-9_]+\([0-9]+(?:<[^>]*>)?, *("[^"]*"(?:\.\.\.)?|.)/;
// How many bytes a buffer has that isn't in a vector.
const ROOM = /, ([0-9]{1,19}), (?:0|MSG_[A-Z_|]+)(?:\)|, (?:NULL|\{|0x))/g;
// What a call answers where no datagram waits, and where the kernel has dropped some.
const ERROR = /^-1 (E[A-Z]+)\b/, NONE_WAITS = "EAGAIN", NO_ROOM = "ENOBUFS";
const CUT = /msg_flags=(?:[A-Z_]+\|)*MSG_TRUNC\b/;
const UNFINISHED = "<unfinished ...>";
const withoutEnd = (text) => text.replace(/(?<! ) +$/, "");

// The call of a line, where it has one: the process, the name, the text, and whether another line
// begins it. In front of it stand the process, where there are many, and the time.
function partOf(line) {
  const end = line.indexOf("]"), isNamed = line.startsWith("[pid ");
  let text = !isNamed ? line : end < 0 ? "" : line.slice(end + 1);
  let process = isNamed ? line.slice(5, end).trim() : null;
  for (let step = 0; step < 2; step++) {
    text = text.replace(/^ +/, "");
    const [word] = text.split(" ", 1);
    if (!/^[0-9:.]+$/.test(word)) break;
    if (process === null && /^[0-9]+$/.test(word)) process = word;
    text = text.slice(word.length + 1);
  }
  const [front, whole, rest] = CALL.exec(text) ?? [], isRest = whole === undefined;
  if (isRest) text = text.slice(front?.length);
  return front && { process, name: whole ?? rest, text, isRest };
}

// What stands of a call that another line ends; or what one answered that ends here; or neither.
function endOf(line) {
  const text = withoutEnd(line), at = line.lastIndexOf(" = ");
  const other = text.lastIndexOf("strace: Process ");
  if (text.endsWith(UNFINISHED)) return { begun: withoutEnd(text.slice(0, -UNFINISHED.length)) };
  const isOther = other >= 0 && /^strace: Process [0-9]+ attached$/.test(text.slice(other));
  if (isOther) return { begun: text.slice(0, other) };
  const isEnded = at >= 0 && withoutEnd(line.slice(0, at)).endsWith(")");
  return isEnded ? { result: /^[^ <]*/.exec(line.slice(at + 3))[0] } : {};
}

// The buffers in quotes that a call names; none where one is printed as fields.
function quotedIn(text) {
  const isVector = text.includes("iov_base="), one = IN_ARGUMENT.exec(text)?.[1];
  const found = isVector ? Array.from(text.matchAll(IN_VECTOR), (it) => it[1]) : one ? [one] : [];
  return found.every((it) => it[0] === '"') ? found : [];
}

function unquoted(buffer, place) {
  if (buffer.endsWith("...")) refuse(`${place}: strace cut the bytes off; run it with -s 65536`);
  const isHex = /^"(?:\\x[0-9a-f]{2})*"$/.test(buffer);
  if (!isHex) refuse(`${place}: the bytes are not in hexadecimal; run strace with -xx`);
  return bytesOf(buffer.slice(1, -1).replaceAll("\\x", ""), place);
}

// The calls of a trace, line by line.
class Trace {
  constructor(found) {
    Object.assign(this, { found, begun: new Map(), sockets: new Map(), last: null });
    Object.assign(this, { count: 0, silent: 0 });
    // The sockets of which the kernel dropped messages, and the lines that say so.
    this.drops = new Map();
  }

  // Takes a line, which ends the datagram before it where it is no row of it.
  line(line, number) {
    const isRow = line.startsWith(" | ");
    if (line.startsWith(" * ") || (isRow && !this.last)) return;
    if (isRow) return void this.row(line.slice(3), `line ${number}`);
    this.found.go(() => this.end());
    const part = partOf(line), isOurs = FILES.test(part?.name) || isMove(part?.name);
    if (isOurs) this.take(part, number);
  }

  // The bytes of a row, which go behind those before it. Each buffer begins at place 0.
  row(text, line) {
    const { last } = this, [, place, rest = ""] = /^(.*?) {2}(.*)$/s.exec(text) ?? [];
    const bytes = groupsOf(rest.slice(0, 48).trim().replace("  ", " "));
    const offset = parseInt(place, 16);
    const isRow = bytes && /^ *[0-9a-fA-F]+$/.test(place) && rest.slice(48, 50) === "  ";
    this.last = null;
    if (!isRow || !isTextOf(rest.slice(50, -2), bytes)) refuse(`${line}: no row of bytes`);
    if (offset === 0) last.begin = last.size;
    const isNext = last.begin + offset === last.size;
    if (!isNext) refuse(`${line}: a row is missing before the one of place ${place}`);
    last.pieces.push(bytes);
    last.size += bytes.length;
    this.last = last;
  }

  // A call, the beginning of one, or the rest of one.
  take({ name, process, text, isRest }, number) {
    const before = isRest ? this.beginning(name, process) : "", { begun, result } = endOf(text);
    if (before === undefined) {
      if (PLAIN.test(name) || FILES.test(name)) return;
      refuse(`line ${number}: the beginning of this ${name} isn't known`);
    }
    if (result !== undefined) this.ended(process, name, before + text, number, result);
    else if (begun === undefined) refuse(`line ${number}: the end of this ${name} is missing`);
    else {
      if (!this.begun.has(name)) this.begun.set(name, new Map());
      this.begun.get(name).set(process, before + begun);
    }
  }

  // What stands before this. strace names no process where only one is left.
  beginning(name, process) {
    const waiting = this.begun.get(name) ?? new Map();
    const alone = process === null && waiting.size === 1 ? waiting.keys() : [];
    const key = [process, null, ...alone].find((it) => waiting.has(it)), text = waiting.get(key);
    waiting.delete(key);
    return text;
  }

  // Whether a call is of a socket for rtnetlink, as far as the trace says. A file is known by the
  // process and its number, and by that alone, since a thread or a child may have it from another
  // process.
  isRoute(name, text, keys, protocol = "0") {
    const known = this.sockets.get(keys[0]) ?? this.sockets.get(keys[1]);
    const isLike = !PLAIN.test(name) && /AF_NETLINK|nlmsg_len=/.test(text);
    return /^[0-9]+$/.test(protocol) ? known ?? isLike : protocol === "ROUTE";
  }

  // A whole call, which answered this.
  ended(process, name, text, number, result) {
    const [, file, protocol] = DESCRIPTOR.exec(text) ?? [], isMany = name.endsWith("mmsg");
    const keys = [`${process} ${file}`, `${file}`];
    const isRoute = isMove(name) && this.isRoute(name, text, keys, protocol);
    if (!/^[0-9]{1,19}$/.test(result)) {
      if (isRoute && RECEIVES.test(name)) this.failed(text, number, file);
    } else if (name === "socket") {
      for (const key of [`${process} ${result}`, result]) this.sockets.set(key, SOCKET.test(text));
    } else if (name === "close") {
      this.noteDrops(file);
      for (const key of keys) this.sockets.delete(key);
    } else if (result !== "0" && !text.includes("MSG_PEEK")) {
      if (isRoute && isMany) refuse(`line ${number}: datagrams of ${name} are not taken`);
      const call = { number, name, text, moved: Number(result), pieces: [], size: 0, begin: 0 };
      this.last = isRoute ? call : null;
    }
  }

  // A call that failed. The kernel says that it drops messages in front of those that wait, and
  // drops until all of them are received.
  failed(text, number, file) {
    const [, error] = ERROR.exec(text.slice(text.lastIndexOf(" = ") + 3)) ?? [];
    if (error === NONE_WAITS || error === NO_ROOM) this.noteDrops(file);
    if (error === NO_ROOM) this.drops.set(file, number);
  }

  // Notes what was dropped of a socket, if some was.
  noteDrops(file) {
    const number = this.drops.get(file), isKnown = this.drops.delete(file);
    if (isKnown) this.found.note(`line ${number}: the kernel dropped messages for the program`);
  }

  // The datagram of the last call.
  end() {
    const { number, name, text, moved, pieces } = this.last ?? {}, place = `line ${number}`;
    if (!this.last) return;
    this.last = null;
    this.count += 1;
    const quoted = quotedIn(text), isThere = pieces.length > 0 || quoted.length > 0;
    const way = SENDS.test(name) ? "sent" : "received", from = `${place}, ${way}`;
    if (way === "sent" && !isThere) return void (this.silent += 1);
    if (!isThere) refuse(`${place}: strace printed no bytes; run it with -e read=all`);
    const bytes = joined(pieces.length ? pieces : quoted.map((it) => unquoted(it, place)));
    const room = /^recv(?:from)?$/.test(name) ? Number([...text.matchAll(ROOM)].at(-1)?.[1]) : NaN;
    if (room < moved) this.found.cut(place, bytes.slice(0, room), moved, from);
    else if (way === "received" && CUT.test(text)) {
      this.found.cut(place, bytes, bytes.length < moved ? moved : null, from);
    } else if (bytes.length === moved && way === "sent") addSent(this.found, bytes, from);
    else if (bytes.length === moved) this.found.add(bytes, from);
    else refuse(`${place}: ${moved} bytes were ${way}, and ${bytes.length} of them are here`);
  }
}

const isTrace = (lines) => lines.some((line) => /[(<]/.test(line) && isMove(partOf(line)?.name));

function fromTrace(lines, found) {
  const trace = new Trace(found);
  lines.forEach((line, at) => found.go(() => trace.line(line, at + 1)));
  found.go(() => trace.end());
  for (const file of [...trace.drops.keys()]) trace.noteDrops(file);
  const silent = `${trace.silent} sent datagrams, of which strace printed no bytes`;
  if (trace.silent > 0) found.note(`left out: ${silent}; run it with -e write=all`);
  if (trace.count === 0) found.note("no datagram of a socket for rtnetlink");
}
