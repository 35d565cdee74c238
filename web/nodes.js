// The nodes of a datagram's tree, in the order of their places: what the library's tape says of
// where each head stands, beside the line that its text has of it.

const RULES = ["", "a head is whole", "a length counts its head, and is at most the bytes left",
  "a body begins with the whole head of its type",
  "an attribute that holds others has at most 65532 bytes",
  "attributes are nested at most as deep as the limit"];
const BODIES = { 1: "link", 3: "addr", 4: "route", 6: "neigh", 7: "rule" }; // by their context
// What a byte is of.
const PAYLOAD = 0, HEAD_BYTE = 1, PADDING = 2, UNKNOWN = 3, BAD = 4, UNREAD = 5;
const headSize = (sort) => (sort === MESSAGE ? 16 : sort === NEXT_HOP ? 8 : 4);
// 1 for a datagram, 2 for a message, 3 for what its body begins with and for its attributes.
const levelOf = ({ sort, level }) => (sort === MESSAGE ? 2 : 3 + level);

// A line of the text in parts: a name, a value, and what is said beside them.
function partsOf(line) {
  const [word, number, name, flags, form, ...rest] = line.trimStart().split(" ");
  const named = rest[0] === "-" ? form : rest[0], said = flags === "-" ? form : `${form} ${flags}`;
  if (word === "attr") return { name, value: rest.join(" "), rest: `${said} (${number})` };
  if (word !== "message") return { name: word, rest: line.trimStart().slice(word.length + 1) };
  return { name, rest: `type ${number} flags ${named} ${rest.slice(1).join(" ")}` };
}

// A node has a line (name, value, rest), a level, a kind ("", "body", "unknown", "unfinished" or
// "fault"), the offsets where its head, its payload, its padding and what follows begin (place,
// past, end, next), its parent and its position there, and how many nodes it holds (inner).
class Nodes {
  constructor(library, datagram) {
    Object.assign(this, { library, datagram, list: [], open: [], inside: [], messages: 0 });
    const { bytes, big, number, code, from } = datagram, events = library.events(bytes, big);
    const broken = () => library.answer(BROKEN, "rtnlc_broken", ...library.given(bytes, big));
    const fault = code === OK ? null : broken(), lines = this.lines(events, fault);
    const size = bytes.length, drawn = size > DATAGRAM ? `the first ${DATAGRAM} drawn, ` : "";
    const name = `datagram ${number}`, rest = `${size} bytes, ${drawn}${from}`;
    this.put({ name, rest }, 1, 0, 0, size);
    let next = 0;
    for (const event of events) {
      this.putHead(event, lines[next++]);
      if (event.sort === MESSAGE) this.putBody(event, lines[next++]);
    }
    if (fault) this.putFault(fault);
    while (this.open.length > 0) this.close(0);
  }

  // The lines of the messages that are whole: where the fault lies in one, of those before it.
  lines(events, fault) {
    const { bytes, big, number } = this.datagram, isInside = fault && fault.sort !== MESSAGE;
    const last = isInside ? events.findLast(({ sort }) => sort === MESSAGE) : fault;
    const front = bytes.subarray(0, last?.place);
    return front.length ? this.library.show(number, front, big).split("\n").slice(1, -1) : [];
  }

  // Puts a node behind the others: inside of the last one of a lower level.
  put({ name, value = "", rest = "" }, level, place, past, end, kind = "") {
    const { open, list } = this, index = list.length, own = { name, value, rest, level, kind };
    while (open.length > 0 && open[open.length - 1].level >= level) this.close(level, place);
    const parent = open.length > 0 ? open[open.length - 1] : null;
    const position = parent ? (parent.inner += 1) : this.datagram.number;
    const where = { place, past, end, next: end, index, parent, position, inner: 0, named: "" };
    const node = Object.assign(own, where);
    list.push(node);
    open.push(node);
    return node;
  }

  // Closes the last open node. Its padding goes up to what is behind it at its level, or else to
  // the end of the node around it.
  close(level, behind) {
    const node = this.open.pop(), { parent } = node;
    if (parent) node.next = level === node.level ? behind : Math.max(parent.end, node.end);
    if (node.kind === "body") node.past = node.end = node.next;
  }

  // The kernel's name of a type or an attribute. What is in it stands in its context.
  nameOf({ sort, number, level, nested }) {
    const { inside, library } = this, own = inside[level], isMessage = sort === MESSAGE;
    const contextOf = (struct, ...call) => library.answer(struct, ...call).context;
    const held = () => contextOf(HOLDS, "rtnlc_holds", own, number, nested);
    if (isMessage) inside[0] = contextOf(FAMILY, "rtnlc_family_of", number);
    else if (sort >= LIST) inside[level + 1] = sort === NEXT_HOP ? own : held();
    this.messages += Number(isMessage);
    return sort === NEXT_HOP ? "" : library.name(isMessage ? null : own, number);
  }

  // A head, with its line; where the library has none, with its name and the digits of its bytes.
  putHead(event, line) {
    const { sort, number, place, len } = event, past = place + headSize(sort), end = past + len;
    const name = this.nameOf(event), isAttr = sort !== MESSAGE && sort !== NEXT_HOP;
    const named = line && this.datagram.code === OK ? "" : this.named(event, name);
    const parts = line ? partsOf(line) : { name: name || named, rest: `(${number})` };
    if (parts.name === "-") parts.name = name || `attribute ${number}`;
    if (!line && isAttr && sort < LIST) {
      parts.value = Array.from(this.datagram.bytes.subarray(past, end), hex).join("");
      parts.rest = `hex (${number})`;
    }
    const kind = isAttr && name === "" ? "unknown" : "";
    this.put(parts, levelOf(event), place, past, end, kind).named = named;
  }

  // A head in the words of `--explain`.
  named({ sort, number }, name) {
    if (sort === MESSAGE) return `message ${this.messages} ${name || `of type ${number}`}`;
    return sort === NEXT_HOP ? "next hop" : `attribute ${number}${name && ` ${name}`}`;
  }

  putBody({ place, len }, line) {
    const parts = line ? partsOf(line) : { name: BODIES[this.inside[0]] };
    const begin = place + headSize(MESSAGE);
    this.put(parts, 3, begin, begin, begin + len, "body");
  }

  // The head at the first fault, with what `--explain` says of it.
  putFault(fault) {
    const { code, place, sort, level, len, left, whole } = fault, isMessage = sort === MESSAGE;
    const reason = `refused ${this.library.string("rtnlc_code_name", code)}`, way = [];
    const size = this.datagram.bytes.length, rest = `${size} bytes, and the limit is ${DATAGRAM}`;
    if (code === TOO_LARGE) return void this.put({ name: reason, rest }, 2, 0, 0, 0, "fault");
    const known = this.named(fault, this.nameOf(fault));
    const plain = known.replace(/^(\w+) \d.*/, "$1");
    const what = whole ? known : isMessage ? `message ${this.messages}` : plain;
    const length = whole ? ` of length ${len}` : "", at = isMessage ? "" : ` at level ${level}`;
    const name = `${reason} at ${place}`, end = place + Math.min(headSize(sort), left);
    const node = this.put({ name }, levelOf(fault), place, end, end, "fault");
    for (let it = node.parent; it.parent; it = it.parent) {
      it.kind = "unfinished";
      way.unshift(`${it.named} at ${it.place}`);
    }
    const inside = way.length ? `, in ${way.join(", ")}` : "";
    node.rest = `${RULES[code]}: ${what}${at}${length}, ${left} bytes left${inside}`;
  }
}

// The bytes of a datagram that are drawn: of one above the limit none is read.
const drawnOf = ({ bytes }) => bytes.slice(0, DATAGRAM);

// What each of so many bytes of a datagram is of.
function painted(nodes, size) {
  const kinds = new Uint8Array(size);
  for (const { place, past, end, next, kind } of nodes) {
    const isFault = kind === "fault", [front, to] = isFault ? [BAD, size] : [HEAD_BYTE, end];
    const rest = isFault ? UNREAD : kind === "unknown" ? UNKNOWN : PAYLOAD;
    kinds.fill(front, place, past).fill(rest, past, to).fill(PADDING, to, Math.max(to, next));
  }
  return kinds;
}

// The innermost node that a byte belongs to. A fault has all that follow.
function ownerOf(nodes, at) {
  const isIn = ({ place, next, kind }) => place <= at && (kind === "fault" || at < next);
  return nodes.findLast(isIn) ?? nodes[0];
}
