// The calls of rtnlc.h, on the memory of their WebAssembly module. What is read there are the
// answers of calls; the bytes of a datagram are only put there.

const MESSAGE = 0, LIST = 2, NEXT_HOP = 4; // enum rtnlc_sort
const OK = 0, TOO_LONG = 4, TOO_DEEP = 5, TOO_LARGE = 6, NO_MEMORY = 13; // enum rtnlc_code
const DATAGRAM = 65536, EVENT = 16; // the standard limit; the bytes of a struct rtnlc_event
const OPTIONS = 40, SEED = [18, 16]; // the bytes of a struct rtnlc_options, and its seed in them
const BLOCK_HEAD = 16; // what heap.c has in front of each block, which has a power of two of bytes
const GET = { 1: "getUint8", 2: "getUint16", 4: "getUint32", 8: "getBigUint64", [-4]: "getInt32" };

// A struct of the header: its fields in order, each with its bytes, below zero where it is signed.
function structOf(fields) {
  let end = 0;
  return fields.split(", ").map((field) => {
    const [name, width] = field.split(" "), size = Math.abs(width);
    end = Math.ceil(end / size) * size + size;
    return [name, end - size, GET[width]];
  });
}

const TAPED = structOf("count 8, visits 8, place 4, code 1"), PUT = structOf("len 8, code 1");
const HEAD = structOf("place 4, next 4, len 4, seq 4, port 4, kind 2, flags 2, code 1");
const BROKEN = structOf("place 4, len 4, left 4, number 2, level 1, sort 1, whole 1, code 1");
const FAMILY = structOf("headSize 1, context 1"), HOLDS = structOf("sort 1, context 1");
const FED = structOf("events 8, items 4, ignored 4, place 4, ended 1, code 1");
const STATUS = structOf("received 8, visits 8, ignored 8, seq 4, port 4, status -4, kind 2, "
  + "family 1, state 1, damaged 1, interrupted 1, complete 1, code 1");
const TABLE = structOf("missed 8, count 4, limit 4, code 1");

class Library {
  constructor(calls) {
    Object.assign(this, { calls, areas: {}, known: new Map() });
    this.session = BigInt(this.area("session", 8));
    this.view().setBigUint64(Number(this.session), 0n, true);
    this.limits = ["little", "big"].map((name, order) => {
      const at = this.area(name, OPTIONS), view = this.view(), [seedAt, seed] = SEED;
      new Uint8Array(this.calls.memory.buffer, at, OPTIONS).fill(0);
      crypto.getRandomValues(new Uint8Array(this.calls.memory.buffer, at + seedAt, seed));
      view.setBigUint64(at, 1n << 30n, true);
      [DATAGRAM, 4096].forEach((limit, index) => view.setUint32(at + 8 + 4 * index, limit, true));
      [8, order].forEach((limit, index) => view.setUint8(at + 16 + index, limit));
      return BigInt(at);
    });
  }

  view() {
    return new DataView(this.calls.memory.buffer);
  }

  refuseMemory() {
    this.isFull = true;
    refuse("out of memory");
  }

  // An area of the module's memory, as large as was ever asked for. What was in it may be lost.
  area(name, size) {
    const { [name]: area = { at: 0, size: -1 } } = this.areas;
    if (size <= area.size) return area.at;
    let whole = 2 * BLOCK_HEAD;
    while (whole < size + BLOCK_HEAD) whole *= 2;
    delete this.areas[name];
    this.calls.free(BigInt(area.at));
    const room = whole - BLOCK_HEAD, at = Number(this.calls.malloc(BigInt(room)));
    if (at === 0) this.refuseMemory();
    this.areas[name] = { at, size: room };
    return at;
  }

  // Makes a call, and reads the struct that it answers. Pointers and sizes are of 64 bits. A call
  // that had no memory has done nothing.
  answer(struct, name, ...words) {
    const at = this.area("answer", 64);
    this.calls[name](BigInt(at), ...words);
    const view = this.view(), valueOf = (by, get) => Number(view[get](at + by, true));
    const found = Object.fromEntries(struct.map(([field, by, get]) => [field, valueOf(by, get)]));
    return found.code === NO_MEMORY ? this.refuseMemory() : found;
  }

  // The words of a call for a datagram, which is put into the memory, and for the limits.
  given(bytes, big) {
    const at = this.area("bytes", bytes.length);
    new Uint8Array(this.calls.memory.buffer).set(bytes, at);
    return [BigInt(at), BigInt(bytes.length), this.limits[Number(big)]];
  }

  // What a call puts that says how many bytes it has, also where there is less room.
  put(name, ...words) {
    const at = this.area("out", this.areas.out?.size ?? DATAGRAM), { size } = this.areas.out;
    const { len, code } = this.answer(PUT, name, ...words, BigInt(at), BigInt(size));
    if (len <= size) return new Uint8Array(this.calls.memory.buffer, at, code === OK ? len : 0);
    this.area("out", len);
    return this.put(name, ...words);
  }

  // What `rtnl show` prints of a datagram of this number, as text or as JSON.
  show(number, bytes, big, isJson = false) {
    const name = isJson ? "rtnlc_show_json" : "rtnlc_show";
    return TEXT.decode(this.put(name, BigInt(number), ...this.given(bytes, big)));
  }

  // Whether a datagram is accepted, or where its fault is; and where the events are of its heads.
  taped(bytes, big) {
    const most = Math.min(bytes.length, DATAGRAM) >> 2;
    const at = this.area("events", EVENT * (most + 1));
    const words = [...this.given(bytes, big), BigInt(at), BigInt(most)];
    return { ...this.answer(TAPED, "rtnlc_tape", ...words), at };
  }

  // How many heads there are before the fault, and how many of them are those of messages. The
  // event of a container that is too long or too deep stands behind them.
  survey(bytes, big) {
    const { code, place, count, at } = this.taped(bytes, big), view = this.view();
    const heads = code === TOO_LONG || code === TOO_DEEP ? count - 1 : count;
    let messages = 0;
    for (let it = 0; it < count; it++) messages += view.getUint8(at + EVENT * it + 11) === MESSAGE;
    return { code, place, messages, heads };
  }

  // The events of the heads before the fault.
  events(bytes, big) {
    const { code, place, count, at: begin } = this.taped(bytes, big), view = this.view();
    return Array.from({ length: count }, (_, index) => {
      const at = begin + EVENT * index, byte = (by) => view.getUint8(at + by);
      const [here, len] = [view.getUint32(at, true), view.getUint32(at + 4, true)];
      const number = view.getUint16(at + 8, true), [level, sort, nested] = [10, 11, 12].map(byte);
      return { place: here, len, number, level, sort, nested };
    }).filter((event) => code === OK || event.place < place);
  }

  // Each message of a datagram, up to one that breaks a rule.
  * messages(bytes, big) {
    const [at, size] = this.given(bytes, big);
    const headAt = (place) => this.answer(HEAD, "rtnlc_message_at", at, size, place, Number(big));
    for (let head = headAt(0); head.code === OK; head = headAt(head.next)) yield head;
  }

  // The kernel's name of an attribute, or of a type of messages; what was asked before is kept.
  name(context, number) {
    const key = `${context} ${number}`, isType = context === null;
    const call = isType ? ["rtnlc_type_name", number] : ["rtnlc_attr_name", context, number];
    if (!this.known.has(key)) this.known.set(key, TEXT.decode(this.put(...call)));
    return this.known.get(key);
  }

  // A string of the library's own.
  string(name, ...words) {
    const at = Number(this.calls[name](...words));
    const bytes = new Uint8Array(this.calls.memory.buffer);
    return TEXT.decode(bytes.slice(at, bytes.indexOf(0, at)));
  }
}
