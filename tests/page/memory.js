// memory.js PAGE: the module of a built page where its memory may grow to so many pages and no
// further, so that each growth is refused in turn. A block lies in the memory, keeps its bytes, or
// is refused; what is read of a recording is what is read without a limit, or "out of memory" is
// said. The status is 1 where one of this is not so.
"use strict";
const assert = require("assert"), fs = require("fs");
const { ROOT, decoder, moduleOf } = require("./scripts.js");

const { Library, Recording, Damage, foundIn, tableOf, dumpsOf } = decoder(
  "Library", "Recording", "Damage", "foundIn", "tableOf", "dumpsOf");
const MEMORY = 5, PAGE = 65536, MOST = 4096; // a section's number; bytes; pages of the page's own
const SIZES = [100, 40000, 100000, 1000, 1 << 20, 1 << 24, 1 << 26, 1 << 28, 2 ** 31, 2 ** 32];
const EXAMPLES = ["links", "routes"].map((it) => `${ROOT}/examples/${it}.hex`);

// The module with another limit for its memory, in the bytes that its own has; and how many pages
// it begins with.
function limited(code, most) {
  const changed = Uint8Array.from(code);
  let at = 8;
  const number = () => {
    for (let value = 0, shift = 0; ; shift += 7) {
      value |= (changed[at] & 127) << shift;
      if (changed[at++] < 128) return value;
    }
  };
  for (let section = changed[at++], size = number(); section !== MEMORY;) {
    at += size;
    [section, size] = [changed[at++], number()];
  }
  const [count, isLimited, least, begin] = [number(), number(), number(), at];
  assert(count === 1 && isLimited === 1 && number() === MOST, "one memory with its limit");
  for (let it = begin, left = most; it < at; it++, left >>= 7) {
    changed[it] = (left & 127) | (it < at - 1 ? 128 : 0);
  }
  return { changed, least };
}

const begun = (code) => new WebAssembly.Instance(new WebAssembly.Module(code), {}).exports;

// Takes blocks, and answers how many were refused.
function blocks({ malloc, free, memory }) {
  const taken = SIZES.map((size) => [Number(malloc(BigInt(size))), size]);
  const held = taken.filter(([at]) => at !== 0), bytes = () => new Uint8Array(memory.buffer);
  held.forEach(([at, size], sign) => {
    assert(at + size <= memory.buffer.byteLength, `a block of ${size} bytes lies in the memory`);
    bytes().fill(sign + 1, at, at + size);
  });
  held.forEach(([at, size], sign) => {
    const isKept = bytes().subarray(at, at + size).every((byte) => byte === sign + 1);
    assert(isKept, `a block of ${size} bytes keeps them`);
    free(BigInt(at));
  });
  for (const [at, size] of held) assert.equal(Number(malloc(BigInt(size))), at, "taken again");
  return taken.length - held.length;
}

// All that is read of a recording: its text, its JSON, its nodes and its tables.
function read(library, text) {
  const recording = new Recording(library, foundIn(text, false), "auto");
  const nodes = recording.datagrams.map((it) => recording.nodes(it).length);
  const tables = dumpsOf(recording).dumps.map((it) => tableOf(recording, it));
  return JSON.stringify([recording.text(false), recording.text(true), nodes, tables]);
}

// The same in a memory of so many pages, or null where that is too small.
function readIn(code, most, text) {
  try {
    return read(new Library(begun(limited(code, most).changed)), text);
  } catch (error) {
    assert(error instanceof Damage && error.message === "out of memory", error);
    return null;
  }
}

// The answers of a dump of so many links, each with its index alone.
function manyLinks(count) {
  const hex = (index) => Buffer.from([index & 255, index >> 8, 0, 0]).toString("hex");
  const linkOf = (index) => `20000000100002000100000000000000${"0".repeat(8)}${hex(index)}`;
  const links = Array.from({ length: count }, (_, at) => linkOf(at + 1) + "0".repeat(16));
  return links.join("\n");
}

// Answers how many memories were too small for a recording.
function tooSmall(code, least, text) {
  const wanted = read(new Library(begun(code)), text);
  let most = least, found = null;
  while ((found = readIn(code, most, text)) === null) most++;
  assert.equal(found, wanted, `${text.slice(0, 80)} in ${most} pages`);
  return most - least;
}

function recordings(code, least) {
  const texts = EXAMPLES.map((path) => fs.readFileSync(path, "latin1"));
  const refused = [...texts, manyLinks(2000)].map((text) => tooSmall(code, least, text));
  assert(Math.min(...refused) > 0 && Math.max(...refused) > 4, `too small: ${refused}`);
}

// What was refused is forgotten: the next datagram is read, and is not taken for an empty one.
function refusedArea(code) {
  const library = new Library(begun(code)), bytes = Uint8Array.from([20, ...Array(19).fill(0)]);
  const wanted = library.show(1, bytes, false);
  assert(wanted.includes("datagram 1 bytes 20"), wanted);
  for (const size of [1 << 28, 1 << 30]) {
    assert.throws(() => library.area("bytes", size), Damage);
    assert.equal(library.show(1, bytes, false), wanted);
  }
}

// The options of both orders have a seed of their own for each module, and nothing behind it, also
// where other bytes stood.
function seeds(code) {
  const found = [1, 2].flatMap(() => {
    const calls = begun(code), block = (size) => Number(calls.malloc(BigInt(size)));
    const taken = [8, 40, 40, 100].map((size) => [block(size), size]);
    for (const [at, size] of taken) new Uint8Array(calls.memory.buffer, at, size).fill(0xa5);
    for (const [at] of taken) calls.free(BigInt(at));
    const { limits } = new Library(calls);
    return limits.map((at) => Buffer.from(calls.memory.buffer, Number(at), 40).toString("hex"));
  });
  const standard = (order) => `00000040000000000000010000100000080${order}`;
  found.forEach((it, at) => {
    assert.equal(it.slice(0, 36), standard(at % 2), "the limits and the order");
    assert.equal(it.slice(68), "00".repeat(6), "nothing is behind the seed");
  });
  const own = new Set(found.map((it) => it.slice(36, 68)));
  assert.equal(own.size, 4, `seeds that are the same: ${[...own]}`);
}

function blocksRefused(code, least) {
  let refusals = 0;
  for (let most = least; most < least + 40; most++) {
    refusals += blocks(begun(limited(code, most).changed));
  }
  assert(refusals > 40, `${refusals} blocks were refused`);
  assert.equal(blocks(begun(code)), 3, "those above the page's limit are refused");
}

const code = moduleOf(process.argv[2]), { least } = limited(code, MOST);
blocksRefused(code, least);
refusedArea(code);
recordings(code, least);
seeds(code);
