// Whatever a reader hands in: which form it has, and the datagrams in it. Each form is read as far
// as rtnl-record reads it; a line that is none of it is noted, and the rest is read.

// Bytes of a datagram and of a text at most; those of another file are the page's LONGEST_FILE.
const LONGEST = 1 << 20, LONGEST_TEXT = 1 << 24;
const MOST_DATAGRAMS = 1 << 18, MOST_NOTES = 20;
const valueOf = (digit) => [digit.charCodeAt(0), parseInt(digit, 16)];
const DIGITS = new Map([..."0123456789abcdefABCDEF"].map(valueOf));

// Why a line isn't taken, or a file can't be read further, with the place. It is no Error, since
// each of these notes the calls that lead to it, and a text may have a million bad lines.
class Damage {
  constructor(message) {
    this.message = message;
  }
}

function refuse(why) {
  throw new Damage(why);
}

// What an input gives: datagrams, each with where it comes from, and what there is to say.
class Found {
  constructor(form) {
    Object.assign(this, { form, datagrams: [], notes: [], more: 0 });
  }

  note(text) {
    if (this.notes.length < MOST_NOTES) this.notes.push(text);
    else this.more += 1;
  }

  add(bytes, from) {
    const isFull = this.datagrams.length === MOST_DATAGRAMS;
    if (isFull) refuse(`${from}: more datagrams than ${MOST_DATAGRAMS}`);
    if (bytes.length > 0) this.datagrams.push({ bytes, from });
    else this.note(`${from}: a datagram of 0 bytes`);
  }

  // A datagram of which only the front is there, and its size, where that is known.
  cut(place, bytes, size, from) {
    const part = `${bytes.length} ${size === null ? "bytes of a longer one" : `of ${size} bytes`}`;
    this.add(bytes, `${from}, cut: ${part}`);
    this.note(`${place}: the datagram was cut: ${part} are recorded`);
  }

  // Takes a step. Damage that it meets is noted.
  go(step) {
    try {
      step();
    } catch (error) {
      if (!(error instanceof Damage)) throw error;
      this.note(error.message);
    }
  }
}

function joined(pieces) {
  const whole = new Uint8Array(pieces.reduce((sum, { length }) => sum + length, 0));
  pieces.reduce((at, piece) => (whole.set(piece, at), at + piece.length), 0);
  return whole;
}

// The bytes of digits with blanks between them.
function bytesOf(digits, place) {
  const bytes = new Uint8Array(digits.length >> 1);
  let count = 0;
  for (let at = 0; at < digits.length; at++) {
    const code = digits.charCodeAt(at), value = DIGITS.get(code);
    if (value !== undefined) bytes[count >> 1] = (bytes[count++ >> 1] << 4) | value;
    else if (code !== 0x20 && code !== 0x09 && code !== 0x0d) {
      refuse(`${place}, column ${at + 1}: “${digits[at]}” is no hexadecimal digit`);
    }
  }
  if (count & 1) refuse(`${place}: ${count} digits, an odd number`);
  return bytes.subarray(0, count >> 1);
}

// A recording: each line is a datagram, and a comment in front of one says what is known of it.
function fromLines(lines, found) {
  let said = "";
  lines.forEach((line, at) => found.go(() => {
    const place = `line ${at + 1}`, from = place + said;
    said = line[0] === "#" ? `, ${line.slice(1, 80).trim()}` : "";
    if (!said && !/^[ \t\r]*$/.test(line)) found.add(bytesOf(line, place), from);
  }));
}

// The text of a file: in UTF-8, or else with a sign for each byte.
function textOf(bytes) {
  try {
    return new TextDecoder("utf-8", { fatal: true }).decode(bytes);
  } catch {
    return new TextDecoder("latin1").decode(bytes);
  }
}

// The lines of a text, without the carriage returns in front of their ends. A last one without an
// end is a line too.
function linesOf(text) {
  const lines = text.split("\n"), last = lines.pop(), ended = lines.map((line) => {
    let end = line.length;
    while (end > 0 && line[end - 1] === "\r") end--;
    return line.slice(0, end);
  });
  return last === "" && ended.length > 0 ? ended : [...ended, last];
}

// What a text or the bytes of a file give. Numbers that hexdump prints are those of a machine.
function foundIn(input, isBig) {
  const isText = typeof input === "string" || !input.subarray(0, 4096).some((byte) => byte < 9);
  const most = isText ? LONGEST_TEXT : LONGEST_FILE;
  if (input.length > most) refuse(`the input is longer than ${most} bytes`);
  if (!isText) return fromFile(input);
  const text = typeof input === "string" ? input : textOf(input);
  const lines = linesOf(text);
  const [form, read] = isTrace(lines) ? ["a trace of strace", fromTrace]
    : areRows(lines) ? ["rows of a hexadecimal dump", fromRows]
      : ["lines of hexadecimal", fromLines];
  const found = new Found(form);
  read(lines, found, isBig);
  return found;
}
