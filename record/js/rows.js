// Dumps in hexadecimal, with the offset in front of each row and with the text beside it or not:
// of xxd, hexdump, hexdump -C, Wireshark, tshark and Go. Offset 0 begins a new datagram.

const ROW = /^\s*([0-9A-Fa-f]{4,16}):?(?:\s+|$)(.*)$/s;
// hexdump alone has an offset of seven digits, and numbers of two bytes.
const WORDS = /^\s*([0-9A-Fa-f]{7})((?: [0-9A-Fa-f]{4})*) *$/;
const HALF = 23, MOST_SAME = 1 << 24; // the width of eight bytes; bytes that are left out in all

// A text without the blanks at its ends. A pattern would look at a run of blanks within it again
// from each of them.
function trimmed(text) {
  let begin = 0, end = text.length;
  while (begin < end && text[begin] === " ") begin++;
  while (end > begin && text[end - 1] === " ") end--;
  return text.slice(begin, end);
}

// Whether the text beside a row is that of its bytes: any sign for what isn't printable.
function isTextOf(text, bytes) {
  const isFramed = /^\|.*\|$/su.test(text) && [...text].length === bytes.length + 2;
  const signs = [...(isFramed ? text.slice(1, -1) : trimmed(text))];
  let begin = 0, end = bytes.length;
  while (!isFramed && begin < end && bytes[begin] === 0x20) begin++;
  while (!isFramed && end > begin && bytes[end - 1] === 0x20) end--;
  const isOf = (sign, byte) => byte < 0x20 || byte > 0x7e || sign === String.fromCharCode(byte);
  return signs.length === end - begin && signs.every((sign, at) => isOf(sign, bytes[begin + at]));
}

// The digits of a row and the text beside them, told apart by a gap. There may be another gap
// behind the first eight bytes.
function readings(rest) {
  const gap = / {2,}/g, one = gap.exec(rest), end = gap.lastIndex, two = one && gap.exec(rest);
  if (!one) return [[rest, ""]];
  const digits = `${rest.slice(0, HALF)} ${rest.slice(end, two?.index)}`;
  const whole = [digits, two ? rest.slice(gap.lastIndex) : ""];
  return [[rest.slice(0, one.index), rest.slice(end)], ...(one.index === HALF ? [whole] : [])];
}

// The bytes of groups of pairs with one blank between them, where they are that.
function groupsOf(digits) {
  const isPaired = digits.split(" ").every(({ length }) => length > 0 && length % 2 === 0);
  return isPaired && !/[^0-9A-Fa-f ]/.test(digits) ? bytesOf(digits, "") : null;
}

// The row of a line, where it is one.
function rowOf(line, isBig) {
  const [, place, numbers] = WORDS.exec(line) ?? [], [, offset, rest] = ROW.exec(line) ?? [];
  if (numbers !== undefined) {
    const digits = isBig ? numbers : numbers.replace(/(..)(..)\b/g, "$2$1");
    return { offset: place, bytes: bytesOf(digits, ""), areNumbers: true };
  }
  if (rest === undefined) return null;
  if (rest === "") return { offset, bytes: new Uint8Array(0) };
  for (const [digits, text] of readings(rest.replace(/(?<! ) +$/, ""))) {
    const bytes = groupsOf(digits);
    if (bytes && (text === "" || isTextOf(text, bytes))) return { offset, bytes };
  }
  return null;
}

const placeOf = (row) => parseInt(row?.offset, 16);

// Whether a text has a row that is no line of digits alone, or a first one that another goes on.
function areRows(lines) {
  return lines.some((line, at) => {
    const row = rowOf(line), digits = line.replace(/[ \t]/g, "");
    if (!row?.bytes.length) return false;
    if (digits.length % 2 || /[^0-9A-Fa-f]/.test(digits)) return true;
    const isGoneOn = placeOf(rowOf(lines[at + 1] ?? "")) === row.bytes.length;
    return placeOf(row) === 0 && (isGoneOn || /^\s*\w+\s\s/.test(line));
  });
}

// The rows of one datagram after another.
class Rows {
  constructor(found) {
    Object.assign(this, { found, packets: new Packets(found), same: 0 });
    this.start(0);
  }

  // Begins a datagram in the line of this number; none where it is 0.
  start(number) {
    Object.assign(this, { begin: number, pieces: [], size: 0, last: null, isSame: false });
  }

  drop(why) {
    this.start(0);
    refuse(why);
  }

  take(line, number, isBig) {
    const row = rowOf(line, isBig), place = `line ${number}`;
    if (line.trim() === "*" && this.last?.length && !this.isSame) this.isSame = true;
    else if (!row) refuse(`${place}: no row of a hexadecimal dump`);
    else if (placeOf(row) > 0) this.goOn(row, place);
    else {
      this.found.go(() => this.end(number));
      this.start(number);
      this.put(row.bytes, place);
    }
  }

  // Whether a row ends the datagram within its last number, of which one byte is there.
  isOddEnd({ bytes, areNumbers }, missing) {
    const isEnd = areNumbers && !bytes.length && missing === -1;
    return isEnd && !this.isSame && this.pieces.at(-1).at(-1) === 0;
  }

  // Takes a row behind others. An odd end cuts off half a number.
  goOn(row, line) {
    const { offset, bytes } = row, place = placeOf(row), { last } = this;
    const missing = place - this.size, named = offset.replace(/^0+/, "").toLowerCase();
    if (this.isOddEnd(row, missing)) {
      this.pieces.push(this.pieces.pop().subarray(0, -1));
      return void (this.size -= 1);
    }
    if (this.isSame) {
      const isLed = missing > 0 && missing % last.length === 0 && place <= LONGEST;
      if (!isLed) this.drop(`${line}: no rows like the last one lead to offset ${named}`);
      this.same += missing;
      const isMuch = this.same > MOST_SAME;
      if (isMuch) this.drop(`${line}: rows left out for more than ${MOST_SAME} bytes in all`);
      while (this.size < place) this.put(last, line);
      this.isSame = false;
    }
    const isNext = this.begin > 0 && place === this.size;
    if (!isNext) this.drop(`${line}: offset ${named} does not follow on ${this.size} bytes`);
    this.put(bytes, line);
  }

  put(bytes, line) {
    this.pieces.push(bytes);
    Object.assign(this, { last: bytes, size: this.size + bytes.length });
    if (this.size > LONGEST) this.drop(`${line}: a datagram above ${LONGEST} bytes`);
  }

  // Ends the datagram before the line of this number, without what nlmon put in front of it.
  end(number) {
    if (this.isSame) this.drop(`line ${number}: no row behind the *`);
    const bytes = joined(this.pieces), from = `line ${this.begin}`, size = bytes.length;
    if (areCooked(bytes)) this.packets.take(new Source(bytes), from, NETLINK, size, size);
    else if (size > 0) this.found.add(bytes, from);
  }
}

function fromRows(lines, found, isBig) {
  const rows = new Rows(found);
  lines.forEach((line, at) => {
    if (line.trim() && line[0] !== "#") found.go(() => rows.take(line, at + 1, isBig));
  });
  found.go(() => rows.end(lines.length + 1));
  rows.packets.end();
}
