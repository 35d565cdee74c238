// The datagrams that a reader handed in, decoded in one byte order, the rows of their tree, and
// where in it the reader is. What a row holds is asked of the library when it is seen.

const MOST_HELD = 50000; // nodes of datagrams that aren't seen, about
const LONGEST_SEEN = 500, LONGEST_COPIED = 1 << 25; // letters of a line, and of all of them
const clipped = (text) => text.slice(0, LONGEST_SEEN) + (text.length > LONGEST_SEEN ? "…" : "");

// Whether more of the datagrams are accepted with the highest byte of a number first; where that
// are as many, whether their faults come later so.
function readsAsBig(library, datagrams) {
  const [little, big] = [false, true].map((order) => {
    const found = datagrams.map(({ bytes }) => library.survey(bytes, order));
    const sum = (of) => found.reduce((total, it) => total + of(it), 0);
    return [sum(({ code }) => Number(code === OK)), sum(({ place }) => place)];
  });
  return big[0] > little[0] || (big[0] === little[0] && big[1] > little[1]);
}

// A datagram has a number, its bytes and where they come from, its order, what the library says of
// it (code, place, messages), how many rows it has and how many are shown, and its folded nodes.
class Recording {
  constructor(library, found, order) {
    Object.assign(this, { library, found, order, kept: new Map(), held: 0, cursor: null });
    this.big = order === "big" || (order === "auto" && readsAsBig(library, found.datagrams));
    this.datagrams = found.datagrams.map(({ bytes, from }, at) => {
      const { heads, ...survey } = library.survey(bytes, this.big), number = at + 1;
      const rows = 1 + heads + survey.messages + Number(survey.code !== OK);
      const shown = { rows, shown: rows, folded: new Set() };
      return { number, bytes, from, big: this.big, ...survey, ...shown };
    });
    this.count();
    const [datagram] = this.datagrams, nodes = datagram ? this.nodes(datagram) : [];
    this.chosen = { datagram, node: nodes.find(({ kind }) => kind === "fault") ?? nodes[1] };
  }

  // Where the rows of each datagram begin.
  count() {
    this.rows = 0;
    this.starts = this.datagrams.map(({ shown }) => (this.rows += shown) - shown);
  }

  nodes(datagram) {
    const { kept } = this, nodes = kept.get(datagram) ?? new Nodes(this.library, datagram).list;
    this.held += kept.delete(datagram) ? 0 : nodes.length;
    kept.set(datagram, nodes);
    for (const [other, { length }] of kept) {
      if (this.held <= MOST_HELD || other === datagram) break;
      kept.delete(other);
      this.held -= length;
    }
    return nodes;
  }

  // The nodes that no folded one hides.
  visible(datagram) {
    const nodes = this.nodes(datagram), { folded } = datagram;
    let hidden = Infinity;
    return folded.size === 0 ? nodes : nodes.filter(({ level, index }) => {
      const isSeen = level <= hidden;
      if (isSeen) hidden = folded.has(index) ? level : Infinity;
      return isSeen;
    });
  }

  // The datagram and the node of a row, or of the one next to it that is there.
  row(row) {
    const wanted = Math.max(0, Math.min(this.rows - 1, row));
    let low = 0;
    for (let high = this.starts.length; high - low > 1;) {
      const middle = (low + high) >> 1;
      if (this.starts[middle] <= wanted) low = middle;
      else high = middle;
    }
    const datagram = this.datagrams[low];
    return { datagram, node: this.visible(datagram)[wanted - this.starts[low]] };
  }

  fold(datagram, { index }, isFolded) {
    if (isFolded) datagram.folded.add(index);
    else datagram.folded.delete(index);
    datagram.shown = datagram.folded.has(0) ? 1 : this.visible(datagram).length;
    this.count();
  }

  // The row of what is chosen, which is brought to light where it is hidden.
  chosenRow() {
    const { datagram, node } = this.chosen;
    for (let at = node.parent; at; at = at.parent) {
      if (datagram.folded.has(at.index)) this.fold(datagram, at, false);
    }
    const before = this.visible(datagram).findIndex(({ index }) => index === node.index);
    return this.starts[datagram.number - 1] + before;
  }

  // What the tree draws of these rows.
  drawn(first, last) {
    const { chosen, datagrams } = this, count = Math.max(0, Math.min(last, this.rows) - first);
    return Array.from({ length: count }, (_, at) => {
      const { datagram, node } = this.row(first + at), { parent, inner, index, level } = node;
      const isChosen = index === chosen.node.index && datagram === chosen.datagram;
      const isFolded = inner ? datagram.folded.has(index) : null;
      const kind = level === 1 && datagram.code !== OK ? "refused" : node.kind;
      const size = parent?.inner ?? datagrams.length, row = first + at;
      const seen = { value: clipped(node.value), rest: clipped(node.rest), parent: null };
      return { ...node, ...seen, row, kind, size, isChosen, isFolded };
    });
  }

  // Goes somewhere, and says where that is, and what is marked of the datagram.
  go(how, value) {
    if (this.rows === 0) return null;
    const to = this.moves[how](value);
    if (to) Object.assign(this, { chosen: to, cursor: to.cursor });
    const { datagram, node } = this.chosen, bytes = drawnOf(datagram), row = this.chosenRow();
    const { place, past, end, next, level } = node, own = { place, past, end, next, level };
    const kinds = painted(this.nodes(datagram), bytes.length);
    const cursor = this.cursor ?? place, said = this.said(datagram, node);
    return { isFound: Boolean(to), row, rows: this.rows, bytes, kinds, cursor, own, said };
  }

  // Each way to go: where it leads to, or nothing.
  moves = {
    here: () => ({ ...this.chosen, cursor: this.cursor }),
    row: (row) => this.row(row),
    step: (count) => this.row(this.chosenRow() + count),
    byte: (place) => {
      const { datagram } = this.chosen, nodes = this.nodes(datagram);
      const cursor = Math.max(0, Math.min(drawnOf(datagram).length - 1, place));
      return { datagram, node: ownerOf(nodes, cursor), cursor };
    },
    toggle: (row) => {
      const { datagram, node } = this.row(row);
      if (node.inner) this.fold(datagram, node, !datagram.folded.has(node.index));
      return { datagram, node };
    },
    inward: () => {
      const { datagram, node } = this.chosen, isFolded = datagram.folded.has(node.index);
      if (!node.inner) return null;
      return isFolded ? this.moves.toggle(this.chosenRow()) : this.moves.step(1);
    },
    outward: () => {
      const { datagram, node } = this.chosen, isOpen = !datagram.folded.has(node.index);
      if (node.inner && isOpen) return this.moves.toggle(this.chosenRow());
      return node.parent && { datagram, node: node.parent };
    },
    foldAll: () => {
      const { datagrams, chosen: { datagram } } = this;
      const isFolded = datagrams.some(({ shown }) => shown > 1);
      for (const it of datagrams) {
        it.folded = new Set(isFolded ? [0] : []);
        it.shown = isFolded ? 1 : it.rows;
      }
      this.count();
      return { datagram, node: this.nodes(datagram)[0] };
    },
    fault: () => this.behind(1, ({ code }) => code !== OK, ({ kind }) => kind === "fault"),
    find: (words) => this.behind(0, () => true, ({ name, value, rest }) => (
      `${name} ${value} ${rest}`.toLowerCase().includes(words.toLowerCase()))),
  };

  // The next node of its kind behind what is chosen, or so many datagrams behind, round the end.
  behind(begin, isLookedAt, isIt) {
    const { datagrams, chosen: { datagram, node } } = this, total = datagrams.length;
    for (let step = begin; step <= total; step++) {
      const here = datagrams[(datagram.number - 1 + step) % total], after = step ? -1 : node.index;
      const isNext = (it) => it.index > after && isIt(it);
      const found = isLookedAt(here) && this.nodes(here).find(isNext);
      if (found) return { datagram: here, node: found };
    }
    return null;
  }

  // What is said of a node: its line, and its bytes.
  said({ number }, { name, value, rest, level, place, past, end, next, kind }) {
    const line = clipped(`${name}${value && ` ${value}`}${kind === "fault" ? ":" : ""} ${rest}`);
    const range = end > place ? `, bytes ${place} to ${end - 1}` : "";
    const parts = `: head ${past - place}, payload ${end - past}, padding ${next - end}`;
    const whole = `datagram ${number}, ${line}${range}${kind === "fault" ? "" : parts}`;
    return level === 1 ? line : whole;
  }

  // What `rtnl show` prints of the recording, where that isn't too long.
  text(isJson) {
    const { library, datagrams, big } = this, parts = [];
    let length = 0;
    for (const { number, bytes } of datagrams) {
      const part = library.show(number, bytes, big, isJson), long = LONGEST_COPIED;
      parts.push(part);
      length += part.length;
      if (length > long) refuse(`it has more than ${long} characters; rtnl show prints it`);
    }
    return parts.join("");
  }

  // The order, and the digits of each datagram, as they stand in a link.
  link() {
    const digits = this.datagrams.map(({ bytes }) => Array.from(bytes, hex).join(""));
    return `${this.order}:${digits.join(".")}`;
  }

  summary() {
    const { datagrams, big, order, found: { form, notes, more } } = this;
    const { dumps, isMore } = dumpsOf(this), left = more > 0 ? [`and ${more} more`] : [];
    const many = isMore ? [`more than ${MOST_DUMPS} dumps: the others have no table here`] : [];
    const said = [...notes, ...left, ...many];
    const sum = (of) => datagrams.reduce((total, it) => total + of(it), 0);
    const bytes = sum((it) => it.bytes.length), messages = sum((it) => it.messages);
    const refused = sum(({ code }) => Number(code !== OK)), count = datagrams.length;
    return { datagrams: count, bytes, messages, refused, form, notes: said, big, order, dumps };
  }
}
