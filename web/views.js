// What is drawn of a recording: its tree, the bytes of a datagram, and the table of a dump.

// Of a byte, by what it is of; and of a node, by its kind.
const MARKS = ["", "of-head", "padding", "unknown", "bad", "unread"];
const SAID = { unknown: "unknown ", unfinished: "up to the fault " };
const NARROW = 8, WIDE = 16;

// Has the keys of a list go somewhere: each key that has a move, and no other.
function onKeys(box, movesOf) {
  box.addEventListener("keydown", (event) => {
    const move = event.ctrlKey || event.metaKey || event.altKey ? null : movesOf()[event.key];
    if (move) event.preventDefault();
    move?.();
  });
}

// Says at which element the list stands, where that is drawn.
function stand(box, isDrawn, id) {
  if (isDrawn) box.setAttribute("aria-activedescendant", id);
  else box.removeAttribute("aria-activedescendant");
}

class Tree {
  constructor(page) {
    const box = byId("tree"), go = (how, value) => () => page.go(how, value);
    this.list = new List(box, async (first, last) => {
      const rows = page.state ? await page.ask("rows", first, last) : [];
      const chosen = rows.find(({ isChosen }) => isChosen);
      stand(box, chosen, `row-${chosen?.row}`);
      return rows.map(rowOf);
    });
    box.addEventListener("click", ({ target }) => {
      const row = target.closest(".row");
      if (row) page.go(target.matches(".twist") ? "toggle" : "row", Number(row.id.slice(4)));
    });
    onKeys(box, () => {
      const toggle = go("toggle", page.state?.row), far = this.list.page();
      return {
        ArrowDown: go("step", 1), ArrowUp: go("step", -1), PageDown: go("step", far),
        PageUp: go("step", -far), Home: go("row", 0), End: go("row", Infinity),
        ArrowRight: go("inward"), ArrowLeft: go("outward"), Enter: toggle, " ": toggle,
      };
    });
  }
}

function rowOf({ row, name, value, rest, level, kind, position, size, isChosen, isFolded }) {
  const twist = element("span", { class: "twist", "aria-hidden": true });
  const made = element("div", {
    id: `row-${row}`, role: "treeitem", class: `row ${kind}`, "aria-level": level,
    "aria-posinset": position, "aria-setsize": size, "aria-selected": isChosen,
  }, twist, element("b", {}, name), " ");
  if (value) made.append(element("span", { class: "value" }, value), " ");
  made.append(element("span", { class: "rest" }, `${SAID[kind] ?? ""}${rest}`));
  if (isFolded !== null) {
    made.setAttribute("aria-expanded", !isFolded);
    twist.textContent = isFolded ? "▸" : "▾";
  }
  made.style.setProperty("--level", level - 1);
  return made;
}

class Grid {
  constructor(page) {
    const box = byId("grid"), to = (steps) => () => page.go("byte", page.state.cursor + steps);
    Object.assign(this, { page, box, columns: WIDE });
    this.list = new List(box, (first, last) => this.drawn(first, last));
    new ResizeObserver(() => this.fit()).observe(box);
    box.addEventListener("click", ({ target }) => {
      if (target.matches("[role=gridcell]")) page.go("byte", Number(target.id.slice(5)));
    });
    onKeys(box, () => {
      const wide = this.columns, far = wide * this.list.page();
      return page.state ? {
        ArrowRight: to(1), ArrowLeft: to(-1), ArrowDown: to(wide), ArrowUp: to(-wide),
        PageDown: to(far), PageUp: to(-far), Home: to(-Infinity), End: to(Infinity),
      } : {};
    });
  }

  // As many columns as the width has room for.
  fit() {
    const letter = parseFloat(getComputedStyle(this.box).fontSize) * 0.62;
    const columns = this.box.clientWidth >= letter * 66 ? WIDE : NARROW;
    if (columns !== this.columns) Object.assign(this, { columns }).show();
  }

  show() {
    const { page: { state }, box, columns, list } = this;
    list.count = state ? Math.ceil(state.bytes.length / columns) : 0;
    box.setAttribute("aria-rowcount", list.count);
    box.setAttribute("aria-colcount", columns);
    return list.show(state ? Math.floor(state.cursor / columns) : 0);
  }

  drawn(first, last) {
    const { state } = this.page, row = state ? Math.floor(state.cursor / this.columns) : -1;
    stand(this.box, row >= first && row < last, `byte-${state?.cursor}`);
    const length = state ? last - first : 0;
    return Array.from({ length }, (_, at) => this.row(first + at, state));
  }

  row(row, { bytes, kinds, cursor, own }) {
    const from = row * this.columns, shown = [...bytes.subarray(from, from + this.columns)];
    const partOf = (at) => {
      if (own.level === 1 || at < own.place || at >= own.next) return "";
      return at < own.past ? "own own-head" : at < own.end ? "own own-payload" : "own own-padding";
    };
    const cells = shown.map((byte, it) => {
      const at = from + it, part = partOf(at), here = at === cursor ? "cursor" : "";
      const words = { role: "gridcell", id: `byte-${at}`, "aria-selected": part !== "" };
      const names = { class: `${MARKS[kinds[at]]} ${part} ${here}` };
      return element("span", { ...words, ...names }, hex(byte));
    });
    const isPrinted = (byte) => byte >= 0x20 && byte <= 0x7e;
    const signs = shown.map((byte) => (isPrinted(byte) ? String.fromCharCode(byte) : "·"));
    const place = element("span", { role: "rowheader", class: "place" }, String(from));
    const beside = element("span", { class: "text", "aria-hidden": true }, signs.join(""));
    const words = { role: "row", class: "row", "aria-rowindex": row + 1 };
    return element("div", words, place, ...cells, beside);
  }
}

class Table {
  constructor(page) {
    this.list = new List(byId("table"), async (first, last) => {
      const rows = this.list.count ? await page.ask("entries", first, last) : [];
      return rows.map((cells) => this.row("cell", cells));
    });
  }

  row(role, cells) {
    const made = cells.map((text) => element("span", { role }, text));
    return element("div", { role: "row", class: "row" }, ...made);
  }

  show({ columns, entries }) {
    const { box } = this.list;
    box.style.setProperty("--columns", columns.length);
    box.firstElementChild.replaceChildren(this.row("columnheader", columns));
    box.setAttribute("aria-rowcount", entries + 1);
    this.list.count = entries;
    return this.list.show(0);
  }
}
