// What the tests ask of the page, through its elements alone.

(() => {
  const violations = [];
  const noted = (text) => violations.push(text);
  document.addEventListener("securitypolicyviolation", (event) => noted(event.violatedDirective));
  addEventListener("error", (event) => noted(`error: ${event.message}`));
  addEventListener("unhandledrejection", (event) => noted(`rejected: ${event.reason?.stack}`));

  const byId = (id) => document.getElementById(id);
  const text = (id) => byId(id).textContent;
  const later = (time = 0) => new Promise((done) => setTimeout(done, time));

  async function until(is) {
    for (const end = performance.now() + 30000; !is();) {
      if (performance.now() > end) throw new Error(`never: ${is}`);
      await later(2);
    }
  }

  // When the decoder has answered all, and that is drawn.
  async function idle() {
    await later();
    await until(() => byId("main").getAttribute("aria-busy") !== "true");
    await later();
  }

  // The frame behind the next one, in which a list that was scrolled has heard of that.
  const frame = () => new Promise((done) => {
    requestAnimationFrame(() => requestAnimationFrame(done));
  });

  async function ready() {
    const hand = { writeText: async (it) => void (window.copiedText = it) };
    Object.defineProperty(navigator, "clipboard", { value: hand, configurable: true });
    for (let tries = 0; tries < 1000; tries++) {
      const isReady = byId("unable") === null && byId("able")?.hidden === false;
      if (isReady) return idle().then(() => true);
      if (byId("why")?.textContent) break;
      await later(10);
    }
    return byId("why")?.textContent ?? false;
  }

  const said = () => ({
    summary: text("summary"),
    notes: [...document.querySelectorAll("#notes li")].map((it) => it.textContent),
    chosen: text("chosen"),
    views: [...byId("view").options].map((it) => it.textContent),
  });

  // Pastes a text, and answers what is said of it, the milliseconds that it took, and the longest
  // that a timer of the window had to wait meanwhile.
  async function paste(pasted) {
    byId("input").value = "";
    const clipboardData = new DataTransfer();
    clipboardData.setData("text/plain", pasted);
    const words = { clipboardData, bubbles: true, cancelable: true };
    let last = performance.now(), longest = 0;
    const tick = () => {
      longest = Math.max(longest, performance.now() - last);
      last = performance.now();
    };
    const timer = setInterval(tick, 5), begun = last;
    await later(20);
    document.body.dispatchEvent(new ClipboardEvent("paste", words));
    await idle();
    const time = performance.now() - begun - 20;
    await later(20);
    clearInterval(timer);
    return { ...said(), time, longest };
  }

  function order(name) {
    byId("order").value = name;
  }

  async function view(index) {
    byId("view").selectedIndex = index;
    byId("view").dispatchEvent(new Event("change"));
    await idle();
    return said();
  }

  async function copied(button) {
    window.copiedText = null;
    byId(button).click();
    await until(() => window.copiedText !== null);
    return window.copiedText;
  }

  // Drops a file of these bytes.
  async function drop(packed) {
    const bytes = Uint8Array.from(atob(packed), (it) => it.charCodeAt(0));
    const dataTransfer = new DataTransfer(), name = `file ${Math.random()}`;
    dataTransfer.items.add(new File([bytes], name));
    const words = { dataTransfer, bubbles: true, cancelable: true };
    byId("input").placeholder = "";
    document.body.dispatchEvent(new DragEvent("drop", words));
    await until(() => byId("input").placeholder === name);
    await idle();
    return said();
  }

  // Marks the field, and then waits until a file has taken the place of the mark.
  function mark() {
    byId("input").placeholder = "a mark";
  }

  async function opened() {
    await until(() => byId("input").placeholder !== "a mark");
    await idle();
    return said();
  }

  // Pastes a text, and waits for nothing.
  function start(pasted) {
    const clipboardData = new DataTransfer();
    clipboardData.setData("text/plain", pasted);
    document.body.dispatchEvent(new ClipboardEvent("paste", { clipboardData, bubbles: true }));
  }

  // The browser gives no clipboard from now on, and doesn't copy what is selected.
  function withoutClipboard() {
    Object.defineProperty(navigator, "clipboard", { value: undefined, configurable: true });
    document.execCommand = () => false;
  }

  const rowOf = (made) => ({
    text: made.textContent,
    level: Number(made.getAttribute("aria-level")),
    names: made.className,
    position: Number(made.getAttribute("aria-posinset")),
    size: Number(made.getAttribute("aria-setsize")),
  });

  // Every row of a list, read while it is scrolled.
  async function scrolled(id) {
    const box = byId(id), found = [];
    box.scrollTop = 0;
    for (let top = -1; box.scrollTop !== top;) {
      await frame();
      await idle();
      for (const made of box.querySelectorAll(".row")) found.push([made.id, rowOf(made)]);
      top = box.scrollTop;
      box.scrollTop = top + box.clientHeight - 44;
    }
    return [...new Map(found).values()];
  }

  // Scrolls to many places of the tree, and answers the longest that a frame took there.
  async function jumped(count) {
    const box = byId("tree");
    let longest = 0;
    for (let step = 0; step < count; step++) {
      const begun = performance.now();
      box.scrollTop = (box.scrollHeight * ((step * 7919) % count)) / count;
      await new Promise((done) => requestAnimationFrame(done));
      longest = Math.max(longest, performance.now() - begun);
      await idle();
    }
    return longest;
  }

  const marked = (name) => {
    const cells = document.querySelectorAll(`#grid [role=gridcell].${name}`);
    return [...cells].map((cell) => Number(cell.id.slice(5)));
  };

  const state = () => ({
    chosen: text("chosen"),
    row: document.querySelector("#tree [aria-selected=true]")?.textContent ?? null,
    own: marked("own"), head: marked("own-head"), padding: marked("own-padding"),
    bad: marked("bad"), cursor: marked("cursor"), told: text("told"),
    isFault: document.querySelector("#tree .fault[aria-selected=true]") !== null,
  });

  async function click(selector) {
    document.querySelector(selector).dispatchEvent(new MouseEvent("click", { bubbles: true }));
    await idle();
    return state();
  }

  async function key(id, name) {
    const words = { key: name, bubbles: true, cancelable: true };
    byId(id).dispatchEvent(new KeyboardEvent("keydown", words));
    await idle();
    return state();
  }

  // From the first row on, the one below it again and again.
  async function walk(count) {
    const found = [await key("tree", "Home")];
    while (found.length < count) found.push(await key("tree", "ArrowDown"));
    return found;
  }

  // What is said of each fault, from the first one on.
  async function faults(count) {
    const found = [];
    await key("tree", "End");
    while (found.length < count) found.push(await click("#fault"));
    return found;
  }

  async function find(words) {
    byId("words").value = words;
    byId("find").requestSubmit();
    await idle();
    return state();
  }

  function cells() {
    const rowsOf = [...document.querySelectorAll("#table [role=row]")];
    return rowsOf.map((made) => [...made.children].map((cell) => cell.textContent));
  }

  async function sample(at) {
    byId("samples").selectedIndex = at;
    const name = byId("samples").value;
    byId("summary").textContent = "";
    byId("sample").click();
    await until(() => text("summary") !== "");
    await idle();
    return name;
  }

  window.examine = {
    idle, ready, paste, order, view, copied, drop, scrolled, jumped, click, key, walk, faults,
    find, cells, state, said, sample, mark, opened, start, withoutClipboard,
    violations: () => violations,
    focus: (id) => byId(id).focus(),
    focused: () => document.activeElement.id,
    address: () => location.href,
    count: (selector) => document.querySelectorAll(selector).length,
  };
})();
